//! Queues of four benches and records for them, accepted and refused.
use crate::bdre::{Order, Queue, BENCHES};
use crate::clusters::{psn, ZONES};
use crate::random::Random;
use crate::sheets::{no_multiple, no_zone};

/// The numbers that records are answered by.
pub const ANSWERS: [u32; 6] = [0, 6, 7, 26, 27, 28];

pub const SERVE: [u8; 1] = [2];

/// Lengths of which the lowest byte, or the lowest two, are those of a right record.
const LONG: [usize; 4] = [257, 262, 65_537, 65_542];

pub fn submit(bench: u8, psn: u32) -> Vec<u8> {
    [&[1, bench][..], &psn.to_be_bytes()].concat()
}

pub fn accepted(r: &Random) -> u32 {
    psn(r, r.below(30))
}

/// A queue in which the benches of a set of bits wait. PSNs are such as a submit leaves, or any, also where no order waits.
pub fn queue(r: &Random, waiting: usize, turn: u8) -> Queue {
    let order = |bench: usize| Order {
        waiting: waiting >> bench & 1 == 1,
        psn: r.pick(&[accepted(r), accepted(r), no_zone(r), r.word(), 0]),
    };
    Queue { orders: [0, 1, 2, 3].map(order), turn }
}

pub fn random_queue(r: &Random) -> Queue {
    let turn = r.pick(&[r.below(BENCHES) as u8, r.byte(), 4, 255]);
    queue(r, r.below(16), turn)
}

/// A record that is neither: nearly one, or any bytes.
fn wrong(r: &Random) -> Vec<u8> {
    let mut right = if r.below(2) == 0 { SERVE.to_vec() } else { submit(r.below(BENCHES) as u8, accepted(r)) };
    match r.below(4) {
        0 => right.truncate(right.len() - 1),
        1 => right.push(r.byte()),
        2 => right[0] = r.pick(&[0, 3, 255, right[0] ^ 3, right[0] | 1 << (2 + r.below(6))]),
        _ => right = r.bytes(r.below(13)),
    }
    right
}

/// Of ten records so many are serves.
pub fn random_record(r: &Random, serves: usize) -> Vec<u8> {
    if r.below(10) < serves {
        return SERVE.to_vec();
    }
    let bench = r.below(BENCHES) as u8;
    let other = 4 + r.below(252) as u8;
    match r.below(10) {
        0 => wrong(r),
        1 => submit(r.pick(&[4, 255, other]), r.pick(&[accepted(r), no_multiple(r), no_zone(r)])),
        2 | 3 => submit(bench, no_multiple(r)),
        4 | 5 => submit(bench, no_zone(r)),
        _ => submit(bench, accepted(r)),
    }
}

/// Each record of up to two bytes; each kind with random bodies of each length to 12; each bench; long records; PSNs around the ends of zones.
pub fn each_record(r: &Random) -> Vec<Vec<u8>> {
    let mut records = vec![vec![]];
    for kind in 0..=255 {
        records.push(vec![kind]);
        records.extend((0..=255).map(|byte| vec![kind, byte]));
        records.extend((3..=12).chain(3..=12).map(|n| [vec![kind], r.bytes(n - 1)].concat()));
    }
    records.extend((0..=255).flat_map(|bench| [accepted(r), no_multiple(r), no_zone(r)].map(|psn| submit(bench, psn))));
    for n in LONG {
        records
            .extend([SERVE.to_vec(), submit(0, accepted(r))].map(|right| [right, r.bytes(n)].concat()[..n].to_vec()));
    }
    for end in ZONES.iter().flat_map(|&(first, last)| [first, last]) {
        let near = (end - 100..end + 100).chain((0..20).map(|i| (end & !31) - 320 + 32 * i));
        records.extend(near.map(|psn| submit(r.below(BENCHES) as u8, psn)));
    }
    records
}
