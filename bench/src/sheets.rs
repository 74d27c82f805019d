//! Sheets of PSNs, accepted and refused.
use crate::bdre::SHEET;
use crate::clusters::{psn, ZONES};
use crate::random::Random;

/// The numbers that sheets are answered by.
pub const ANSWERS: [u32; 5] = [0, 6, 7, 23, 24];

/// Counts at, next to and far beyond the ends of 1 to 64.
const COUNTS: [usize; 9] = [0, 1, 2, 63, 64, 65, 66, 200, 1000];

/// From zone 0 to the same place in zone 2, by one bit.
const TWIN: u32 = ZONES[2].0 - ZONES[0].0;

/// Accepted PSNs, ends of the zones among them. That two are equal is rare.
fn accepted(r: &Random, count: usize) -> Vec<u32> {
    let from = r.below(12);
    let mut psns: Vec<u32> = (from..from + count).map(|i| psn(r, i)).collect();
    for i in 1..count {
        psns.swap(i, r.below(i + 1));
    }
    psns
}

/// Neighbours, twins, or any numbers.
fn special(r: &Random, count: usize) -> Vec<u32> {
    let (first, last) = r.pick(&ZONES);
    let mask = r.pick(&[!0, !31]);
    match r.below(4) {
        0 => (0..count as u32).map(|i| first + 32 * i).collect(),
        1 => (0..count as u32).map(|i| last - 31 - 32 * i).collect(),
        2 => (0..count as u32).map(|i| ZONES[0].0 + 32 * (i / 2) + TWIN * (i % 2)).collect(),
        _ => (0..count).map(|_| r.word() & mask).collect(),
    }
}

/// No multiple of 32, in a zone and elsewhere.
pub fn no_multiple(r: &Random) -> u32 {
    let (first, last) = r.pick(&ZONES);
    let inside = psn(r, r.below(30)) + 1 + r.below(31) as u32;
    r.pick(&[inside, inside, first - 1, first + 1, last, last + 2, 1, r.word() | 1, u32::MAX])
}

/// A multiple of 32 next to a zone, at the ends of the numbers, or any; of these 1 in 90 lies in a zone.
pub fn no_zone(r: &Random) -> u32 {
    let (first, last) = r.pick(&ZONES);
    r.pick(&[first - 32, last + 1, 0, !31, r.word() & !31])
}

/// Gives an entry the PSN of an earlier one, next to it or far away.
fn repeat(r: &Random, psns: &mut [u32]) {
    if psns.len() > 1 {
        let end = psns.len() - 1;
        let earlier = r.pick(&[0, r.below(end)]);
        let later = r.pick(&[earlier + 1, end, earlier + 1 + r.below(end - earlier)]);
        psns[later] = psns[earlier];
    }
}

/// What one test refuses, or none, and at times what later tests would refuse too. The answers are about as frequent.
pub fn random_sheet(r: &Random) -> Vec<u32> {
    let within = 1 + r.below(SHEET);
    let count = r.pick(&[within, within, r.pick(&COUNTS)]);
    let mut psns = if r.below(4) == 0 { special(r, count) } else { accepted(r, count) };
    let refused = r.below(4);
    for kind in (1..=refused).rev() {
        let times = if kind == refused { 1 + r.below(3) } else { r.below(4) };
        for _ in 0..times.min(count) {
            let i = r.pick(&[0, count - 1, r.below(count), r.below(count)]);
            match kind {
                3 => psns[i] = no_multiple(r),
                2 => psns[i] = no_zone(r),
                _ => repeat(r, &mut psns),
            }
        }
    }
    psns
}

/// Each count to 200; each number around the ends of the zones, alone; two PSNs that differ in one bit; and each two entries of 64 as a
/// repetition, as one PSN in no zone, as one that is no multiple and one in no zone.
pub fn each_sheet(r: &Random) -> Vec<Vec<u32>> {
    let mut sheets: Vec<Vec<u32>> = (0..=200).map(|count| accepted(r, count)).collect();
    for end in ZONES.iter().flat_map(|&(first, last)| [first, last]) {
        sheets.extend((end - 100..end + 100).map(|psn| vec![psn]));
    }
    for i in 0..12 {
        let psn = psn(r, i);
        sheets.extend((0..32).map(|bit| vec![psn, psn ^ 1 << bit]));
    }
    let whole = accepted(r, SHEET);
    for i in 0..SHEET {
        for k in (0..SHEET).filter(|&k| k != i) {
            let outside = no_zone(r);
            for (one, other) in [(whole[k], whole[k]), (outside, outside), (no_multiple(r), outside)] {
                let mut sheet = whole.clone();
                sheet[i] = one;
                sheet[k] = other;
                sheets.push(sheet);
            }
        }
    }
    sheets
}
