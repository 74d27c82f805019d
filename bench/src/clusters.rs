//! Inputs of the writer, and the slices that the operations are lent.
use crate::bdre::{DC, IMAGE, SIDE, USER, WORK};
use crate::random::Random;

pub const LARGEST: u32 = 0x0FFF_FFFF;

/// First and last PSN of each data zone (17.2).
pub const ZONES: [(u32, u32); 3] = [(0x0010_0000, 0x0108_9BFF), (0x02F7_6400, 0x03EF_FFFF), (0x0410_0000, 0x0508_9BFF)];

#[derive(Clone)]
pub struct Cluster {
    pub psn: u32,
    pub user: Vec<u8>,
    pub side: Vec<u8>,
    pub dc: Vec<u32>,
    pub first: bool,
}

/// The cluster `k` of a zone; the last one for any k beyond.
fn psn_of(zone: usize, k: u32) -> u32 {
    let (first, last) = ZONES[zone];
    first + 32 * k.min((last - first) / 32)
}

/// The ends of the zones come first.
pub fn psn(r: &Random, i: usize) -> u32 {
    let zone = i % 3;
    match i / 3 {
        0 => psn_of(zone, 0),
        1 => psn_of(zone, u32::MAX / 64),
        2 => psn_of(zone, 1),
        _ => psn_of(zone, r.word() % 509_152),
    }
}

/// Random bytes, or such as make long runs and rare rows of the modulation.
fn bytes(r: &Random, n: usize, kind: usize) -> Vec<u8> {
    match kind {
        0 => vec![0; n],
        1 => vec![0xFF; n],
        2 => {
            let period = r.bytes(3);
            (0..n).map(|i| period[i % 3]).collect()
        }
        3 => (0..n).map(|_| if r.below(64) == 0 { r.byte() } else { 0 }).collect(),
        _ => r.bytes(n),
    }
}

fn dc_words(r: &Random, kind: usize) -> Vec<u32> {
    (0..DC)
        .map(|_| match kind {
            0 => 0,
            1 => LARGEST,
            2 => r.pick(&[0, 1, LARGEST - 1, LARGEST]),
            _ => r.word() & LARGEST,
        })
        .collect()
}

impl Cluster {
    pub fn random(r: &Random, i: usize) -> Cluster {
        let psn = psn(r, i);
        let kinds = [r.below(10), r.below(10), r.below(6)];
        Cluster {
            psn,
            user: bytes(r, USER, kinds[0]),
            side: bytes(r, SIDE, kinds[1]),
            dc: dc_words(r, kinds[2]),
            first: r.below(2) == 1,
        }
    }

    /// Random in every part.
    pub fn uniform(r: &Random, zone: usize) -> Cluster {
        Cluster {
            psn: psn_of(zone, r.word() % 509_152),
            user: r.bytes(USER),
            side: r.bytes(SIDE),
            dc: dc_words(r, 3),
            first: r.below(2) == 1,
        }
    }
}

/// The slices that the writer fills.
#[derive(Clone, PartialEq)]
pub struct Filled {
    pub image: Vec<u8>,
    pub work: Vec<u8>,
}

impl Filled {
    /// Random bytes, so that a slice left as it was shows.
    pub fn random(r: &Random) -> Filled {
        Filled { image: r.bytes(IMAGE), work: r.bytes(WORK) }
    }
}

/// The slices that the reader fills.
#[derive(Clone, PartialEq)]
pub struct Lent {
    pub user: Vec<u8>,
    pub side: Vec<u8>,
    pub dc: Vec<u32>,
    pub work: Vec<u8>,
}

impl Lent {
    pub fn random(r: &Random) -> Lent {
        Lent { user: r.bytes(USER), side: r.bytes(SIDE), dc: (0..DC).map(|_| r.word()).collect(), work: r.bytes(WORK) }
    }
}
