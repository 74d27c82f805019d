//! Frames of which it is asked how far ahead the modulator reads, given by row and dc word; most are made from their 1,268 bits.
use crate::bdre::ROW;
use crate::clusters::LARGEST;
use crate::random::Random;
use crate::reference::code;
use crate::reference::plain::split_data_bits;

/// The numbers that frames are answered by.
pub const ANSWERS: [u32; 3] = [0, 8, 21];

const BITS: usize = 1268;

/// A word that needs as many bits as any can, with the bits that fix it.
const LONGEST: &str = "110111000001";

/// Of the last two the lowest byte, or the lowest two, are those of 155.
const LENGTHS: [usize; 8] = [0, 1, 154, 156, 300, 76_880, 411, 65_691];

pub struct Frame {
    pub row: Vec<u8>,
    pub dc: u32,
}

fn frame(bits: &[u8]) -> Frame {
    let (row, dc) = split_data_bits(bits);
    Frame { row, dc }
}

/// A number in `n` bits.
fn bits(number: usize, n: usize) -> Vec<u8> {
    (0..n).rev().map(|i| (number >> i & 1) as u8).collect()
}

/// From bit `at` on stands `piece`, as far as the frame goes; before and behind it are words of two bits that need no others.
fn alone(r: &Random, piece: &[u8], at: usize) -> Frame {
    let mut all: Vec<u8> = (0..BITS / 2).flat_map(|_| r.pick(&[[0, 1], [1, 0]])).collect();
    for (bit, &given) in all[at..].iter_mut().zip(piece) {
        *bit = given;
    }
    frame(&all)
}

/// The first bit of a pair.
fn place(r: &Random) -> usize {
    2 * r.below(BITS / 2)
}

/// What makes words wait is frequent.
fn rich(r: &Random) -> Frame {
    let mut all = vec![];
    while all.len() < BITS {
        let piece = r.pick(&["110111", "0000", "1101110000", "11011100", "1101", "000010", "00", "01", "10", "11"]);
        all.extend(code::bits(piece));
    }
    frame(&all[..BITS])
}

fn accepted_dc(r: &Random) -> u32 {
    r.pick(&[r.word() & LARGEST, 0, LARGEST])
}

fn refused_dc(r: &Random) -> u32 {
    r.pick(&[LARGEST + 1, u32::MAX, 1 << (28 + r.below(4)), r.word() | LARGEST + 1])
}

/// A piece of 2 to 32 bits alone, anywhere or at the frame's end; a rich frame; any row; and what 21, 8 or both refuse.
pub fn random_frame(r: &Random) -> Frame {
    let n = 2 + 2 * r.below(16);
    let piece = bits(r.word() as usize, n);
    match r.below(10) {
        0 | 1 | 2 => alone(r, &piece, place(r)),
        3 | 4 => alone(r, &piece, BITS - n),
        5 => rich(r),
        6 => Frame { row: r.bytes(ROW), dc: accepted_dc(r) },
        7 => Frame { row: r.bytes(ROW), dc: refused_dc(r) },
        8 => Frame { row: r.bytes(r.pick(&LENGTHS)), dc: accepted_dc(r) },
        _ => Frame { row: r.bytes(r.pick(&LENGTHS)), dc: refused_dc(r) },
    }
}

/// Each 2 to 12 bits at the frame's end; each 12 bits alone; the longest word behind each 8 bits, and at each place; each length to 320, and
/// others; dc words next to the largest, and each of their bits.
pub fn each_frame(r: &Random) -> Vec<Frame> {
    let mut frames = vec![];
    for n in [2, 4, 6, 8, 10, 12] {
        frames.extend((0..1 << n).map(|number| alone(r, &bits(number, n), BITS - n)));
    }
    frames.extend((0..1 << 12).map(|number| alone(r, &bits(number, 12), place(r))));
    let longest = code::bits(LONGEST);
    frames.extend((0..1 << 8).map(|number| alone(r, &[bits(number, 8), longest.clone()].concat(), place(r))));
    frames.extend((0..BITS / 2).map(|pair| alone(r, &longest, 2 * pair)));
    for n in (0..=320).chain(LENGTHS) {
        frames.extend([accepted_dc(r), refused_dc(r)].map(|dc| Frame { row: r.bytes(n), dc }));
    }
    let near = [0, LARGEST - 1, LARGEST, LARGEST + 1, LARGEST + 2, u32::MAX];
    frames.extend(near.into_iter().chain((0..32).map(|i| 1 << i)).map(|dc| Frame { row: r.bytes(ROW), dc }));
    frames
}
