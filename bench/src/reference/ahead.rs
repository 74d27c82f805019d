//! Document 02, W-212: how far ahead the modulator reads. Every continuation of a word's bits is tried.
use super::code;
use super::plain::{frame_data_bits, DCMAX};

/// The bits that are tried, where the frame does not end before. A word has at most 8; 110111 asks for the word behind it, so that 14 count.
const WINDOW: usize = 16;

fn number(bits: &[u8]) -> usize {
    bits.iter().fold(0, |n, &bit| 2 * n + bit as usize)
}

/// What the word at the start of `left` bits needs, for each value of these: the least even number of them after which all continuations give it
/// the same modulation bits.
fn needs(left: usize, before: u8) -> Vec<usize> {
    let bits = |n: usize| (0..left).rev().map(|i| (n >> i & 1) as u8).collect::<Vec<u8>>();
    let words: Vec<Vec<u8>> = (0..1 << left).map(|n| code::word(&bits(n), before).1).collect();
    let mut needs = vec![left; words.len()];
    for k in (0..left).step_by(2).rev() {
        let size = 1 << (left - k);
        for (tried, need) in words.chunks(size).zip(needs.chunks_mut(size)) {
            if tried.iter().all(|word| *word == tried[0]) {
                need.fill(k);
            }
        }
    }
    needs
}

/// What a word needs, by the bit before it, the number of pairs that are tried, less 1, and their bits as a number.
pub struct Ahead([Vec<Vec<usize>>; 2]);

impl Ahead {
    pub fn new() -> Ahead {
        Ahead([0, 1].map(|before| (1..=WINDOW / 2).map(|pairs| needs(2 * pairs, before)).collect()))
    }

    fn most(&self, frame: &[u8], mut before: u8) -> usize {
        let (mut p, mut most) = (0, 0);
        while p < frame.len() {
            let rest = &frame[p..];
            let tried = &rest[..rest.len().min(WINDOW)];
            most = most.max(self.0[before as usize][tried.len() / 2 - 1][number(tried)]);
            let (taken, bits, _) = code::word(rest, before);
            before = bits[bits.len() - 1];
            p += taken;
        }
        most
    }

    /// Number and place, and bits for either bit before the frame.
    pub fn most_needed(&self, row: &[u8], dc: u32) -> (u32, usize, [usize; 2]) {
        if row.len() != 155 {
            return (21, 0, [0; 2]);
        }
        if dc > DCMAX {
            return (8, 0, [0; 2]);
        }
        let frame = frame_data_bits(row, dc);
        (0, 0, [0, 1].map(|before| self.most(&frame, before)))
    }
}
