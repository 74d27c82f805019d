//! Damaged images: bits changed in an image, and images of ECC clusters that no writer makes.
use crate::bdre::{DC, IMAGE, SIDE, USER, WORK};
use crate::clusters::{psn, Cluster, LARGEST};
use crate::random::Random;
use crate::reference::code::{bits, WORDS};
use crate::reference::fast::Fast;
use crate::reference::{columns, plain};

/// Of so many damaged images each answer must occur.
pub const MANY: usize = 300;

const FRAME: usize = 1932;

/// An image with what it was made of.
#[derive(Clone)]
pub struct Written {
    pub cluster: Cluster,
    pub image: Vec<u8>,
    pub work: Vec<u8>,
}

impl Written {
    pub fn random(r: &Random, fast: &mut Fast, i: usize) -> Written {
        let cluster = Cluster::random(r, i);
        let (image, work) = written(fast, &cluster);
        Written { cluster, image, work }
    }
}

fn written(fast: &mut Fast, c: &Cluster) -> (Vec<u8>, Vec<u8>) {
    let (mut image, mut work) = (vec![0; IMAGE], vec![0; WORK]);
    assert_eq!(fast.write(&c.user, c.psn, &c.side, &c.dc, c.first, &mut image, &mut work), (0, 0));
    (image, work)
}

fn bit(image: &[u8], i: usize) -> u8 {
    image[i / 8] >> (7 - i % 8) & 1
}

fn flip(image: &mut [u8], i: usize) {
    image[i / 8] ^= 0x80 >> (i % 8);
}

fn put(image: &mut [u8], i: usize, value: u8) {
    if bit(image, i) != value {
        flip(image, i);
    }
}

// ---- in the image

fn one_bit(r: &Random, image: &mut [u8]) {
    flip(image, r.below(8 * IMAGE));
}

fn some_bits(r: &Random, image: &mut [u8]) {
    for _ in 0..2 + r.below(15) {
        one_bit(r, image);
    }
}

fn sync_bits(r: &Random, image: &mut [u8]) {
    let n = r.pick(&[0, 1, 30, 31, 495, 496, r.below(497), r.below(497), r.below(497)]);
    for _ in 0..1 + r.below(3) {
        flip(image, FRAME * n + r.below(30));
    }
}

/// # of a sync.
fn hash(r: &Random, image: &mut [u8]) {
    let n = r.pick(&[0, 1, 495, 496, r.below(497), r.below(497), r.below(497), r.below(497)]);
    flip(image, FRAME * n);
}

fn last_bits(r: &Random, image: &mut [u8]) {
    image[IMAGE - 1] ^= 1 + r.below(3) as u8;
}

/// Two frames change places, with their syncs or without; at times such as have the same sync.
fn swap_frames(r: &Random, image: &mut [u8]) {
    let (a, b, from) = (r.below(496), r.below(496), r.pick(&[0, 30]));
    let b = if r.below(2) == 0 { b - b % 31 + a % 31 } else { b };
    for i in from..FRAME {
        let (x, y) = (bit(image, FRAME * a + i), bit(image, FRAME * b + i));
        put(image, FRAME * a + i, y);
        put(image, FRAME * b + i, x);
    }
}

/// Behind some bit all move by one.
fn shift(r: &Random, image: &mut [u8]) {
    let from = r.below(8 * IMAGE - 1);
    let last = 8 * IMAGE - 2 - r.below(2) * 2;
    if r.below(2) == 0 {
        for i in from..last {
            let next = bit(image, i + 1);
            put(image, i, next);
        }
    } else {
        for i in (from + 1..=last).rev() {
            let back = bit(image, i - 1);
            put(image, i, back);
        }
    }
}

fn burst(r: &Random, image: &mut [u8]) {
    let n = 1 + r.below(300);
    let from = r.below(IMAGE - n);
    let kind = r.below(4);
    for b in &mut image[from..from + n] {
        *b = match kind {
            0 => 0,
            1 => 0xFF,
            _ => r.byte(),
        };
    }
}

/// Groups of three bits in a frame, the syncs unhurt.
fn groups(r: &Random, image: &mut [u8]) {
    let frame = FRAME * r.below(496) + 30;
    let from = if r.below(2) == 0 { 634 - 4 } else { r.below(634) };
    for k in from..(from + 1 + r.below(4)).min(634) {
        let group = r.pick(&[0, 1, 2, 4, 5, r.below(8) as u8]);
        for j in 0..3 {
            put(image, frame + 3 * k + j, group >> (2 - j) & 1);
        }
    }
}

/// Where these groups stand in a frame, at least two groups before its end: the first such place behind a random one.
fn find(r: &Random, image: &[u8], groups: &[u8]) -> Option<usize> {
    let (start, all) = (r.below(496 * 634), 496 * 634);
    (start..start + all)
        .map(|i| (i % all / 634, i % 634))
        .filter(|(_, k)| k + groups.len() / 3 + 2 <= 634)
        .map(|(n, k)| FRAME * n + 30 + 3 * k)
        .find(|at| groups.iter().enumerate().all(|(j, &b)| bit(image, at + j) == b))
}

/// 001 000 000 010 for 101 010 101 010 or the other way, where one stands: the same data bits, substituted where they must not be or not
/// where they must.
fn substitution(r: &Random, image: &mut [u8]) {
    let words = [[0, 0, 1, 0, 0, 0, 0, 0, 0, 0, 1, 0], [1, 0, 1, 0, 1, 0, 1, 0, 1, 0, 1, 0]];
    let w = r.below(2);
    if let Some(at) = find(r, image, &words[w]) {
        for (j, &b) in words[1 - w].iter().enumerate() {
            put(image, at + j, b);
        }
    }
}

/// One or two groups behind a long word, or behind 110111 unsubstituted: the rules of what may follow are there.
fn behind_word(r: &Random, image: &mut [u8]) {
    let long: Vec<&str> = WORDS.iter().map(|w| w.1).filter(|m| m.len() >= 9).chain(["101010101"]).collect();
    let word = bits(r.pick(&long));
    if let Some(at) = find(r, image, &word) {
        for j in 0..r.pick(&[3, 6]) {
            put(image, at + word.len() + j, r.below(2) as u8);
        }
    }
}

/// Bits of no cluster, with right syncs or without.
fn noise(r: &Random, image: &mut [u8]) {
    let right = image.to_vec();
    let kind = r.below(3);
    for b in image.iter_mut() {
        *b = match kind {
            0 => 0,
            1 => 0xFF,
            _ => r.byte(),
        };
    }
    image[IMAGE - 1] = right[IMAGE - 1];
    if r.below(3) > 0 {
        for i in (0..=496).flat_map(|n| FRAME * n..FRAME * n + 30) {
            put(image, i, bit(&right, i));
        }
    }
}

// ---- in the ECC cluster

fn bis_bytes(r: &Random, w: &mut Written) {
    for _ in 0..1 + r.below(3) {
        w.work[plain::bis_place(r.below(62), r.below(24))] ^= 1 + r.below(255) as u8;
    }
}

fn ldc_bytes(r: &Random, w: &mut Written) {
    for _ in 0..1 + r.below(3) {
        w.work[plain::ldc_place(r.below(248), r.below(304))] ^= 1 + r.below(255) as u8;
    }
}

/// Two rows change places, with their dc words.
fn swap_rows(r: &Random, w: &mut Written) {
    let (a, b) = (r.below(496), r.below(496));
    for i in 0..155 {
        w.work.swap(155 * a + i, 155 * b + i);
    }
    w.cluster.dc.swap(a, b);
}

/// The BIS columns of an access block, with their parity.
fn put_block(work: &mut [u8], block: &[[u8; 30]]) {
    for (c, data) in block.iter().enumerate() {
        let column = [&data[..], &columns::parity(data, 32)].concat();
        for (n, &b) in column.iter().enumerate() {
            work[plain::bis_place(n, c)] = b;
        }
    }
}

/// Bytes of address fields changed, the columns' parity right.
fn address_bytes(r: &Random, w: &mut Written) {
    let mut block = plain::access_block(w.cluster.psn, &w.cluster.side);
    for _ in 0..1 + r.below(3) {
        let (row, column) = plain::af_place(r.below(9), r.below(16));
        block[column][row] ^= 1 + r.below(255) as u8;
    }
    put_block(&mut w.work, &block);
}

/// Sixteen AUNs that are not those of an accepted PSN, or by chance are, with all parity right.
fn auns(r: &Random, w: &mut Written) {
    let mut auns: Vec<u32> = (0..16).map(|u| plain::aun(w.cluster.psn, u)).collect();
    let other = psn(r, 9 + r.below(3));
    let (a, b) = (r.below(16), r.below(16));
    match r.below(8) {
        0 => auns[a] ^= 1 << r.below(32),
        1 => auns.swap(a, b),
        2 => auns[a] = plain::aun(other, a),
        3 => auns.rotate_left(1 + a % 15),
        4 => auns.iter_mut().for_each(|x| *x ^= 1),
        5 => {
            let wrong =
                r.pick(&[0, 0x000F_FFE0, 0x0108_9C00, 0x02F7_63E0, 0x03F0_0000, 0x040F_FFE0, 0x0508_9C00, 0x0600_0000]);
            (0..16).for_each(|u| auns[u] = plain::aun(wrong, u));
        }
        6 => (0..16).for_each(|u| auns[u] = plain::aun(w.cluster.psn, u).wrapping_add(2 + 2 * a as u32)),
        _ => (0..16).for_each(|u| auns[u] = plain::aun(other, u)),
    }
    let mut block = plain::access_block(w.cluster.psn, &w.cluster.side);
    for (u, &aun) in auns.iter().enumerate() {
        let field = plain::address_field(aun, w.cluster.side[u]);
        for (x, &b) in field.iter().enumerate() {
            let (row, column) = plain::af_place(x, u);
            block[column][row] = b;
        }
    }
    put_block(&mut w.work, &block);
}

/// A byte of the data block changed, its column's parity right.
fn data_byte(r: &Random, w: &mut Written) {
    for _ in 0..1 + r.below(3) {
        let sector = r.below(32);
        let byte = r.pick(&[r.below(2048), 2048 + r.below(4)]);
        let at = 2052 * sector + byte;
        let (l, i) = (at / 216, at % 216);
        let mut column: Vec<u8> = (0..216).map(|i| w.work[plain::ldc_place(i, l)]).collect();
        column[i] ^= 1 << r.below(8);
        let parity = columns::parity(&column, 32);
        column.extend(parity);
        for (i, &b) in column.iter().enumerate() {
            w.work[plain::ldc_place(i, l)] = b;
        }
    }
}

/// The address fields of another cluster: the data was scrambled for this one. Where the PSNs differ in bits above the scrambler's, all is
/// right again.
fn other_address(r: &Random, w: &mut Written) {
    let psn = if r.below(2) == 0 { w.cluster.psn ^ 0x0010_0000 } else { psn(r, 9 + r.below(3)) };
    put_block(&mut w.work, &plain::access_block(psn, &w.cluster.side));
}

/// Other dc words: another image that is right.
fn other_dc(r: &Random, w: &mut Written) {
    for _ in 0..1 + r.below(20) {
        w.cluster.dc[r.below(DC)] = r.pick(&[0, LARGEST, r.word() & LARGEST]);
    }
}

/// Other side and user data: another image that is right.
fn other_data(r: &Random, fast: &mut Fast, w: &mut Written) {
    w.cluster.side[r.below(SIDE)] ^= 1 << r.below(8);
    w.cluster.user[r.below(USER)] ^= 1 << r.below(8);
    w.work = written(fast, &w.cluster).1;
}

// ---- all of them

const IN_IMAGE: [(&str, fn(&Random, &mut [u8])); 12] = [
    ("one bit", one_bit),
    ("some bits", some_bits),
    ("bits of a sync", sync_bits),
    ("# of a sync", hash),
    ("last two bits", last_bits),
    ("two frames change places", swap_frames),
    ("bits move by one", shift),
    ("a burst", burst),
    ("groups of three bits", groups),
    ("a substitution", substitution),
    ("groups behind a long word", behind_word),
    ("bits of no cluster", noise),
];

const IN_CLUSTER: [(&str, fn(&Random, &mut Written)); 8] = [
    ("BIS bytes", bis_bytes),
    ("LDC bytes", ldc_bytes),
    ("two rows change places", swap_rows),
    ("address fields", address_bytes),
    ("AUNs", auns),
    ("data under right parity", data_byte),
    ("the address of another cluster", other_address),
    ("other dc words", other_dc),
];

fn in_image(r: &Random, image: &mut [u8]) -> &'static str {
    let (name, change) = r.pick(&IN_IMAGE);
    change(r, image);
    name
}

fn in_cluster(r: &Random, fast: &mut Fast, w: &mut Written) -> &'static str {
    let k = r.below(IN_CLUSTER.len() + 1);
    let name = if k < IN_CLUSTER.len() {
        IN_CLUSTER[k].1(r, w);
        IN_CLUSTER[k].0
    } else {
        other_data(r, fast, w);
        "other data"
    };
    fast.frames(&w.work, &w.cluster.dc, w.cluster.first, &mut w.image);
    name
}

/// Damages an image in one way, at times in two, and says how.
pub fn damage(r: &Random, fast: &mut Fast, w: &mut Written) -> String {
    match r.below(12) {
        0..=3 => in_image(r, &mut w.image).to_string(),
        4..=8 => in_cluster(r, fast, w).to_string(),
        9 => format!("{}, then {}", in_image(r, &mut w.image), in_image(r, &mut w.image)),
        10 => format!("{}, then {}", in_cluster(r, fast, w), in_cluster(r, fast, w)),
        _ => format!("{}, then {}", in_cluster(r, fast, w), in_image(r, &mut w.image)),
    }
}
