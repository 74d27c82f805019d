//! Document 01: a straightforward writer and strict reader.
use super::{code, columns};

pub const USER: usize = 65536;
pub const SIDE: usize = 592;
pub const DCN: usize = 496;
pub const IMAGE: usize = 119_788;
pub const WORK: usize = 76_880;
pub const FRAME_BITS: usize = 1932;
pub const CLUSTER_BITS: usize = 496 * 1932;
pub const DCMAX: u32 = 0x0FFF_FFFF;

pub const SYNC_BODY: &str = "#01 010 000 000 010 000 000 010";
pub const SYNC_ID: [&str; 7] = ["000 001", "010 010", "101 000", "100 001", "000 100", "001 001", "010 000"];
pub const SYNC_NUM: [usize; 31] =
    [0, 1, 2, 3, 3, 1, 4, 1, 5, 5, 4, 3, 4, 6, 6, 3, 5, 3, 2, 2, 5, 6, 5, 1, 1, 6, 2, 6, 4, 4, 2];

pub fn sync_bits(num: usize, hash: bool) -> Vec<u8> {
    let s = format!("{}{}", SYNC_BODY, SYNC_ID[num]).replace('#', if hash { "1" } else { "0" });
    let v = code::bits(&s);
    assert_eq!(v.len(), 30);
    v
}
/// sync number of frame n, 0..=496 (496 is the following FS0)
pub fn sync_number(n: usize) -> usize {
    SYNC_NUM[n % 31]
}

// ---- numberings
pub fn psn_answer(psn: u32) -> u32 {
    if psn % 32 != 0 {
        6
    } else if (0x0010_0000..=0x0108_9BFF).contains(&psn)
        || (0x02F7_6400..=0x03EF_FFFF).contains(&psn)
        || (0x0410_0000..=0x0508_9BFF).contains(&psn)
    {
        0
    } else {
        7
    }
}
/// (answer, PAA of the cluster's first ADIP word)
pub fn psn_to_paa(psn: u32) -> (u32, u32) {
    match psn_answer(psn) {
        0 => (0, psn / 8),
        a => (a, 0),
    }
}
/// AUN of address unit u (13.9.2.3): AU31 to AU5 as in the PSN, AU4 to AU1 = u, AU0 reserved, so ZERO (3.38)
pub fn aun(psn: u32, u: usize) -> u32 {
    (psn & !31) | ((u as u32) << 1)
}
/// (answer, PSN of the cluster whose first ADIP word has this PAA)
pub fn paa_to_psn(paa: u32) -> (u32, u32) {
    let psn = 8 * paa as u64;
    if psn % 32 != 0 {
        (6, 0)
    } else if psn > u32::MAX as u64 {
        (7, 0)
    } else {
        match psn_answer(psn as u32) {
            0 => (0, psn as u32),
            a => (a, 0),
        }
    }
}
/// (answer, AUN of address unit u of the cluster at psn); 0 for a unit above 15
pub fn psn_to_aun(psn: u32, u: u32) -> (u32, u32) {
    match psn_answer(psn) {
        0 if u < 16 => (0, aun(psn, u as usize)),
        a => (a, 0),
    }
}
/// (answer, PSN of the cluster that holds the address unit with this AUN)
pub fn aun_to_psn(a: u32) -> (u32, u32) {
    if a % 2 != 0 {
        return (6, 0);
    }
    match psn_answer(a & !31) {
        0 => (0, a & !31),
        n => (n, 0),
    }
}
/// the only accepted PSN with these 16 AUNs
pub fn auns_to_psn(a: &[u32; 16]) -> Option<u32> {
    let psn = a[0];
    if psn_answer(psn) != 0 {
        return None;
    }
    if (0..16).all(|u| a[u] == aun(psn, u)) {
        Some(psn)
    } else {
        None
    }
}

// ---- EDC and scrambling
pub fn edc(sector: &[u8]) -> u32 {
    // remainder of bits * x^32 by x^32+x^31+x^4+1
    let mut r: u32 = 0;
    for &b in sector {
        for i in (0..8).rev() {
            let bit = ((b >> i) & 1) as u32;
            let top = (r >> 31) ^ bit;
            r <<= 1;
            if top == 1 {
                r ^= 0x8000_0011;
            }
        }
    }
    r
}
pub fn scramble_stream(psn: u32) -> Vec<u8> {
    // s[15] = ONE, s14..s0 = PS19..PS5
    let mut s = [0u8; 16];
    s[15] = 1;
    for k in 0..15 {
        s[k] = ((psn >> (5 + k)) & 1) as u8;
    }
    let mut out = Vec::with_capacity(2052);
    for _ in 0..2052 {
        let mut b = 0u8;
        for k in (0..8).rev() {
            b = b << 1 | s[k];
        }
        out.push(b);
        for _ in 0..8 {
            let f = s[15] ^ s[14] ^ s[12] ^ s[3];
            for k in (1..16).rev() {
                s[k] = s[k - 1];
            }
            s[0] = f;
        }
    }
    out
}
pub fn data_frame(sector: &[u8]) -> Vec<u8> {
    let mut f = sector.to_vec();
    f.extend_from_slice(&edc(sector).to_be_bytes());
    f
}

// ---- clusters
/// place in the ECC cluster of LDC cluster byte (row, col of 152)
pub fn ecc_ldc(row: usize, c: usize) -> usize {
    row * 155 + c + c / 38
}
/// place in the ECC cluster of BIS cluster byte (row, e)
pub fn ecc_bis(row: usize, e: usize) -> usize {
    row * 155 + 38 + 39 * e
}
/// place in the ECC cluster of byte i of LDC column l
pub fn ldc_place(i: usize, l: usize) -> usize {
    // first step: 152 columns x 496 rows
    let row = 2 * i + l % 2;
    let col1 = l / 2;
    // second step: row shifted left by mod(3k,152), k = div(row,2)
    let k = row / 2;
    let shift = (3 * k) % 152;
    let col2 = (col1 + 152 - shift) % 152;
    ecc_ldc(row, col2)
}
/// (39)-(41): place in the ECC cluster of byte n of BIS column c
pub fn bis_place(n: usize, c: usize) -> usize {
    let u = (n / 2 + 8 - c / 3) % 8 + 8 * (n % 2);
    let r = n / 2;
    let e = (c + n / 2) % 3;
    ecc_bis(u * 31 + r, e)
}
/// (35): row and column in the access block of AF_{x,y}
pub fn af_place(x: usize, y: usize) -> (usize, usize) {
    (2 * (x / 3) + y / 8, 3 * ((x / 3 + 16 - y) % 8) + (x - x / 3) % 3)
}
/// row and column in the access block of UC_{x,s}
pub fn uc_place(x: usize, s: usize) -> (usize, usize) {
    let t = 18 * s + x;
    (6 + t % 24, t / 24)
}
const AF_INV: [bool; 9] = [false, false, true, true, false, true, true, false, false];

pub fn paf0(b: u8) -> u8 {
    // {AU31,AU30,AU29,AU28,AU24,AU27,AU26,AU25}
    let au = |k: u32| (b >> (k - 24)) & 1;
    let order = [31, 30, 29, 28, 24, 27, 26, 25];
    order.iter().fold(0, |a, &k| a << 1 | au(k))
}
pub fn paf0_back(p: u8) -> u8 {
    let order = [31u32, 30, 29, 28, 24, 27, 26, 25];
    let mut b = 0;
    for (i, &k) in order.iter().enumerate() {
        b |= ((p >> (7 - i)) & 1) << (k - 24);
    }
    b
}
pub fn address_field(aun: u32, flag: u8) -> [u8; 9] {
    let a = aun.to_be_bytes();
    let mut p = vec![paf0(a[0]), a[1], a[2], a[3], flag];
    p.extend(columns::parity(&p.clone(), 4));
    let mut f = [0u8; 9];
    for x in 0..9 {
        f[x] = if AF_INV[x] { !p[x] } else { p[x] };
    }
    f
}
/// LDC part of an ECC cluster from 32 data frames of 2,052 bytes as they are given; BIS bytes zero
pub fn ldc_only(frames: &[Vec<u8>]) -> Vec<u8> {
    let mut w = vec![0u8; WORK];
    let stream: Vec<u8> = frames.concat();
    assert_eq!(stream.len(), 216 * 304);
    for l in 0..304 {
        let mut col = stream[216 * l..216 * (l + 1)].to_vec();
        col.extend(columns::parity(&col.clone(), 32));
        for i in 0..248 {
            w[ldc_place(i, l)] = col[i];
        }
    }
    w
}
pub fn access_block(psn: u32, side: &[u8]) -> Vec<[u8; 30]> {
    let mut ab = vec![[0u8; 30]; 24]; // [column][row]
    for y in 0..16 {
        let f = address_field(aun(psn, y), side[y]);
        for x in 0..9 {
            let (r, c) = af_place(x, y);
            ab[c][r] = f[x];
        }
    }
    for s in 0..32 {
        for x in 0..18 {
            let (r, c) = uc_place(x, s);
            ab[c][r] = side[16 + 18 * s + x];
        }
    }
    ab
}
pub fn ecc_cluster(user: &[u8], psn: u32, side: &[u8]) -> Vec<u8> {
    let st = scramble_stream(psn);
    let frames: Vec<Vec<u8>> = (0..32)
        .map(|k| data_frame(&user[2048 * k..2048 * (k + 1)]).iter().zip(&st).map(|(a, b)| a ^ b).collect())
        .collect();
    let mut w = ldc_only(&frames);
    for (c, col) in access_block(psn, side).iter().enumerate() {
        let mut full = col.to_vec();
        full.extend(columns::parity(col, 32));
        for n in 0..62 {
            w[bis_place(n, c)] = full[n];
        }
    }
    w
}
// ---- frames
pub fn frame_data_bits(row: &[u8], dc: u32) -> Vec<u8> {
    let data: Vec<u8> = row.iter().flat_map(|&b| (0..8).rev().map(move |i| (b >> i) & 1)).collect();
    assert_eq!(data.len(), 1240);
    let mut out = Vec::with_capacity(1268);
    let mut p = 0;
    for g in 0..28 {
        let n = if g == 0 { 25 } else { 45 };
        out.extend_from_slice(&data[p..p + n]);
        p += n;
        out.push(((dc >> (27 - g)) & 1) as u8);
    }
    assert_eq!((p, out.len()), (1240, 1268));
    out
}
pub fn split_data_bits(bits: &[u8]) -> (Vec<u8>, u32) {
    let mut data = Vec::new();
    let mut dc = 0u32;
    let mut p = 0;
    for g in 0..28 {
        let n = if g == 0 { 25 } else { 45 };
        data.extend_from_slice(&bits[p..p + n]);
        p += n;
        dc = dc << 1 | bits[p] as u32;
        p += 1;
    }
    let row = data.chunks(8).map(|c| c.iter().fold(0u8, |a, &b| a << 1 | b)).collect();
    (row, dc)
}
/// 1,932 bits of a frame and whether it ended by 17PP-T
pub fn frame_bits(row: &[u8], dc: u32, sync: usize, hash: bool) -> (Vec<u8>, bool) {
    let mut v = sync_bits(sync, hash);
    let (m, t) = code::modulate(&frame_data_bits(row, dc), v[29]);
    v.extend(m);
    (v, t)
}
pub fn pack(bits: &[u8]) -> Vec<u8> {
    assert!(bits.len() % 8 == 0);
    bits.chunks(8).map(|c| c.iter().fold(0u8, |a, &b| a << 1 | b)).collect()
}
pub fn unpack(bytes: &[u8]) -> Vec<u8> {
    bytes.iter().flat_map(|&b| (0..8).rev().map(move |i| (b >> i) & 1)).collect()
}
/// Bits of an image whose ECC cluster, dc words and first # are given; nothing is tested.
pub fn image_bits(work: &[u8], dc: &[u32], first: bool) -> Vec<u8> {
    let mut v = Vec::with_capacity(CLUSTER_BITS + 32);
    let mut hash = first;
    for n in 0..496 {
        let (f, t) = frame_bits(&work[155 * n..155 * n + 155], dc[n], sync_number(n), hash);
        v.extend(f);
        hash = t;
    }
    v.extend(sync_bits(0, hash));
    v.extend([0, 0]);
    v
}

/// the lengths, tests 1 to 5
pub fn length_answer(user: usize, side: usize, dc: usize, image: usize, work: usize) -> u32 {
    if user != USER {
        1
    } else if side != SIDE {
        2
    } else if dc != DCN {
        3
    } else if image != IMAGE {
        4
    } else if work != WORK {
        5
    } else {
        0
    }
}
/// the writer's tests, 1 to 8: number and place
pub fn writer_tests(user: &[u8], psn: u32, side: &[u8], dc: &[u32], image_len: usize, work_len: usize) -> (u32, usize) {
    let a = length_answer(user.len(), side.len(), dc.len(), image_len, work_len);
    if a != 0 {
        return (a, 0);
    }
    let a = psn_answer(psn);
    if a != 0 {
        return (a, 0);
    }
    if let Some(i) = dc.iter().position(|&d| d > DCMAX) {
        return (8, i);
    }
    (0, 0)
}

/// The writer: number and place.
pub fn write(
    user: &[u8],
    psn: u32,
    side: &[u8],
    dc: &[u32],
    first: bool,
    image: &mut [u8],
    work: &mut [u8],
) -> (u32, usize) {
    let refused = writer_tests(user, psn, side, dc, image.len(), work.len());
    if refused.0 != 0 {
        return refused;
    }
    work.copy_from_slice(&ecc_cluster(user, psn, side));
    image.copy_from_slice(&pack(&image_bits(work, dc, first)));
    (0, 0)
}

/// tests 10 and 11: rows and dc words
fn read_frames(bits: &[u8]) -> Result<(Vec<u8>, Vec<u32>), (u32, usize)> {
    for n in 0..=496 {
        let s = &bits[1932 * n..1932 * n + 30];
        let want = sync_bits(sync_number(n), false);
        if s[1..] != want[1..] {
            return Err((10, n));
        }
    }
    let mut work = Vec::with_capacity(WORK);
    let mut dc = Vec::new();
    for n in 0..496 {
        let at = 1932 * n;
        let before = bits[at + 29];
        let next = bits[at + 1932] == 1;
        match code::demodulate(&bits[at + 30..at + 1932], before, next) {
            Some(d) => {
                let (row, w) = split_data_bits(&d);
                work.extend(row);
                dc.push(w);
            }
            None => return Err((11, n)),
        }
    }
    Ok((work, dc))
}

/// tests 12 to 16 on an ECC cluster: PSN, user data, side data
fn read_ecc(work: &[u8]) -> Result<(u32, Vec<u8>, Vec<u8>), (u32, usize)> {
    for c in 0..24 {
        let col: Vec<u8> = (0..62).map(|n| work[bis_place(n, c)]).collect();
        if !columns::right(&col, 32) {
            return Err((12, c));
        }
    }
    let ab = |r: usize, c: usize| work[bis_place(r, c)];
    let mut side = vec![0u8; SIDE];
    let mut auns = [0u32; 16];
    let mut pafs = Vec::new();
    for y in 0..16 {
        let mut p = [0u8; 9];
        for x in 0..9 {
            let (r, c) = af_place(x, y);
            p[x] = if AF_INV[x] { !ab(r, c) } else { ab(r, c) };
        }
        pafs.push(p);
    }
    for y in 0..16 {
        if !columns::right(&pafs[y], 4) {
            return Err((13, y));
        }
    }
    for y in 0..16 {
        let p = pafs[y];
        auns[y] = u32::from_be_bytes([paf0_back(p[0]), p[1], p[2], p[3]]);
        side[y] = p[4];
    }
    let psn = match auns_to_psn(&auns) {
        Some(p) => p,
        None => return Err((14, 0)),
    };
    for s in 0..32 {
        for x in 0..18 {
            let (r, c) = uc_place(x, s);
            side[16 + 18 * s + x] = ab(r, c);
        }
    }
    let mut stream = Vec::with_capacity(216 * 304);
    for l in 0..304 {
        let col: Vec<u8> = (0..248).map(|i| work[ldc_place(i, l)]).collect();
        if !columns::right(&col, 32) {
            return Err((15, l));
        }
        stream.extend_from_slice(&col[..216]);
    }
    let st = scramble_stream(psn);
    let mut user = Vec::with_capacity(USER);
    for k in 0..32 {
        let f: Vec<u8> = stream[2052 * k..2052 * (k + 1)].iter().zip(&st).map(|(a, b)| a ^ b).collect();
        if data_frame(&f[..2048]) != f {
            return Err((16, k));
        }
        user.extend_from_slice(&f[..2048]);
    }
    Ok((psn, user, side))
}

/// The reader: number, place, PSN and first #.
pub fn read(
    image: &[u8],
    user: &mut [u8],
    side: &mut [u8],
    dc: &mut [u32],
    work: &mut [u8],
) -> (u32, usize, u32, bool) {
    let a = length_answer(user.len(), side.len(), dc.len(), image.len(), work.len());
    if a != 0 {
        return (a, 0, 0, false);
    }
    work.fill(0);
    let bits = unpack(image);
    if bits[958_302] != 0 || bits[958_303] != 0 {
        return (9, 0, 0, false);
    }
    let (w, d) = match read_frames(&bits) {
        Ok(x) => x,
        Err((a, p)) => return (a, p, 0, false),
    };
    match read_ecc(&w) {
        Ok((psn, u, s)) => {
            user.copy_from_slice(&u);
            side.copy_from_slice(&s);
            dc.copy_from_slice(&d);
            work.copy_from_slice(&w);
            (0, 0, psn, bits[0] == 1)
        }
        Err((a, p)) => (a, p, 0, false),
    }
}

/// The marker, over either reader: verdict (0 pass, 1 refused, 2 another PSN, 3 other user data, 4 other side data), number, PSN, place.
pub fn mark(
    psn: u32,
    user: &[u8],
    side: &[u8],
    user_read: &mut [u8],
    side_read: &mut [u8],
    read: impl FnOnce(&mut [u8], &mut [u8]) -> (u32, usize, u32, bool),
) -> (u32, u32, u32, usize) {
    if user.len() != USER {
        return (1, 1, 0, 0);
    }
    if side.len() != SIDE {
        return (1, 2, 0, 0);
    }
    let (number, place, own, _) = read(user_read, side_read);
    if number != 0 {
        return (1, number, 0, place);
    }
    if own != psn {
        return (2, 0, own, 0);
    }
    if let Some(i) = (0..USER).find(|&i| user[i] != user_read[i]) {
        return (3, 0, 0, i);
    }
    if let Some(i) = (0..SIDE).find(|&i| side[i] != side_read[i]) {
        return (4, 0, 0, i);
    }
    (0, 0, 0, 0)
}
