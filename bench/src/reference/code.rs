//! 17PP (13.17.2), by the word definition. A bit is a byte, 0 or 1.

pub const A8: [(&str, &str); 2] = [("00000000", "010100100100"), ("00001000", "000100100100")];
pub const A6: [(&str, &str); 4] =
    [("000000", "010100000"), ("000001", "010100100"), ("000010", "000100000"), ("000011", "000100100")];
pub const A4: [(&str, &str); 3] = [("0001", "000100"), ("0010", "010000"), ("0011", "010100")];

fn starts(b: &[u8], pat: &str) -> bool {
    b.len() >= pat.len() && pat.bytes().zip(b).all(|(p, &x)| p - b'0' == x)
}
pub fn bits(s: &str) -> Vec<u8> {
    s.bytes().filter(|c| *c == b'0' || *c == b'1').map(|c| c - b'0').collect()
}

/// The word at the start of `rest` (which runs to the frame's end, even length > 0), `before` the
/// modulation bit in front: (data bits taken, modulation bits, by 17PP-T).
pub fn word(rest: &[u8], before: u8) -> (usize, Vec<u8>, bool) {
    for (d, m) in A8.iter() {
        if starts(rest, d) {
            return (8, bits(m), false);
        }
    }
    for (d, m) in A6.iter() {
        if starts(rest, d) {
            return (6, bits(m), false);
        }
    }
    if starts(rest, "110111") && rest.len() > 6 {
        // next three modulation bits, as they stand after 001 000 000
        let (_, m, _) = word(&rest[6..], 0);
        if m[..3] == [0, 1, 0] {
            return (6, bits("001000000"), false);
        }
    }
    for (d, m) in A4.iter() {
        if starts(rest, d) {
            return (4, bits(m), false);
        }
    }
    if starts(rest, "01") {
        return (2, bits("010"), false);
    }
    if starts(rest, "10") {
        return (2, bits("001"), false);
    }
    if starts(rest, "11") {
        return (2, if before == 1 { bits("000") } else { bits("101") }, false);
    }
    if rest == [0, 0, 0, 0] {
        return (4, bits("010100"), true);
    }
    if rest == [0, 0] {
        return (2, bits("000"), true);
    }
    unreachable!("no word fits {:?}", rest)
}

/// whole frame: modulation bits and whether the last word was by 17PP-T
pub fn modulate(data: &[u8], before: u8) -> (Vec<u8>, bool) {
    assert!(data.len() % 2 == 0);
    let mut out = Vec::with_capacity(data.len() / 2 * 3);
    let mut p = 0;
    let mut b = before;
    let mut term = false;
    while p < data.len() {
        let (n, m, t) = word(&data[p..], b);
        out.extend_from_slice(&m);
        b = *m.last().unwrap();
        term = t;
        p += n;
    }
    (out, term)
}

/// Constraints a word leaves on what follows it.
#[derive(Clone, Copy, PartialEq, Eq, Debug, Hash, PartialOrd, Ord)]
pub enum C {
    None,
    /// the word was 000000 or 000010: next pair must not be 00 (else the 8-bit entry fits)
    Not00,
    /// the word was 11
    A1,
    /// the words were 11, 01
    A2,
    /// 11, 01, 11 unsubstituted: next three modulation bits must not be 010
    No010,
    /// 110111 substituted: next three modulation bits must exist and be 010
    Need010,
}

/// All entries as (data, modulation, before required or 2, termination only)
pub const WORDS: [(&str, &str, u8, bool); 16] = [
    ("00000000", "010100100100", 2, false),
    ("00001000", "000100100100", 2, false),
    ("000000", "010100000", 2, false),
    ("000001", "010100100", 2, false),
    ("000010", "000100000", 2, false),
    ("000011", "000100100", 2, false),
    ("110111", "001000000", 2, false),
    ("0001", "000100", 2, false),
    ("0010", "010000", 2, false),
    ("0011", "010100", 2, false),
    ("01", "010", 2, false),
    ("10", "001", 2, false),
    ("11", "000", 1, false),
    ("11", "101", 0, false),
    ("0000", "010100", 2, true),
    ("00", "000", 2, true),
];

/// May entry w be the next word under constraint c? If so, the constraint it leaves.
/// (next-group conditions are left as No010/Need010 for the following word)
pub fn follow(c: C, w: usize) -> Option<C> {
    let (d, m, _, _) = WORDS[w];
    match c {
        C::Not00 if d.starts_with("00") => return None,
        C::No010 if m.starts_with("010") => return None,
        C::Need010 if !m.starts_with("010") => return None,
        // 11 01 then data 11 01 11..: the first 110111 is followed by word 01 = 010, so it would
        // have been substituted
        C::A2 if d == "110111" => return None,
        _ => {}
    }
    Some(match (c, d) {
        (_, "000000") | (_, "000010") => C::Not00,
        (_, "110111") => C::Need010,
        (C::A2, "11") => C::No010, // (A1 also, but its continuation 01 = 010 is barred)
        (_, "11") => C::A1,
        (C::A1, "01") => C::A2,
        _ => C::None,
    })
}

/// Exact decoder: number of data strings (capped at 1000) whose modulation is (mods, term), and the first.
pub fn demodulate_all(mods: &[u8], before: u8, term: bool) -> (u32, Option<Vec<u8>>) {
    assert!(mods.len() % 3 == 0);
    let n = mods.len() / 3;
    let cs = [C::None, C::Not00, C::A1, C::A2, C::No010, C::Need010];
    let ci = |c: C| cs.iter().position(|&x| x == c).unwrap();
    // cnt[g][c]: number of ways to finish from word start g under constraint c; pick: first word
    let mut cnt = vec![[0u32; 6]; n + 1];
    let mut pick = vec![[usize::MAX; 6]; n + 1];
    for c in cs {
        cnt[n][ci(c)] = if c == C::Need010 || term { 0 } else { 1 };
    }
    for g in (0..n).rev() {
        let b = if g == 0 { before } else { mods[3 * g - 1] };
        for c in cs {
            for (w, (_, m, req, t)) in WORDS.iter().enumerate() {
                let mg = m.len() / 3;
                if g + mg > n || (*req != 2 && *req != b) || !starts(&mods[3 * g..], m) {
                    continue;
                }
                let nc = match follow(c, w) {
                    Some(x) => x,
                    None => continue,
                };
                let k = if *t {
                    if term && g + mg == n {
                        1
                    } else {
                        0
                    }
                } else {
                    cnt[g + mg][ci(nc)]
                };
                if k > 0 && pick[g][ci(c)] == usize::MAX {
                    pick[g][ci(c)] = w;
                }
                cnt[g][ci(c)] = (cnt[g][ci(c)] + k).min(1000);
            }
        }
    }
    let total = cnt[0][0];
    if total == 0 {
        return (0, None);
    }
    let mut out = Vec::new();
    let (mut g, mut c) = (0, C::None);
    while g < n {
        let w = pick[g][ci(c)];
        out.extend(bits(WORDS[w].0));
        g += WORDS[w].1.len() / 3;
        c = follow(c, w).unwrap();
    }
    (total, Some(out))
}

/// Answer 11's decision: Some(bits) iff some bits give this frame and the next sync's #.
pub fn demodulate(mods: &[u8], before: u8, term: bool) -> Option<Vec<u8>> {
    let (_, d) = demodulate_all(mods, before, term);
    // belt and braces: what the decoder says must re-encode to the same
    if let Some(ref x) = d {
        assert_eq!(modulate(x, before), (mods.to_vec(), term));
    }
    d
}
