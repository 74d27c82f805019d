//! The same answers by tables: bytes at a time, a determinised 17PP decoder.
use super::code::{self, C, WORDS};
use super::columns;
use super::plain::{self, *};
use std::collections::{BTreeSet, HashMap};

#[derive(Clone, Copy)]
struct EncE {
    out: u32,
    n: u8,
    next: u8,
}
#[derive(Clone, Copy)]
struct FinE {
    out: u32,
    n: u8,
    term: bool,
}
#[derive(Clone, Copy)]
struct DecE {
    out: u16,
    n: u8,
    next: u8,
}
const DEAD: u8 = 2;

pub struct Fast {
    crc: [[u32; 256]; 8],
    lfsr: Vec<u16>,
    par: Vec<[u64; 4]>,
    enc: Vec<EncE>,     // state*256 + byte
    enc_fin: Vec<FinE>, // state*16 + nibble
    enc_start: [u8; 2],
    dec: Vec<DecE>,   // state*64 + 6 bits
    dec12: Vec<DecE>, // state*4096 + 12 bits
    dec_fin: Vec<[Option<(u16, u8)>; 2]>,
    dec_start: [u8; 2],
    ldc_src: Vec<u32>, // ECC row-major position -> source: index into LDC block (col*248+i); BIS: 1<<31 | col*62+n
    scr: (u32, Vec<u8>),
}

/// is the first word of `pend` determined, whatever follows? (frame not ending here)
fn resolved(pend: &[u8], before: u8) -> Option<(usize, Vec<u8>)> {
    if pend.is_empty() {
        return None;
    }
    // 14 free bits are more than any word can need
    let free = 14usize.saturating_sub(pend.len());
    let mut first = None;
    for v in 0..(1u32 << free) {
        let mut t = pend.to_vec();
        for i in 0..free {
            t.push(((v >> i) & 1) as u8);
        }
        t.extend([1, 0, 1, 0, 1, 0, 1, 0]);
        let (n, m, _) = code::word(&t, before);
        match &first {
            None => first = Some((n, m)),
            Some(x) if *x != (n, m.clone()) => return None,
            _ => {}
        }
    }
    let f = first.unwrap();
    if f.0 <= pend.len() {
        Some(f)
    } else {
        None
    }
}
fn val(b: &[u8]) -> u32 {
    b.iter().fold(0, |a, &x| a << 1 | x as u32)
}

type EncTables = (Vec<EncE>, Vec<FinE>, [u8; 2]);
fn build_enc() -> EncTables {
    // states: (before, unresolved pending data bits), found by closure from ("",0) and ("",1)
    let mut ids: HashMap<(u8, Vec<u8>), u8> = HashMap::new();
    let mut list: Vec<(u8, Vec<u8>)> = vec![(0, vec![]), (1, vec![])];
    ids.insert(list[0].clone(), 0);
    ids.insert(list[1].clone(), 1);
    let mut memo: HashMap<(u8, Vec<u8>), Option<(usize, Vec<u8>)>> = HashMap::new();
    let mut enc = Vec::new();
    let mut fin = Vec::new();
    let mut s = 0;
    while s < list.len() {
        let (b0, p0) = list[s].clone();
        for byte in 0..256u32 {
            let mut b = b0;
            let mut p = p0.clone();
            for i in (0..8).rev() {
                p.push(((byte >> i) & 1) as u8);
            }
            let mut out = Vec::new();
            loop {
                let key = (b, p.clone());
                let r = memo.entry(key).or_insert_with(|| resolved(&p, b)).clone();
                match r {
                    Some((n, m)) => {
                        out.extend_from_slice(&m);
                        b = *m.last().unwrap();
                        p.drain(..n);
                    }
                    None => break,
                }
            }
            let key = (b, p);
            let id = *ids.entry(key.clone()).or_insert_with(|| {
                list.push(key);
                (list.len() - 1) as u8
            });
            assert!(out.len() <= 32);
            enc.push(EncE { out: val(&out), n: out.len() as u8, next: id });
        }
        for nib in 0..16u32 {
            let mut p = p0.clone();
            for i in (0..4).rev() {
                p.push(((nib >> i) & 1) as u8);
            }
            let (m, t) = code::modulate(&p, b0);
            assert!(m.len() <= 32);
            fin.push(FinE { out: val(&m), n: m.len() as u8, term: t });
        }
        s += 1;
    }
    assert!(list.len() < 255);
    (enc, fin, [0, 1])
}

#[derive(Clone, PartialEq, Eq, Hash, PartialOrd, Ord, Debug)]
enum N {
    /// word boundary: constraint, last modulation bit
    At(C, u8),
    /// inside entry w, j groups matched; constraint it leaves
    In(usize, usize, C),
    /// ended by 17PP-T
    T,
}
/// groups matched so far -> one more group
fn nfa_step(s: &N, g: u32) -> Vec<(N, Vec<u8>)> {
    let grp = |w: usize, j: usize| val(&code::bits(&WORDS[w].1[3 * j..3 * j + 3]));
    let fin = |w: usize, nc: C| -> (N, Vec<u8>) {
        let d = code::bits(WORDS[w].0);
        if WORDS[w].3 {
            (N::T, d)
        } else {
            (N::At(nc, (g & 1) as u8), d)
        }
    };
    match s {
        N::T => vec![],
        N::In(w, j, nc) => {
            if grp(*w, *j) != g {
                vec![]
            } else if *j + 1 == WORDS[*w].1.len() / 3 {
                vec![fin(*w, *nc)]
            } else {
                vec![(N::In(*w, *j + 1, *nc), vec![])]
            }
        }
        N::At(c, b) => {
            let mut r = vec![];
            for w in 0..WORDS.len() {
                if WORDS[w].2 != 2 && WORDS[w].2 != *b || grp(w, 0) != g {
                    continue;
                }
                if let Some(nc) = code::follow(*c, w) {
                    if WORDS[w].1.len() == 3 {
                        r.push(fin(w, nc));
                    } else {
                        r.push((N::In(w, 1, nc), vec![]));
                    }
                }
            }
            r
        }
    }
}
type DetState = BTreeSet<(N, Vec<u8>)>;
type Det = (Vec<[(Vec<u8>, usize); 8]>, Vec<[Option<Vec<u8>>; 2]>);
/// determinised sequential transducer: groups of three -> data bits
fn build_det() -> Det {
    // "can this NFA state reach an accepting end at all?" is not needed: T and At are all live
    let mut ids: HashMap<DetState, usize> = HashMap::new();
    let mut list: Vec<DetState> = vec![];
    for b in 0..2u8 {
        let mut s = DetState::new();
        s.insert((N::At(C::None, b), vec![]));
        ids.insert(s.clone(), b as usize);
        list.push(s);
    }
    let dead = DetState::new();
    ids.insert(dead.clone(), 2);
    list.push(dead);
    let mut trans = Vec::new();
    let mut fins = Vec::new();
    let mut i = 0;
    while i < list.len() {
        let s = list[i].clone();
        let mut row: [(Vec<u8>, usize); 8] = Default::default();
        for g in 0..8u32 {
            let mut t = DetState::new();
            for (n, res) in &s {
                for (m, o) in nfa_step(n, g) {
                    let mut r = res.clone();
                    r.extend(o);
                    t.insert((m, r));
                }
            }
            // longest common prefix of the residuals
            let lcp = {
                let mut it = t.iter();
                match it.next() {
                    None => vec![],
                    Some((_, f)) => {
                        let mut l = f.clone();
                        for (_, r) in it {
                            let k = l.iter().zip(r).take_while(|(a, b)| a == b).count();
                            l.truncate(k);
                        }
                        l
                    }
                }
            };
            let t2: DetState = t.into_iter().map(|(n, r)| (n, r[lcp.len()..].to_vec())).collect();
            let id = *ids.entry(t2.clone()).or_insert_with(|| {
                list.push(t2);
                list.len() - 1
            });
            assert!(list.len() < 250, "decoder not bounded-delay?");
            row[g as usize] = (lcp, id);
        }
        trans.push(row);
        let mut f: [Option<Vec<u8>>; 2] = [None, None];
        for (n, r) in &s {
            let h = match n {
                N::T => 1,
                N::At(c, _) if *c != C::Need010 => 0,
                _ => continue,
            };
            assert!(f[h].is_none() || f[h].as_ref() == Some(r), "two readings of one frame");
            f[h] = Some(r.clone());
        }
        fins.push(f);
        i += 1;
    }
    (trans, fins)
}

impl Fast {
    pub fn new() -> Self {
        let mut crc = [[0u32; 256]; 8];
        for b in 0..256u32 {
            let mut r = b << 24;
            for _ in 0..8 {
                r = if r >> 31 == 1 { r << 1 ^ 0x8000_0011 } else { r << 1 };
            }
            crc[0][b as usize] = r;
        }
        for k in 1..8 {
            for b in 0..256 {
                let p = crc[k - 1][b];
                crc[k][b] = p << 8 ^ crc[0][(p >> 24) as usize];
            }
        }
        let lfsr = (0..=65535u16)
            .map(|x| {
                let mut s = x;
                for _ in 0..8 {
                    let f = (s >> 15 ^ s >> 14 ^ s >> 12 ^ s >> 3) & 1;
                    s = s << 1 | f;
                }
                s
            })
            .collect();
        let g = columns::generator(32);
        let par = (0..256)
            .map(|c| {
                let row: Vec<u8> = (1..=32).map(|j| columns::mul(c as u8, g[j])).collect();
                let mut q = [0u64; 4];
                for k in 0..4 {
                    q[k] = u64::from_be_bytes(row[8 * k..8 * k + 8].try_into().unwrap());
                }
                q
            })
            .collect();
        let (enc, enc_fin, enc_start) = build_enc();
        let (trans, fins) = build_det();
        let nd = trans.len();
        let mut dec = Vec::new();
        for s in 0..nd {
            for v in 0..64usize {
                let (o1, n1) = &trans[s][v >> 3];
                let (o2, n2) = &trans[*n1][v & 7];
                let mut o = o1.clone();
                o.extend_from_slice(o2);
                assert!(o.len() <= 16);
                dec.push(DecE { out: val(&o) as u16, n: o.len() as u8, next: *n2 as u8 });
            }
        }
        let mut dec12 = Vec::with_capacity(nd * 4096);
        for s in 0..nd {
            for v in 0..4096usize {
                let a = dec[s * 64 + (v >> 6)];
                let b = dec[a.next as usize * 64 + (v & 63)];
                let mut e = DecE { out: ((a.out as u32) << b.n | b.out as u32) as u16, n: a.n + b.n, next: b.next };
                if b.next == DEAD {
                    e = DecE { out: 0, n: 0, next: DEAD };
                }
                assert!(e.n <= 16);
                dec12.push(e);
            }
        }
        let dec_fin = fins
            .iter()
            .map(|f| {
                let g = |x: &Option<Vec<u8>>| x.as_ref().map(|r| (val(r) as u16, r.len() as u8));
                [g(&f[0]), g(&f[1])]
            })
            .collect();
        let mut ldc_src = vec![u32::MAX; WORK];
        for l in 0..304 {
            for i in 0..248 {
                ldc_src[ldc_place(i, l)] = (l * 248 + i) as u32;
            }
        }
        for c in 0..24 {
            for n in 0..62 {
                ldc_src[bis_place(n, c)] = (304 * 248 + c * 62 + n) as u32;
            }
        }
        assert!(ldc_src.iter().all(|&x| x != u32::MAX));
        Fast {
            crc,
            lfsr,
            par,
            enc,
            enc_fin,
            enc_start,
            dec,
            dec12,
            dec_fin,
            dec_start: [0, 1],
            ldc_src,
            scr: (u32::MAX, vec![0; 2052]),
        }
    }
    fn edc(&self, s: &[u8]) -> u32 {
        let mut r = 0u32;
        for c in s.chunks_exact(8) {
            let a = u32::from_be_bytes([c[0], c[1], c[2], c[3]]) ^ r;
            r = self.crc[7][(a >> 24) as usize]
                ^ self.crc[6][(a >> 16 & 255) as usize]
                ^ self.crc[5][(a >> 8 & 255) as usize]
                ^ self.crc[4][(a & 255) as usize]
                ^ self.crc[3][c[4] as usize]
                ^ self.crc[2][c[5] as usize]
                ^ self.crc[1][c[6] as usize]
                ^ self.crc[0][c[7] as usize];
        }
        r
    }
    fn scrambler(&mut self, psn: u32) {
        let preset = 0x8000 | (psn >> 5 & 0x7FFF);
        if self.scr.0 != preset {
            let mut s = preset as u16;
            for b in self.scr.1.iter_mut() {
                *b = s as u8;
                s = self.lfsr[s as usize];
            }
            self.scr.0 = preset;
        }
    }
    /// parity of four columns of equal length
    #[inline]
    fn parity4(&self, d: [&[u8]; 4]) -> [[u64; 4]; 4] {
        let n = d[0].len();
        assert!(d.iter().all(|x| x.len() == n));
        let par: &[[u64; 4]; 256] = self.par[..].try_into().unwrap();
        let mut r = [[0u64; 4]; 4];
        for i in 0..n {
            for k in 0..4 {
                let q = &mut r[k];
                let t = &par[((q[0] >> 56) as u8 ^ d[k][i]) as usize];
                q[0] = (q[0] << 8 | q[1] >> 56) ^ t[0];
                q[1] = (q[1] << 8 | q[2] >> 56) ^ t[1];
                q[2] = (q[2] << 8 | q[3] >> 56) ^ t[2];
                q[3] = (q[3] << 8) ^ t[3];
            }
        }
        r
    }
    /// cols: consecutive columns of `len` data + 32 parity; fill parity
    fn fill_parity(&self, buf: &mut [u8], data: usize) {
        let n = data + 32;
        for ch in buf.chunks_exact_mut(4 * n) {
            let r = self.parity4([&ch[..data], &ch[n..n + data], &ch[2 * n..2 * n + data], &ch[3 * n..3 * n + data]]);
            for k in 0..4 {
                for j in 0..4 {
                    ch[k * n + data + 8 * j..k * n + data + 8 * j + 8].copy_from_slice(&r[k][j].to_be_bytes());
                }
            }
        }
    }
    fn check_parity(&self, buf: &[u8], data: usize) -> Option<usize> {
        let n = data + 32;
        for (c, ch) in buf.chunks_exact(4 * n).enumerate() {
            let r = self.parity4([&ch[..data], &ch[n..n + data], &ch[2 * n..2 * n + data], &ch[3 * n..3 * n + data]]);
            for k in 0..4 {
                for j in 0..4 {
                    let p = k * n + data + 8 * j;
                    if ch[p..p + 8] != r[k][j].to_be_bytes() {
                        return Some(4 * c + k);
                    }
                }
            }
        }
        None
    }
    fn ecc(&mut self, user: &[u8], psn: u32, side: &[u8], work: &mut [u8]) {
        self.scrambler(psn);
        let mut stream = vec![0u8; 216 * 304];
        for k in 0..32 {
            let s = &user[2048 * k..2048 * (k + 1)];
            let e = self.edc(s).to_be_bytes();
            let o = &mut stream[2052 * k..2052 * (k + 1)];
            for i in 0..2048 {
                o[i] = s[i] ^ self.scr.1[i];
            }
            for i in 0..4 {
                o[2048 + i] = e[i] ^ self.scr.1[2048 + i];
            }
        }
        let mut blk = vec![0u8; 304 * 248 + 24 * 62];
        for l in 0..304 {
            blk[248 * l..248 * l + 216].copy_from_slice(&stream[216 * l..216 * (l + 1)]);
        }
        for (c, col) in plain::access_block(psn, side).iter().enumerate() {
            blk[304 * 248 + 62 * c..304 * 248 + 62 * c + 30].copy_from_slice(col);
        }
        let (l, b) = blk.split_at_mut(304 * 248);
        self.fill_parity(l, 216);
        self.fill_parity(b, 30);
        for (w, &s) in work.iter_mut().zip(&self.ldc_src) {
            *w = blk[s as usize];
        }
    }
    pub fn write(
        &mut self,
        user: &[u8],
        psn: u32,
        side: &[u8],
        dc: &[u32],
        first: bool,
        image: &mut [u8],
        work: &mut [u8],
    ) -> (u32, usize) {
        let r = writer_tests(user, psn, side, dc, image.len(), work.len());
        if r.0 != 0 {
            return r;
        }
        self.ecc(user, psn, side, work);
        self.frames(work, dc, first, image);
        (0, 0)
    }
    /// the image whose ECC cluster, dc words and first # are given; nothing is tested
    pub fn frames(&self, work: &[u8], dc: &[u32], first: bool, image: &mut [u8]) {
        let mut w = BitW { out: image, at: 0, acc: 0, n: 0 };
        let mut hash = first;
        for f in 0..496 {
            let num = sync_number(f);
            let s = SYNC_WORDS[num] | (hash as u32) << 29;
            w.put(s, 30);
            let mut fb = [0u8; 168];
            frame_pack(&work[155 * f..155 * f + 155], dc[f], &mut fb);
            let mut st = self.enc_start[(s & 1) as usize] as usize;
            for &b in &fb[..158] {
                let e = self.enc[st * 256 + b as usize];
                w.put(e.out, e.n as u32);
                st = e.next as usize;
            }
            let e = self.enc_fin[st * 16 + (fb[158] >> 4) as usize];
            w.put(e.out, e.n as u32);
            hash = e.term;
        }
        w.put(SYNC_WORDS[0] | (hash as u32) << 29, 30);
        w.put(0, 2);
        w.flush();
    }
    pub fn read(
        &mut self,
        image: &[u8],
        user: &mut [u8],
        side: &mut [u8],
        dc: &mut [u32],
        work: &mut [u8],
    ) -> (u32, usize, u32, bool) {
        let a = length_answer(user.len(), side.len(), dc.len(), image.len(), work.len());
        if a != 0 {
            return (a, 0, 0, false);
        }
        let fail = |work: &mut [u8], a: u32, p: usize| {
            work.fill(0);
            (a, p, 0, false)
        };
        if image[IMAGE - 1] & 3 != 0 {
            return fail(work, 9, 0);
        }
        for f in 0..497 {
            let s = bits32(image, 1932 * f) >> 2;
            let ok = s & 0x1FFF_FFFF == SYNC_WORDS[sync_number(f)];
            if !ok {
                return fail(work, 10, f);
            }
        }
        let mut dcs = [0u32; 496];
        for f in 0..496 {
            let at = 1932 * f;
            let before = SYNC_WORDS[sync_number(f)] & 1;
            let next = bits32(image, at + 1932) >> 31;
            let mut o = [0u8; 176];
            let ok = {
                let mut w = BitW { out: &mut o, at: 0, acc: 0, n: 0 };
                let mut st = self.dec_start[before as usize] as usize;
                let mut p = at + 30;
                // 158 steps of 12 bits, four per load, then one of 6; the dead state absorbs
                for _ in 0..39 {
                    let v = bits56(image, p) >> 8;
                    for j in 0..4 {
                        let e = self.dec12[st * 4096 + (v >> (36 - 12 * j) & 4095) as usize];
                        w.put(e.out as u32, e.n as u32);
                        st = e.next as usize;
                    }
                    p += 48;
                }
                let v = bits56(image, p) >> 8;
                for j in 0..2 {
                    let e = self.dec12[st * 4096 + (v >> (36 - 12 * j) & 4095) as usize];
                    w.put(e.out as u32, e.n as u32);
                    st = e.next as usize;
                }
                let e = self.dec[st * 64 + (v >> 18 & 63) as usize];
                w.put(e.out as u32, e.n as u32);
                st = e.next as usize;
                let live = st != DEAD as usize;
                match (live, if live { self.dec_fin[st][next as usize] } else { None }) {
                    (true, Some((v, n))) => {
                        w.put(v as u32, n as u32);
                        w.put(0, 28); // 1268 + 28 = 1296 = 162 bytes
                        w.flush();
                        true
                    }
                    _ => false,
                }
            };
            if !ok {
                return fail(work, 11, f);
            }
            dcs[f] = frame_unpack(&o, &mut work[155 * f..155 * f + 155]);
        }
        let mut blk = vec![0u8; 304 * 248 + 24 * 62];
        for (w, &s) in work.iter().zip(&self.ldc_src) {
            blk[s as usize] = *w;
        }
        let (l, b) = blk.split_at(304 * 248);
        if let Some(c) = self.check_parity(b, 30) {
            return fail(work, 12, c);
        }
        let inv = [0u8, 0, 255, 255, 0, 255, 255, 0, 0];
        let mut sd = [0u8; SIDE];
        let mut auns = [0u32; 16];
        for y in 0..16 {
            let mut p = [0u8; 9];
            for x in 0..9 {
                let (r, c) = af_place(x, y);
                p[x] = b[62 * c + r] ^ inv[x];
            }
            if !columns::right(&p, 4) {
                return fail(work, 13, y);
            }
            auns[y] = u32::from_be_bytes([paf0_back(p[0]), p[1], p[2], p[3]]);
            sd[y] = p[4];
        }
        let psn = match auns_to_psn(&auns) {
            Some(p) => p,
            None => return fail(work, 14, 0),
        };
        for t in 0..576 {
            sd[16 + t] = b[62 * (t / 24) + 6 + t % 24];
        }
        if let Some(c) = self.check_parity(l, 216) {
            return fail(work, 15, c);
        }
        self.scrambler(psn);
        let mut stream = vec![0u8; 216 * 304];
        for c in 0..304 {
            stream[216 * c..216 * (c + 1)].copy_from_slice(&l[248 * c..248 * c + 216]);
        }
        for k in 0..32 {
            let o = &mut stream[2052 * k..2052 * (k + 1)];
            for i in 0..2052 {
                o[i] ^= self.scr.1[i];
            }
            let e = self.edc(&o[..2048]);
            if e.to_be_bytes() != o[2048..] {
                return fail(work, 16, k);
            }
        }
        for k in 0..32 {
            user[2048 * k..2048 * (k + 1)].copy_from_slice(&stream[2052 * k..2052 * k + 2048]);
        }
        side.copy_from_slice(&sd);
        dc.copy_from_slice(&dcs);
        (0, 0, psn, image[0] >> 7 == 1)
    }
}

/// 30-bit sync words, # ZERO
const fn sync_word(id: u32) -> u32 {
    // 001 010 000 000 010 000 000 010 + id
    0b001_010_000_000_010_000_000_010 << 6 | id
}
const SYNC_WORDS: [u32; 7] = [
    sync_word(0b000001),
    sync_word(0b010010),
    sync_word(0b101000),
    sync_word(0b100001),
    sync_word(0b000100),
    sync_word(0b001001),
    sync_word(0b010000),
];

struct BitW<'a> {
    out: &'a mut [u8],
    at: usize,
    acc: u64,
    n: u32,
}
impl<'a> BitW<'a> {
    #[inline(always)]
    fn put(&mut self, v: u32, n: u32) {
        // n <= 32, at most 31 bits pending
        self.acc = self.acc << n | v as u64;
        self.n += n;
        if self.n >= 32 {
            let w = (self.acc >> (self.n - 32)) as u32;
            self.out[self.at..self.at + 4].copy_from_slice(&w.to_be_bytes());
            self.at += 4;
            self.n -= 32;
        }
    }
    fn flush(&mut self) {
        while self.n >= 8 {
            self.out[self.at] = (self.acc >> (self.n - 8)) as u8;
            self.at += 1;
            self.n -= 8;
        }
    }
}
#[inline(always)]
fn load(b: &[u8], at: usize) -> u64 {
    if at + 8 <= b.len() {
        u64::from_be_bytes(b[at..at + 8].try_into().unwrap())
    } else {
        let mut t = [0u8; 8];
        t[..b.len() - at].copy_from_slice(&b[at..]);
        u64::from_be_bytes(t)
    }
}
/// 32 bits from bit p on
#[inline(always)]
fn bits32(b: &[u8], p: usize) -> u32 {
    (load(b, p / 8) << (p % 8) >> 32) as u32
}
/// 56 bits from bit p on
#[inline(always)]
fn bits56(b: &[u8], p: usize) -> u64 {
    load(b, p / 8) << (p % 8) >> 8
}
/// 155 bytes and dc word -> 1268 bits (159 bytes)
fn frame_pack(row: &[u8], dc: u32, out: &mut [u8; 168]) {
    let mut r = [0u8; 168];
    r[..155].copy_from_slice(row);
    let mut w = BitW { out, at: 0, acc: 0, n: 0 };
    w.put((bits32(&r, 0) >> 7) << 1 | dc >> 27 & 1, 26);
    for g in 1..28 {
        let v = bits56(&r, 25 + 45 * (g - 1)) >> 11; // 45 bits
        let v = v << 1 | (dc >> (27 - g) & 1) as u64; // 46
        w.put((v >> 23) as u32, 23);
        w.put((v & 0x7F_FFFF) as u32, 23);
    }
    w.put(0, 28);
    w.flush();
}
fn frame_unpack(bits: &[u8], row: &mut [u8]) -> u32 {
    let mut r = [0u8; 168];
    let mut dc;
    {
        let mut w = BitW { out: &mut r, at: 0, acc: 0, n: 0 };
        let h = bits32(bits, 0) >> 6;
        dc = h & 1;
        w.put(h >> 1, 25);
        for g in 1..28 {
            let v = bits56(bits, 26 + 46 * (g - 1)) >> 10; // 46 bits
            dc = dc << 1 | (v & 1) as u32;
            let v = v >> 1;
            w.put((v >> 22) as u32, 23);
            w.put((v & 0x3F_FFFF) as u32, 22);
        }
        w.flush();
    }
    row.copy_from_slice(&r[..155]);
    dc
}
