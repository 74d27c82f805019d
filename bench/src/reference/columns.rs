//! GF(256) modulo x^8+x^4+x^3+x^2+1, alpha = 02h, and Reed-Solomon columns (13.7, 13.9.2.2, 13.12).
const POLY: u16 = 0x11D;

/// 2 times a, by the definition: shifted, and reduced where x^8 comes up.
const fn double(a: u8) -> u8 {
    let p = (a as u16) << 1;
    (if p & 0x100 != 0 { p ^ POLY } else { p }) as u8
}

struct Tables {
    e: [u8; 256],
    l: [u8; 256],
}
/// Power and logarithm tables: power[255] = 1, log[1] = 0, log[0] = 0 (never used).
const fn tables() -> Tables {
    let mut t = Tables { e: [0; 256], l: [0; 256] };
    let mut x = 1;
    let mut i = 0;
    while i < 256 {
        t.e[i] = x;
        if i < 255 {
            t.l[x as usize] = i as u8;
        }
        x = double(x);
        i += 1;
    }
    t
}
static T: Tables = tables();

/// Product through the tables.
#[inline]
pub fn mul(a: u8, b: u8) -> u8 {
    if a == 0 || b == 0 {
        return 0;
    }
    T.e[(T.l[a as usize] as usize + T.l[b as usize] as usize) % 255]
}
#[inline]
pub fn ap(k: usize) -> u8 {
    T.e[k % 255]
}

/// generator polynomial prod_{i<n} (x - alpha^i); highest degree first, monic, n+1 coefficients
pub fn generator(n: usize) -> Vec<u8> {
    let mut g = vec![1u8];
    for i in 0..n {
        let a = ap(i);
        let mut h = vec![0u8; g.len() + 1];
        for (j, &c) in g.iter().enumerate() {
            h[j] ^= c; // times x
            h[j + 1] ^= mul(c, a); // times alpha^i
        }
        g = h;
    }
    g
}

/// The n parity bytes that follow `data`: remainder of data(x)*x^n by g(x), highest degree first.
pub fn parity(data: &[u8], n: usize) -> Vec<u8> {
    let g = generator(n);
    let mut buf = data.to_vec();
    buf.extend(std::iter::repeat(0).take(n));
    for i in 0..data.len() {
        let c = buf[i];
        if c != 0 {
            for j in 0..=n {
                buf[i + j] ^= mul(c, g[j]);
            }
        }
    }
    buf[data.len()..].to_vec()
}

/// W-207: answers 0 or 22; nothing written on 22.
pub fn parity_any(data: &[u8], par: &mut [u8]) -> (u32, usize) {
    if data.is_empty() || data.len() > 223 || par.len() != 32 {
        return (22, 0);
    }
    par.copy_from_slice(&parity(data, 32));
    (0, 0)
}

/// S_i = col(alpha^i), i < n; byte j of a column of length m has degree m-1-j.
pub fn syndromes(col: &[u8], n: usize) -> Vec<u8> {
    (0..n)
        .map(|i| {
            let a = ap(i);
            col.iter().fold(0u8, |acc, &c| mul(acc, a) ^ c)
        })
        .collect()
}
pub fn right(col: &[u8], n: usize) -> bool {
    syndromes(col, n).iter().all(|&s| s == 0)
}
