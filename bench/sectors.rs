//! Times error-detection code and scrambling, by themselves, of a cluster's 32 sectors, and prints the medians and their sums. A word on the
//! command line: how many clusters (default 2000). `bench/sectors` builds it, with the functions that it calls.
#[allow(dead_code)]
#[path = "src/random.rs"]
mod random;

use random::Random;
use std::time::Instant;

#[link(name = "sectors", kind = "static")]
extern "C" {
    fn sectors_stream(psn: u32, stream: *mut u8, stream_len: usize);
    fn sectors_write(
        user: *const u8,
        user_len: usize,
        stream: *const u8,
        stream_len: usize,
        frames: *mut u8,
        frames_len: usize,
    );
    fn sectors_first_wrong(frames: *const u8, frames_len: usize, stream: *const u8, stream_len: usize) -> usize;
    fn sectors_read(
        frames: *const u8,
        frames_len: usize,
        stream: *const u8,
        stream_len: usize,
        user: *mut u8,
        user_len: usize,
    );
}

/// What is timed, in the order of the calls.
const NAMES: [&str; 4] = ["scrambling bytes", "data frames", "test 16", "user bytes"];

fn timed<T>(times: &mut Vec<f64>, call: impl FnOnce() -> T) -> T {
    let start = Instant::now();
    let result = call();
    times.push(start.elapsed().as_secs_f64() * 1000.0);
    result
}

fn median(times: &mut [f64]) -> f64 {
    times.sort_by(f64::total_cmp);
    times[times.len() / 2]
}

fn cluster(r: &Random, times: &mut [Vec<f64>; 4]) {
    let user = r.bytes(65536);
    let psn = 0x0010_0000 + 32 * r.below(509_152) as u32;
    let (mut stream, mut frames, mut back) = (vec![0u8; 2052], vec![0u8; 32 * 2052], vec![0u8; 65536]);
    let [streams, writes, tests, reads] = times;
    let (u, s, f) = (&user, &mut stream, &mut frames);
    // Safety: pointers and lengths are those of slices, and what is written overlaps nothing.
    timed(streams, || unsafe { sectors_stream(psn, s.as_mut_ptr(), s.len()) });
    timed(writes, || unsafe { sectors_write(u.as_ptr(), u.len(), s.as_ptr(), s.len(), f.as_mut_ptr(), f.len()) });
    let wrong = timed(tests, || unsafe { sectors_first_wrong(f.as_ptr(), f.len(), s.as_ptr(), s.len()) });
    let b = &mut back;
    timed(reads, || unsafe { sectors_read(f.as_ptr(), f.len(), s.as_ptr(), s.len(), b.as_mut_ptr(), b.len()) });
    assert!(wrong == 32 && back == user && frames[..2048] != user[..2048]);
}

fn main() {
    let count: usize = std::env::args().nth(1).map_or(2000, |n| n.parse().expect("bench/sectors [CLUSTERS]")).max(1);
    let mut times: [Vec<f64>; 4] = Default::default();
    let r = Random::new(0x7135);
    for _ in 0..count {
        cluster(&r, &mut times);
    }
    println!("ms per cluster, medians of {count} random clusters");
    let mut ms = [0.0; 4];
    for (i, times) in times.iter_mut().enumerate() {
        ms[i] = median(times);
        println!("{:<18}{:>8.4}", NAMES[i], ms[i]);
    }
    println!("{:<18}{:>8.4}", "writing, in all", ms[0] + ms[1]);
    println!("{:<18}{:>8.4}", "reading, in all", ms[0] + ms[2] + ms[3]);
}
