//! Times writing, reading and marking of clusters by the library and by the reference's two paths and prints the medians; then how the time
//! grows with the number of clusters, and the time for a column's parity. Library and fast path run in turn on each cluster, each first on
//! every other, so that load falls on both; the plain path, which is slow, runs on some only. A word on the command line: how many clusters
//! (default 400).
use bench::bdre;
use bench::clusters::{Cluster, Filled, Lent};
use bench::numbers;
use bench::random::Random;
use bench::reference::columns;
use bench::reference::fast::Fast;
use bench::reference::plain;
use std::ops::Range;
use std::time::Instant;

/// The plain path runs on one cluster of so many.
const PLAIN_EVERY: usize = 20;

#[derive(Clone, Copy)]
enum By {
    Library,
    Plain,
    Fast,
}

/// Milliseconds of each call, by library, plain path and fast path.
type Times = [Vec<f64>; 3];

fn timed<T>(call: impl FnOnce() -> T) -> (T, f64) {
    let start = Instant::now();
    let result = call();
    (result, start.elapsed().as_secs_f64() * 1000.0)
}

/// The slices are made once and not cleared between calls.
struct Bench {
    fast: Fast,
    filled: Filled,
    lent: Lent,
}

impl Bench {
    fn write(&mut self, by: By, c: &Cluster) -> f64 {
        let (image, work, fast) = (&mut self.filled.image, &mut self.filled.work, &mut self.fast);
        let (number, ms) = match by {
            By::Library => timed(|| bdre::write_image(&c.user, c.psn, &c.side, &c.dc, c.first, image, work).number),
            By::Plain => timed(|| plain::write(&c.user, c.psn, &c.side, &c.dc, c.first, image, work).0),
            By::Fast => timed(|| fast.write(&c.user, c.psn, &c.side, &c.dc, c.first, image, work).0),
        };
        assert_eq!(number, 0);
        ms
    }

    fn read(&mut self, by: By, image: &[u8]) -> f64 {
        let (l, fast) = (&mut self.lent, &mut self.fast);
        let (number, ms) = match by {
            By::Library => timed(|| bdre::read_image(image, &mut l.user, &mut l.side, &mut l.dc, &mut l.work).number),
            By::Plain => timed(|| plain::read(image, &mut l.user, &mut l.side, &mut l.dc, &mut l.work).0),
            By::Fast => timed(|| fast.read(image, &mut l.user, &mut l.side, &mut l.dc, &mut l.work).0),
        };
        assert_eq!(number, 0);
        ms
    }

    fn mark(&mut self, by: By, c: &Cluster, image: &[u8]) -> f64 {
        let (psn, user, side) = (c.psn, &c.user, &c.side);
        let Lent { user: u, side: s, dc, work } = &mut self.lent;
        let fast = &mut self.fast;
        let (verdict, ms) = match by {
            By::Library => timed(|| bdre::mark_image(psn, user, side, image, u, s, dc, work).verdict),
            By::Plain => timed(|| plain::mark(psn, user, side, u, s, |u, s| plain::read(image, u, s, dc, work)).0),
            By::Fast => timed(|| plain::mark(psn, user, side, u, s, |u, s| fast.read(image, u, s, dc, work)).0),
        };
        assert_eq!(verdict, 0);
        ms
    }

    /// A random cluster with its image.
    fn cluster(&mut self, r: &Random, i: usize) -> (Cluster, Vec<u8>) {
        let c = Cluster::uniform(r, i % 3);
        self.write(By::Fast, &c);
        (c, self.filled.image.clone())
    }
}

/// Whose turn it is on cluster i.
fn turns(i: usize) -> [By; 2] {
    if i % 2 == 0 {
        [By::Library, By::Fast]
    } else {
        [By::Fast, By::Library]
    }
}

fn operations(bench: &mut Bench, r: &Random, count: usize) -> [Times; 3] {
    let mut times: [Times; 3] = Default::default();
    for i in 0..count {
        let (c, image) = &bench.cluster(r, i);
        let plain = if i % PLAIN_EVERY == 0 { Some(By::Plain) } else { None };
        let turns = turns(i).into_iter().chain(plain);
        for by in turns.clone() {
            times[0][by as usize].push(bench.write(by, c));
            assert!(bench.filled.image == *image);
        }
        for by in turns.clone() {
            times[1][by as usize].push(bench.read(by, image));
            assert!(bench.lent.user == c.user && bench.lent.side == c.side && bench.lent.dc == c.dc);
        }
        for by in turns {
            times[2][by as usize].push(bench.mark(by, c, image));
        }
    }
    times
}

/// The time below which that part of the calls lies.
fn quantile(times: &mut [f64], part: f64) -> f64 {
    times.sort_by(f64::total_cmp);
    times[(part * (times.len() - 1) as f64).round() as usize]
}

fn row(name: &str, times: &mut Times) {
    let [library, plain, fast] = [0, 1, 2].map(|by| quantile(&mut times[by], 0.5));
    print!("{name:<6}{library:>9.3}{plain:>9.2}{fast:>9.3}{:>15.3}{:>14.2}", library / plain, library / fast);
    for by in [By::Library, By::Fast] {
        let [low, high] = [0.1, 0.9].map(|part| quantile(&mut times[by as usize], part));
        print!("{:>20}", format!("{low:.3} to {high:.3}"));
    }
    println!();
}

/// Milliseconds in which the library and the fast path write and read these clusters.
fn total(bench: &mut Bench, r: &Random, clusters: Range<usize>) -> [f64; 2] {
    let mut total = [0.0; 3];
    for i in clusters {
        let (c, image) = &bench.cluster(r, i);
        for by in turns(i) {
            total[by as usize] += bench.write(by, c) + bench.read(by, image);
        }
    }
    [total[By::Library as usize], total[By::Fast as usize]]
}

fn growth(bench: &mut Bench, r: &Random) {
    println!("ms for clusters written and read, in all and for each; medians of 101, 21, 5 and 1 runs");
    println!("{:<8}{:>10}{:>9}{:>10}{:>9}{:>14}", "", "library", "each", "fast", "each", "library/fast");
    for (count, runs) in [(1, 101), (10, 21), (100, 5), (1000, 1)] {
        let totals: Vec<[f64; 2]> = (0..runs).map(|k| total(bench, r, k * count..(k + 1) * count)).collect();
        let median = |by: usize| quantile(&mut totals.iter().map(|t| t[by]).collect::<Vec<f64>>(), 0.5);
        let (library, fast, n) = (median(0), median(1), count as f64);
        println!("{count:<8}{library:>10.2}{:>9.3}{fast:>10.2}{:>9.3}{:>14.2}", library / n, fast / n, library / fast);
    }
}

/// Microseconds for the parity of a column, by the library and by the reference.
fn parities(r: &Random) {
    println!("us for a column's parity, medians of 1001");
    println!("{:<12}{:>10}{:>12}", "data bytes", "library", "reference");
    for n in [1, 30, 216, 223] {
        let data = r.bytes(n);
        let mut parity = [0; bdre::PARITY];
        let median = |mut times: Vec<f64>| quantile(&mut times, 0.5) * 1000.0;
        let library = median((0..1001).map(|_| timed(|| bdre::parity(&data, &mut parity)).1).collect());
        let reference = median((0..1001).map(|_| timed(|| columns::parity_any(&data, &mut parity)).1).collect());
        println!("{n:<12}{library:>10.1}{reference:>12.1}");
    }
}

fn main() {
    let count = numbers("bench/run [CLUSTERS]").first().map_or(400, |&n| n.max(1));
    let r = &Random::new(0x7135);
    let bench = &mut Bench { fast: Fast::new(), filled: Filled::random(r), lent: Lent::random(r) };
    let mut times = operations(bench, r, count);
    println!(
        "ms per cluster, medians of {count} random clusters (plain: of {}); plain and fast are the reference's paths",
        times[0][1].len()
    );
    println!(
        "{:<6}{:>9}{:>9}{:>9}{:>15}{:>14}{:>20}{:>20}",
        "", "library", "plain", "fast", "library/plain", "library/fast", "library, 10-90 %", "fast, 10-90 %"
    );
    for (name, times) in ["write", "read", "mark"].into_iter().zip(&mut times) {
        row(name, times);
    }
    println!();
    growth(bench, r);
    println!();
    parities(r);
}
