//! Reads damaged images by the library and by the reference's fast path and compares number, place, PSN, first # and every slice. Stops at the first
//! difference, with status 1. Words on the command line: how many images (default 10,000), the seed (1), the index of the first (0).
//! An image depends on the seed and its index alone, so each can be read again by itself.
use bench::both::{self, agree};
use bench::clusters::Lent;
use bench::damage::{damage, Written, MANY};
use bench::numbers;
use bench::random::Random;
use bench::reference::fast::Fast;
use std::collections::BTreeSet;
use std::io::Write;
use std::ops::Range;
use std::sync::atomic::{AtomicUsize, Ordering};
use std::thread;
use std::time::{Duration, Instant};

/// Images that are one image damaged in several ways.
const BLOCK: usize = 8;

/// For each answer how often it was given, and at which places.
type Answers = [(usize, BTreeSet<usize>); 17];

struct Soak {
    seed: u64,
    images: Range<usize>,
    next_block: AtomicUsize,
    done: AtomicUsize,
}

impl Soak {
    /// Takes blocks until none is left.
    fn work(&self) -> Answers {
        let mut fast = Fast::new();
        let mut answers = Answers::default();
        loop {
            let block = self.next_block.fetch_add(1, Ordering::Relaxed);
            let images = (BLOCK * block).max(self.images.start)..(BLOCK * (block + 1)).min(self.images.end);
            if images.is_empty() {
                return answers;
            }
            self.read_block(block, images, &mut fast, &mut answers);
        }
    }

    fn read_block(&self, block: usize, images: Range<usize>, fast: &mut Fast, answers: &mut Answers) {
        // Streams of blocks count down from the top, those of images up from 0.
        let r = &Random::stream(self.seed, !(block as u64));
        let written = Written::random(r, fast, block);
        let before = Lent::random(r);
        for i in images {
            let mut w = written.clone();
            let kind = damage(&Random::stream(self.seed, i as u64), fast, &mut w);
            let what = format!("seed {}, image {i} (again: bench/soak 1 {} {i}), {kind}", self.seed, self.seed);
            let (a, _) = both::read(&w.image, &before, fast, false, &what);
            let answer = &mut answers[a.number as usize];
            answer.0 += 1;
            answer.1.insert(a.place);
            self.done.fetch_add(1, Ordering::Relaxed);
        }
    }

    /// On a terminal a line that changes, else ten lines in all, none in the first second.
    fn progress(&self, working: impl Fn() -> bool) {
        let (start, terminal, count) = (Instant::now(), is_terminal(), self.images.len());
        let mut tenths = 0;
        while working() {
            thread::sleep(Duration::from_millis(100));
            let done = self.done.load(Ordering::Relaxed);
            let seconds = start.elapsed().as_secs_f64();
            let left = (count - done) as f64 * seconds / done.max(1) as f64;
            if terminal {
                eprint!("\r{done} of {count} images, {left:.0} s left   ");
                std::io::stderr().flush().ok();
            } else if seconds > 1.0 && 10 * done / count > tenths {
                tenths = 10 * done / count;
                eprintln!("{done} of {count} images, {left:.0} s left");
            }
        }
        if terminal {
            eprint!("\r{:60}\r", "");
        }
    }
}

/// Whether standard error is a terminal.
fn is_terminal() -> bool {
    extern "C" {
        fn isatty(descriptor: i32) -> i32;
    }
    unsafe { isatty(2) == 1 }
}

fn main() {
    let words = numbers("bench/soak [IMAGES [SEED [FIRST]]]");
    let word = |k: usize, otherwise: usize| words.get(k).copied().unwrap_or(otherwise);
    let (count, seed, first) = (word(0, 10_000).max(1), word(1, 1), word(2, 0));
    let soak = &Soak {
        seed: seed as u64,
        images: first..first + count,
        next_block: AtomicUsize::new(first / BLOCK),
        done: AtomicUsize::new(0),
    };
    let start = Instant::now();
    let threads = thread::available_parallelism().map_or(1, |n| n.get());
    let mut answers = Answers::default();
    thread::scope(|scope| {
        let workers: Vec<_> = (0..threads).map(|_| scope.spawn(|| soak.work())).collect();
        soak.progress(|| !workers.iter().all(|w| w.is_finished()));
        for worker in workers {
            for (all, (images, places)) in answers.iter_mut().zip(worker.join().unwrap()) {
                all.0 += images;
                all.1.extend(places);
            }
        }
    });
    println!("{:>6}{:>10}{:>10}", "answer", "images", "places");
    for (number, (images, places)) in answers.iter().enumerate().filter(|(n, _)| *n == 0 || *n > 8) {
        println!("{number:>6}{images:>10}{:>10}", places.len());
        agree(count < MANY || *images > 0, || format!("answer {number} did not occur"));
    }
    let seconds = start.elapsed().as_secs_f64();
    println!(
        "{count} damaged images, seed {seed}, from {first} on: the library and the reference agree ({seconds:.0} s)"
    );
}
