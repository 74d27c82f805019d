//! Compares the library with the reference, and says how much was compared. Stops at the first difference, with status 1.
//! Damaged images are read by both paths of the reference; bin/soak reads many more by the fast one alone.
//! With the word `short`: fewer of each, and the reference's plain path, which is slow, on some clusters only.
use bench::ahead::{each_frame, random_frame, Frame};
use bench::bdre::{self, Queue, BENCHES, COLUMN_DATA, DC, IMAGE, PARITY, SHEET, SIDE, USER, WORK};
use bench::both::{self, agree};
use bench::clusters::{Cluster, Filled, Lent, LARGEST, ZONES};
use bench::damage::{damage, Written};
use bench::queues::{self, each_record, random_queue, random_record, SERVE};
use bench::random::Random;
use bench::reference::ahead::Ahead;
use bench::reference::columns;
use bench::reference::fast::Fast;
use bench::reference::plain;
use bench::reference::sheet;
use bench::sheets::{each_sheet, random_sheet, ANSWERS};
use std::collections::{BTreeMap, BTreeSet};
use std::time::Instant;

// ---- refusals

/// Each way in which some of the five lengths are wrong, for both operations, with right and wrong PSNs and dc words.
fn lengths(r: &Random, fast: &mut Fast) {
    let right = [USER, SIDE, DC, IMAGE, WORK];
    let mut calls = [[0; 6]; 2];
    for wrong in 1..32usize {
        for shape in 0..6 {
            let n: Vec<usize> = (0..5)
                .map(|i| match (wrong >> i & 1, shape) {
                    (0, _) => right[i],
                    (_, 0) => 0,
                    (_, 1) => 1,
                    (_, 2) => right[i] - 1,
                    (_, 3) => right[i] + 1,
                    (_, 4) => 2 * right[i],
                    _ => right[(i + 1) % 5],
                })
                .collect();
            let what = format!("lengths {n:?}");
            let dc: Vec<u32> = (0..n[2]).map(|_| if shape % 2 == 0 { r.word() & LARGEST } else { u32::MAX }).collect();
            let psn = if shape % 3 == 0 { ZONES[0].0 } else { r.word() };
            let cluster = Cluster { psn, user: r.bytes(n[0]), side: r.bytes(n[1]), dc, first: r.below(2) == 1 };
            let before = Filled { image: r.bytes(n[3]), work: r.bytes(n[4]) };
            let (number, _) = both::write(&cluster, &before, &what);
            calls[0][number as usize] += 1;

            let image = r.bytes(n[3]);
            let lent =
                Lent { user: r.bytes(n[0]), side: r.bytes(n[1]), dc: cluster.dc.clone(), work: before.work.clone() };
            both::mark(&cluster, &image, &lent, fast, &what);
            let given = Cluster { psn, user: vec![0; USER], side: vec![0; SIDE], dc: vec![], first: false };
            both::mark(&given, &image, &lent, fast, &what);
            both::mark(&cluster, &image, &Lent::random(r), fast, &what);

            let before = Lent { user: cluster.user, side: cluster.side, dc: cluster.dc, work: before.work };
            let (a, _) = both::read(&image, &before, fast, true, &what);
            calls[1][a.number as usize] += 1;
        }
    }
    println!("wrong lengths, writer: refused by 1 to 5 {:?} times", &calls[0][1..]);
    println!("wrong lengths, reader: refused by 1 to 5 {:?} times", &calls[1][1..]);
    println!("wrong lengths, marker: given, lent and both, {} times", 3 * 31 * 6);
}

/// PSNs at and around the ends of the zones, random ones, and dc words that are too large.
fn refused_inputs(r: &Random, count: usize) {
    let mut input = Cluster::random(r, 0);
    let before = Filled::random(r);
    let mut calls = [0; 9];
    let mut psns = vec![0, 1, 32, u32::MAX, 0x0600_0000, 0x0600_0001, 0x0010_0010];
    for (first, last) in ZONES {
        psns.extend([first - 32, first - 1, first + 1, first + 16, last + 1, last, last - 1, last + 33, last + 32]);
    }
    psns.extend(
        (0..count).map(|_| r.word() & if r.below(2) == 0 { !31 } else { !0 }).filter(|&p| plain::psn_answer(p) != 0),
    );
    for psn in psns {
        input.psn = psn;
        let (number, _) = both::write(&input, &before, &format!("PSN {psn:08X}"));
        calls[number as usize] += 1;
    }
    input.psn = ZONES[1].0;
    for k in 0..count {
        let mut dc = input.dc.clone();
        for _ in 0..1 + r.below(3) {
            dc[r.pick(&[0, 495, r.below(DC)])] = r.pick(&[LARGEST + 1, u32::MAX, r.word() | LARGEST + 1]);
        }
        std::mem::swap(&mut input.dc, &mut dc);
        let psn = input.psn;
        if k % 10 == 9 {
            input.psn = r.word();
        }
        let (number, _) = both::write(&input, &before, &format!("dc words of try {k}"));
        calls[number as usize] += 1;
        input.psn = psn;
        std::mem::swap(&mut input.dc, &mut dc);
    }
    println!("wrong PSNs and dc words: refused by 6 to 8 {:?} times", &calls[6..]);
}

// ---- numbers

fn conversions(r: &Random, count: usize) {
    let ends = ZONES.iter().flat_map(|&(first, last)| [first, last]);
    let near = ends.flat_map(|p| (0..200).map(move |d| p.wrapping_add(d).wrapping_sub(100)));
    let numbers: Vec<u32> = near
        .flat_map(|p| [p, p / 8])
        .chain([0, 1, 2, 4, 0x1FFF_FFFC, 0x1FFF_FFFF, 0x2000_0000, 0x2002_0000, 0x2000_0004, u32::MAX])
        .chain((0..count).map(|_| r.word() >> r.below(8) & if r.below(2) == 0 { !31 } else { !0 }))
        .collect();
    for &x in &numbers {
        let pair = |c: bdre::Conversion| (c.number, c.value);
        agree(pair(bdre::psn_to_paa(x)) == plain::psn_to_paa(x), || format!("PSN {x:08X} to PAA"));
        agree(pair(bdre::paa_to_psn(x)) == plain::paa_to_psn(x), || format!("PAA {x:08X} to PSN"));
        agree(pair(bdre::aun_to_psn(x)) == plain::aun_to_psn(x), || format!("AUN {x:08X} to PSN"));
        for unit in [r.below(16) as u32, 15, 16, r.word()] {
            agree(pair(bdre::psn_to_aun(x, unit)) == plain::psn_to_aun(x, unit), || {
                format!("PSN {x:08X}, unit {unit} to AUN")
            });
        }
    }
    println!("conversions: {} numbers in each of four", numbers.len());
}

// ---- columns

/// Data of every length from 0 to 300 into parity slices of several lengths, then of random ones; the slice holds random bytes before.
fn parities(r: &Random, count: usize) {
    let every = (0..=300).flat_map(|n| [0, 31, 32, 33].map(|size| (n, size)));
    let random: Vec<(usize, usize)> = (0..count).map(|_| (r.below(260), r.pick(&[32, 32, 32, r.below(300)]))).collect();
    let mut calls = BTreeMap::new();
    for (n, size) in every.chain(random) {
        let (data, before) = (r.bytes(n), r.bytes(size));
        let what = || format!("parity of {n} bytes {data:02X?} in {size}");
        let (mut ours, mut theirs) = (before.clone(), before.clone());
        let a = bdre::parity(&data, &mut ours);
        let b = columns::parity_any(&data, &mut theirs);
        agree((a.number, a.place) == b && ours == theirs, what);
        agree((a.number == 0) == ((1..=COLUMN_DATA).contains(&n) && size == PARITY), what);
        agree(a.number == 0 || ours == before, what);
        agree(a.number != 0 || columns::right(&[data.clone(), ours].concat(), 32), what);
        *calls.entry(a.number).or_insert(0) += 1;
    }
    println!("parities: answered {calls:?} times");
    agree(calls.keys().eq(&[0, 22]), || "an answer did not occur".into());
}

// ---- sheets

/// How often each number was answered. Behind a sheet stand other numbers, which are not its own.
fn judged(r: &Random, sheets: impl Iterator<Item = Vec<u32>>) -> BTreeMap<u32, usize> {
    let mut calls = BTreeMap::new();
    for psns in sheets {
        let n = psns.len();
        let what = || format!("sheet of {n}, {psns:08X?}");
        let room = [&psns[..], &[r.word(), r.word()]].concat();
        let a = bdre::sheet(&room[..n]);
        let b = sheet::sheet(&psns);
        agree((a.number, a.place) == b, || format!("{}: judged {a:?}, by the reference {b:?}", what()));
        let alone = psns.iter().all(|&psn| bdre::psn_to_paa(psn).number == 0);
        let distinct = psns.iter().collect::<BTreeSet<_>>().len() == n;
        agree((a.number == 0) == ((1..=SHEET).contains(&n) && alone && distinct), what);
        *calls.entry(a.number).or_insert(0) += 1;
    }
    calls
}

fn sheets(r: &Random, count: usize) {
    let each = judged(r, each_sheet(r).into_iter());
    println!("sheets, each count and place: answered {each:?} times");
    agree(each.keys().eq(&ANSWERS), || "an answer did not occur".into());
    let random = judged(r, (0..count).map(|_| random_sheet(r)));
    println!("sheets, random: answered {random:?} times");
    let often = |number| random.get(number).map_or(false, |&calls| calls >= count / 10);
    agree(ANSWERS.iter().all(often), || "an answer was rare".into());
}

// ---- queues

/// What the benches gave and got in a run of records, and how many serves each waiting order has seen.
struct Watched {
    queue: Queue,
    came: [Vec<u32>; BENCHES],
    went: [Vec<u32>; BENCHES],
    passed: [usize; BENCHES],
}

impl Watched {
    fn new(queue: Queue) -> Watched {
        let came = queue.orders.map(|order| if order.waiting { vec![order.psn] } else { vec![] });
        Watched { queue, came, went: Default::default(), passed: [0; BENCHES] }
    }

    /// A record more. A waiting order is taken by the fourth serve.
    fn handle(&mut self, record: &[u8]) -> bdre::Handled {
        let a = both::handle(&self.queue, record);
        if a.number == 0 && record == SERVE {
            for bench in 0..BENCHES {
                self.passed[bench] = if self.queue.orders[bench].waiting { self.passed[bench] + 1 } else { 0 };
            }
            if a.bench != 255 {
                self.went[a.bench as usize].push(a.psn);
                self.passed[a.bench as usize] = 0;
            }
            agree(self.passed.iter().all(|&serves| serves < 4), || {
                format!("an order waits too long: {:?}", self.queue)
            });
        } else if a.number == 0 {
            self.came[record[1] as usize].push(u32::from_be_bytes(record[2..].try_into().unwrap()));
        }
        self.queue = a.queue;
        a
    }

    /// Each order that came, and no other, went or waits, in their order.
    fn end(self) {
        for (bench, order) in self.queue.orders.iter().enumerate() {
            let mut went = self.went[bench].clone();
            went.extend(order.waiting.then_some(order.psn));
            agree(went == self.came[bench], || format!("orders of bench {bench}: {:08X?}", self.came[bench]));
        }
    }
}

type Outcomes = BTreeMap<&'static str, usize>;

/// The answers in words; those to a serve are two.
const OUTCOMES: [&str; 8] = ["26", "27", "28", "6", "7", "none waiting", "served", "submitted"];

fn count(outcomes: &mut Outcomes, record: &[u8], a: bdre::Handled) {
    let name = match (a.number, a.bench) {
        (0, _) if record != SERVE => "submitted",
        (0, 255) => "none waiting",
        (0, _) => "served",
        (6, _) => "6",
        (7, _) => "7",
        (26, _) => "26",
        (27, _) => "27",
        _ => "28",
    };
    *outcomes.entry(name).or_insert(0) += 1;
}

/// Behind a record stand other bytes, which are not its own.
fn each_queue(r: &Random) {
    let mut outcomes = Outcomes::new();
    for record in each_record(r) {
        let room = [&record[..], &r.bytes(6)].concat();
        let lent = &room[..record.len()];
        count(&mut outcomes, &record, both::handle(&random_queue(r), lent));
    }
    for turn in 0..=255 {
        for waiting in 0..16 {
            let queue = queues::queue(r, waiting, turn);
            for bench in 0..BENCHES as u8 {
                let record = queues::submit(bench, queues::accepted(r));
                count(&mut outcomes, &record, both::handle(&queue, &record));
            }
            let mut watched = Watched::new(queue);
            for _ in 0..5 {
                count(&mut outcomes, &SERVE, watched.handle(&SERVE));
            }
            watched.end();
        }
    }
    println!("queues, each record, turn and set of benches: {outcomes:?}");
    agree(outcomes.keys().eq(&OUTCOMES), || "an answer did not occur".into());
}

/// The queue as C hands it over.
mod numbers {
    #[repr(C)]
    #[derive(Clone, Copy)]
    pub struct Order {
        pub waiting: u8,
        pub psn: u32,
    }
    #[repr(C)]
    #[derive(Clone, Copy)]
    pub struct Queue {
        pub orders: [Order; bench::bdre::BENCHES],
        pub turn: u8,
    }
    #[repr(C)]
    pub struct Handled {
        pub queue: Queue,
        pub number: u32,
        pub place: usize,
        pub bench: u8,
        pub psn: u32,
    }
    #[allow(clashing_extern_declarations)]
    extern "C" {
        pub fn bdre_handle_record(queue: Queue, record: *const u8, record_length: usize) -> Handled;
    }
}

/// Each number but 0 is a waiting order, and comes back as 1.
fn each_flag(r: &Random) {
    for flag in 1..=255 {
        for record in
            [SERVE.to_vec(), vec![3], queues::submit(0, queues::accepted(r)), queues::submit(3, queues::accepted(r))]
        {
            let plain = queues::queue(r, r.below(16), r.byte());
            let orders = plain.orders.map(|o| numbers::Order { waiting: if o.waiting { flag } else { 0 }, psn: o.psn });
            let queue = numbers::Queue { orders, turn: plain.turn };
            let a = unsafe { numbers::bdre_handle_record(queue, record.as_ptr(), record.len()) };
            let b = both::handle(&plain, &record);
            let same = (a.number, a.place, a.bench, a.psn, a.queue.turn)
                == (b.number, b.place, b.bench, b.psn, b.queue.turn)
                && a.queue
                    .orders
                    .iter()
                    .zip(b.queue.orders)
                    .all(|(x, y)| (x.waiting, x.psn) == (y.waiting as u8, y.psn));
            agree(same, || format!("record {record:02X?} on {plain:?}, with {flag} for a waiting order"));
        }
    }
    println!("queues, each number for a waiting order: {} records", 4 * 255);
}

/// Runs of records from the empty queue and from any, with few serves and with many.
fn queue_runs(r: &Random, runs: usize) {
    let (mut outcomes, mut records) = (Outcomes::new(), 0);
    for run in 0..runs {
        let serves = [1, 3, 7][run % 3];
        let mut watched = Watched::new(if run % 2 == 0 { Queue::default() } else { random_queue(r) });
        for _ in 0..1 + r.below(1000) {
            let record = random_record(r, serves);
            count(&mut outcomes, &record, watched.handle(&record));
            records += 1;
        }
        watched.end();
    }
    println!("queues, {runs} runs of {records} records: {outcomes:?}");
    let often = |name| outcomes.get(name).map_or(false, |&calls| calls >= records / 50);
    agree(OUTCOMES.iter().all(often), || "an answer was rare".into());
}

// ---- how far ahead the modulator reads

/// Number and bits of the answers that occur.
const AHEAD: [(u32, u32); 8] = [(0, 2), (0, 4), (0, 6), (0, 8), (0, 10), (0, 12), (8, 0), (21, 0)];

/// How often each was answered. Behind a row stand other bytes, which are not its own.
fn read_ahead(r: &Random, reference: &Ahead, frames: impl Iterator<Item = Frame>) -> BTreeMap<(u32, u32), usize> {
    let mut calls = BTreeMap::new();
    for Frame { row, dc } in frames {
        let room = [&row[..], &r.bytes(2)].concat();
        let a = bdre::most_needed(&room[..row.len()], dc);
        let b = reference.most_needed(&row, dc);
        let bits = a.bits as usize;
        agree((a.number, a.place, [bits, bits]) == b, || {
            format!("row {row:02X?}, dc word {dc:08X}: ahead {a:?}, by the reference {b:?}")
        });
        *calls.entry((a.number, a.bits)).or_insert(0) += 1;
    }
    calls
}

fn ahead(r: &Random, count: usize) {
    let reference = Ahead::new();
    let each = read_ahead(r, &reference, each_frame(r).into_iter());
    println!("ahead, each end, word and length: answered by number and bits {each:?} times");
    agree(each.keys().eq(&AHEAD), || "an answer did not occur".into());
    let random = read_ahead(r, &reference, (0..count).map(|_| random_frame(r)));
    println!("ahead, {count} random frames: {random:?}");
    let often = |answer| random.get(answer).map_or(false, |&calls| calls >= count / 50);
    agree(AHEAD.iter().all(often), || "an answer was rare".into());
}

// ---- clusters and images

fn clusters(r: &Random, fast: &mut Fast, count: usize, plain_every: usize) {
    let mut zones = [0; 3];
    for i in 0..count {
        let c = Cluster::random(r, i);
        let what = format!("cluster {i}, PSN {:08X}", c.psn);
        let (number, written) = both::write(&c, &Filled::random(r), &what);
        agree(number == 0, || format!("{what}: refused by {number}"));
        let mut theirs = Filled::random(r);
        fast.write(&c.user, c.psn, &c.side, &c.dc, c.first, &mut theirs.image, &mut theirs.work);
        agree(written == theirs, || format!("{what}: written otherwise by the reference (fast)"));
        let (a, back) = both::read(&written.image, &Lent::random(r), fast, i % plain_every == 0, &what);
        let same = back.user == c.user && back.side == c.side && back.dc == c.dc && back.work == written.work;
        agree(same && a.number == 0 && a.psn == c.psn && a.first == c.first, || {
            format!("{what}: read back {a:?}, or other data")
        });
        zones[ZONES.iter().position(|&(first, last)| first <= c.psn && c.psn <= last).unwrap()] += 1;
    }
    println!("clusters: {count} written and read back, {zones:?} in the three zones");
}

/// Given data that an image was made of, or not, under any dc words and either first #; at times the image is damaged.
fn marks(r: &Random, fast: &mut Fast, count: usize) {
    let mut verdicts = [0; 5];
    for i in 0..count {
        let mut w = Written::random(r, fast, i);
        let mut given = Cluster { dc: vec![], first: false, ..w.cluster.clone() };
        let mut what = format!("mark {i}");
        if i % 5 == 0 {
            what += &format!(", {}", damage(r, fast, &mut w));
        }
        if r.below(4) == 0 {
            given.psn = r.pick(&[ZONES[1].0, r.word(), given.psn + 32, given.psn ^ 1]);
        }
        for _ in 0..r.pick(&[0, 0, 1, 2]) {
            given.user[r.pick(&[0, USER - 1, r.below(USER), r.below(USER)])] ^= 1 << r.below(8);
        }
        for _ in 0..r.pick(&[0, 0, 1, 2]) {
            given.side[r.pick(&[0, 15, 16, SIDE - 1, r.below(SIDE)])] ^= 1 << r.below(8);
        }
        verdicts[both::mark(&given, &w.image, &Lent::random(r), fast, &what) as usize] += 1;
    }
    println!("marks: {count}; pass, refused, other PSN, other user data, other side data {verdicts:?} times");
    agree(verdicts.iter().all(|&n| n > 0), || "a verdict did not occur".into());
}

fn damaged(r: &Random, fast: &mut Fast, count: usize, plain_every: usize) {
    let mut answers = [0; 17];
    for i in 0..count {
        let mut w = Written::random(r, fast, i);
        let what = format!("damaged image {i}, {}", damage(r, fast, &mut w));
        let (a, _) = both::read(&w.image, &Lent::random(r), fast, i % plain_every == 0, &what);
        answers[a.number as usize] += 1;
    }
    println!(
        "damaged images: {count}, of which the reference's plain path read {}",
        (count + plain_every - 1) / plain_every
    );
    println!("  answered 0: {}; 9 to 16: {:?}", answers[0], &answers[9..]);
    agree(answers[9..].iter().all(|&n| n > 0), || "an answer from 9 to 16 did not occur".into());
}

fn main() {
    let short = std::env::args().nth(1).map_or(false, |word| word == "short");
    let start = Instant::now();
    let r = &Random::new(0xB0DE);
    let mut fast = Fast::new();
    lengths(r, &mut fast);
    refused_inputs(r, if short { 200 } else { 2000 });
    conversions(r, 1_000_000);
    parities(r, if short { 1000 } else { 10_000 });
    sheets(r, if short { 2000 } else { 20_000 });
    each_queue(r);
    each_flag(r);
    queue_runs(r, if short { 100 } else { 2000 });
    ahead(r, if short { 2000 } else { 20_000 });
    clusters(r, &mut fast, if short { 30 } else { 240 }, if short { 4 } else { 1 });
    damaged(r, &mut fast, if short { 200 } else { 2000 }, if short { 10 } else { 1 });
    marks(r, &mut fast, if short { 30 } else { 300 });
    println!("the library and the reference agree ({:.0} s)", start.elapsed().as_secs_f64());
}
