//! Measures how many bytes of stack each operation of the library takes, over calls with every answer, and fails above 128 KiB.
//! A call runs on a painted stack of its own; what it took ends at the deepest byte that is no longer paint. Each runs under two paints, so
//! that a byte written in the colour of one shows under the other. What passes the arguments, some hundred bytes, is counted too.
use bench::ahead::{self, random_frame};
use bench::bdre::{self, DC, IMAGE, SIDE, USER, WORK};
use bench::clusters::{Cluster, Filled, Lent, LARGEST, ZONES};
use bench::damage::{damage, Written};
use bench::queues::{self, random_queue, random_record};
use bench::random::Random;
use bench::reference::fast::Fast;
use bench::sheets::{random_sheet, ANSWERS};
use std::arch::asm;
use std::collections::BTreeMap;

const LIMIT: usize = 131_072;
const ROOM: usize = 4 * LIMIT;

/// The answers of writer, reader, conversions and parity, and the marker's verdicts.
const WRITTEN: [u32; 9] = [0, 1, 2, 3, 4, 5, 6, 7, 8];
const READ: [u32; 14] = [0, 1, 2, 3, 4, 5, 9, 10, 11, 12, 13, 14, 15, 16];
const MARKED: [u32; 5] = [0, 1, 2, 3, 4];
const CONVERTED: [u32; 3] = [0, 6, 7];
const COMPLETED: [u32; 2] = [0, 22];

/// Runs `call` with the stack pointer at `top`, which is a multiple of 16.
unsafe fn call_at<F: FnMut()>(top: *mut u8, call: &mut F) {
    extern "C" fn enter<F: FnMut()>(call: &mut F) {
        call();
    }
    asm!(
        "mov r12, rsp",
        "mov rsp, {top}",
        "call {enter}",
        "mov rsp, r12",
        top = in(reg) top,
        enter = in(reg) enter::<F> as extern "C" fn(&mut F),
        in("rdi") call,
        out("r12") _,
        clobber_abi("C"),
    );
}

struct Stack(Vec<u8>);

impl Stack {
    fn taken(&mut self, paint: u8, mut call: impl FnMut()) -> usize {
        self.0.fill(paint);
        let top = ROOM - self.0.as_ptr() as usize % 16;
        unsafe { call_at(self.0.as_mut_ptr().add(top), &mut call) };
        top - self.0.iter().position(|&b| b != paint).unwrap_or(top)
    }
}

/// The most bytes that an operation took, for each answer.
struct Operation {
    name: &'static str,
    taken: BTreeMap<u32, usize>,
}

impl Operation {
    fn new(name: &'static str) -> Operation {
        Operation { name, taken: BTreeMap::new() }
    }

    /// Runs a call, which gives the number of its answer.
    fn run(&mut self, stack: &mut Stack, mut call: impl FnMut() -> u32) {
        for paint in [0x5A, 0xA5] {
            let mut number = 0;
            let bytes = stack.taken(paint, || number = call());
            let most = self.taken.entry(number).or_insert(0);
            *most = bytes.max(*most);
        }
    }

    /// Prints a row, and gives the most of it. Just these answers must have occurred.
    fn most(&self, answers: &[u32]) -> usize {
        let occurred: Vec<u32> = self.taken.keys().copied().collect();
        assert_eq!(occurred, answers, "answers of {}", self.name);
        let others = self.taken.range(1..).map(|(_, &bytes)| bytes).max().unwrap();
        println!("{:<14}{:>10}{others:>10}", self.name, self.taken[&0]);
        others.max(self.taken[&0])
    }
}

/// The five lengths, number `wrong` of them too short; with 5 all are right.
fn lengths(wrong: usize) -> [usize; 5] {
    let mut lengths = [USER, SIDE, DC, IMAGE, WORK];
    if wrong < 5 {
        lengths[wrong] -= 1;
    }
    lengths
}

fn writes(stack: &mut Stack, r: &Random) -> usize {
    let mut write = Operation::new("write_image");
    let mut f = Filled::random(r);
    for i in 0..40 {
        let mut c = Cluster::random(r, i);
        match i % 10 {
            6 => c.psn += 1,
            7 => c.psn = ZONES[0].0 - 32,
            8 => c.dc[r.below(DC)] = LARGEST + 1,
            _ => {}
        }
        let n = lengths(i % 10);
        let (user, side, dc) = (&c.user[..n[0]], &c.side[..n[1]], &c.dc[..n[2]]);
        let (image, work) = (&mut f.image[..n[3]], &mut f.work[..n[4]]);
        write.run(stack, || bdre::write_image(user, c.psn, side, dc, c.first, image, work).number);
    }
    write.most(&WRITTEN)
}

/// Images, damaged ones among them, read and marked until every answer has occurred.
fn reads(stack: &mut Stack, r: &Random) -> usize {
    let (mut read, mut mark) = (Operation::new("read_image"), Operation::new("mark_image"));
    let mut fast = Fast::new();
    let mut l = Lent::random(r);
    for i in 0..1000 {
        let mut w = Written::random(r, &mut fast, i);
        let mut c = w.cluster.clone();
        match i % 8 {
            0 => {}
            1 => c.psn += 32,
            2 => c.user[r.below(USER)] ^= 1,
            3 => c.side[r.below(SIDE)] ^= 1,
            _ => drop(damage(r, &mut fast, &mut w)),
        }
        let n = lengths(i % 16);
        let (user, side, dc) = (&mut l.user[..n[0]], &mut l.side[..n[1]], &mut l.dc[..n[2]]);
        let (image, work) = (&w.image[..n[3]], &mut l.work[..n[4]]);
        read.run(stack, || bdre::read_image(image, user, side, dc, work).number);
        mark.run(stack, || bdre::mark_image(c.psn, &c.user, &c.side, image, user, side, dc, work).verdict);
        if i >= 64 && read.taken.len() == READ.len() && mark.taken.len() == MARKED.len() {
            break;
        }
    }
    read.most(&READ).max(mark.most(&MARKED))
}

fn conversions(stack: &mut Stack) -> usize {
    let conversions: [(&'static str, fn(u32) -> bdre::Conversion); 4] = [
        ("psn_to_paa", bdre::psn_to_paa),
        ("paa_to_psn", bdre::paa_to_psn),
        ("psn_to_aun", |psn| bdre::psn_to_aun(psn, 15)),
        ("aun_to_psn", bdre::aun_to_psn),
    ];
    let most = conversions.map(|(name, convert)| {
        let mut conversion = Operation::new(name);
        for (first, last) in ZONES {
            for number in [first, first / 8, first + 1, last + 1, 0] {
                conversion.run(stack, || convert(number).number);
            }
        }
        conversion.most(&CONVERTED)
    });
    most.into_iter().max().unwrap()
}

fn parities(stack: &mut Stack, r: &Random) -> usize {
    let mut parity = Operation::new("parity");
    let data = r.bytes(255);
    for n in 0..=255 {
        for size in [0, 31, 32, 33] {
            let mut lent = r.bytes(size);
            parity.run(stack, || bdre::parity(&data[..n], &mut lent).number);
        }
    }
    parity.most(&COMPLETED)
}

fn sheets(stack: &mut Stack, r: &Random) -> usize {
    let mut sheet = Operation::new("sheet");
    for _ in 0..400 {
        let psns = random_sheet(r);
        sheet.run(stack, || bdre::sheet(&psns).number);
    }
    sheet.most(&ANSWERS)
}

fn queues(stack: &mut Stack, r: &Random) -> usize {
    let mut handle = Operation::new("handle_record");
    for _ in 0..400 {
        let (queue, record) = (random_queue(r), random_record(r, 2));
        handle.run(stack, || bdre::handle_record(queue, &record).number);
    }
    handle.most(&queues::ANSWERS)
}

fn frames(stack: &mut Stack, r: &Random) -> usize {
    let mut needed = Operation::new("most_needed");
    for _ in 0..400 {
        let frame = random_frame(r);
        needed.run(stack, || bdre::most_needed(&frame.row, frame.dc).number);
    }
    needed.most(&ahead::ANSWERS)
}

fn main() {
    let r = &Random::new(0x57AC);
    let stack = &mut Stack(vec![0; ROOM]);
    println!("bytes of stack");
    println!("{:<14}{:>10}{:>10}", "", "answer 0", "others");
    let most = writes(stack, r)
        .max(reads(stack, r))
        .max(conversions(stack))
        .max(parities(stack, r))
        .max(sheets(stack, r))
        .max(queues(stack, r))
        .max(frames(stack, r));
    println!("at most {most}; {LIMIT} are allowed");
    if most > LIMIT {
        std::process::exit(1);
    }
}
