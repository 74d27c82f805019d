//! The library and the reference on the same input and the same slices. The first difference ends the program with status 1.
use crate::bdre;
use crate::clusters::{Cluster, Filled, Lent};
use crate::reference::fast::Fast;
use crate::reference::plain;
use crate::reference::queue;

fn differ(what: &str) -> ! {
    println!("DIFFERENT: {what}");
    std::process::exit(1)
}

pub fn agree(same: bool, what: impl Fn() -> String) {
    if !same {
        differ(&what());
    }
}

/// The writer and the reference's plain path: answer, image and work.
pub fn write(c: &Cluster, before: &Filled, what: &str) -> (u32, Filled) {
    let (mut ours, mut theirs) = (before.clone(), before.clone());
    let a = bdre::write_image(&c.user, c.psn, &c.side, &c.dc, c.first, &mut ours.image, &mut ours.work);
    let b = plain::write(&c.user, c.psn, &c.side, &c.dc, c.first, &mut theirs.image, &mut theirs.work);
    agree((a.number, a.place) == b, || format!("{what}: written {a:?}, by the reference {b:?}"));
    agree(ours.image == theirs.image, || format!("{what}: image, at {a:?}"));
    agree(ours.work == theirs.work, || format!("{what}: work, at {a:?}"));
    agree(a.number == 0 || ours == *before, || format!("{what}: slices touched at {a:?}"));
    (a.number, ours)
}

/// The reader and the reference's fast path, where it is asked for also the plain one: answer, PSN, first # and every slice.
pub fn read(image: &[u8], before: &Lent, fast: &mut Fast, by_plain: bool, what: &str) -> (bdre::ReadAnswer, Lent) {
    let mut ours = before.clone();
    let a = bdre::read_image(image, &mut ours.user, &mut ours.side, &mut ours.dc, &mut ours.work);
    let judge = |name: &str, b: (u32, usize, u32, bool), theirs: &Lent| {
        agree((a.number, a.place, a.psn, a.first) == b, || {
            format!("{what}: read {a:?}, by the reference ({name}) {b:?}")
        });
        agree(ours.user == theirs.user, || format!("{what}: user data, at {a:?} ({name})"));
        agree(ours.side == theirs.side, || format!("{what}: side data, at {a:?} ({name})"));
        agree(ours.dc == theirs.dc, || format!("{what}: dc words, at {a:?} ({name})"));
        agree(ours.work == theirs.work, || format!("{what}: work, at {a:?} ({name})"));
    };
    let mut theirs = before.clone();
    let b = fast.read(image, &mut theirs.user, &mut theirs.side, &mut theirs.dc, &mut theirs.work);
    judge("fast", b, &theirs);
    if by_plain {
        let mut theirs = before.clone();
        let b = plain::read(image, &mut theirs.user, &mut theirs.side, &mut theirs.dc, &mut theirs.work);
        judge("plain", b, &theirs);
    }
    holds(a, image, &ours, before, what);
    (a, ours)
}

/// What document 01's table says of the slices that were read into, beside what the reference does.
fn holds(a: bdre::ReadAnswer, image: &[u8], ours: &Lent, before: &Lent, what: &str) {
    if a.number == 0 {
        let mut again = Filled { image: vec![0; bdre::IMAGE], work: vec![0; bdre::WORK] };
        let b = bdre::write_image(&ours.user, a.psn, &ours.side, &ours.dc, a.first, &mut again.image, &mut again.work);
        let same = b.number == 0 && again.image == image && again.work == ours.work;
        agree(same, || format!("{what}: what was read is not what the image is made of"));
        return;
    }
    agree(a.psn == 0 && !a.first, || format!("{what}: a PSN or a first # at {a:?}"));
    let same = ours.user == before.user && ours.side == before.side && ours.dc == before.dc;
    agree(same, || format!("{what}: an output slice touched at {a:?}"));
    let work = if a.number < 9 { ours.work == before.work } else { ours.work.iter().all(|&b| b == 0) };
    agree(work, || format!("{what}: work at {a:?}"));
}

/// The marker and the reference's over its fast path: verdict and every slice.
pub fn mark(given: &Cluster, image: &[u8], before: &Lent, fast: &mut Fast, what: &str) -> u32 {
    let (mut ours, mut theirs) = (before.clone(), before.clone());
    let (psn, user, side) = (given.psn, &given.user, &given.side);
    let o = &mut ours;
    let a = bdre::mark_image(psn, user, side, image, &mut o.user, &mut o.side, &mut o.dc, &mut o.work);
    let t = &mut theirs;
    let b =
        plain::mark(psn, user, side, &mut t.user, &mut t.side, |u, s| fast.read(image, u, s, &mut t.dc, &mut t.work));
    agree((a.verdict, a.number, a.psn, a.place) == b, || format!("{what}: marked {a:?}, by the reference {b:?}"));
    agree(ours == theirs, || format!("{what}: slices of the marker, at {a:?}"));
    a.verdict
}

/// A record handled by the library and by the reference: the answer, what is reported, the turn and every order. An order that the reference leaves
/// is to be just as it was, whatever its PSN.
pub fn handle(before: &bdre::Queue, record: &[u8]) -> bdre::Handled {
    let a = bdre::handle_record(*before, record);
    let what = |part: &str| format!("record {record:02X?} on {before:?}: {part}, handled {a:?}");
    let waiting = before.orders.map(|order| order.waiting.then_some(order.psn));
    let mut theirs = queue::Queue { waiting, turn: before.turn };
    let b = theirs.order(record);
    agree((a.number, a.place, a.bench, a.psn) == b, || what(&format!("by the reference {b:?}")));
    agree(a.queue.turn == theirs.turn, || what("turn"));
    for bench in 0..bdre::BENCHES {
        let order = match theirs.waiting[bench] {
            same if same == waiting[bench] => before.orders[bench],
            None => bdre::Order::default(),
            Some(psn) => bdre::Order { waiting: true, psn },
        };
        agree(a.queue.orders[bench] == order, || what(&format!("order of bench {bench}")));
    }
    agree(a.number == 0 || a.queue == *before, || what("the queue"));
    a
}
