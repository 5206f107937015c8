//! Compares the library's calls with the reference on many books: the outcome, every answer and every byte of every buffer, with guard
//! values before and behind what is lent. The last line is 'N passed, M failed', where N + M are the books compared and the numbers and answers that must occur.
//! What is compared is cut into parts that need nothing of each other; threads take these one after another, and what they found is told in the order of the parts.
//! Each thread has the stack that the header asks for, 1 MiB, and a workspace of its own.

mod books;
mod buffers;
mod calls;
mod cases;
mod catalogs;
mod chains;
mod clashes;
mod compare;
mod days;
mod deepest;
mod edges;
mod jobs;
mod piecebook;
mod records;
mod reference;
mod replicates;
mod rules;
mod shapes;
mod sheets;
mod steps;
mod tally;
mod texts;
mod workspaces;

use jobs::seed;
use std::collections::BTreeMap;
use std::sync::{mpsc, Mutex};
use tally::Tally;

/// What the header asks of a caller.
const STACK: usize = 1 << 20;

/// Compares them all, `times` as many random books where that is more than once, on so many threads.
fn run(times: usize, threads: usize) -> bool {
    let jobs = jobs::all(times);
    let count = jobs.len();
    let waiting = Mutex::new(jobs.into_iter().enumerate());
    let (done, told) = mpsc::channel();
    let mut tally = Tally::new(seed("all"));
    std::thread::scope(|scope| {
        for _ in 0..threads {
            let (waiting, done) = (&waiting, done.clone());
            let work = move || loop {
                // a statement of its own: in the head of a loop the lock would be held while the part is tried
                let next = waiting.lock().expect("no thread has failed").next();
                let Some((number, (name, job))) = next else { break };
                let mut tally = Tally::new(seed(&format!("lent, {name}")));
                workspaces::begin(seed(&format!("workspace, {name}")));
                job(&mut tally);
                tally.count(workspaces::broken().map(|wrong| format!("{name}: {wrong}")));
                done.send((number, tally)).expect("all are awaited");
            };
            std::thread::Builder::new().stack_size(STACK).spawn_scoped(scope, work).expect("a thread");
        }
        drop(done);
        let mut early = BTreeMap::new();
        let mut next = 0;
        for (number, part) in told {
            early.insert(number, part);
            while let Some(part) = early.remove(&next) {
                part.lines.iter().for_each(|line| println!("{line}"));
                tally.add(&part);
                next += 1;
            }
        }
        tally.count((next != count).then(|| format!("{next} of {count} parts were tried")));
    });
    tally.all_occurred();
    tally.lines.iter().for_each(|line| println!("{line}"));
    println!("{} passed, {} failed", tally.passed, tally.failed);
    tally.failed == 0
}

pub fn main() {
    let number = |at: usize| std::env::args().nth(at).map(|text| text.parse::<usize>().expect("a number"));
    let times = number(1).unwrap_or(1);
    // plain C has its matrices in one place
    let threads =
        if cfg!(plain) { 1 } else { number(2).unwrap_or_else(|| std::thread::available_parallelism().map_or(1, |cores| cores.get())) };
    std::process::exit(if run(times, threads) { 0 } else { 1 });
}
