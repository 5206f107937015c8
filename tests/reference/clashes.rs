//! The chain behind a contradiction against the papers' words. What the library writes of a book that 14 refuses must pass its own check and the one below; then bytes of good chains, and
//! of the books themselves, are damaged, and the two checks must agree on each.

use crate::books::*;
use crate::buffers::{Buffer, LEAST};
use crate::cases::{damaged, middle, small_contradictory, small_sound};
use crate::edges::many;
use crate::piecebook::{self, Clashed};
use crate::reference::{judge, read_book, Edition, Seen};
use crate::steps::{damage, follow, number, repeated, Step, ROOM};
use crate::tally::Tally;
use crate::workspaces::lend;
use std::time::Instant;

/// What must occur: numbers, rule numbers in chains that the library writes, marks cited from behind the place, damaged chains that pass and that do not, chains that cite a record from the place
/// on, altered books on which a chain still passes and does not, and circles.
#[derive(Default)]
pub struct Met {
    pub numbers: [usize; 20],
    pub rules: [usize; 12],
    pub marks_behind: usize,
    pub damaged: [usize; 2],
    pub late: usize,
    pub altered: [usize; 2],
    pub longest: usize,
    pub seen: Seen,
}

/// A book with what it comes to without claims.
struct Judged {
    book: Vec<u8>,
    number: usize,
    place: usize,
}

impl Judged {
    fn new(book: Vec<u8>) -> Judged {
        let outcome = judge(&book, Edition::InForce, None, LEAST).outcome;
        Judged { book, number: outcome.number, place: outcome.place }
    }

    /// The papers' check: 14 refuses the book, each step follows from facts of records before the place and from marks wherever they stand, and the last shows the opposite of the record there.
    fn passes(&self, chain: &[u8]) -> bool {
        let Ok(read) = read_book(&self.book, Edition::InForce) else { return false };
        if self.number != 14 {
            return false;
        }
        let clashing = &self.book[6 * self.place..][..6];
        let last = follow(&self.book, read.pieces, chain, |record, _| record < self.place);
        last.is_some_and(|last| last.shows(5 - clashing[0], number(clashing, 2), number(clashing, 4)))
    }

    /// The library's check must say the same.
    fn check(&self, chain: &[u8]) -> Result<bool, String> {
        let wanted = self.passes(chain);
        let got = lend(&[&self.book], |workspace| piecebook::clash_check(workspace, &self.book, chain));
        if got != usize::from(wanted) {
            return Err(format!("the checks disagree, {wanted} by the reference: chain {chain:?}"));
        }
        Ok(wanted)
    }

    /// The library's chain, held to both checks.
    fn write(&self, random: &mut Random, room: usize, met: &mut Met) -> Result<Vec<u8>, String> {
        let (number, place) = if room < ROOM { (15, 0) } else { (self.number, self.place) };
        let mut steps = Buffer::new(random, room, |x| x as u8);
        let mut after = steps.clone();
        let before = self.book.clone();
        let got = lend(&[&self.book], |workspace| piecebook::clash(workspace, &self.book, steps.lend()));
        met.numbers[number] += 1;
        if got != (Clashed { number, place, steps: got.steps }) || got.steps > 16400 || (got.steps > 0) != (number == 14) {
            return Err(format!("got {got:?}, expected number {number}, place {place}"));
        }
        let written = steps.lend()[..10 * got.steps].to_vec();
        after.write(&written);
        if let Some(at) = steps.difference(&after) {
            return Err(format!("the steps differ behind the chain, at {at}"));
        }
        if before != self.book {
            return Err("the book was written to".into());
        }
        if self.check(&written)? != (number == 14) {
            return Err(format!("a written chain does not pass: {written:?}"));
        }
        if let Some(twice) = repeated(&written) {
            return Err(format!("{twice}: chain {written:?}"));
        }
        for step in written.chunks(10).map(Step::read) {
            met.rules[usize::from(step.rule)] += 1;
            met.marks_behind += usize::from(step.rule > 9 && step.first > place);
        }
        met.longest = met.longest.max(got.steps);
        Ok(written)
    }

    /// The chain with a stored step cited from a record behind the place that states the same, which no longer passes.
    fn cite_late(&self, chain: &[u8], met: &mut Met) -> Result<(), String> {
        for at in (0..chain.len()).step_by(10).filter(|&at| chain[at] == 0) {
            let same = |record: usize| {
                let (one, other) = (&self.book[6 * number(chain, at + 6)..][..6], &self.book[6 * record..][..6]);
                one[0] == other[0] && one[2..] == other[2..]
            };
            for record in (self.place..self.book.len() / 6).filter(|&record| same(record)) {
                let mut bytes = chain.to_vec();
                bytes[at + 6..at + 8].copy_from_slice(&(record as u16).to_le_bytes());
                met.late += 1;
                if self.check(&bytes)? {
                    return Err(format!("a chain that cites record {record} passes: {bytes:?}"));
                }
            }
        }
        Ok(())
    }
}

/// Mostly contradictory, with marks and with facts of the other origin again behind the place.
fn some_book(random: &mut Random, number: usize) -> Vec<u8> {
    match number % 16 {
        0 | 1 => return damaged(random, number).book,
        2..=4 => return small_sound(random).book,
        5 if number % 160 == 5 => return many(8193).concat(),
        6 if number % 80 == 6 => {
            let shape = random.pick(&FREE);
            return middle(random, shape, 3).book;
        }
        _ => {}
    }
    let mut book: Vec<Bytes> = small_contradictory(random).book.chunks(6).map(|r| r.try_into().expect("six bytes")).collect();
    for _ in 0..random.below(12) {
        let one = random.pick(&book);
        let again = of(1 - one[1], one);
        if !book.contains(&again) {
            book.push(again);
        }
    }
    book.concat()
}

/// The chain of one book, damaged chains, and the chain on a book that is not quite the same.
fn play(random: &mut Random, number: usize, met: &mut Met) -> Option<String> {
    let judged = Judged::new(some_book(random, number));
    met.seen.note(&judged.book, judged.number);
    let room = if random.one_in(20) { ROOM - 1 - random.below(3) * random.below(ROOM) / 3 } else { ROOM + random.below(30) };
    let mut tried = || -> Result<(), String> {
        let written = judged.write(random, room, met)?;
        if written.is_empty() {
            // no steps, and steps on a book that 14 does not refuse
            judged.check(&[])?;
            judged.check(&[9, MEETS, 0, 0, 0, 0, 0, 0, 0, 0])?;
            return Ok(());
        }
        for _ in 0..8 {
            let bytes = damage(random, &written);
            met.damaged[usize::from(judged.check(&bytes)?)] += 1;
        }
        judged.cite_late(&written, met)?;
        for _ in 0..2 {
            let mut book = judged.book.clone();
            crate::books::damage(random, &mut book);
            met.altered[usize::from(Judged::new(book).check(&written)?)] += 1;
        }
        Ok(())
    };
    tried().err().map(|wrong| format!("{wrong}; book {:?}", judged.book))
}

/// The printed session with MEETS 5 3 behind it: APART 5 3 is shown, which takes more than one step.
fn session(random: &mut Random, met: &mut Met) -> Option<String> {
    let book = [include_bytes!("../../examples/book.rec").to_vec(), record(MEETS, 5, 3).to_vec()].concat();
    let judged = Judged::new(book);
    let written = match judged.write(random, ROOM, met) {
        Ok(written) => written,
        Err(wrong) => return Some(format!("the session and MEETS 5 3: {wrong}")),
    };
    let shows = written.len() > 10 && Step::read(&written[written.len() - 10..]).shows(APART, 5, 3);
    (judged.place != 9 || !shows).then(|| format!("the session and MEETS 5 3: place {}, chain {written:?}", judged.place))
}

/// Books of one or two records with the whole chain that they must have.
fn by_hand(random: &mut Random, met: &mut Met) -> Option<String> {
    let cases = [
        ("APART 2 2", vec![record(APART, 2, 2)], vec![9, MEETS, 2, 0, 2, 0, 0, 0, 0, 0]),
        ("NOTPART 1 0", vec![record(NOTPART, 1, 0)], vec![4, PART, 1, 0, 0, 0, 0, 0, 0, 0]),
        ("NOTPART 2 2", vec![record(NOTPART, 2, 2)], vec![3, PART, 2, 0, 2, 0, 0, 0, 0, 0]),
        ("MEETS 1 1 and a mark behind it", vec![record(MEETS, 1, 1), record(VOID, 1, 0)], vec![10, APART, 1, 0, 1, 0, 1, 0, 0, 0]),
        ("NOTPART 1 2 and a mark behind it", vec![record(NOTPART, 1, 2), record(VOID, 1, 0)], vec![11, PART, 1, 0, 2, 0, 1, 0, 0, 0]),
        ("APART 3 4 and MEETS 3 4", vec![record(APART, 3, 4), record(MEETS, 3, 4)], vec![0, APART, 3, 0, 4, 0, 0, 0, 0, 0]),
    ];
    cases.into_iter().find_map(|(name, book, wanted)| match Judged::new(book.concat()).write(random, ROOM, met) {
        Ok(written) => (written != wanted).then(|| format!("{name}: {written:?}")),
        Err(wrong) => Some(format!("{name}: {wrong}")),
    })
}

/// Chains behind contradictions, those that the library writes and damaged ones.
pub fn stage(tally: &mut Tally, count: usize) {
    let start = Instant::now();
    let failed = tally.failed;
    let mut random = Random(14);
    let mut met = Met::default();
    for wrong in [session, by_hand] {
        let wrong = wrong(&mut random, &mut met);
        tally.count(wrong.map(|wrong| format!("clashes, {wrong}")));
    }
    for number in 0..count {
        let wrong = play(&mut random, number, &mut met);
        tally.count(wrong.map(|wrong| format!("clashes, book {number}: {wrong}")));
    }
    tally.occurred("clashes", &met.numbers, &[0, 3, 4, 5, 6, 7, 9, 14, 15, 19]);
    tally.circles_occurred("clashes", &met.seen);
    for (rule, count) in met.rules.iter().enumerate() {
        tally.count((*count == 0).then(|| format!("clashes: rule {rule} was never cited")));
    }
    for (what, count) in [
        ("mark cited from behind the place", met.marks_behind),
        ("record cited from the place on", met.late),
        ("damaged chain fails", met.damaged[0]),
        ("damaged chain passes", met.damaged[1]),
        ("chain fails on an altered book", met.altered[0]),
        ("chain passes on an altered book", met.altered[1]),
    ] {
        tally.count((count == 0).then(|| format!("clashes: no {what}")));
    }
    let line = format!(
        "clashes: {count} books, {} chains, the longest of {} steps, {} marks from behind the place; {} damaged ones, of which {} pass, {} that cite too late a record; {} failed; {:.1} s",
        met.numbers[14],
        met.longest,
        met.marks_behind,
        met.damaged[0] + met.damaged[1],
        met.damaged[1],
        met.late,
        tally.failed - failed,
        start.elapsed().as_secs_f64()
    );
    tally.say(line);
}
