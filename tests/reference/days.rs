//! Days of a working book: additions, withdrawals and claims in any order, against a plain list of records and the reference's fresh call.

use crate::books::*;
use crate::piecebook::{Working, WorkingOutcome, AREA, MARKS, PARENTHESES, PLACES, SHADOWS};
use crate::reference::{judge, Change, Edition, Lengths, Seen};
use crate::tally::Tally;
use crate::workspaces::lend;
use std::time::Instant;

enum Operation {
    Start,
    Add(Vec<u8>),
    Withdraw(usize),
    Ask(Vec<u8>),
}

/// The fresh call on a run of records with its claims: number and place, the piece count, and the first answer.
fn fresh(run: &[u8], claims: &[u8]) -> (usize, usize, usize, usize) {
    let lengths = Lengths { parentheses: PARENTHESES, marks: MARKS, shadows: SHADOWS, places: PLACES, answers: 1 };
    let expected = judge(run, Edition::InForce, Some(claims), lengths);
    let answer = match &expected.change {
        Change::IndexAndAnswers(_, answers) => answers.first().map_or(0, |&byte| usize::from(byte)),
        _ => 0,
    };
    (expected.outcome.number, expected.outcome.place, expected.outcome.pieces, answer)
}

/// What the operation must come to, and what it must leave.
fn expected(state: Working, area: &[u8], operation: &Operation) -> (WorkingOutcome, Working, Vec<u8>) {
    let refused = |number, place| (WorkingOutcome { number, place, answer: 0 }, state, area.to_vec());
    if area.len() < AREA {
        return refused(1, 0);
    }
    if !matches!(operation, Operation::Start) && state.records > 8192 {
        return refused(4, 0);
    }
    let standing = || area[..6 * state.records].to_vec();
    let run = match operation {
        Operation::Start => Vec::new(),
        Operation::Add(record) if record.len() != 6 => return refused(3, 0),
        Operation::Add(record) => [standing(), record.clone()].concat(),
        Operation::Withdraw(number) if *number >= state.records => return refused(18, 0),
        Operation::Withdraw(number) => {
            let mut records: Vec<Vec<u8>> = standing().chunks(6).map(<[u8]>::to_vec).collect();
            records.remove(*number);
            records.concat()
        }
        Operation::Ask(claim) if claim.len() != 6 => {
            // the rows of the records come first, then the claim's length
            let (number, place, ..) = fresh(&standing(), &[1; 1]);
            return refused(number, place);
        }
        Operation::Ask(claim) => {
            let (number, place, _, answer) = fresh(&standing(), claim);
            return (WorkingOutcome { number, place, answer }, state, area.to_vec());
        }
    };
    let (number, place, pieces, _) = fresh(&run, &[]);
    if number != 0 {
        return refused(number, place);
    }
    let mut left = area.to_vec();
    left[..AREA].fill(0);
    left[..run.len()].copy_from_slice(&run);
    (WorkingOutcome { number: 0, place: 0, answer: 0 }, Working { records: run.len() / 6, pieces }, left)
}

fn some_bytes(random: &mut Random, sound: &[Bytes]) -> Vec<u8> {
    let mut bytes = random.pick(sound).to_vec();
    match random.below(12) {
        0 => bytes.truncate(random.below(6)),
        1 => bytes.extend_from_slice(&random.pick(sound)),
        2 => bytes[random.below(6)] = random.next() as u8,
        _ => {}
    }
    bytes
}

fn operation(random: &mut Random, records: &[Bytes], claims: &[Bytes], standing: usize) -> Operation {
    match random.below(40) {
        0 => Operation::Start,
        1..=19 => Operation::Add(some_bytes(random, records)),
        20..=27 => Operation::Withdraw(random.below(standing.min(8192) + 2)),
        _ => Operation::Ask(some_bytes(random, claims)),
    }
}

/// Alters counts or bytes from outside, as no call would.
fn alter(random: &mut Random, state: &mut Working, area: &mut [u8]) {
    match random.below(5) {
        0 => state.pieces = random.below(5000),
        1 => state.records = random.below(12),
        2 => state.records = random.pick(&[8192, 8193, usize::MAX]),
        3 => area[random.below(200)] = random.next() as u8,
        _ => area[6 * state.records.min(8000)..][..60].fill(7),
    }
}

/// What must occur: numbers, and books that stand or that an operation would have made.
#[derive(Default)]
pub struct Met {
    pub numbers: [usize; 20],
    pub seen: Seen,
}

/// Plays a day; what went wrong, if anything.
pub fn play(random: &mut Random, day: usize, met: &mut Met) -> Option<String> {
    let (shape, pieces) = match day % 3 {
        0 => (random.pick(&RISING), random.range(2, 9)),
        1 => (FREE[day / 3 % FREE.len()], random.range(2, 9)),
        _ => (FREE[day / 3 % FREE.len()], random.range(11, 15)),
    };
    let mut records = sound(random, Plan { shape, pieces, records: 30, facts: 8, voids: 1, fill: false });
    let together = records.clone();
    let mut early: Vec<Bytes> = vec![];
    contradict(random, &mut records, pieces, 6);
    throw_marks(random, &mut records, pieces, 2);
    let claims = all_claims(pieces + 1);
    let behind = random.below(30);
    let mut area: Vec<u8> = (0..AREA + behind).map(|_| random.next() as u8).collect();
    let mut state = Working { records: 0, pieces: 0 };
    let mut next = Operation::Start;
    for number in 0..300 {
        let short = random.one_in(60);
        let length = if short { random.below(AREA) } else { area.len() };
        let (wanted, state_left, area_left) = expected(state, &area[..length], &next);
        let lent = &mut area[..length];
        let got = lend(&[&records.concat()], |workspace| match &next {
            Operation::Start => state.start(workspace, lent),
            Operation::Add(record) => state.add(workspace, lent, record),
            Operation::Withdraw(at) => state.withdraw(workspace, lent, *at),
            Operation::Ask(claim) => state.ask(workspace, lent, claim),
        });
        if got != wanted || state != state_left || area[..length] != area_left[..] {
            return Some(format!("operation {number}: {got:?}, not {wanted:?}; counts {state:?}, not {state_left:?}"));
        }
        met.numbers[wanted.number] += 1;
        match &next {
            Operation::Add(record) if wanted.number == 14 => met.seen.note(&[&area[..6 * state.records], record].concat(), 14),
            Operation::Add(_) | Operation::Withdraw(_) if wanted.number == 0 => met.seen.note(&area[..6 * state.records], 0),
            _ => {}
        }
        if random.one_in(25) {
            alter(random, &mut state, &mut area);
        }
        // from time to time the records that can stand together come in first
        if matches!(next, Operation::Start) {
            early = together[..random.pick(&[0, together.len() / 2, together.len()])].to_vec();
        }
        next = early.pop().map_or_else(|| operation(random, &records, &claims, state.records), |record| Operation::Add(record.to_vec()));
    }
    None
}

/// Days of a working book.
pub fn stage(tally: &mut Tally, count: usize) {
    let start = Instant::now();
    let failed = tally.failed;
    let mut random = Random(9);
    let mut met = Met::default();
    for day in 0..count {
        let wrong = play(&mut random, day, &mut met);
        tally.count(wrong.map(|wrong| format!("day {day}, {wrong}")));
    }
    tally.occurred("working books", &met.numbers, &[0, 1, 3, 4, 5, 6, 7, 9, 10, 12, 13, 14, 18, 19]);
    tally.circles_occurred("working books", &met.seen);
    let line = format!(
        "working books: {count} days, {} circles; {} failed; {:.1} s",
        met.seen.circles(),
        tally.failed - failed,
        start.elapsed().as_secs_f64()
    );
    tally.say(line);
}
