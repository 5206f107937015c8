//! The grids of books of few pieces: every bit against the library's own question call and against the reference's answer.

use crate::books::*;
use crate::piecebook::{self, Grids, Parts, FOLLOWS, MARKS, PARENTHESES, PLACES, SHADOWS};
use crate::reference::{judge, Change, Edition, Lengths, Seen};
use crate::tally::Tally;
use crate::workspaces::lend;
use std::time::Instant;

const KINDS: [u8; 4] = [PART, APART, MEETS, NOTPART];

/// All claims of one kind about every two of the pieces, at most 4,096.
fn claims_of(kind: u8, pieces: usize) -> Vec<u8> {
    (0..pieces).flat_map(|a| (0..pieces).flat_map(move |b| record(kind, a, b))).collect()
}

/// One grid from the answers to all claims of its kind.
fn grid_of(pieces: usize, answers: &[u8]) -> [u64; 64] {
    let mut rows = [0; 64];
    for (i, _) in answers.iter().enumerate().filter(|(_, &answer)| answer == FOLLOWS) {
        rows[i / pieces] |= 1 << (i % pieces);
    }
    rows
}

fn answered(book: &[u8], claims: &[u8]) -> Vec<u8> {
    let mut index =
        Parts { parentheses: &mut [0; PARENTHESES], marks: &mut [0; MARKS], shadows: &mut [0; SHADOWS], places: &mut [0; PLACES] };
    let mut answers = vec![0; claims.len() / 6];
    lend(&[book], |workspace| piecebook::answer(workspace, book, claims, &mut index, &mut answers));
    answers
}

/// What the call must return, or where the reference or the question call disagrees.
fn expected(book: &[u8]) -> Result<Grids, String> {
    let lengths = Lengths { parentheses: PARENTHESES, marks: MARKS, shadows: SHADOWS, places: PLACES, answers: 4096 };
    let whole = judge(book, Edition::InForce, None, lengths);
    let pieces = whole.outcome.pieces;
    let (number, place) = if pieces > 64 { (16, 0) } else { (whole.outcome.number, whole.outcome.place) };
    let mut grids = Grids { number, place, part: [0; 64], apart: [0; 64], meets: [0; 64], notpart: [0; 64] };
    if let Some(doubt) = whole.doubt {
        return Err(doubt);
    }
    if number != 0 {
        return Ok(grids);
    }
    for kind in KINDS {
        let claims = claims_of(kind, pieces);
        let wanted = judge(book, Edition::InForce, Some(&claims), lengths);
        let Change::IndexAndAnswers(_, answers) = wanted.change else { return Err("no answers".into()) };
        if let Some(doubt) = wanted.doubt {
            return Err(doubt);
        }
        if answered(book, &claims) != answers {
            return Err(format!("the question call answers claims of kind {kind} otherwise"));
        }
        let rows = grid_of(pieces, &answers);
        match kind {
            PART => grids.part = rows,
            APART => grids.apart = rows,
            MEETS => grids.meets = rows,
            _ => grids.notpart = rows,
        }
    }
    Ok(grids)
}

/// A book of some pieces, at times contradictory or damaged, or with too many.
fn some_book(random: &mut Random, number: usize) -> Vec<u8> {
    let pieces = match number % 8 {
        0 => random.range(63, 67),
        1 => random.range(1, 200),
        2..=4 => random.range(14, 65),
        _ => random.range(1, 14),
    };
    let shape = some_shape(random);
    let records = 4 * pieces + random.below(40);
    let facts = random.below(2 * pieces + 1);
    let voids = random.pick(&[0, 0, 1, 4]);
    let mut book = sound(random, Plan { shape, pieces, records, facts, voids, fill: false });
    if number % 7 == 3 {
        let facts = random.range(1, 5);
        contradict(random, &mut book, pieces, facts);
    }
    // so that the last piece is named
    let last = record(MEETS, pieces - 1, 0);
    if number % 8 == 0 && !book.contains(&last) {
        book.push(last);
    }
    let mut bytes = book.concat();
    if number % 11 == 5 {
        damage(random, &mut bytes);
    }
    bytes
}

/// Compares the grids of one book; counts its number.
fn compare(book: &[u8], numbers: &mut [usize], seen: &mut Seen) -> Option<String> {
    let wanted = match expected(book) {
        Ok(grids) => grids,
        Err(doubt) => return Some(doubt),
    };
    numbers[wanted.number] += 1;
    seen.note(book, wanted.number);
    let got = lend(&[book], |workspace| piecebook::grid(workspace, book));
    (got != wanted).then(|| format!("got {:?}, expected {:?}, or another bit", (got.number, got.place), (wanted.number, wanted.place)))
}

/// Compares the grids of so many random books; what is wrong, a line each.
pub fn compare_all(random: &mut Random, count: usize, numbers: &mut [usize], seen: &mut Seen) -> Vec<Option<String>> {
    (0..count)
        .map(|number| {
            let book = some_book(random, number);
            compare(&book, numbers, seen).map(|wrong| format!("book {number}: {wrong}; {book:?}"))
        })
        .collect()
}

/// The grids of books of few pieces.
pub fn stage(tally: &mut Tally, count: usize) {
    let start = Instant::now();
    let failed = tally.failed;
    let (mut numbers, mut seen) = ([0; 20], Seen::default());
    for wrong in compare_all(&mut Random(64), count, &mut numbers, &mut seen) {
        tally.count(wrong.map(|wrong| format!("grids, {wrong}")));
    }
    tally.occurred("grids", &numbers, &[0, 3, 5, 6, 7, 9, 14, 16, 19]);
    tally.circles_occurred("grids", &seen);
    let line = format!(
        "grids: {count} books, {} accepted, {} circles; {} failed; {:.1} s",
        numbers[0],
        seen.circles(),
        tally.failed - failed,
        start.elapsed().as_secs_f64()
    );
    tally.say(line);
}
