//! The two calls that write an index, and the converter, each held to the reference on one book or on a group of random ones; and books in two orders.

use crate::books::*;
use crate::buffers::{enough, Buffer, Lent, LEAST};
use crate::cases::{middle, small_contradictory, small_sound, Case};
use crate::jobs::seed;
use crate::piecebook::{self, Converted, Outcome};
use crate::reference::{convert, judge, Change, Edition, Expected, Lengths, Seen};
use crate::tally::Tally;
use crate::workspaces::lend;
use std::collections::BTreeMap;
use std::time::Instant;

/// Calls the library once and says what is wrong.
fn compare(random: &mut Random, book: &[u8], claims: Option<&[u8]>, lengths: Lengths) -> (Expected, Option<String>) {
    compare_to(judge(book, Edition::InForce, claims, lengths), random, book, claims, lengths)
}

/// Held to what is expected, perhaps of another book.
fn compare_to(expected: Expected, random: &mut Random, book: &[u8], claims: Option<&[u8]>, lengths: Lengths) -> (Expected, Option<String>) {
    let mut lent = Lent::new(random, lengths);
    let mut after = lent.clone();
    after.apply(&expected.change);
    let (book_before, claims_before) = (book.to_vec(), claims.map(<[u8]>::to_vec));
    let outcome = lent.call(book, claims);
    let wrong = if let Some(doubt) = &expected.doubt {
        Some(format!("the reference is in doubt: {doubt}"))
    } else if outcome != expected.outcome {
        Some(format!("got {outcome:?}, expected {:?}", expected.outcome))
    } else if book != book_before || claims != claims_before.as_deref() {
        Some("the book or the claims were written to".into())
    } else {
        lent.difference(&after)
    };
    (expected, wrong)
}

/// Calls the library on a book and on the same records in another order, from equal buffers. Where no row but 14 refuses the book, all but the place
/// of 14 is the same.
fn reorder(random: &mut Random, case: &Case, claims: Option<&[u8]>) -> (usize, usize, Option<String>) {
    let mut records: Vec<&[u8]> = case.book.chunks(6).collect();
    random.shuffle(&mut records);
    let mut lent = Lent::new(random, case.lengths);
    let mut shuffled = lent.clone();
    let one = lent.call(&case.book, claims);
    let other = shuffled.call(&records.concat(), claims);
    let place = if one.number == 14 { other.place } else { one.place };
    let wrong = if (Outcome { place, ..one }) == other { lent.difference(&shuffled) } else { Some(format!("{one:?} becomes {other:?}")) };
    (one.number, usize::from(one.place != other.place), wrong)
}

/// Converts the book into so much room, and says what is wrong. The new book must come to what the former one came to: index, counts and answers.
fn compare_conversion(random: &mut Random, book: &[u8], room: usize) -> (Converted, Option<String>) {
    let (expected, bytes, doubt) = convert(book, room);
    let mut out = Buffer::new(random, room, |x| x as u8);
    let mut after = out.clone();
    after.write(&bytes);
    let book_before = book.to_vec();
    let got = lend(&[book], |workspace| piecebook::convert(workspace, book, out.lend()));
    let wrong = if let Some(doubt) = doubt {
        Some(format!("the reference is in doubt: {doubt}"))
    } else if got != expected {
        Some(format!("got {got:?}, expected {expected:?}"))
    } else if book != book_before {
        Some("the book was written to".into())
    } else {
        out.difference(&after).map(|at| format!("the output differs at {at}"))
    };
    if wrong.is_some() || expected.number != 0 {
        return (expected, wrong);
    }
    let pieces = judge(book, Edition::Former, None, LEAST).outcome.pieces;
    let claims =
        if pieces <= 12 { all_claims(pieces) } else { [claims(random, pieces, 300), near_claims(random, pieces, 300)].concat() }.concat();
    let lengths = enough(random, claims.len() / 6);
    let wanted = judge(book, Edition::Former, Some(&claims), lengths);
    let new = out.lend()[..got.length].to_vec();
    let (_, wrong) = compare_to(wanted, random, &new, Some(&claims), lengths);
    (expected, wrong.map(|wrong| format!("the new book: {wrong}")))
}

impl Tally {
    pub fn try_case(&mut self, group: &str, number: usize, case: &Case) -> Expected {
        let (expected, wrong) = compare(&mut self.random, &case.book, Some(&case.claims), case.lengths);
        let (_, wrong_index) = compare(&mut self.random, &case.book, None, case.lengths);
        let wrong = wrong.or(wrong_index.map(|wrong| format!("index alone: {wrong}")));
        self.numbers[expected.outcome.number] += 1;
        self.seen.note(&case.book, expected.outcome.number);
        if let Change::IndexAndAnswers(_, bytes) = &expected.change {
            case.claims.chunks(6).zip(bytes).for_each(|(claim, &byte)| self.answers[usize::from(claim[1])][usize::from(byte)] += 1);
        }
        self.count(wrong.map(|wrong| {
            let bytes = if case.book.len() <= 600 { format!("{:?}", case.book) } else { format!("{} bytes", case.book.len()) };
            format!("{group}, book {number}: {wrong}; book {bytes}, {} bytes of claims, {:?}", case.claims.len(), case.lengths)
        }));
        expected
    }

    pub fn try_conversion(&mut self, group: &str, number: usize, book: &[u8], room: usize) -> Converted {
        let (expected, wrong) = compare_conversion(&mut self.random, book, room);
        self.conversions[expected.number] += 1;
        self.count(wrong.map(|wrong| {
            let bytes = if book.len() <= 600 { format!("{book:?}") } else { format!("{} bytes", book.len()) };
            format!("{group}, book {number}: {wrong}; book {bytes}, room {room}")
        }));
        expected
    }

    /// A group of random books, each made from the group's random numbers; prints one line.
    pub fn group(&mut self, name: &str, count: usize, make: impl Fn(&mut Random, usize) -> Case) {
        let start = Instant::now();
        let failed = self.failed;
        let mut random = seed(name);
        let mut numbers = BTreeMap::new();
        let mut answers = [0; 4];
        for number in 0..count {
            let case = make(&mut random, number);
            let expected = self.try_case(name, number, &case);
            *numbers.entry(expected.outcome.number).or_insert(0) += 1;
            if let Change::IndexAndAnswers(_, bytes) = &expected.change {
                bytes.iter().for_each(|&byte| answers[usize::from(byte)] += 1);
            }
        }
        let accepted = numbers.remove(&0).unwrap_or(0);
        let refused: Vec<String> = numbers.iter().map(|(number, count)| format!("{number}: {count}")).collect();
        let line = format!(
            "{name}: {count} books, {accepted} accepted, refused {{{}}}; answers {} FOLLOWS, {} DENIED, {} OPEN; {} failed; {:.1} s",
            refused.join(", "),
            answers[1],
            answers[2],
            answers[3],
            self.failed - failed,
            start.elapsed().as_secs_f64()
        );
        self.say(line);
    }

    /// A group of random books to convert; prints one line.
    pub fn converted(&mut self, name: &str, count: usize, make: impl Fn(&mut Random, usize) -> (Vec<u8>, usize)) {
        let start = Instant::now();
        let failed = self.failed;
        let mut random = seed(name);
        let mut numbers = BTreeMap::new();
        let (mut with_trays, mut grown) = (0, 0);
        for number in 0..count {
            let (book, room) = make(&mut random, number);
            let expected = self.try_conversion(name, number, &book, room);
            *numbers.entry(expected.number).or_insert(0) += 1;
            let kept = book.chunks_exact(6).filter(|r| r[0] != TRAY).count();
            with_trays += usize::from(expected.number == 0 && 6 * kept < book.len());
            grown += usize::from(expected.number == 0 && 6 * kept < expected.length);
        }
        let accepted = numbers.remove(&0).unwrap_or(0);
        let refused: Vec<String> = numbers.iter().map(|(number, count)| format!("{number}: {count}")).collect();
        let line = format!(
            "{name}: {count} books, {accepted} converted, {with_trays} of them with trays, {grown} with a record added, refused {{{}}}; {} failed; {:.1} s",
            refused.join(", "),
            self.failed - failed,
            start.elapsed().as_secs_f64()
        );
        self.say(line);
    }
}

/// Books in two orders, on both calls.
pub fn reordered(tally: &mut Tally, count: usize) {
    let failed = tally.failed;
    let mut random = Random(8);
    let (mut moved, mut seen) = (0, Seen::default());
    for number in 0..count {
        let case = match number % 50 {
            0 => {
                let shape = some_shape(&mut random);
                middle(&mut random, shape, number / 50)
            }
            n if n % 3 == 1 => small_contradictory(&mut random),
            _ => small_sound(&mut random),
        };
        let (number_given, place, wrong) = reorder(&mut random, &case, Some(&case.claims));
        let (_, _, wrong_index) = reorder(&mut random, &case, None);
        moved += place;
        seen.note(&case.book, number_given);
        tally.count(wrong.or(wrong_index).map(|wrong| format!("reordered, book {number}: {wrong}; book {:?}", case.book)));
    }
    tally.count((moved == 0).then(|| "the place of 14 never moved".into()));
    tally.circles_occurred("reordered", &seen);
    let line =
        format!("reordered: {count} books, the place of 14 moved in {moved}, {} circles; {} failed", seen.circles(), tally.failed - failed);
    tally.say(line);
}
