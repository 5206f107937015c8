//! Pairs of books against document 02's words for R-12: each book by itself among the pieces of the larger, and the records of both as one list.

use crate::books::*;
use crate::buffers::Buffer;
use crate::cases::{damaged, small_contradictory, small_plan, small_sound};
use crate::edges::many;
use crate::piecebook::{self, Compared, OPEN};
use crate::reference::{answer, contradiction, read_book, read_claims, Book, Edition, Refusal, Seen};
use crate::rules::Fact;
use crate::tally::Tally;
use crate::workspaces::lend;
use std::collections::HashSet;
use std::time::Instant;

/// What must occur: numbers by the book that they are of, the third byte by whether the books can be laid together and mark the same pieces, and circles in a book and
/// in the records of both.
#[derive(Default)]
pub struct Met {
    pub numbers: [[usize; 22]; 3],
    pub third: [[usize; 4]; 4],
    pub larger: [usize; 3],
    pub seen: Seen,
    pub joined: Seen,
}

struct Pair {
    first: Vec<u8>,
    second: Vec<u8>,
    claims: Vec<u8>,
    room: usize,
}

/// 1 SAME, 2 ONE OPEN, 3 OPPOSED.
fn agreement(one: u8, other: u8) -> u8 {
    match (one, other) {
        _ if one == other => 1,
        (OPEN, _) | (_, OPEN) => 2,
        _ => 3,
    }
}

/// The book with so many pieces.
fn widened(book: Book, pieces: usize) -> Book {
    let mut void = book.void;
    void.resize(pieces, false);
    Book { void, pieces, ..book }
}

/// Rows 3 to 9 of a book, and 14 among its own pieces.
fn passed(bytes: &[u8], number: usize, doubt: &mut Option<String>) -> Result<Book, (usize, Refusal)> {
    let book = read_book(bytes, Edition::InForce).map_err(|refusal| (number, refusal))?;
    match contradiction(book.pieces, &book.facts, &book.void, doubt) {
        Some(last) => Err((number, (14, last))),
        None => Ok(book),
    }
}

impl Pair {
    /// The bytes to be written, and whether the books can be laid together; or the refusal and its book.
    fn expected(&self, doubt: &mut Option<String>, met: &mut Met) -> Result<(Vec<u8>, bool), (usize, Refusal)> {
        if self.room < 3 * (self.claims.len() / 6) {
            return Err((0, (1, 0)));
        }
        let first = passed(&self.first, 1, doubt)?;
        let second = passed(&self.second, 2, doubt)?;
        let pieces = first.pieces.max(second.pieces);
        met.larger[(first.pieces.cmp(&second.pieces) as i8 + 1) as usize] += 1;
        let claims = read_claims(&self.claims, pieces).map_err(|refusal| (0, refusal))?;
        let first = widened(first, pieces);
        let second = widened(second, pieces);
        let shared: HashSet<&[u8]> = self.first.chunks(6).collect();
        let others = self.second.chunks(6).zip(&second.facts).filter(|(r, _)| !shared.contains(r)).map(|(_, fact)| *fact);
        let facts: Vec<Option<Fact>> = first.facts.iter().copied().chain(others).collect();
        let void: Vec<bool> = first.void.iter().zip(&second.void).map(|(one, other)| *one || *other).collect();
        let together = contradiction(pieces, &facts, &void, doubt).is_none();
        let answers = answer(&first, &claims, doubt).into_iter().zip(answer(&second, &claims, doubt));
        let bytes: Vec<u8> = answers.flat_map(|(one, other)| [one, other, agreement(one, other)]).collect();
        let kind = usize::from(together) + 2 * usize::from(first.void == second.void);
        for three in bytes.chunks(3) {
            met.third[kind][usize::from(three[2])] += 1;
        }
        Ok((bytes, together))
    }

    /// Calls the library and says what is wrong.
    fn send(&self, random: &mut Random, met: &mut Met) -> Option<String> {
        let mut doubt = None;
        let (wanted, bytes) = match self.expected(&mut doubt, met) {
            Ok((bytes, together)) => (Compared { number: 0, place: 0, book: 0, together: together.into() }, bytes),
            Err((book, (number, place))) => (Compared { number, place, book, together: 0 }, vec![]),
        };
        met.numbers[wanted.book][wanted.number] += 1;
        if wanted.number == 0 {
            met.seen.note(&self.first, 0);
            met.seen.note(&self.second, 0);
            let shared: HashSet<&[u8]> = self.first.chunks(6).collect();
            let others: Vec<&[u8]> = self.second.chunks(6).filter(|r| !shared.contains(r)).collect();
            met.joined.note(&[&self.first[..], &others.concat()].concat(), if wanted.together == 1 { 0 } else { 14 });
        } else if wanted.book > 0 {
            met.seen.note([&self.first, &self.second][wanted.book - 1], wanted.number);
        }
        let mut out = Buffer::new(random, self.room, |x| x as u8);
        let mut after = out.clone();
        after.write(&bytes);
        let before = (self.first.clone(), self.second.clone(), self.claims.clone());
        let got = lend(&[&self.first, &self.second], |workspace| {
            piecebook::compare(workspace, &self.first, &self.second, &self.claims, out.lend())
        });
        if let Some(doubt) = doubt {
            return Some(format!("the reference is in doubt: {doubt}"));
        }
        if got != wanted {
            return Some(format!("got {got:?}, expected {wanted:?}"));
        }
        if before != (self.first.clone(), self.second.clone(), self.claims.clone()) {
            return Some("a book or the claims were written to".into());
        }
        out.difference(&after).map(|at| format!("the output differs at {at}"))
    }
}

/// Two books cut from one layout: each record goes to the one, to the other or to both.
fn cut(random: &mut Random, layout: &[Bytes]) -> (Vec<u8>, Vec<u8>) {
    let (one, both) = random.pick(&[(1, 1), (1, 1), (4, 1), (1, 4), (0, 1)]);
    let (mut first, mut second) = (vec![], vec![]);
    for &r in layout {
        let shared = random.below(2 * one + both) < both;
        let side = random.one_in(2);
        if shared || side {
            first.push(r);
        }
        if shared || !side {
            second.push(r);
        }
    }
    random.shuffle(&mut second);
    (first.concat(), second.concat())
}

/// All claims about so many pieces, or some of them, and now and then one too many or one damaged.
fn some_claims(random: &mut Random, pieces: usize) -> Vec<u8> {
    let mut all = if pieces <= 12 { all_claims(pieces) } else { near_claims(random, pieces, 300) };
    random.shuffle(&mut all);
    all.truncate(if random.one_in(3) { random.below(30) } else { 600 });
    let mut bytes = all.concat();
    match random.below(20) {
        0 => bytes.extend(record(MEETS, pieces, 0)),
        1 => damage(random, &mut bytes),
        _ => {}
    }
    bytes
}

fn room(random: &mut Random, claims: &[u8]) -> usize {
    let least = 3 * (claims.len() / 6);
    if random.one_in(10) {
        random.below(least + 1)
    } else {
        least + random.below(9)
    }
}

fn pieces_of(book: &[u8]) -> usize {
    book.chunks_exact(6)
        .map(|r| usize::from(u16::from_le_bytes([r[2], r[3]]).max(u16::from_le_bytes([r[4], r[5]]))) + 1)
        .max()
        .unwrap_or(1)
        .min(2048)
}

fn some_pair(random: &mut Random, number: usize) -> Pair {
    let (first, second) = match number % 8 {
        0..=2 => {
            let plan = small_plan(random);
            let layout = sound(random, plan);
            cut(random, &layout)
        }
        // marks or facts thrown into one of them
        3 | 4 => {
            let plan = small_plan(random);
            let layout = sound(random, plan);
            let (first, second) = cut(random, &layout);
            let mut more: Vec<Bytes> = second.chunks(6).map(|r| r.try_into().expect("six bytes")).collect();
            let (marks, facts) = random.pick(&[(1, 0), (0, 1), (1, 1), (0, 3)]);
            throw_marks(random, &mut more, plan.pieces, marks);
            contradict(random, &mut more, plan.pieces, facts);
            if random.one_in(2) {
                (first, more.concat())
            } else {
                (more.concat(), first)
            }
        }
        5 => (small_sound(random).book, small_sound(random).book),
        6 => (small_contradictory(random).book, small_sound(random).book),
        _ => {
            let one = damaged(random, number).book;
            match random.below(4) {
                0 => (one, small_contradictory(random).book),
                1 => (small_contradictory(random).book, one),
                _ => (small_sound(random).book, one),
            }
        }
    };
    let pieces = pieces_of(&first).max(pieces_of(&second)).min(14);
    let claims = some_claims(random, pieces);
    let room = room(random, &claims);
    Pair { first, second, claims, room }
}

/// One pair; what went wrong, if anything.
pub fn play(random: &mut Random, number: usize, met: &mut Met) -> Option<String> {
    let pair = some_pair(random, number);
    let wrong = pair.send(random, met)?;
    Some(format!("{wrong}; first {:?}, second {:?}, claims {:?}, room {}", pair.first, pair.second, pair.claims, pair.room))
}

/// Larger books cut from one layout; where both have 8,192 records the joint run has up to 16,384.
pub fn play_large(random: &mut Random, shape: Shape, pieces: usize, met: &mut Met) -> Option<String> {
    let plan = Plan { shape, pieces, records: 4 * pieces, facts: 2 * pieces, voids: random.pick(&[0, 3]), fill: true };
    let (one, other) = (sound(random, plan), sound(random, plan));
    let (first, second) = match random.below(3) {
        0 => cut(random, &one),
        1 => (one.concat(), other.concat()),
        _ => {
            // facts that say nothing new, of which each book has its own
            let fill =
                |kind: u8| (1..pieces).map(move |a| of(SCANNER, if kind == MEETS { record(MEETS, a, 0) } else { record(NOTPART, 0, a) }));
            let parts: Vec<Bytes> = one.iter().copied().filter(|r| r[0] == PART).collect();
            let own = |kind: u8| parts.iter().copied().chain(fill(kind)).take(8192).collect::<Vec<_>>().concat();
            (own(MEETS), own(NOTPART))
        }
    };
    let claims = [claims(random, pieces, 1000), near_claims(random, pieces, 1000)].concat().concat();
    let pair = Pair { first, second, room: 3 * (claims.len() / 6) + random.below(9), claims };
    pair.send(random, met).map(|wrong| format!("{shape:?}, {pieces} pieces: {wrong}"))
}

/// The rows of both books and the claims, in their order, and the most records.
pub fn edges(random: &mut Random, met: &mut Met) -> Option<String> {
    let (most, more) = (many(8192).concat(), many(8193).concat());
    let other: Vec<u8> = most.chunks(6).flat_map(|r| of(SCANNER, r.try_into().expect("six bytes"))).collect();
    let clash = [record(APART, 1, 1)].concat();
    let bad = vec![9; 6];
    let claim = record(MEETS, 0, 0).to_vec();
    let void = record(VOID, 1, 0).to_vec();
    let part = record(PART, 1, 0).to_vec();
    let meets = record(MEETS, 1, 1).to_vec();
    let too_many: Vec<u8> = claim.repeat(4097);
    // halves of a circle, and what says that it is none
    let (up, down) = (record(PART, 1, 2).to_vec(), record(PART, 2, 1).to_vec());
    let other_half = [record(PART, 2, 1), record(NOTPART, 1, 2)].concat();
    let about: Vec<u8> = all_claims(3).concat();
    let cases: Vec<(&[u8], &[u8], &[u8], usize)> = vec![
        (&most, &most, &claim, 3),
        (&most, &other, &claim, 3),
        (&most, &more, &claim, 3),
        (&more, &most, &claim, 3),
        (&clash, &bad, &bad, 3),
        (&bad, &clash, &bad, 3),
        (&part, &clash, &bad, 3),
        (&part, &bad, &bad, 3),
        (&part, &part, &bad, 3),
        (&bad, &bad, &bad, 2),
        (&part, &part, &too_many, 3 * 4097),
        (&part, &part, &claim[..5], 0),
        (&void, &part, &meets, 3),
        (&part, &void, &meets, 4),
        (&void, &void, &meets, 3),
        (&[], &[], &[], 0),
        (&[], &part, &meets, 3),
        (&up, &down, &about, about.len() / 2),
        (&up, &other_half, &about, about.len() / 2),
        (&up, &[], &about, about.len() / 2),
    ];
    cases.into_iter().enumerate().find_map(|(i, (first, second, claims, room))| {
        let pair = Pair { first: first.to_vec(), second: second.to_vec(), claims: claims.to_vec(), room };
        pair.send(random, met).map(|wrong| format!("edge {i}: {wrong}"))
    })
}

/// Pairs of books.
pub fn stage(tally: &mut Tally, count: usize, times: usize) {
    let start = Instant::now();
    let failed = tally.failed;
    let mut random = Random(12);
    let mut met = Met::default();
    let wrong = edges(&mut random, &mut met);
    tally.count(wrong.map(|wrong| format!("two books, {wrong}")));
    for number in 0..count {
        let wrong = play(&mut random, number, &mut met);
        tally.count(wrong.map(|wrong| format!("two books, pair {number}, {wrong}")));
    }
    for (shapes, sizes) in
        [(&RISING[..], &[200, 200, 1365, 2048][..]), (&FREE[..], &[60, 200, 200]), (&[Shape::Couples, Shape::Entwined], &[2048])]
    {
        for &shape in shapes {
            for pieces in sizes.repeat(times) {
                let wrong = play_large(&mut random, shape, pieces, &mut met);
                tally.count(wrong.map(|wrong| format!("two books, {wrong}")));
            }
        }
    }
    for (book, numbers) in [(0, &[0, 1, 10, 11, 12, 13][..]), (1, &[3, 4, 5, 6, 7, 9, 14, 19]), (2, &[3, 4, 5, 6, 7, 9, 14, 19])] {
        let given = met.numbers[book];
        tally.occurred(&format!("two books, {book}"), &given, numbers);
    }
    tally.circles_occurred("two books", &met.seen);
    tally.circles_occurred("records of two books", &met.joined);
    for (kind, thirds) in met.third.iter().enumerate() {
        for third in 1..4 {
            // laid together and marked alike, no claim is opposed
            let missing = (thirds[third] == 0) != (kind == 3 && third == 3);
            tally.count(missing.then(|| format!("third byte {third}, kind {kind}: {} times", thirds[third])));
        }
    }
    for which in 0..3 {
        tally.count((met.larger[which] == 0).then(|| format!("which is larger: {which} never occurred")));
    }
    let line = format!(
        "two books: {count} pairs, {} accepted; {} failed; {:.1} s",
        met.numbers[0][0],
        tally.failed - failed,
        start.elapsed().as_secs_f64()
    );
    tally.say(line);
}
