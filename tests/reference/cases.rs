//! Random books with their claims, from a handful of pieces up to the largest, and books of the former edition.

use crate::books::*;
use crate::buffers::{enough, short};
use crate::catalogs;
use crate::reference::Lengths;
use std::collections::BTreeSet;

/// A book with its claims and the lengths of the lent buffers.
pub struct Case {
    pub book: Vec<u8>,
    pub claims: Vec<u8>,
    pub lengths: Lengths,
}

pub fn case(random: &mut Random, book: &[Bytes], claims: &[Bytes]) -> Case {
    Case { book: book.concat(), claims: claims.concat(), lengths: enough(random, claims.len()) }
}

pub fn small_plan_of(random: &mut Random, shape: Shape) -> Plan {
    let pieces = if random.one_in(2) { random.range(2, 9) } else { random.range(1, 13) };
    let (records, facts) = (random.range(1, 40), random.below(2 * pieces + 1));
    Plan { shape, pieces, records, facts, voids: random.pick(&[0, 0, 1, 2, 4]), fill: false }
}

pub fn small_plan(random: &mut Random) -> Plan {
    let shape = some_shape(random);
    small_plan_of(random, shape)
}

/// For a book of the former edition, in which row 8 refuses late containers.
pub fn former_shape(random: &mut Random) -> Shape {
    if random.one_in(12) {
        random.pick(&FREE)
    } else {
        random.pick(&RISING)
    }
}

/// The book with all claims about every two of its pieces.
pub fn small_case(random: &mut Random, book: &[Bytes]) -> Case {
    let largest = book.iter().map(|r| r[2].max(r[4])).max().unwrap_or(0);
    let mut claims = all_claims(usize::from(largest) + 1);
    random.shuffle(&mut claims);
    case(random, book, &claims)
}

pub fn small_sound(random: &mut Random) -> Case {
    let plan = small_plan(random);
    let book = sound(random, plan);
    small_case(random, &book)
}

pub fn small_contradictory(random: &mut Random) -> Case {
    let plan = small_plan(random);
    let mut book = sound(random, plan);
    let facts = random.range(1, 5);
    contradict(random, &mut book, plan.pieces, facts);
    let marks = random.pick(&[0, 0, 1, 2]);
    throw_marks(random, &mut book, plan.pieces, marks);
    small_case(random, &book)
}

/// Bytes out of nowhere, most of them low.
pub fn junk(random: &mut Random) -> Case {
    let mut bytes = |end: usize| -> Vec<u8> {
        let length = 6 * random.below(end) + if random.one_in(6) { random.below(6) } else { 0 };
        (0..length).map(|_| if random.one_in(30) { random.next() as u8 } else { random.pick(&[0, 0, 0, 1, 2, 3, 4, 6]) }).collect()
    };
    let (book, claims) = (bytes(6), bytes(4));
    let lengths = enough(random, claims.len() / 6);
    Case { book, claims, lengths }
}

pub fn damaged(random: &mut Random, number: usize) -> Case {
    let mut case = if number % 4 == 0 { small_contradictory(random) } else { small_sound(random) };
    match random.below(4) {
        0 => damage(random, &mut case.claims),
        1 => {
            damage(random, &mut case.book);
            damage(random, &mut case.claims);
        }
        _ => damage(random, &mut case.book),
    }
    case.lengths = enough(random, case.claims.len() / 6);
    case
}

pub fn short_buffers(random: &mut Random, number: usize) -> Case {
    let mut case = if number % 3 == 0 { damaged(random, number) } else { small_sound(random) };
    case.lengths = short(random, case.claims.len() / 6);
    case
}

pub fn middle_plan(random: &mut Random, shape: Shape) -> Plan {
    let pieces = random.range(60, 301);
    let dense = if matches!(shape, Shape::Dense) { 4 } else { 2 };
    Plan {
        shape,
        pieces,
        records: pieces * dense + random.below(300),
        facts: random.below(300),
        voids: random.pick(&[0, 1, 5, 20]),
        fill: false,
    }
}

pub fn middle(random: &mut Random, shape: Shape, number: usize) -> Case {
    let plan = middle_plan(random, shape);
    let mut book = sound(random, plan);
    if number % 4 == 3 {
        contradict(random, &mut book, plan.pieces, 1 + number % 20);
    }
    if number % 8 == 5 {
        throw_marks(random, &mut book, plan.pieces, 1 + number % 3);
    }
    // where the last pieces are not named, row 13 refuses claims about them
    let last = record(PART, plan.pieces - 1, 0);
    if !random.one_in(10) && book.len() < 8192 && !book.contains(&last) {
        book.push(last);
    }
    let asked = [claims(random, plan.pieces, 400), near_claims(random, plan.pieces, 300), named_claims(random, &book, 300)].concat();
    case(random, &book, &asked)
}

/// A small former book, and room for what becomes of it.
pub fn small_former(random: &mut Random, number: usize) -> (Vec<u8>, usize) {
    let shape = former_shape(random);
    let plan = Plan { voids: 0, ..small_plan_of(random, shape) };
    let mut book = sound(random, plan);
    if number % 4 == 0 {
        let facts = random.range(1, 5);
        contradict(random, &mut book, plan.pieces, facts);
    }
    let trays = random.below(8);
    add_trays(random, &mut book, plan.pieces, trays);
    let book = book.concat();
    let room = book.len() + if random.one_in(3) { 0 } else { random.below(50) };
    (book, room)
}

pub fn damaged_former(random: &mut Random, number: usize) -> (Vec<u8>, usize) {
    let (mut book, room) = small_former(random, number);
    damage(random, &mut book);
    let room = room.max(book.len());
    (book, room)
}

pub fn short_output(random: &mut Random, number: usize) -> (Vec<u8>, usize) {
    let (book, _) = if number % 3 == 0 { damaged_former(random, number) } else { small_former(random, number) };
    let room = if random.one_in(3) { random.below(book.len() + 1) } else { book.len().saturating_sub(random.below(9)) };
    (book, room)
}

pub fn middle_former(random: &mut Random, shape: Shape, number: usize) -> (Vec<u8>, usize) {
    let plan = Plan { voids: 0, ..middle_plan(random, shape) };
    let mut book = sound(random, plan);
    if number % 4 == 3 {
        contradict(random, &mut book, plan.pieces, 1 + number % 20);
    }
    let trays = random.below(400);
    add_trays(random, &mut book, plan.pieces, trays);
    let book = book.concat();
    let room = book.len() + random.below(50);
    (book, room)
}

/// As many pieces, records and claims as can be.
pub fn largest(random: &mut Random, shape: Shape, facts: usize, voids: usize) -> Case {
    let book = sound(random, Plan { shape, pieces: 2048, records: 8192, facts, voids, fill: true });
    let asked = [claims(random, 2048, 1500), near_claims(random, 2048, 1500), named_claims(random, &book, 1096)].concat();
    case(random, &book, &asked)
}

/// The same with a contradiction: the record of the given number says that a part and its container are APART, or that the part is NOTPART.
pub fn largest_contradictory(random: &mut Random, shape: Shape, place: usize) -> Case {
    let mut case = largest(random, shape, 3000, 0);
    let part = case.book.chunks(6).find(|r| r[0] == PART && (r[4] > 0 || r[5] > 0)).expect("a part of another piece than 0").to_vec();
    case.book[place * 6] = random.pick(&[APART, NOTPART]);
    case.book[place * 6 + 1..][..5].copy_from_slice(&part[1..]);
    case
}

/// The same book for a catalog of one of its pieces.
pub fn ask(random: &mut Random, case: Case) -> catalogs::Case {
    let pieces = case.book.chunks_exact(6).map(|r| u16::from_le_bytes([r[2], r[3]]).max(u16::from_le_bytes([r[4], r[5]]))).max();
    catalogs::ask(random, case.book, usize::from(pieces.unwrap_or(0)) + 1, case.lengths)
}

/// The most nodes that a book can have: five parts share 8,192 containers, all other pieces are joined to 0.
pub fn widest() -> Vec<Bytes> {
    (1..2048).rev().flat_map(|part| (0..part).map(move |container| record(PART, part, container))).take(8192).collect()
}

/// As many pairs as a book can have, of any pieces from the given number on.
pub fn scattered(random: &mut Random, first: usize) -> Vec<Bytes> {
    let mut all = BTreeSet::new();
    while all.len() < 8192 {
        all.insert((random.range(first, 2048), random.range(first, 2048)));
    }
    let mut book: Vec<Bytes> = all.into_iter().map(|(part, container)| record(PART, part, container)).collect();
    give_origins(random, &mut book);
    random.shuffle(&mut book);
    book
}
