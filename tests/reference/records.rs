//! Every row on records and claims in turn: all runs of one, two and three of fourteen samples, a record and a claim with each byte set to each value, every length of three records, and the
//! longest books and lists of claims. Each book goes to the call that writes the index, to the one that answers and to the converter, which reads it by the former edition.
//! How often each row refuses was worked out once from document 01's table by another program, and stands here as numbers.

use crate::books::*;
use crate::buffers::enough;
use crate::cases::Case;
use crate::reference::{read_book, read_claims, Edition, Refusal};
use crate::tally::Tally;
use std::collections::BTreeMap;
use std::time::Instant;

/// Sound records, and one that each row refuses, together with what later rows refuse.
fn samples() -> [Bytes; 14] {
    [
        record(PART, 3, 1),
        record(APART, 3, 4),
        of(SCANNER, record(APART, 3, 4)),
        record(TRAY, 2047, 65535),
        record(NOTPART, 0, 2047),
        record(PART, 3, 3),
        record(PART, 0, 0),
        record(PART, 2048, 2048),
        record(MEETS, 0, 2048),
        of(2, record(PART, 2048, 2048)),
        of(2, record(0, 2048, 2048)),
        record(VOID, 1, 0),
        of(SCANNER, record(VOID, 0, 0)),
        record(VOID, 1, 1),
    ]
}

/// All runs of so many samples.
fn runs(count: usize) -> Vec<Vec<u8>> {
    let all = samples();
    (0..all.len().pow(count as u32)).map(|n| (0..count as u32).flat_map(|i| all[n / all.len().pow(i) % all.len()]).collect()).collect()
}

/// Two records, the second with each of its bytes set to each value.
fn varied(first: Bytes, second: Bytes) -> Vec<Vec<u8>> {
    let set = |n: usize| {
        let mut bytes = [first, second].concat();
        bytes[6 + n / 256] = (n % 256) as u8;
        bytes
    };
    (0..6 * 256).map(set).collect()
}

/// Every length up to three records.
fn lengths() -> Vec<Vec<u8>> {
    let three = samples()[..3].concat();
    (0..=three.len()).map(|length| three[..length].to_vec()).collect()
}

/// How often each number refuses by the rows of records or claims, 0 where none does, and the sum of what goes with it: the place, or the piece count.
type Told = (&'static [(usize, usize)], usize);

fn told(outcomes: &[Result<usize, Refusal>], wanted: Told) -> Option<String> {
    let pairs = || outcomes.iter().map(|outcome| outcome.map_or_else(|refusal| refusal, |pieces| (0, pieces)));
    let mut counts = BTreeMap::new();
    pairs().for_each(|(number, _)| *counts.entry(number).or_insert(0) += 1);
    let counts: Vec<(usize, usize)> = counts.into_iter().collect();
    let sum = pairs().map(|(_, rest)| rest).sum::<usize>();
    ((&counts[..], sum) != wanted).then(|| format!("the reference's rows come to {counts:?} and {sum}, document 01's to {wanted:?}"))
}

fn rows(book: &[u8], edition: Edition) -> Result<usize, Refusal> {
    read_book(book, edition).map(|book| book.pieces)
}

/// A book in all three calls. Where its rows let it pass, a claim about its last piece does too, and one about the next is 13: that shows the piece count, whether the book
/// is contradictory or not.
fn try_book(tally: &mut Tally, name: &str, number: usize, book: &[u8]) {
    let pieces = rows(book, Edition::InForce);
    let mut ask = |piece: usize| {
        let lengths = enough(&mut tally.random, 1);
        tally.try_case(name, number, &Case { book: book.to_vec(), claims: record(PART, piece, 0).to_vec(), lengths }).outcome.number
    };
    let last = ask(pieces.map_or(0, |pieces| pieces - 1));
    let next = pieces.map_or(13, |pieces| ask(pieces));
    tally.count((last == 13 || next != 13).then(|| format!("{name}, book {number}: the reference says {last} and {next} of pieces")));
    tally.try_conversion(name, number, book, book.len());
}

/// Many of them, and how the rows of both editions refuse them.
fn books(tally: &mut Tally, name: &str, all: &[Vec<u8>], in_force: Told, former: Told) {
    let (failed, start) = (tally.failed, Instant::now());
    for (number, book) in all.iter().enumerate() {
        try_book(tally, name, number, book);
    }
    for (edition, wanted) in [(Edition::InForce, in_force), (Edition::Former, former)] {
        let outcomes: Vec<_> = all.iter().map(|book| rows(book, edition)).collect();
        tally.count(told(&outcomes, wanted).map(|wrong| format!("{name}, {edition:?}: {wrong}")));
    }
    tally.say(format!(
        "{name}: {} books in both editions; {} failed; {:.1} s",
        all.len(),
        tally.failed - failed,
        start.elapsed().as_secs_f64()
    ));
}

/// Each list of claims on a book of so many pieces.
fn claims_on(tally: &mut Tally, name: &str, pieces: usize, all: &[Vec<u8>], wanted: Told) {
    let (failed, start) = (tally.failed, Instant::now());
    let book = if pieces == 1 { vec![] } else { record(MEETS, pieces - 1, pieces - 1).to_vec() };
    for (number, claims) in all.iter().enumerate() {
        let lengths = enough(&mut tally.random, claims.len() / 6);
        tally.try_case(name, number, &Case { book: book.clone(), claims: claims.clone(), lengths });
    }
    let outcomes: Vec<_> = all.iter().map(|claims| read_claims(claims, pieces).map(|_| 0)).collect();
    tally.count(told(&outcomes, wanted).map(|wrong| format!("{name}: {wrong}")));
    tally.say(format!("{name}: {} lists of claims; {} failed; {:.1} s", all.len(), tally.failed - failed, start.elapsed().as_secs_f64()));
}

/// As many records as a book may have and one more, with one of them repeated, of a kind that is none, a mark or a TRAY: what the rows of each edition say.
fn long_books(tally: &mut Tally) {
    let (failed, start) = (tally.failed, Instant::now());
    let mut count = 0;
    for kind in [APART, MEETS] {
        let many = |changes: &[(usize, Bytes)]| {
            let mut all: Vec<Bytes> = (0..8193).map(|i| record(kind, i % 2048, i / 2048)).collect();
            changes.iter().for_each(|&(at, changed)| all[at] = changed);
            all.concat()
        };
        let (first, before, tray, none) =
            ((8191, record(kind, 0, 0)), (8191, record(kind, 2046, 3)), (8191, record(TRAY, 2047, 65535)), (0, record(0, 0, 0)));
        let cases: [(&[(usize, Bytes)], usize, Result<usize, Refusal>, Result<usize, Refusal>); 12] = [
            (&[], 49152, Ok(2048), Ok(2048)),
            (&[], 49158, Err((4, 0)), Err((4, 0))),
            (&[], 49151, Err((3, 0)), Err((3, 0))),
            (&[], 49157, Err((3, 0)), Err((3, 0))),
            (&[first], 49152, Err((9, 8191)), Err((9, 8191))),
            (&[first], 49158, Err((4, 0)), Err((4, 0))),
            (&[before], 49152, Err((9, 8191)), Err((9, 8191))),
            (&[tray], 49152, Err((5, 8191)), Ok(2048)),
            (&[tray, none], 49152, Err((5, 0)), Err((5, 0))),
            (&[tray, none], 49158, Err((4, 0)), Err((4, 0))),
            (&[(8191, record(VOID, 2047, 0))], 49152, Ok(2048), Err((5, 8191))),
            (&[(8191, record(VOID, 2047, 1))], 49152, Err((19, 8191)), Err((5, 8191))),
        ];
        for (number, (changes, length, in_force, former)) in cases.into_iter().enumerate() {
            let book = many(changes)[..length].to_vec();
            for (edition, wanted) in [(Edition::InForce, in_force), (Edition::Former, former)] {
                let got = rows(&book, edition);
                tally.count(
                    (got != wanted).then(|| {
                        format!("long book {number} of kind {kind}, {edition:?}: the reference says {got:?}, the papers {wanted:?}")
                    }),
                );
            }
            try_book(tally, "long books", number, &book);
            count += 1;
        }
    }
    tally.say(format!("long books: {count} in both editions; {} failed; {:.1} s", tally.failed - failed, start.elapsed().as_secs_f64()));
}

/// As many claims as there may be and one more, the last or the last but one refused.
fn long_claims(tally: &mut Tally) {
    let (failed, start) = (tally.failed, Instant::now());
    let (late, kind) = ((4095, record(PART, 0, 1)), (4094, record(TRAY, 0, 0)));
    let cases: [(&[(usize, Bytes)], usize, usize, Result<usize, Refusal>); 6] = [
        (&[], 24576, 1, Ok(0)),
        (&[], 24582, 1, Err((11, 0))),
        (&[], 24581, 1, Err((10, 0))),
        (&[late], 24576, 1, Err((13, 4095))),
        (&[late], 24576, 2, Ok(0)),
        (&[late, kind], 24576, 1, Err((12, 4094))),
    ];
    for (number, (changes, length, pieces, wanted)) in cases.into_iter().enumerate() {
        let mut all = vec![record(PART, 0, 0); 4097];
        changes.iter().for_each(|&(at, changed)| all[at] = changed);
        let claims = all.concat()[..length].to_vec();
        let got = read_claims(&claims, pieces).map(|_| 0);
        tally.count((got != wanted).then(|| format!("long claims {number}: the reference says {got:?}, the papers {wanted:?}")));
        let book = if pieces == 1 { vec![] } else { record(MEETS, pieces - 1, 0).to_vec() };
        let lengths = enough(&mut tally.random, length / 6);
        tally.try_case("long claims", number, &Case { book, claims, lengths });
    }
    tally.say(format!("long claims: 6 lists; {} failed; {:.1} s", tally.failed - failed, start.elapsed().as_secs_f64()));
}

/// All of it, in parts that can be tried by themselves.
pub fn parts() -> Vec<(String, fn(&mut Tally))> {
    let all: [(&str, fn(&mut Tally)); 8] = [
        ("runs of three samples", |tally| {
            let in_force: Told = (&[(0, 210), (5, 672), (6, 336), (7, 672), (9, 182), (19, 672)], 186436);
            let former: Told = (&[(0, 60), (5, 1144), (6, 286), (7, 572), (8, 572), (9, 110)], 111762);
            books(tally, "runs of three samples", &runs(3), in_force, former);
        }),
        ("runs of samples", |tally| {
            let in_force: Told = (&[(0, 7), (5, 2), (6, 1), (7, 2), (19, 2)], 2069);
            books(tally, "samples", &runs(1), in_force, (&[(0, 5), (5, 4), (6, 1), (7, 2), (8, 2)], 4110));
            let in_force: Told = (&[(0, 42), (5, 42), (6, 21), (7, 42), (9, 7), (19, 42)], 24766);
            let former: Told = (&[(0, 20), (5, 76), (6, 19), (7, 38), (8, 38), (9, 5)], 28752);
            books(tally, "runs of two samples", &runs(2), in_force, former);
            books(tally, "every length of three records", &lengths(), (&[(0, 4), (3, 15)], 15), (&[(0, 4), (3, 15)], 15));
        }),
        ("each byte of a PART record", |tally| {
            let in_force: Told = (&[(0, 534), (5, 251), (6, 254), (7, 496), (19, 1)], 193386);
            let former: Told = (&[(0, 529), (5, 251), (6, 254), (7, 496), (8, 6)], 186732);
            books(tally, "each byte of a PART record", &varied(record(PART, 5, 2), record(PART, 300, 7)), in_force, former);
        }),
        ("each byte of a TRAY record", |tally| {
            let former: Told = (&[(0, 783), (5, 251), (6, 254), (7, 248)], 262932);
            books(
                tally,
                "each byte of a TRAY record",
                &varied(record(PART, 5, 2), record(TRAY, 300, 7)),
                (&[(0, 4), (5, 1531), (19, 1)], 2736),
                former,
            );
        }),
        ("each byte of a mark", |tally| {
            let in_force: Told = (&[(0, 5), (5, 251), (6, 254), (7, 248), (19, 778)], 3036);
            books(tally, "each byte of a mark", &varied(record(PART, 5, 2), record(VOID, 300, 7)), in_force, (&[(0, 5), (5, 1531)], 3036));
        }),
        ("claims of samples", |tally| {
            claims_on(tally, "every length of three claims", 6, &lengths(), (&[(0, 4), (10, 15)], 0));
            for (pieces, wanted) in [
                (1, (&[(0, 1), (12, 90), (13, 105)][..], 13)),
                (5, (&[(0, 25), (12, 114), (13, 57)], 45)),
                (2048, (&[(0, 36), (12, 120), (13, 40)], 48)),
            ] {
                claims_on(tally, &format!("runs of two samples as claims, {pieces} pieces"), pieces, &runs(2), wanted);
            }
            let wanted: Told = (&[(0, 310), (12, 506), (13, 720)], 1226);
            claims_on(tally, "each byte of a claim", 300, &varied(record(NOTPART, 1, 299), record(APART, 256, 7)), wanted);
        }),
        ("long books", long_books),
        ("long claims", long_claims),
    ];
    all.into_iter().map(|(name, part)| (name.into(), part)).collect()
}
