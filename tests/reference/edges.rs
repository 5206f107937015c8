//! Document 01's own examples and edges, with those of marks and circles: numbers, places and indexes written out from the papers.

use crate::books::*;
use crate::buffers::{Lent, LEAST};
use crate::cases::{case, Case};
use crate::piecebook::{Converted, Outcome, FOLLOWS};
use crate::reference::{convert, judge, Change, Edition, Index, Lengths};
use crate::tally::Tally;

fn session(random: &mut Random) -> Option<String> {
    const BOOK: &[u8] = include_bytes!("../../examples/book.rec");
    const CLAIMS: &[u8] = include_bytes!("../../examples/claims");
    const PRINTED: &str = include_str!("../../examples/expected.txt");
    let mut lent = Lent::new(random, Lengths { answers: CLAIMS.len() / 6, ..LEAST });
    let Outcome { number, place, pieces, nodes, shadows } = lent.call(BOOK, Some(CLAIMS));
    if (number, place) != (0, 0) {
        return Some(format!("printed session: REFUSED {number} {place}"));
    }
    let mut printed = format!("PIECES {pieces} NODES {nodes} SHADOWS {shadows}\n");
    for (i, (claim, answer)) in CLAIMS.chunks(6).zip(lent.answers.lend()).enumerate() {
        let kind = ["PART", "APART", "MEETS", "NOTPART"][usize::from(claim[0]) - 1];
        let answer = ["FOLLOWS", "DENIED", "OPEN"][usize::from(*answer) - 1];
        printed += &format!("{i} {kind} {} {} {answer}\n", claim[2], claim[4]);
    }
    if printed != PRINTED {
        return Some(format!("printed session: {printed}"));
    }
    let mut alone = Lent::new(random, LEAST);
    let outcome = alone.call(BOOK, None);
    if outcome != (Outcome { number: 0, place: 0, pieces: 6, nodes: 7, shadows: 1 }) {
        return Some(format!("printed session, index alone: {outcome:?}"));
    }
    for mut lent in [lent, alone] {
        let index = [
            lent.parentheses.lend()[..3] == [55, 6, 0],
            lent.marks.lend()[..2] == [64, 0],
            lent.shadows.lend()[..2] == [3, 0],
            lent.places.lend()[..7] == [0, 1, 5, 2, 3, 4, 0],
            lent.parentheses.lend()[3..].iter().all(|&x| x == 0),
            lent.marks.lend()[2..].iter().all(|&x| x == 0),
            lent.shadows.lend()[2..].iter().all(|&x| x == 0),
            lent.places.lend()[7..].iter().all(|&x| x == 0),
        ];
        if index != [true; 8] {
            return Some("printed session: its index".into());
        }
    }
    contained(random, BOOK)
}

/// Which of the printed session's pieces are in each: bit g of number h for g in h.
fn contained(random: &mut Random, book: &[u8]) -> Option<String> {
    let claims: Vec<u8> = (0..6).flat_map(|h| (0..6).flat_map(move |g| record(PART, g, h))).collect();
    let mut lent = Lent::new(random, Lengths { answers: 36, ..LEAST });
    lent.call(book, Some(&claims));
    let row = |answers: &[u8]| answers.iter().enumerate().filter(|(_, &answer)| answer == FOLLOWS).map(|(g, _)| 1 << g).sum::<u32>();
    let rows: Vec<u32> = lent.answers.lend().chunks(6).map(row).collect();
    (rows != [63, 58, 52, 8, 48, 32]).then(|| format!("printed session: what its pieces contain is {rows:?}"))
}

/// A fact of each kind from the scanner alone: it and its opposite are decided by all facts and open from the sheets.
fn restricted(random: &mut Random) -> Option<String> {
    let facts = [(PART, 2, 1), (APART, 3, 4), (MEETS, 5, 6), (NOTPART, 7, 8)];
    let book: Vec<Bytes> = facts.iter().map(|&(kind, a, b)| of(SCANNER, record(kind, a, b))).collect();
    let asked =
        |origin: u8| facts.iter().flat_map(move |&(kind, a, b)| [of(origin, record(kind, a, b)), of(origin, record(5 - kind, a, b))]);
    let claims: Vec<Bytes> = asked(SCANNER).chain(asked(SHEET)).collect();
    let mut lent = Lent::new(random, Lengths { answers: claims.len(), ..LEAST });
    let number = lent.call(&book.concat(), Some(&claims.concat())).number;
    let wanted = [[3; 8], [1, 2, 1, 2, 1, 2, 1, 2]].concat();
    (number != 0 || lent.answers.lend() != wanted).then(|| format!("restricted claims: number {number}, answers {:?}", lent.answers.lend()))
}

/// What is said of a void piece, here by the scanner's mark, is decided from all facts and from the sheets alike.
fn void_claims(random: &mut Random) -> Option<String> {
    let book = [of(SCANNER, record(VOID, 1, 0)), record(PART, 2, 0)];
    let asked = [
        (PART, 1, 2, 1),
        (NOTPART, 1, 2, 2),
        (APART, 1, 2, 1),
        (APART, 2, 1, 1),
        (MEETS, 1, 2, 2),
        (PART, 2, 1, 2),
        (NOTPART, 2, 1, 1),
        (PART, 1, 1, 1),
        (NOTPART, 1, 1, 2),
        (APART, 1, 1, 1),
        (MEETS, 1, 1, 2),
        (MEETS, 0, 1, 2),
        (NOTPART, 0, 1, 1),
        (MEETS, 2, 2, 1),
        (PART, 0, 2, 3),
    ];
    let claims: Vec<Bytes> =
        [SHEET, SCANNER].iter().flat_map(|&origin| asked.iter().map(move |&(kind, a, b, _)| of(origin, record(kind, a, b)))).collect();
    let wanted: Vec<u8> = asked.iter().chain(&asked).map(|&(_, _, _, answer)| answer).collect();
    let mut lent = Lent::new(random, Lengths { answers: claims.len(), ..LEAST });
    let number = lent.call(&book.concat(), Some(&claims.concat())).number;
    (number != 0 || lent.answers.lend() != wanted)
        .then(|| format!("a void piece's claims: number {number}, answers {:?}", lent.answers.lend()))
}

/// Sound records that differ, with the largest piece number among them.
pub fn many(count: usize) -> Vec<Bytes> {
    (0..count).map(|i| record(MEETS, 2047 - i % 2048, i / 2048)).collect()
}

/// Books with the number and the place that document 01 gives them.
fn edges() -> Vec<(&'static str, Vec<Bytes>, Vec<Bytes>, (usize, usize))> {
    let session = || {
        let bytes: &[u8] = include_bytes!("../../examples/book.rec");
        bytes.chunks(6).map(|r| r.try_into().unwrap()).collect::<Vec<Bytes>>()
    };
    let with = |more: &[Bytes]| [session(), more.to_vec()].concat();
    let one = |kind, a, b| vec![record(kind, a, b)];
    let mut bad_kind = record(7, 9000, 9000);
    bad_kind[1] = 2;
    let bad_origin = [PART, 2, 0, 16, 0, 16];
    let none: Vec<Bytes> = vec![];
    vec![
        ("no bytes", none.clone(), none.clone(), (0, 0)),
        ("no bytes, all claims about piece 0", none.clone(), all_claims(1), (0, 0)),
        ("no bytes, a claim about piece 1", none.clone(), one(MEETS, 0, 1), (13, 0)),
        ("8,192 records", many(8192), none.clone(), (0, 0)),
        ("8,193 records", many(8193), none.clone(), (4, 0)),
        ("8,193 records, a bad one first", [vec![bad_kind], many(8192)].concat(), none.clone(), (4, 0)),
        ("piece 2,047", one(PART, 2047, 2046), none.clone(), (0, 0)),
        ("piece 2,048 as a", one(PART, 2048, 2047), none.clone(), (7, 0)),
        ("piece 2,048 as b", one(APART, 1, 2048), none.clone(), (7, 0)),
        ("piece 2,048 as b of PART", one(PART, 1, 2048), none.clone(), (7, 0)),
        ("a TRAY record", vec![record(PART, 1, 0), record(TRAY, 1, 2)], none.clone(), (5, 1)),
        ("a TRAY record is 5 and not 7", one(TRAY, 2048, 0), none.clone(), (5, 0)),
        ("APART 3 4 and 4 3", vec![record(APART, 3, 4), record(APART, 4, 3)], all_claims(5), (0, 0)),
        ("APART 3 4 twice", vec![record(APART, 3, 4), record(MEETS, 1, 1), record(APART, 3, 4)], none.clone(), (9, 2)),
        ("APART 2 2", one(APART, 2, 2), all_claims(3), (14, 0)),
        ("NOTPART 1 0", one(NOTPART, 1, 0), all_claims(2), (14, 0)),
        ("APART 1 0", one(APART, 1, 0), all_claims(2), (14, 0)),
        ("NOTPART 0 1", one(NOTPART, 0, 1), all_claims(2), (0, 0)),
        ("NOTPART 0 0", one(NOTPART, 0, 0), all_claims(1), (14, 0)),
        ("the session and MEETS 5 3", with(&[record(MEETS, 5, 3)]), all_claims(6), (14, 9)),
        ("MEETS 5 3 and the session", [one(MEETS, 5, 3), session()].concat(), all_claims(6), (14, 7)),
        ("row 5 before 6", vec![record(MEETS, 0, 0), bad_kind], none.clone(), (5, 1)),
        ("row 6 before 7", vec![record(MEETS, 0, 0), bad_origin], none.clone(), (6, 1)),
        ("row 9 before a later row 5", [one(MEETS, 0, 0), one(MEETS, 0, 0), vec![bad_kind]].concat(), none.clone(), (9, 1)),
        ("row 9 before row 14", [one(APART, 2, 2), one(APART, 2, 2)].concat(), none.clone(), (9, 1)),
        ("4,096 claims", session(), vec![record(PART, 5, 2); 4096], (0, 0)),
        ("4,097 claims", session(), vec![record(PART, 5, 2); 4097], (11, 0)),
        ("4,097 claims, a bad one first", session(), [vec![bad_kind], vec![record(PART, 5, 2); 4096]].concat(), (11, 0)),
        ("a claim of kind 5", session(), [one(PART, 1, 1), one(TRAY, 1, 1)].concat(), (12, 1)),
        ("a claim of kind 0", session(), one(0, 9, 9), (12, 0)),
        ("a claim's byte 1", session(), vec![bad_origin], (12, 0)),
        ("APART 3 4 of both origins", vec![record(APART, 3, 4), of(SCANNER, record(APART, 3, 4))], all_claims(5), (0, 0)),
        ("PART 2 1 of both origins is one node", vec![of(SCANNER, record(PART, 2, 1)), record(PART, 2, 1)], all_claims(3), (0, 0)),
        ("a contradiction of both origins", vec![record(PART, 2, 1), of(SCANNER, record(APART, 2, 1))], all_claims(3), (14, 1)),
        ("a scanner's book, all claims", session().into_iter().map(|r| of(SCANNER, r)).collect(), all_claims(6), (0, 0)),
        ("a claim about piece 6 as a", session(), one(PART, 6, 0), (13, 0)),
        ("a claim about piece 6 as b", session(), one(MEETS, 0, 6), (13, 0)),
        ("row 13 before a later row 12", session(), [one(PART, 6, 0), one(TRAY, 0, 0)].concat(), (13, 0)),
        ("row 13 before row 14", one(APART, 2, 2), one(PART, 3, 0), (13, 0)),
        ("a claim about all pieces of a book of one fact", one(MEETS, 3, 3), all_claims(4), (0, 0)),
        ("piece 0 alone", one(MEETS, 0, 0), all_claims(1), (0, 0)),
    ]
}

/// Books with marks, with the number and the place that document 02's R-10 gives them.
fn void_edges() -> Vec<(&'static str, Vec<Bytes>, Vec<Bytes>, (usize, usize))> {
    let mark = |a: usize| record(VOID, a, 0);
    let scanned = |a: usize| of(SCANNER, record(VOID, a, 0));
    let none: Vec<Bytes> = vec![];
    vec![
        ("a mark", vec![mark(1)], all_claims(2), (0, 0)),
        ("a mark of piece 2,047", vec![mark(2047)], vec![record(PART, 2047, 2046)], (0, 0)),
        ("a mark of piece 2,048 is 7 and not 19", vec![record(VOID, 2048, 1)], none.clone(), (7, 0)),
        ("a mark of origin 2 is 6 and not 19", vec![of(2, mark(0))], none.clone(), (6, 0)),
        ("a mark of piece 0", vec![record(PART, 1, 0), scanned(0)], none.clone(), (19, 1)),
        ("a mark with b", vec![record(VOID, 1, 1)], none.clone(), (19, 0)),
        ("a mark whose b is no piece", vec![record(VOID, 1, 65535)], none.clone(), (19, 0)),
        ("row 19 before a later row 9", vec![mark(1), mark(0), mark(1)], none.clone(), (19, 1)),
        ("row 9 before a later row 19", vec![mark(1), mark(1), mark(0)], none.clone(), (9, 1)),
        ("a mark of both origins", vec![mark(1), scanned(1)], all_claims(2), (0, 0)),
        ("a mark twice", vec![scanned(1), mark(1), scanned(1)], none.clone(), (9, 2)),
        ("a claim of kind 6", vec![mark(1)], vec![mark(1)], (12, 0)),
        ("a void piece that MEETS another", vec![mark(1), record(MEETS, 1, 2)], all_claims(3), (14, 1)),
        ("a mark counts from the first record on", vec![record(MEETS, 2, 1), record(PART, 3, 0), mark(1)], all_claims(4), (14, 0)),
        ("the scanner's mark and a sheet's MEETS", vec![record(PART, 3, 0), record(MEETS, 1, 2), scanned(1)], all_claims(4), (14, 1)),
        ("a void piece that MEETS itself", vec![mark(1), record(MEETS, 1, 1)], all_claims(2), (14, 1)),
        ("an unmarked part of a void piece", vec![record(PART, 3, 0), record(PART, 2, 1), mark(1)], all_claims(4), (14, 1)),
        (
            "an unmarked part of a part of a void piece",
            vec![mark(1), mark(2), record(PART, 2, 1), record(PART, 3, 2)],
            all_claims(4),
            (14, 3),
        ),
        ("a void part of a void piece", vec![mark(1), record(PART, 2, 1), mark(2)], all_claims(3), (0, 0)),
        ("a void part of an unmarked piece", vec![record(PART, 2, 1), mark(2)], all_claims(3), (0, 0)),
        ("a void piece NOTPART of another", vec![mark(1), record(PART, 3, 0), record(NOTPART, 1, 2)], all_claims(4), (14, 2)),
        ("a piece NOTPART of a void one", vec![mark(1), record(NOTPART, 2, 1)], all_claims(3), (0, 0)),
        ("a void piece APART from itself and from 0", vec![record(APART, 1, 1), record(APART, 0, 1), mark(1)], all_claims(2), (0, 0)),
        ("an unmarked piece APART from itself beside a void one", vec![mark(1), record(APART, 2, 2)], all_claims(3), (14, 1)),
        ("all pieces but 0 void", vec![mark(1), mark(2), record(PART, 2, 1), record(APART, 1, 2)], all_claims(3), (0, 0)),
    ]
}

/// Books with circles and late containers, with the number and the place that document 02's R-13 gives them.
fn circle_edges() -> Vec<(&'static str, Vec<Bytes>, Vec<Bytes>, (usize, usize))> {
    let part = |a, b| record(PART, a, b);
    let scanned = |a, b| of(SCANNER, record(PART, a, b));
    let mark = |a: usize| record(VOID, a, 0);
    vec![
        ("a circle and a NOTPART in it", vec![part(1, 2), part(2, 1), record(NOTPART, 1, 2)], all_claims(3), (14, 2)),
        ("a NOTPART that a circle closes on", vec![record(NOTPART, 3, 2), part(1, 2), part(2, 3), part(3, 1)], all_claims(4), (14, 3)),
        ("a circle and an APART in it", vec![part(1, 2), record(APART, 2, 1), part(2, 1)], all_claims(3), (14, 1)),
        ("an APART to what a circle contains", vec![part(1, 2), part(2, 1), part(3, 1), record(APART, 3, 2)], all_claims(4), (14, 3)),
        (
            "a circle APART from another piece",
            vec![part(1, 2), part(2, 1), record(APART, 1, 3), record(MEETS, 2, 3)],
            all_claims(4),
            (14, 3),
        ),
        ("NOTPART 0 1 and PART 0 1", vec![record(NOTPART, 0, 1), part(0, 1)], all_claims(2), (14, 1)),
        ("PART 0 1 and APART of two others", vec![part(0, 1), record(APART, 2, 3)], all_claims(4), (0, 0)),
        ("PART 0 1 and APART from it", vec![part(0, 1), record(APART, 2, 1)], all_claims(3), (14, 1)),
        (
            "a circle with a late bag APART from another",
            vec![part(1, 5), part(2, 5), record(APART, 5, 3), part(5, 4), part(4, 5)],
            all_claims(6),
            (0, 0),
        ),
        ("a circle of two origins", vec![part(1, 2), scanned(2, 1)], all_claims(3), (0, 0)),
        ("a circle of two origins and a NOTPART in it", vec![part(1, 2), scanned(2, 1), record(NOTPART, 2, 1)], all_claims(3), (14, 2)),
        ("PART 1 1 and NOTPART 1 1", vec![part(1, 1), record(NOTPART, 1, 1)], all_claims(2), (14, 1)),
        ("PART 1 1 of both origins", vec![part(1, 1), scanned(1, 1)], all_claims(2), (0, 0)),
        ("PART 1 1 twice", vec![part(1, 1), part(1, 1)], vec![], (9, 1)),
        ("a void circle", vec![part(1, 2), part(2, 1), mark(1), mark(2)], all_claims(3), (0, 0)),
        ("a circle half void", vec![part(1, 2), part(2, 1), mark(1)], all_claims(3), (14, 1)),
        ("0 in a void piece", vec![mark(1), part(0, 1)], all_claims(2), (14, 1)),
        ("a void piece in itself", vec![part(1, 1), mark(1)], all_claims(2), (0, 0)),
        ("two void pieces are two groups", vec![part(1, 2), mark(1), mark(2)], all_claims(3), (0, 0)),
        ("row 7 of a late container", vec![part(1, 2048)], vec![], (7, 0)),
    ]
}

/// A book with its index written out from document 02's R-13.
struct Written {
    name: &'static str,
    pairs: Vec<(usize, usize)>,
    parentheses: Vec<u8>,
    marks: u8,
    shadows: Vec<u16>,
    places: Vec<u16>,
    nodes: usize,
}

fn circle_indexes() -> Vec<Written> {
    let none = || vec![];
    let written = |name, pairs: &[(usize, usize)], parentheses: &[u8], (marks, shadows): (u8, Vec<u16>), places: &[u16], nodes| Written {
        name,
        pairs: pairs.to_vec(),
        parentheses: parentheses.to_vec(),
        marks,
        shadows,
        places: places.to_vec(),
        nodes,
    };
    vec![
        // 1 10 10 10 0
        written("PART 3 3", &[(3, 3)], &[43], (0, none()), &[0, 1, 2, 3], 4),
        written("PART 0 0", &[(0, 0)], &[1], (0, none()), &[0], 1),
        // 1 10 0
        written("PART 1 2 and 2 1", &[(1, 2), (2, 1)], &[3], (0, none()), &[0, 1, 1], 2),
        written("PART 0 1", &[(0, 1)], &[1], (0, none()), &[0, 0], 1),
        written("a circle of all with 0", &[(0, 1), (1, 2), (2, 0)], &[1], (0, none()), &[0, 0, 0], 1),
        // 1 1 10 10 0 0: the bag 3 in 0, 1 and 2 in it
        written("a bag numbered late", &[(1, 3), (2, 3), (3, 0)], &[23], (0, none()), &[0, 2, 3, 1], 4),
        // 1 1 10 1 10 0 0 0: 1 in 2 and, as a shadow, in 3, which is in 2 too
        written("a late container of a shadow", &[(1, 3), (3, 2), (1, 2)], &[55, 0], (16, vec![2]), &[0, 2, 1, 3], 5),
        // 1 1 1 0 0 0: three pairs between two circles are one edge
        written("a circle in another", &[(1, 2), (2, 1), (3, 4), (4, 3), (3, 1), (4, 2), (3, 2)], &[7], (0, none()), &[0, 1, 1, 2, 2], 3),
        // 1 1 10 0 10 0: the circle of 1 and 4 comes before 2, 3 is in it
        written("a circle under its lowest number", &[(4, 1), (1, 4), (3, 4)], &[39], (0, none()), &[0, 1, 3, 2, 1], 4),
        // 1 10 10 0: 0, 3 and 2 are one, 1 is joined to it, 4 is in 3
        written("a circle with 0", &[(0, 3), (3, 2), (4, 3)], &[11], (0, none()), &[0, 1, 0, 0, 2], 3),
        // 1 1 10 0 1 10 0 0: the circle of 3 and 4 is in 1 by the one and in 2 by the other
        written("a shadow of a circle", &[(4, 3), (3, 4), (4, 2), (3, 1)], &[103, 0], (16, vec![2]), &[0, 1, 3, 2, 2], 5),
        // the same: 4 is in 2, which is in a circle with 1, and in 3
        written("a shadow of a part of a circle", &[(4, 3), (4, 2), (2, 1), (1, 2)], &[103, 0], (16, vec![2]), &[0, 1, 1, 3, 2], 5),
    ]
}

/// The index of each, over its whole lengths.
fn written_indexes(random: &mut Random) -> Vec<Option<String>> {
    let compared = |w: &Written, lent: &mut Lent| {
        let book: Vec<u8> = w.pairs.iter().flat_map(|&(part, container)| record(PART, part, container)).collect();
        let mut after = lent.clone();
        let got = lent.call(&book, None);
        let wanted = Outcome { number: 0, place: 0, pieces: w.places.len(), nodes: w.nodes, shadows: w.shadows.len() };
        let index = Index { parentheses: vec![0; 2560], marks: vec![0; 1280], shadows: vec![0; 8192], places: vec![0; 2048] };
        after.apply(&Change::Index(index));
        after.parentheses.write(&w.parentheses);
        after.marks.write(&[w.marks]);
        after.shadows.write(&w.shadows);
        after.places.write(&w.places);
        let wrong = if got == wanted { lent.difference(&after) } else { Some(format!("got {got:?}, the papers say {wanted:?}")) };
        let by_reference = judge(&book, Edition::InForce, None, LEAST).outcome;
        wrong
            .or((by_reference != wanted).then(|| format!("the reference says {by_reference:?}")))
            .map(|wrong| format!("{}: {wrong}", w.name))
    };
    circle_indexes().iter().map(|w| compared(w, &mut Lent::new(random, LEAST))).collect()
}

/// A circle of 1 and 2 by a sheet and the scanner, 3 in 2, 4 APART from 1: answers from all facts and from the sheets.
fn circle_claims(random: &mut Random) -> Option<String> {
    let book = [record(PART, 1, 2), of(SCANNER, record(PART, 2, 1)), record(PART, 3, 2), record(APART, 4, 1)];
    let asked = [
        (PART, 1, 2, 1, 1),
        (PART, 2, 1, 1, 3),
        (NOTPART, 2, 1, 2, 3),
        (PART, 3, 1, 1, 3),
        (APART, 4, 2, 1, 3),
        (APART, 3, 4, 1, 3),
        (MEETS, 2, 4, 2, 3),
        (MEETS, 1, 3, 1, 3),
        (MEETS, 1, 2, 1, 1),
        (NOTPART, 2, 4, 1, 1),
        (NOTPART, 0, 2, 1, 3),
        (PART, 0, 2, 2, 3),
        (PART, 0, 1, 2, 2),
        (PART, 2, 3, 3, 3),
    ];
    let claims: Vec<Bytes> =
        [SHEET, SCANNER].iter().flat_map(|&origin| asked.iter().map(move |&(kind, a, b, _, _)| of(origin, record(kind, a, b)))).collect();
    let wanted: Vec<u8> = asked.iter().map(|&(_, _, _, all, _)| all).chain(asked.iter().map(|&(_, _, _, _, sheets)| sheets)).collect();
    let mut lent = Lent::new(random, Lengths { answers: claims.len(), ..LEAST });
    let number = lent.call(&book.concat(), Some(&claims.concat())).number;
    (number != 0 || lent.answers.lend() != wanted).then(|| format!("a circle's claims: number {number}, answers {:?}", lent.answers.lend()))
}

/// Former books and what becomes of them, or the number and the place.
fn conversions() -> Vec<(&'static str, Vec<Bytes>, Result<Vec<Bytes>, (usize, usize)>)> {
    let tray = |a, b| record(TRAY, a, b);
    let one = |kind, a, b| vec![record(kind, a, b)];
    let trays = |count: usize| -> Vec<Bytes> { (0..count).map(|i| tray(i % 2048, i)).collect() };
    vec![
        ("no bytes", vec![], Ok(vec![])),
        ("piece 0 on a tray", vec![tray(0, 7)], Ok(vec![])),
        ("piece 3 on tray 65,535", vec![tray(3, 65535)], Ok(one(PART, 3, 0))),
        ("a scanner's tray", vec![of(SCANNER, tray(3, 9))], Ok(one(PART, 3, 0))),
        ("piece 2,047 on a tray", vec![tray(2047, 0), record(APART, 1, 2)], Ok(vec![record(APART, 1, 2), record(PART, 2047, 0)])),
        ("a piece that is named as b", vec![record(MEETS, 0, 5), tray(5, 5)], Ok(one(MEETS, 0, 5))),
        (
            "the others in their order",
            vec![tray(1, 1), record(APART, 3, 4), tray(1, 2), of(SCANNER, record(PART, 2, 1)), record(PART, 2, 1), tray(4, 1)],
            Ok(vec![record(APART, 3, 4), of(SCANNER, record(PART, 2, 1)), record(PART, 2, 1)]),
        ),
        ("8,192 trays", trays(8192), Ok(one(PART, 2047, 0))),
        ("8,193 trays", trays(8193), Err((4, 0))),
        ("piece 2,048 on a tray", vec![tray(2048, 0)], Err((7, 0))),
        ("kind 6", vec![tray(0, 0), record(6, 1, 0)], Err((5, 1))),
        ("a tray of origin 2", vec![tray(0, 0), of(2, tray(1, 0))], Err((6, 1))),
        ("a tray twice", vec![tray(1, 1), tray(1, 2), tray(1, 1)], Err((9, 2))),
        ("a tray of both origins", vec![tray(1, 1), of(SCANNER, tray(1, 1))], Ok(one(PART, 1, 0))),
        ("PART 3 3 behind a tray", vec![tray(1, 1), record(PART, 3, 3)], Err((8, 1))),
        ("PART 3 3", one(PART, 3, 3), Err((8, 0))),
        ("PART 0 0", one(PART, 0, 0), Err((8, 0))),
        ("PART 1 2 and 2 1", vec![record(PART, 2, 1), record(PART, 1, 2)], Err((8, 1))),
        ("PART 1 2,048 is 7 and not 8", one(PART, 1, 2048), Err((7, 0))),
        ("the place of 14 counts trays", vec![tray(9, 9), tray(9, 8), record(APART, 2, 2), tray(9, 7)], Err((14, 2))),
    ]
}

pub fn examples(tally: &mut Tally) {
    let failed = tally.failed;
    let wrong = session(&mut tally.random);
    tally.count(wrong);
    let wrong = restricted(&mut tally.random);
    tally.count(wrong);
    let wrong = void_claims(&mut tally.random);
    tally.count(wrong);
    let wrong = circle_claims(&mut tally.random);
    tally.count(wrong);
    let indexes = written_indexes(&mut tally.random);
    let edges = [edges(), void_edges(), circle_edges()].concat();
    let count = edges.len() + indexes.len() + 4;
    indexes.into_iter().for_each(|wrong| tally.count(wrong));
    for (i, (name, book, claims, place)) in edges.into_iter().enumerate() {
        let case = case(&mut tally.random, &book, &claims);
        let Outcome { number, place: at, .. } = tally.try_case(name, i, &case).outcome;
        if (number, at) != place {
            tally.count(Some(format!("{name}: the reference says {number} at {at}, the papers {place:?}")));
        }
    }
    let line =
        format!("document 01's session and edges, restricted claims, marks and circles: {count} books; {} failed", tally.failed - failed);
    tally.say(line);
}

/// Each part of the index and the answers one short of what they must be, alone, whatever the book is: refused by 1 at 0, and nothing is written. Short answers
/// are nothing to the call that writes the index alone.
pub fn one_short(tally: &mut Tally) {
    let failed = tally.failed;
    let session: &[u8] = include_bytes!("../../examples/book.rec");
    let claims: &[u8] = include_bytes!("../../examples/claims");
    let just = Lengths { answers: claims.len() / 6, ..LEAST };
    let lengths = [
        ("a parenthesis byte", Lengths { parentheses: 2559, ..just }),
        ("a mark byte", Lengths { marks: 1279, ..just }),
        ("a shadow number", Lengths { shadows: 8191, ..just }),
        ("places-2047", Lengths { places: 2047, ..just }),
        ("an answer byte", Lengths { answers: claims.len() / 6 - 1, ..just }),
    ];
    let one = |kind, a, b| record(kind, a, b).to_vec();
    let books = [session.to_vec(), one(MEETS, 0, 0), vec![], one(APART, 2, 2), one(7, 0, 0), vec![1; 5], many(8193).concat()];
    for (number, book) in books.iter().enumerate() {
        for (name, lengths) in lengths {
            let case = Case { book: book.clone(), claims: claims.to_vec(), lengths };
            let Outcome { number, place, .. } = tally.try_case(name, number, &case).outcome;
            tally.count(((number, place) != (1, 0)).then(|| format!("{name} short: the reference says {number} at {place}")));
        }
        let room = book.len().saturating_sub(1);
        let number = tally.try_conversion("an output one byte short", number, book, room).number;
        tally.count((number != 1 && !book.is_empty()).then(|| format!("an output one byte short: the reference says {number}")));
    }
    // nothing short: the session is accepted
    let expected = tally.try_case("just enough", 0, &Case { book: session.to_vec(), claims: claims.to_vec(), lengths: just });
    tally.count((expected.outcome.number != 0).then(|| "just enough is too little".into()));
    tally.say(format!("parts one short: {} books, each with six; {} failed", books.len(), tally.failed - failed));
}

pub fn conversion_examples(tally: &mut Tally) {
    let failed = tally.failed;
    let all = conversions();
    let count = all.len();
    for (i, (name, book, wanted)) in all.into_iter().enumerate() {
        let book = book.concat();
        let (number, place, bytes) = match wanted {
            Ok(new) => (0, 0, new.concat()),
            Err((number, place)) => (number, place, vec![]),
        };
        let (converted, new, _) = convert(&book, book.len());
        if (converted, &new) != (Converted { number, place, length: bytes.len() }, &bytes) {
            tally.count(Some(format!("{name}: the reference says {converted:?}")));
        }
        tally.try_conversion(name, i, &book, book.len());
    }
    let line = format!("conversions by hand: {count} books; {} failed", tally.failed - failed);
    tally.say(line);
}
