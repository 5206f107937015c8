//! Catalogs against the reference: the outcome, every number of index, list and areas, and the range question on them. On altered areas the question
//! need only be answered.

use crate::books::{of, record, Random, APART, MEETS, NOTPART, PART, SCANNER, VOID};
use crate::buffers::{Buffer, Lent, LEAST};
use crate::jobs::seed;
use crate::piecebook::{self, Areas, Cataloged, Parts, Range, LIST, PAIRS};
use crate::reference::{catalog, ExpectedCatalog, Lengths, Lists, AREAS};
use crate::tally::Tally;
use crate::workspaces::lend;
use std::collections::BTreeMap;
use std::time::Instant;

/// The list and the areas of MEETS, APART and NOTPART.
#[derive(Clone)]
struct Written {
    list: Buffer<u16>,
    areas: [Buffer<u16>; 3],
}

/// A book, what is asked of it, and the lengths of what is lent.
pub struct Case {
    pub book: Vec<u8>,
    pub kind: usize,
    pub piece: usize,
    pub lengths: Lengths,
    pub list: usize,
    pub areas: [usize; 3],
}

/// A kind and a piece, mostly of the book, and lengths of list and areas that mostly do.
pub fn ask(random: &mut Random, book: Vec<u8>, pieces: usize, lengths: Lengths) -> Case {
    let kind = if random.one_in(12) { random.pick(&[0, 4, 5, 257, usize::MAX]) } else { random.range(1, 4) };
    let piece = if random.one_in(12) { random.pick(&[pieces, pieces + 1, 65536, usize::MAX]) } else { random.below(pieces) };
    let mut more = |least: usize| match random.below(60) {
        0 => random.below(least),
        1 => least - 1,
        n if n < 20 => least,
        _ => least + random.below(50),
    };
    let (list, areas) = (more(LIST), [more(PAIRS), more(PAIRS), more(PAIRS)]);
    Case { book, kind, piece, lengths, list, areas }
}

/// A sound kind and piece, and lengths that do.
pub fn ask_soundly(random: &mut Random, book: Vec<u8>, pieces: usize, kind: usize, lengths: Lengths) -> Case {
    Case { kind, piece: random.below(pieces), list: LIST, areas: [PAIRS; 3], ..ask(random, book, pieces, lengths) }
}

fn call(lent: &mut Lent, lists: &mut Written, case: &Case) -> Cataloged {
    let mut index =
        Parts { parentheses: lent.parentheses.lend(), marks: lent.marks.lend(), shadows: lent.shadows.lend(), places: lent.places.lend() };
    let [meets, apart, notpart] = &mut lists.areas;
    let mut areas = Areas { list: lists.list.lend(), meets: meets.lend(), apart: apart.lend(), notpart: notpart.lend() };
    lend(&[&case.book], |workspace| piecebook::catalog(workspace, &case.book, case.kind, case.piece, &mut index, &mut areas))
}

/// A range of places: an arbitrary one, a short one, one place, none, or all.
fn some_range(random: &mut Random, nodes: usize) -> Range {
    let from = random.below(nodes);
    match random.below(8) {
        0 => Range { from: from + 1, to: from },
        1 => Range { from: 0, to: usize::MAX },
        2 => Range { from, to: from },
        3 => Range { from: random.below(nodes), to: from },
        4 => Range { from: usize::MAX, to: 0 },
        _ => Range { from, to: from + random.below(12) },
    }
}

/// The subtree of a piece, by counting parentheses from its node on.
fn subtree(lent: &mut Lent, piece: usize) -> Range {
    let bit = |bytes: &[u8], k: usize| bytes[k / 8] >> (k % 8) & 1 == 1;
    let place = usize::from(lent.places.lend()[piece]);
    let bytes = lent.parentheses.lend();
    let open = (0..8 * 2560).filter(|&k| bit(bytes, k)).nth(place).expect("a node at each place");
    let (mut depth, mut nodes, mut at) = (0, 0, open);
    loop {
        if bit(bytes, at) {
            depth += 1;
            nodes += 1;
        } else {
            depth -= 1;
        }
        if depth == 0 {
            return Range { from: place, to: place + nodes - 1 };
        }
        at += 1;
    }
}

/// Some stored fact has its pieces at places in these rows and columns, or the other way round where the kind is unordered.
fn between(stored: &[(usize, usize)], unordered: bool, rows: Range, columns: Range) -> bool {
    let within = |range: Range, place: usize| range.from <= place && place <= range.to;
    stored.iter().any(|&(a, b)| within(rows, a) && within(columns, b) || unordered && within(rows, b) && within(columns, a))
}

/// Asks about ranges, those of subtrees among them; `yes` counts the answers.
fn questions(
    random: &mut Random,
    lent: &mut Lent,
    lists: &mut Written,
    outcome: Cataloged,
    wanted: &Lists,
    yes: &mut [usize; 2],
) -> Option<String> {
    let counts = [outcome.meets, outcome.apart, outcome.notpart];
    for number in 0..60 {
        let i = number % 3;
        let (kind, unordered) = AREAS[i];
        let mut range = || {
            if !random.one_in(3) {
                return some_range(random, outcome.nodes);
            }
            let piece = random.below(outcome.pieces);
            let by_hand = subtree(lent, piece);
            let range = piecebook::subtree(lent.parentheses.lend(), lent.places.lend(), piece);
            assert_eq!(range, by_hand, "the subtree of {piece}");
            range
        };
        let (rows, columns) = (range(), range());
        let answer = between(&wanted.stored[i], unordered, rows, columns);
        yes[usize::from(answer)] += 1;
        if piecebook::fact_between(lists.areas[i].lend(), counts[i], unordered, rows, columns) != answer {
            return Some(format!("{kind:?} in rows {rows:?}, columns {columns:?} is not {answer}"));
        }
    }
    None
}

/// The same on altered areas, counts and parts, where any answer will do.
fn altered(random: &mut Random, lent: &mut Lent, lists: &mut Written) {
    for area in lists.areas.iter_mut() {
        for _ in 0..random.below(6) {
            let at = random.below(area.length);
            area.lend()[at] = random.next() as u16;
        }
        let length = area.length;
        let count = random.pick(&[0, 1, 8192, length / 2, length / 2 + 1, length, usize::MAX]);
        let (rows, columns) = (some_range(random, 10240), some_range(random, 10240));
        let shorter = random.below(length + 1);
        piecebook::fact_between(area.lend(), count, random.one_in(2), rows, columns);
        piecebook::fact_between(&area.lend()[..shorter], count, random.one_in(2), rows, columns);
    }
    for part in [lent.parentheses.lend()] {
        let at = random.below(part.len());
        part[at] = random.next() as u8;
        let shorter = random.below(part.len() + 1);
        let piece = random.pick(&[0, 1, 2047, 2048, usize::MAX]);
        piecebook::subtree(part, lent.places.lend(), piece);
        piecebook::subtree(&part[..shorter], lent.places.lend(), piece);
    }
}

/// Calls the library once and says what is wrong.
pub fn compare(random: &mut Random, case: &Case, yes: &mut [usize; 2]) -> (Cataloged, Option<String>) {
    let expected = catalog(&case.book, case.kind, case.piece, case.lengths, case.list, case.areas);
    let ExpectedCatalog { outcome, change, lists: wanted, doubt } = expected;
    let mut lent = Lent::new(random, case.lengths);
    let mut lists = Written {
        list: Buffer::new(random, case.list, |x| x as u16),
        areas: case.areas.map(|length| Buffer::new(random, length, |x| x as u16)),
    };
    let (mut lent_after, mut lists_after) = (lent.clone(), lists.clone());
    lent_after.apply(&change);
    if let Some(wanted) = &wanted {
        lists_after.list.write(&wanted.list);
        lists_after.areas.iter_mut().zip(&wanted.areas).for_each(|(area, numbers)| area.write(numbers));
    }
    let book_before = case.book.clone();
    let got = call(&mut lent, &mut lists, case);
    let differ = |lists: &Written| {
        let at = lists.list.difference(&lists_after.list).map(|at| ("list", at));
        at.or_else(|| lists.areas.iter().zip(&lists_after.areas).find_map(|(x, y)| x.difference(y)).map(|at| ("area", at)))
    };
    let mut wrong = if let Some(doubt) = doubt {
        Some(format!("the reference is in doubt: {doubt}"))
    } else if got != outcome {
        Some(format!("got {got:?}, expected {outcome:?}"))
    } else if case.book != book_before {
        Some("the book was written to".into())
    } else {
        lent.difference(&lent_after).or(differ(&lists).map(|(name, at)| format!("the {name} differs at {at}")))
    };
    if let Some(wanted) = wanted.filter(|_| wrong.is_none()) {
        wrong = questions(random, &mut lent, &mut lists, got, &wanted, yes);
        altered(random, &mut lent, &mut lists);
    }
    (outcome, wrong)
}

/// Catalogs of one book with the lists that they must give, and the numbers of index and areas.
fn by_hand(
    random: &mut Random,
    book: &[u8],
    counts: Cataloged,
    areas: [[u16; 3]; 3],
    lists: &[(usize, usize, Vec<u16>)],
) -> Option<String> {
    let lengths = LEAST;
    for (kind, piece, wanted) in lists {
        let case = Case { book: book.to_vec(), kind: *kind, piece: *piece, lengths, list: LIST, areas: [PAIRS; 3] };
        let mut lent = Lent::new(random, lengths);
        let mut lists = Written {
            list: Buffer::new(random, LIST, |x| x as u16),
            areas: [PAIRS; 3].map(|length| Buffer::new(random, length, |x| x as u16)),
        };
        let got = call(&mut lent, &mut lists, &case);
        let written = lists.areas.iter_mut().zip(areas).all(|(area, numbers)| area.lend()[..3] == numbers);
        if got != (Cataloged { listed: wanted.len(), ..counts }) || lists.list.lend()[..wanted.len()] != wanted[..] || !written {
            return Some(format!("kind {kind}, piece {piece}: {got:?}"));
        }
    }
    None
}

/// The printed session's book: what is PART of 1, MEETS 2, is APART from 3, and its three areas.
pub fn session(random: &mut Random) -> Option<String> {
    const BOOK: &[u8] = include_bytes!("../../examples/book.rec");
    let counts = Cataloged { pieces: 6, nodes: 7, shadows: 1, meets: 1, apart: 1, notpart: 1, ..Cataloged::default() };
    let lists = [(1, 1, vec![1, 3, 4, 5]), (3, 2, vec![0, 1, 2, 3, 4, 5]), (2, 3, vec![4, 5]), (2, 0, vec![]), (1, 5, vec![5])];
    let wrong = by_hand(random, BOOK, counts, [[2, 5, 0], [2, 3, 0], [5, 1, 0]], &lists);
    wrong.map(|wrong| format!("catalog of the printed session, {wrong}"))
}

/// A void piece is in every list of what is PART of a piece or APART from one, and in none of what MEETS one; its mark is in no area.
pub fn void_piece(random: &mut Random) -> Option<String> {
    let book = [of(SCANNER, record(VOID, 1, 0)), record(PART, 2, 0), record(APART, 3, 2)].concat();
    let counts = Cataloged { pieces: 4, nodes: 4, apart: 1, ..Cataloged::default() };
    let lists = [
        (1, 2, vec![1, 2]),
        (1, 1, vec![1]),
        (1, 0, vec![0, 1, 2, 3]),
        (2, 2, vec![1, 3]),
        (2, 1, vec![0, 1, 2, 3]),
        (2, 0, vec![1]),
        (3, 2, vec![0, 2]),
        (3, 1, vec![]),
        (3, 0, vec![0, 2, 3]),
    ];
    by_hand(random, &book, counts, [[0; 3], [2, 3, 0], [0; 3]], &lists).map(|wrong| format!("catalog of a void piece, {wrong}"))
}

/// Pieces 1 and 2 are one piece: what is known of one is listed for both, and their stored facts have the same places.
pub fn circle(random: &mut Random) -> Option<String> {
    let facts = [(PART, 1, 2), (PART, 2, 1), (MEETS, 1, 3), (MEETS, 3, 2), (APART, 1, 4), (APART, 4, 2), (NOTPART, 1, 3), (NOTPART, 2, 3)];
    let book: Vec<u8> = facts.iter().flat_map(|&(kind, a, b)| record(kind, a, b)).collect();
    let counts = Cataloged { pieces: 5, nodes: 4, meets: 1, apart: 1, notpart: 1, ..Cataloged::default() };
    let lists = [
        (1, 1, vec![1, 2]),
        (1, 2, vec![1, 2]),
        (1, 0, vec![0, 1, 2, 3, 4]),
        (2, 1, vec![4]),
        (2, 2, vec![4]),
        (2, 4, vec![1, 2]),
        (3, 1, vec![0, 1, 2, 3]),
        (3, 2, vec![0, 1, 2, 3]),
        (3, 3, vec![0, 1, 2, 3]),
        (3, 4, vec![0, 4]),
    ];
    by_hand(random, &book, counts, [[1, 2, 0], [1, 3, 0], [1, 2, 0]], &lists).map(|wrong| format!("catalog of a circle, {wrong}"))
}

/// Catalogs of random books, and range questions on what they leave.
pub fn stage(tally: &mut Tally, name: &str, count: usize, make: impl Fn(&mut Random, usize) -> Case) {
    let start = Instant::now();
    let failed = tally.failed;
    let mut random = seed(name);
    let (mut numbers, mut yes) = (BTreeMap::new(), [0; 2]);
    for number in 0..count {
        let case = make(&mut random, number);
        let (outcome, wrong) = compare(&mut random, &case, &mut yes);
        *numbers.entry(outcome.number).or_insert(0) += 1;
        tally.catalog_numbers[outcome.number] += 1;
        tally.catalog_seen.note(&case.book, outcome.number);
        tally.count(wrong.map(|wrong| {
            let bytes = if case.book.len() <= 600 { format!("{:?}", case.book) } else { format!("{} bytes", case.book.len()) };
            format!("{name}, book {number}: {wrong}; book {bytes}, kind {}, piece {}", case.kind, case.piece)
        }));
    }
    let accepted = numbers.remove(&0).unwrap_or(0);
    let refused: Vec<String> = numbers.iter().map(|(number, count)| format!("{number}: {count}")).collect();
    let line = format!(
        "{name}: {count} books, {accepted} accepted, refused {{{}}}; range questions {} yes, {} no; {} failed; {:.1} s",
        refused.join(", "),
        yes[1],
        yes[0],
        tally.failed - failed,
        start.elapsed().as_secs_f64()
    );
    tally.say(line);
}
