//! Document 01 once more, from its words, with document 02's: which input is refused, what the index is, what each claim is answered. It knows nothing of the
//! library's ways.

use crate::piecebook::{Cataloged, Converted, Outcome, DENIED, FOLLOWS, LIST, MARKS, OPEN, PAIRS, PARENTHESES, PLACES, SHADOWS};
use crate::rules::{has_no_laying, Derived, Fact, Facts, Kind, Rows};
use std::collections::{BTreeSet, HashSet, VecDeque};

/// The lengths of the lent buffers.
#[derive(Clone, Copy, Debug)]
pub struct Lengths {
    pub parentheses: usize,
    pub marks: usize,
    pub shadows: usize,
    pub places: usize,
    pub answers: usize,
}

/// The four parts of an index over their whole lengths, what is unused being zero.
pub struct Index {
    pub parentheses: Vec<u8>,
    pub marks: Vec<u8>,
    pub shadows: Vec<u16>,
    pub places: Vec<u16>,
}

/// What a call does to its buffers.
pub enum Change {
    Nothing,
    Index(Index),
    IndexAndAnswers(Index, Vec<u8>),
}

pub struct Expected {
    pub outcome: Outcome,
    pub change: Change,
    /// where this reference contradicts itself
    pub doubt: Option<String>,
}

pub type Refusal = (usize, usize);

struct Record {
    kind: u8,
    origin: u8,
    a: usize,
    b: usize,
}

fn records(bytes: &[u8]) -> impl Iterator<Item = Record> + '_ {
    bytes.chunks_exact(6).map(|r| Record {
        kind: r[0],
        origin: r[1],
        a: u16::from_le_bytes([r[2], r[3]]) as usize,
        b: u16::from_le_bytes([r[4], r[5]]) as usize,
    })
}

fn fact(record: &Record) -> Option<Fact> {
    let kind = match record.kind {
        1 => Kind::Part,
        2 => Kind::Apart,
        3 => Kind::Meets,
        4 => Kind::Notpart,
        _ => return None,
    };
    Some(Fact { kind, a: record.a, b: record.b })
}

/// A book that passes rows 3 to 9.
pub struct Book {
    /// the fact of each record, none for a TRAY or a mark
    pub facts: Vec<Option<Fact>>,
    /// the same with none for the scanner's records
    pub sheets: Vec<Option<Fact>>,
    /// the pieces that some record marks, of either origin
    pub void: Vec<bool>,
    pub pieces: usize,
}

/// A claim that passes rows 12 and 13.
pub struct Claim {
    fact: Fact,
    /// to be answered from cutting sheets only
    restricted: bool,
}

/// The former edition has TRAY records, kind 5, besides the facts, and containers with lower numbers only; the one in force has marks, kind 6.
#[derive(Clone, Copy, Debug, PartialEq)]
pub enum Edition {
    Former,
    InForce,
}

/// Rows 3 to 9.
pub fn read_book(book: &[u8], edition: Edition) -> Result<Book, Refusal> {
    let whole = |number| Err((number, 0));
    match book.len() {
        length if length % 6 != 0 => return whole(3),
        length if length > 8192 * 6 => return whole(4),
        _ => {}
    }
    let mut seen = HashSet::new();
    let (mut facts, mut sheets, mut marked) = (Vec::new(), Vec::new(), HashSet::new());
    let mut largest = 0;
    for (i, (record, bytes)) in records(book).zip(book.chunks(6)).enumerate() {
        let Record { kind, origin, a, b } = record;
        let b_is_piece = (1..=4).contains(&kind);
        let other_kind = match edition {
            Edition::Former => 5,
            Edition::InForce => 6,
        };
        let rows = [
            (5, !(1..=4).contains(&kind) && kind != other_kind),
            (6, origin > 1),
            (7, a > 2047 || b_is_piece && b > 2047),
            (19, kind == 6 && (b != 0 || a == 0)),
            (8, edition == Edition::Former && kind == 1 && b >= a),
            (9, !seen.insert(bytes)),
        ];
        if let Some(&(number, _)) = rows.iter().find(|row| row.1) {
            return Err((number, i as usize));
        }
        largest = largest.max(a);
        if b_is_piece {
            largest = largest.max(b);
        }
        facts.push(fact(&record));
        sheets.push(fact(&record).filter(|_| origin == 0));
        if kind == 6 {
            marked.insert(a);
        }
    }
    let pieces = largest + 1;
    let void = (0..pieces).map(|piece| marked.contains(&piece)).collect();
    Ok(Book { facts, sheets, void, pieces })
}

/// Rows 10 to 13.
pub fn read_claims(claims: &[u8], pieces: usize) -> Result<Vec<Claim>, Refusal> {
    if claims.len() % 6 != 0 {
        return Err((10, 0));
    }
    if claims.len() / 6 > 4096 {
        return Err((11, 0));
    }
    let mut all = Vec::new();
    for (i, record) in records(claims).enumerate() {
        let claim = fact(&record).filter(|_| record.origin <= 1).ok_or((12, i as usize))?;
        if claim.a.max(claim.b) >= pieces {
            return Err((13, i as usize));
        }
        all.push(Claim { fact: claim, restricted: record.origin == 1 });
    }
    Ok(all)
}

struct Node {
    piece: usize,
    shadow: bool,
    children: Vec<usize>,
}

enum Step {
    Enter(usize),
    Leave,
}

fn packed(bits: &[bool], bytes: usize) -> Vec<u8> {
    let mut all = vec![0; bytes];
    for (k, _) in bits.iter().enumerate().filter(|(_, &bit)| bit) {
        all[k / 8] += 1 << (k % 8);
    }
    all
}

fn padded(mut numbers: Vec<u16>, length: usize) -> Vec<u16> {
    assert!(numbers.len() <= length);
    numbers.resize(length, 0);
    numbers
}

/// The pairs (part, container) of the PART facts.
fn pairs_of(facts: &[Option<Fact>]) -> Vec<(usize, usize)> {
    facts.iter().flatten().filter(|f| f.kind == Kind::Part).map(|f| (f.a, f.b)).collect()
}

/// The pieces that paths lead to from a piece, among those still to be grouped.
fn found_from(start: usize, next: &[Vec<usize>], grouped: &[Option<usize>]) -> Vec<bool> {
    let mut found = vec![false; next.len()];
    found[start] = true;
    let mut waiting = vec![start];
    while let Some(piece) = waiting.pop() {
        for &other in &next[piece] {
            if grouped[other].is_none() && !found[other] {
                found[other] = true;
                waiting.push(other);
            }
        }
    }
    found
}

/// For each piece the lowest number of its group: those that it is PART of and that are PART of it, by the pairs and by rule (f). A path between two pieces of a
/// group stays in the group, so that the pieces of earlier groups need not be passed again.
pub fn lowest_members(pieces: usize, pairs: &[(usize, usize)]) -> Vec<usize> {
    let mut containers = vec![vec![0]; pieces];
    let mut parts = vec![vec![]; pieces];
    parts[0].extend(0..pieces);
    for &(part, container) in pairs {
        containers[part].push(container);
        parts[container].push(part);
    }
    let mut lowest = vec![None; pieces];
    for piece in 0..pieces {
        if parts[piece].is_empty() {
            // nothing is PART of it but itself
            lowest[piece] = Some(piece);
        }
        if lowest[piece].is_none() {
            let (above, below) = (found_from(piece, &containers, &lowest), found_from(piece, &parts, &lowest));
            (0..pieces).filter(|&other| above[other] && below[other]).for_each(|other| lowest[other] = Some(piece));
        }
    }
    lowest.into_iter().map(|lowest| lowest.expect("a piece is in its own group")).collect()
}

/// The same by the rules alone.
fn grouped_otherwise(pieces: usize, pairs: &[(usize, usize)], lowest: &[usize]) -> bool {
    let stored: Vec<Fact> = pairs.iter().map(|&(a, b)| Fact { kind: Kind::Part, a, b }).collect();
    let rows = Rows::derive(pieces, &stored, &vec![false; pieces]);
    let part = |a: usize, b: usize| rows.has(Fact { kind: Kind::Part, a, b });
    (0..pieces).any(|piece| (0..pieces).find(|&other| part(piece, other) && part(other, piece)) != Some(lowest[piece]))
}

/// What only books have whose containers have any number: how often each thing occurs.
#[derive(Clone, Copy, Debug, Default)]
pub struct Circles {
    /// containers with a higher number than their part's, outside of circles
    late: usize,
    /// pairs of a piece with itself
    own: usize,
    /// groups of several pieces, those of more than eight, and those with piece 0
    several: usize,
    long: usize,
    with_zero: usize,
    /// books of several pieces that are one group
    whole: usize,
    /// pairs of groups behind a part's first, where the part has several pieces, and where one of its containers has: shadows that stand for a circle, and parts
    /// whose shadow or node is in one
    of_circles: usize,
    in_circles: usize,
}

impl Circles {
    fn add(&mut self, pieces: usize, pairs: &[(usize, usize)]) {
        let lowest = lowest_members(pieces, pairs);
        let mut members = vec![0; pieces];
        lowest.iter().for_each(|&group| members[group] += 1);
        let between =
            pairs.iter().map(|&(part, container)| (lowest[part], lowest[container])).filter(|(part, container)| part != container);
        let mut containers = vec![BTreeSet::new(); pieces];
        between.for_each(|(part, container)| _ = containers[part].insert(container));
        let twice: Vec<usize> = (0..pieces).filter(|&part| containers[part].len() > 1).collect();
        self.late += pairs.iter().filter(|&&(part, container)| part < container && lowest[part] != lowest[container]).count();
        self.own += pairs.iter().filter(|(part, container)| part == container).count();
        self.several += members.iter().filter(|&&count| count > 1).count();
        self.long += members.iter().filter(|&&count| count > 8).count();
        self.with_zero += usize::from(members[0] > 1);
        self.whole += usize::from(members[0] > 1 && members[0] == pieces);
        self.of_circles += twice.iter().filter(|&&part| members[part] > 1).count();
        self.in_circles += twice.iter().filter(|&&part| containers[part].iter().any(|&container| members[container] > 1)).count();
    }

    fn join(&mut self, other: &Circles) {
        let Circles { late, own, several, long, with_zero, whole, of_circles, in_circles } = other;
        self.late += late;
        self.own += own;
        self.several += several;
        self.long += long;
        self.with_zero += with_zero;
        self.whole += whole;
        self.of_circles += of_circles;
        self.in_circles += in_circles;
    }

    fn counts(&self) -> [(&'static str, usize); 8] {
        [
            ("late container", self.late),
            ("piece in itself", self.own),
            ("circle", self.several),
            ("circle of more than eight", self.long),
            ("circle with piece 0", self.with_zero),
            ("book that is one group", self.whole),
            ("shadow of a circle", self.of_circles),
            ("part twice, once in a circle", self.in_circles),
        ]
    }
}

/// The same of books that are accepted, and of contradictory ones.
#[derive(Debug, Default)]
pub struct Seen {
    accepted: Circles,
    contradictory: Circles,
}

impl Seen {
    /// Counts what a book has that came to this number.
    pub fn note(&mut self, bytes: &[u8], number: usize) {
        if number == 0 || number == 14 {
            let Ok(book) = read_book(bytes, Edition::InForce) else { return };
            let circles = if number == 0 { &mut self.accepted } else { &mut self.contradictory };
            circles.add(book.pieces, &pairs_of(&book.facts));
        }
    }

    pub fn add(&mut self, other: &Seen) {
        self.accepted.join(&other.accepted);
        self.contradictory.join(&other.contradictory);
    }

    /// For each thing whether it occurred, with its name. A contradictory book has no shadows.
    pub fn all(&self) -> impl Iterator<Item = (bool, String)> {
        let accepted = self.accepted.counts().map(|(what, count)| (count > 0, format!("{what} in an accepted book")));
        let contradictory = self.contradictory.counts().map(|(what, count)| (count > 0, format!("{what} in a contradictory book")));
        accepted.into_iter().chain(contradictory.into_iter().take(6))
    }

    pub fn circles(&self) -> usize {
        self.accepted.several
    }
}

/// The index of the PART facts over groups, each under its lowest number, the number of its nodes and that of its shadows.
fn build(pieces: usize, facts: &[Option<Fact>], doubt: &mut Option<String>) -> (Index, usize, usize) {
    let pairs = pairs_of(facts);
    let lowest = lowest_members(pieces, &pairs);
    if pieces <= MIDDLE && grouped_otherwise(pieces, &pairs, &lowest) {
        *doubt = Some("groups by searches and by the rules differ".into());
    }
    let mut parts = vec![BTreeSet::new(); pieces];
    let mut is_part = HashSet::new();
    for (part, container) in
        pairs.iter().map(|&(part, container)| (lowest[part], lowest[container])).filter(|(part, container)| part != container)
    {
        parts[container].insert(part);
        is_part.insert(part);
    }
    parts[0].extend((1..pieces).filter(|&piece| lowest[piece] == piece && !is_part.contains(&piece)));

    // breadth first: the tree, its nodes numbered as they are met
    let mut tree = vec![Node { piece: 0, shadow: false, children: vec![] }];
    let mut node_of: Vec<Option<usize>> = vec![None; pieces];
    node_of[0] = Some(0);
    let mut waiting = VecDeque::from([0]);
    while let Some(container) = waiting.pop_front() {
        for &piece in &parts[tree[container].piece] {
            let node = tree.len();
            let shadow = node_of[piece].is_some();
            tree.push(Node { piece, shadow, children: vec![] });
            tree[container].children.push(node);
            if !shadow {
                node_of[piece] = Some(node);
                waiting.push_back(node);
            }
        }
    }

    // depth first: the nodes in the order of their places
    let mut parentheses = Vec::new();
    let mut preorder = Vec::new();
    let mut steps = vec![Step::Enter(0)];
    while let Some(step) = steps.pop() {
        match step {
            Step::Leave => parentheses.push(false),
            Step::Enter(node) => {
                parentheses.push(true);
                preorder.push(node);
                steps.push(Step::Leave);
                steps.extend(tree[node].children.iter().rev().map(|&child| Step::Enter(child)));
            }
        }
    }
    let mut place = vec![0; tree.len()];
    for (at, &node) in preorder.iter().enumerate() {
        place[node] = at as u16;
    }
    let place_of = |piece: usize| place[node_of[lowest[piece]].expect("every group has a node")];
    let marks: Vec<bool> = preorder.iter().map(|&node| tree[node].shadow).collect();
    let shadows: Vec<u16> = preorder.iter().filter(|&&node| tree[node].shadow).map(|&node| place_of(tree[node].piece)).collect();
    let count = shadows.len();
    let index = Index {
        parentheses: packed(&parentheses, PARENTHESES),
        marks: packed(&marks, MARKS),
        shadows: padded(shadows, SHADOWS),
        places: padded((0..pieces).map(place_of).collect(), PLACES),
    };
    (index, tree.len(), count)
}

fn cleared() -> Index {
    Index { parentheses: vec![0; PARENTHESES], marks: vec![0; MARKS], shadows: vec![0; SHADOWS], places: vec![0; PLACES] }
}

/// Books of at most this many pieces are worked out fact by fact, and by the faster ways as well; the results must agree.
const SMALL: usize = 16;

/// Those of at most this many by the rules over rows, where contradiction or the groups were found in another way.
const MIDDLE: usize = 320;

/// The last record of the shortest contradictory run from the start. The whole book's marks count in every run.
pub fn contradiction(pieces: usize, facts: &[Option<Fact>], void: &[bool], doubt: &mut Option<String>) -> Option<usize> {
    let run = |length: usize| -> Vec<Fact> { facts[..length].iter().flatten().copied().collect() };
    // what a run derives, every longer run derives
    let (mut sound, mut bad) = (0, facts.len());
    let by_laying = has_no_laying(pieces, &run(bad), void).then(|| {
        while bad - sound > 1 {
            let middle = (sound + bad) / 2;
            if has_no_laying(pieces, &run(middle), void) {
                bad = middle;
            } else {
                sound = middle;
            }
        }
        bad - 1
    });
    if pieces <= SMALL {
        let contradictory = |length: usize| Facts::derive(pieces, &run(length), void).contradictory();
        let by_rules = if contradictory(facts.len()) { (0..facts.len()).find(|&last| contradictory(last + 1)) } else { None };
        if by_rules != by_laying {
            *doubt = Some(format!("contradiction at {by_rules:?} by the rules, at {by_laying:?} by layings"));
        }
    } else if let Some(last) = by_laying.filter(|_| pieces <= MIDDLE) {
        let contradictory = |length: usize| Rows::derive(pieces, &run(length), void).contradictory();
        if contradictory(last) || !contradictory(last + 1) {
            *doubt = Some(format!("contradiction at {last} by layings and not by the rules"));
        }
    }
    by_laying
}

fn verdict(all: &dyn Derived, claim: Fact) -> u8 {
    if all.has(claim) {
        FOLLOWS
    } else if all.has(Fact { kind: claim.kind.opposite(), ..claim }) {
        DENIED
    } else {
        OPEN
    }
}

/// The answers to claims from these facts and the marks alone.
fn answers_from(pieces: usize, facts: &[Option<Fact>], void: &[bool], claims: &[Fact], doubt: &mut Option<String>) -> Vec<u8> {
    let stored: Vec<Fact> = facts.iter().flatten().copied().collect();
    let rows = Rows::derive(pieces, &stored, void);
    if rows.contradictory() {
        *doubt = Some("contradictory by the rules and not by layings".into());
    }
    let answers: Vec<u8> = claims.iter().map(|&claim| verdict(&rows, claim)).collect();
    if pieces <= SMALL {
        let single = Facts::derive(pieces, &stored, void);
        if !claims.iter().map(|&claim| verdict(&single, claim)).eq(answers.iter().copied()) {
            *doubt = Some("the rules by rows and by single facts answer differently".into());
        }
    }
    answers
}

/// Each claim from the facts that it picks. What the sheets say for or against it, all facts say too.
pub fn answer(book: &Book, claims: &[Claim], doubt: &mut Option<String>) -> Vec<u8> {
    let facts: Vec<Fact> = claims.iter().map(|claim| claim.fact).collect();
    let all = answers_from(book.pieces, &book.facts, &book.void, &facts, doubt);
    if !claims.iter().any(|claim| claim.restricted) {
        return all;
    }
    let sheets = answers_from(book.pieces, &book.sheets, &book.void, &facts, doubt);
    if sheets.iter().zip(&all).any(|(sheet, whole)| *sheet != OPEN && sheet != whole) {
        *doubt = Some("the sheets decide a claim otherwise than all facts".into());
    }
    claims.iter().enumerate().map(|(i, claim)| if claim.restricted { sheets[i] } else { all[i] }).collect()
}

fn refused((number, place): Refusal, change: Change) -> (Outcome, Change) {
    (Outcome { number, place, pieces: 0, nodes: 0, shadows: 0 }, change)
}

fn judge_whole(
    book: &[u8],
    edition: Edition,
    claims: Option<&[u8]>,
    lengths: Lengths,
    doubt: &mut Option<String>,
) -> Result<(Outcome, Change), Refusal> {
    let fits = lengths.parentheses >= 2560 && lengths.marks >= 1280 && lengths.shadows >= 8192 && lengths.places >= 2048;
    if !fits || claims.is_some_and(|claims| lengths.answers < claims.len() / 6) {
        return Err((1, 0));
    }
    let book = read_book(book, edition)?;
    let pieces = book.pieces;
    let claims = claims.map(|claims| read_claims(claims, pieces)).transpose()?;
    if let Some(last) = contradiction(pieces, &book.facts, &book.void, doubt) {
        return Ok(refused((14, last as usize), Change::Index(cleared())));
    }
    let (index, nodes, shadows) = build(pieces, &book.facts, doubt);
    let outcome = Outcome { number: 0, place: 0, pieces: pieces as usize, nodes: nodes as usize, shadows: shadows as usize };
    let change = match claims {
        Some(claims) => Change::IndexAndAnswers(index, answer(&book, &claims, doubt)),
        None => Change::Index(index),
    };
    Ok((outcome, change))
}

/// What the call that answers claims, or without claims the one that writes the index alone, must return and do.
pub fn judge(book: &[u8], edition: Edition, claims: Option<&[u8]>, lengths: Lengths) -> Expected {
    let mut doubt = None;
    let (outcome, change) =
        judge_whole(book, edition, claims, lengths, &mut doubt).unwrap_or_else(|refusal| refused(refusal, Change::Nothing));
    Expected { outcome, change, doubt }
}

/// The new book of a former one, which loses no piece.
fn without_trays(book: &[u8]) -> Vec<u8> {
    let named = |r: &Record| if r.kind == 5 { r.a } else { r.a.max(r.b) };
    let largest = records(book).map(|r| named(&r)).max().unwrap_or(0);
    let mut new: Vec<u8> = book.chunks_exact(6).filter(|r| r[0] != 5).flatten().copied().collect();
    if largest > 0 && !records(&new).any(|r| named(&r) == largest) {
        let [low, high] = (largest as u16).to_le_bytes();
        new.extend([1, 0, low, high, 0, 0]);
    }
    new
}

fn convert_whole(book: &[u8], room: usize, doubt: &mut Option<String>) -> Result<Vec<u8>, Refusal> {
    if room < book.len() {
        return Err((1, 0));
    }
    let Book { facts, void, pieces, .. } = read_book(book, Edition::Former)?;
    match contradiction(pieces, &facts, &void, doubt) {
        Some(last) => Err((14, last)),
        None => Ok(without_trays(book)),
    }
}

/// What the converter must return, and the bytes that it must write into so much room, if any.
pub fn convert(book: &[u8], room: usize) -> (Converted, Vec<u8>, Option<String>) {
    let mut doubt = None;
    let (converted, bytes) = match convert_whole(book, room, &mut doubt) {
        Ok(new) => (Converted { number: 0, place: 0, length: new.len() }, new),
        Err((number, place)) => (Converted { number, place, length: 0 }, vec![]),
    };
    (converted, bytes, doubt)
}

/// What a catalog writes besides the index: the list, and the areas of MEETS, APART and NOTPART over their whole lengths, what is unused being zero.
pub struct Lists {
    pub list: Vec<u16>,
    pub areas: [Vec<u16>; 3],
    /// the stored facts of these kinds, with the places of their pieces
    pub stored: [Vec<(usize, usize)>; 3],
}

pub struct ExpectedCatalog {
    pub outcome: Cataloged,
    pub change: Change,
    pub lists: Option<Lists>,
    pub doubt: Option<String>,
}

/// The kinds of the areas, and whether they are unordered.
pub const AREAS: [(Kind, bool); 3] = [(Kind::Meets, true), (Kind::Apart, true), (Kind::Notpart, false)];

fn lists_of(book: &Book, places: &[u16], asked: impl Fn(usize) -> Fact) -> Lists {
    let stored: Vec<Fact> = book.facts.iter().flatten().copied().collect();
    let rows = Rows::derive(book.pieces, &stored, &book.void);
    let list = (0..book.pieces).filter(|&x| rows.has(asked(x))).map(|x| x as u16).collect();
    let at = |piece: usize| usize::from(places[piece]);
    let of = |kind: Kind| stored.iter().filter(|f| f.kind == kind).map(|f| (at(f.a), at(f.b))).collect::<Vec<_>>();
    let stored = AREAS.map(|(kind, _)| of(kind));
    let area = |i: usize| {
        let (_, unordered) = AREAS[i];
        let pairs: BTreeSet<_> = stored[i].iter().map(|&(a, b)| if unordered { (a.min(b), a.max(b)) } else { (a, b) }).collect();
        pairs.into_iter().flat_map(|(row, column)| [row as u16, column as u16]).collect()
    };
    Lists { list, areas: [area(0), area(1), area(2)], stored }
}

fn catalog_whole(
    book: &[u8],
    kind: usize,
    piece: usize,
    lengths: Lengths,
    list: usize,
    areas: [usize; 3],
    doubt: &mut Option<String>,
) -> Result<(Cataloged, Change, Option<Lists>), Refusal> {
    let fits = lengths.parentheses >= 2560 && lengths.marks >= 1280 && lengths.shadows >= 8192 && lengths.places >= 2048;
    if !fits {
        return Err((1, 0));
    }
    if list < LIST || areas.iter().any(|&area| area < PAIRS) {
        return Err((17, 0));
    }
    let book = read_book(book, Edition::InForce)?;
    let kind = match kind {
        1 => Kind::Part,
        2 => Kind::Apart,
        3 => Kind::Meets,
        _ => return Err((12, 0)),
    };
    if piece >= book.pieces {
        return Err((13, 0));
    }
    if let Some(place) = contradiction(book.pieces, &book.facts, &book.void, doubt) {
        return Ok((Cataloged { number: 14, place, ..Cataloged::default() }, Change::Index(cleared()), None));
    }
    let (index, nodes, shadows) = build(book.pieces, &book.facts, doubt);
    let mut lists = lists_of(&book, &index.places, |x| Fact { kind, a: x, b: piece });
    let [meets, apart, notpart] = [0, 1, 2].map(|i| lists.areas[i].len() / 2);
    let outcome = Cataloged { number: 0, place: 0, pieces: book.pieces, nodes, shadows, listed: lists.list.len(), meets, apart, notpart };
    for area in lists.areas.iter_mut() {
        *area = padded(std::mem::take(area), PAIRS);
    }
    Ok((outcome, Change::Index(index), Some(lists)))
}

/// What a catalog must return and write.
pub fn catalog(book: &[u8], kind: usize, piece: usize, lengths: Lengths, list: usize, areas: [usize; 3]) -> ExpectedCatalog {
    let mut doubt = None;
    let (outcome, change, lists) = catalog_whole(book, kind, piece, lengths, list, areas, &mut doubt)
        .unwrap_or_else(|(number, place)| (Cataloged { number, place, ..Cataloged::default() }, Change::Nothing, None));
    ExpectedCatalog { outcome, change, lists, doubt }
}
