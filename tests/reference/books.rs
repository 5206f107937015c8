//! Random books and claims, always the same ones.

use std::collections::HashSet;

/// splitmix64.
pub struct Random(pub u64);

impl Random {
    pub fn next(&mut self) -> u64 {
        self.0 = self.0.wrapping_add(0x9e37_79b9_7f4a_7c15);
        let mut z = self.0;
        z = (z ^ (z >> 30)).wrapping_mul(0xbf58_476d_1ce4_e5b9);
        z = (z ^ (z >> 27)).wrapping_mul(0x94d0_49bb_1331_11eb);
        z ^ (z >> 31)
    }

    /// A number below `end`.
    pub fn below(&mut self, end: usize) -> usize {
        (self.next() % end as u64) as usize
    }

    /// A number from `start` up to and without `end`.
    pub fn range(&mut self, start: usize, end: usize) -> usize {
        start + self.below(end - start)
    }

    /// True once in `n` times.
    pub fn one_in(&mut self, n: usize) -> bool {
        self.below(n) == 0
    }

    pub fn pick<T: Copy>(&mut self, all: &[T]) -> T {
        all[self.below(all.len())]
    }

    pub fn shuffle<T>(&mut self, all: &mut [T]) {
        for i in (1..all.len()).rev() {
            all.swap(i, self.below(i + 1));
        }
    }
}

pub type Bytes = [u8; 6];

pub const PART: u8 = 1;
pub const APART: u8 = 2;
pub const MEETS: u8 = 3;
pub const NOTPART: u8 = 4;
pub const TRAY: u8 = 5;
pub const VOID: u8 = 6;

pub const SHEET: u8 = 0;
pub const SCANNER: u8 = 1;

/// A record of a cutting sheet, or a claim on all facts.
pub fn record(kind: u8, a: usize, b: usize) -> Bytes {
    let [a0, a1] = (a as u16).to_le_bytes();
    let [b0, b1] = (b as u16).to_le_bytes();
    [kind, 0, a0, a1, b0, b1]
}

/// The same of another origin: of the scanner, or a claim on cutting sheets only.
pub fn of(origin: u8, [kind, _, a0, a1, b0, b1]: Bytes) -> Bytes {
    [kind, origin, a0, a1, b0, b1]
}

/// Gives each record or claim an origin: mostly both in turn, now and then one and the same.
pub fn give_origins(random: &mut Random, all: &mut [Bytes]) {
    let (sheets, scanner) = random.pick(&[(1, 1), (1, 1), (4, 1), (1, 4), (1, 0), (0, 1)]);
    for r in all.iter_mut() {
        *r = of(if random.below(sheets + scanner) < sheets { SHEET } else { SCANNER }, *r);
    }
}

#[derive(Clone, Copy, Debug, PartialEq)]
pub enum Shape {
    // Containers have lower numbers.
    /// each part in one container or two, a few levels
    Tree,
    /// one long chain, each part in its neighbour, some in earlier ones too
    Deep,
    /// two pieces a level, each in both of the level above: paths without number
    Ladder,
    /// many containers a part
    Dense,
    /// most pieces in no container
    Flat,
    // They have any.
    /// one of these under shuffled numbers
    Shuffled,
    /// one chain, each container's number the next
    Worst,
    /// a shuffled book with circles of 2 to 8 pieces thrown in
    Circles,
    /// circles of two pieces, one in the other
    Couples,
    /// a circle through most pieces, the others in it and around it
    Long,
    /// a circle through all pieces, 0 too
    Whole,
    /// 0 in some other pieces or in all
    Around,
    /// circles in two others each, and single pieces between them
    Entwined,
    /// pairs at random
    Scattered,
}
use Shape::*;

pub const RISING: [Shape; 5] = [Tree, Deep, Ladder, Dense, Flat];
pub const FREE: [Shape; 9] = [Shuffled, Worst, Circles, Couples, Long, Whole, Around, Entwined, Scattered];

/// Containers with lower numbers in half of the books.
pub fn some_shape(random: &mut Random) -> Shape {
    if random.one_in(2) {
        random.pick(&RISING)
    } else {
        random.pick(&FREE)
    }
}

fn containers(random: &mut Random, shape: Shape, part: usize, dense: usize) -> Vec<usize> {
    let mut all = vec![];
    match shape {
        Tree => {
            all.push(part / 4 + random.below(part - part / 4));
            if random.one_in(5) {
                all.push(random.below(part));
            }
        }
        Deep => {
            all.push(part - 1);
            if random.one_in(10) {
                all.push(random.below(part));
            }
        }
        Ladder => {
            let level = (part - 1) / 2 * 2;
            all.extend(if level == 0 { vec![0] } else { vec![level - 1, level] });
        }
        Dense => {
            for _ in 0..random.below(2 * dense + 1) {
                all.push(random.below(part));
            }
        }
        _ => {
            if random.one_in(8) {
                all.push(random.below(part));
            }
        }
    }
    if random.one_in(40) {
        all.clear();
    }
    all
}

type Pair = (usize, usize);

fn rising_pairs(random: &mut Random, shape: Shape, pieces: usize, dense: usize) -> Vec<Pair> {
    let mut all = vec![];
    for part in 1..pieces {
        all.extend(containers(random, shape, part, dense).into_iter().map(|container| (part, container)));
    }
    all
}

/// Each in the next, the last in the first.
fn ring(members: &[usize]) -> Vec<Pair> {
    (0..members.len()).map(|i| (members[i], members[(i + 1) % members.len()])).collect()
}

/// Circles and single pieces, each in some of those before it.
fn entwined(random: &mut Random, names: &[usize]) -> Vec<Pair> {
    let mut all = vec![];
    let mut groups: Vec<&[usize]> = vec![];
    let mut rest = names;
    while !rest.is_empty() {
        let (group, others) = rest.split_at(random.range(1, 5).min(rest.len()));
        if group.len() > 1 {
            all.extend(ring(group));
        }
        for _ in 0..if groups.is_empty() { 0 } else { random.below(4) } {
            let near = random.below(groups.len().min(6));
            let container = groups[groups.len() - 1 - near];
            all.push((random.pick(group), random.pick(container)));
        }
        groups.push(group);
        rest = others;
    }
    all
}

/// Pairs whose containers have any number; `names` has the pieces but 0 in the order of the shape.
fn free_pairs(random: &mut Random, shape: Shape, pieces: usize, dense: usize, names: &[usize]) -> Vec<Pair> {
    let shuffled = |random: &mut Random, shapes: &[Shape]| {
        let shape = random.pick(shapes);
        let name = |piece: usize| if piece == 0 { 0 } else { names[piece - 1] };
        rising_pairs(random, shape, pieces, dense).into_iter().map(|(part, container)| (name(part), name(container))).collect::<Vec<Pair>>()
    };
    let some_rings = |random: &mut Random, count: usize| {
        let mut all = vec![];
        for _ in 0..count {
            let mut members = names.to_vec();
            for i in 0..members.len().min(8) {
                let other = random.range(i, members.len());
                members.swap(i, other);
            }
            members.truncate(random.range(2, 9));
            all.extend(ring(&members));
        }
        all
    };
    match shape {
        Shuffled => shuffled(random, &RISING),
        Worst => names.windows(2).map(|two| (two[0], two[1])).collect(),
        Circles => {
            let count = 1 + random.below(1 + pieces / 20);
            [shuffled(random, &[Tree, Flat, Dense]), some_rings(random, count)].concat()
        }
        Couples => names
            .chunks(2)
            .flat_map(ring)
            .chain(names.chunks(2).zip(names.chunks(2).skip(1)).map(|(above, two)| (two[0], above[0])))
            .collect(),
        Long => {
            let (circle, others) = names.split_at(if random.one_in(2) { names.len() } else { names.len() - names.len() / 4 });
            let more: Vec<Pair> = others.iter().map(|&other| (other, random.pick(names))).collect();
            let mut back: Vec<Pair> = others.iter().map(|&other| (random.pick(circle), other)).collect();
            back.retain(|_| random.one_in(3));
            if random.one_in(4) {
                back.push((0, random.pick(names)));
            }
            [ring(circle), more, back].concat()
        }
        Whole => ring(&[&[0], names].concat()),
        Around => {
            let count = if random.one_in(4) { names.len() } else { random.range(1, 4).min(names.len()) };
            [shuffled(random, &RISING), names[..count].iter().map(|&name| (0, name)).collect()].concat()
        }
        Entwined => entwined(random, names),
        _ => (0..pieces * (1 + random.below(2 * dense.min(4) + 2)) / 2).map(|_| (random.below(pieces), random.below(pieces))).collect(),
    }
}

fn pairs(random: &mut Random, shape: Shape, pieces: usize, dense: usize) -> Vec<Pair> {
    let mut all = if RISING.contains(&shape) || pieces == 1 {
        rising_pairs(random, if pieces == 1 { Flat } else { shape }, pieces, dense)
    } else {
        let mut names: Vec<usize> = (1..pieces).collect();
        // in order: each circle or chain the longest way round
        if shape != Worst && (!matches!(shape, Couples | Long | Whole) || random.one_in(2)) {
            random.shuffle(&mut names);
        }
        free_pairs(random, shape, pieces, dense, &names)
    };
    if FREE.contains(&shape) && random.one_in(3) {
        all.extend((0..random.range(1, 4)).map(|_| random.below(pieces)).map(|piece| (piece, piece)));
    }
    let mut seen = HashSet::new();
    all.retain(|pair| seen.insert(*pair));
    all
}

/// Some pieces that can be void together: never 0, and with a piece all its parts; at most so many.
fn some_void(random: &mut Random, pieces: usize, pairs: &[Pair], tries: usize, most: usize) -> Vec<bool> {
    let mut parts = vec![vec![]; pieces];
    for &(part, container) in pairs {
        parts[container].push(part);
    }
    let mut void = vec![false; pieces];
    for _ in 0..if pieces > 1 { tries } else { 0 } {
        let mut more = void.clone();
        // mostly a late one, whose parts are few
        let low = random.range(1, pieces);
        let mut waiting = vec![random.range(low, pieces)];
        while let Some(piece) = waiting.pop() {
            if !more[piece] {
                more[piece] = true;
                waiting.extend(&parts[piece]);
            }
        }
        if !more[0] && more.iter().filter(|&&marked| marked).count() <= most {
            void = more;
        }
    }
    void
}

/// A set of grains for each piece, a part's within its containers'; none for a void one.
fn lay(random: &mut Random, pieces: usize, pairs: &[Pair], void: &[bool]) -> Vec<[u64; 8]> {
    let mut sets = vec![[0u64; 8]; pieces];
    for (_, set) in sets.iter_mut().enumerate().filter(|(piece, _)| !void[*piece]) {
        for _ in 0..1 + random.below(2) {
            let grain = random.below(512);
            set[grain / 64] |= 1 << (grain % 64);
        }
        // ice that two pieces share and no third has
        if random.one_in(4) {
            let grain = random.below(16);
            set[0] |= 1 << grain;
        }
    }
    let mut up = vec![vec![0]; pieces];
    for &(part, container) in pairs {
        up[part].push(container);
    }
    // until nothing changes: the pieces of a circle come to have the same ice
    let mut waiting: Vec<usize> = (0..pieces).collect();
    while let Some(part) = waiting.pop() {
        let set = sets[part];
        for &container in &up[part] {
            let more: [u64; 8] = std::array::from_fn(|w| sets[container][w] | set[w]);
            if more != sets[container] {
                sets[container] = more;
                waiting.push(container);
            }
        }
    }
    sets
}

fn keeps(sets: &[[u64; 8]], kind: u8, a: usize, b: usize) -> bool {
    let mut words = sets[a].iter().zip(&sets[b]);
    match kind {
        PART => words.all(|(x, y)| x & !y == 0),
        APART => words.all(|(x, y)| x & y == 0),
        MEETS => words.any(|(x, y)| x & y != 0),
        _ => words.any(|(x, y)| x & !y != 0),
    }
}

/// What a book is to be like.
#[derive(Clone, Copy)]
pub struct Plan {
    pub shape: Shape,
    pub pieces: usize,
    /// at most this many records
    pub records: usize,
    /// facts besides PART, as far as there is room
    pub facts: usize,
    /// how often to mark a piece and its parts as void, as far as there is room
    pub voids: usize,
    /// fill up with facts that say nothing new to just so many records
    pub fill: bool,
}

/// Records that some laying keeps, each once, in any order; none now and then.
pub fn sound(random: &mut Random, plan: Plan) -> Vec<Bytes> {
    let mut pairs = pairs(random, plan.shape, plan.pieces, (plan.records - plan.facts.min(plan.records)) / plan.pieces);
    random.shuffle(&mut pairs);
    pairs.truncate(plan.records - plan.facts.min(plan.records / 2));
    let void = some_void(random, plan.pieces, &pairs, plan.voids, (plan.records - pairs.len()) / 2);
    let sets = lay(random, plan.pieces, &pairs, &void);
    let marks = (0..plan.pieces).filter(|&piece| void[piece]).map(|piece| record(VOID, piece, 0));
    let mut book: Vec<Bytes> = pairs.iter().map(|&(part, container)| record(PART, part, container)).chain(marks).collect();
    let start = book.len();
    let mut seen: HashSet<Bytes> = book.iter().copied().collect();
    for _ in 0..8 * plan.facts {
        if book.len() >= plan.records || book.len() >= start + plan.facts {
            break;
        }
        let (kind, a, b) = (random.pick(&[APART, APART, APART, MEETS, NOTPART]), random.below(plan.pieces), random.below(plan.pieces));
        let next = record(kind, a, b);
        if keeps(&sets, kind, a, b) && seen.insert(next) {
            book.push(next);
        }
    }
    // the last piece first, so that it is named
    let mut a = plan.pieces - 1;
    let mut tries = 0;
    while plan.fill && book.len() < plan.records || book.len() < plan.records && random.one_in(3) {
        // a part meets its container, either way round; at last any piece, where these run out
        let (part, container) = if pairs.is_empty() { (a, 0) } else { random.pick(&pairs) };
        tries += 1;
        let b = if tries > 8 * plan.records { random.below(plan.pieces) } else { 0 };
        let next = random.pick(&[
            (MEETS, a, a),
            (MEETS, a, b),
            (MEETS, b, a),
            (NOTPART, 0, a),
            (MEETS, part, container),
            (MEETS, container, part),
        ]);
        if keeps(&sets, next.0, next.1, next.2) && seen.insert(record(next.0, next.1, next.2)) {
            book.push(record(next.0, next.1, next.2));
        }
        a = random.below(plan.pieces);
    }
    give_origins(random, &mut book);
    // the same fact once of each origin
    for _ in 0..random.below(4) {
        if book.is_empty() || book.len() >= plan.records {
            break;
        }
        let one = random.pick(&book);
        let other = of(1 - one[1], one);
        if !book.contains(&other) {
            book.push(other);
        }
    }
    random.shuffle(&mut book);
    book
}

/// Marks pieces as void at any place, whatever the facts say.
pub fn throw_marks(random: &mut Random, book: &mut Vec<Bytes>, pieces: usize, marks: usize) {
    for _ in 0..marks {
        let next = of(random.pick(&[SHEET, SCANNER]), record(VOID, random.range(1, pieces.max(2)), 0));
        if !book.contains(&next) {
            book.insert(random.below(book.len() + 1), next);
        }
    }
}

/// Adds facts of any kind at any place, whatever the others say.
pub fn contradict(random: &mut Random, book: &mut Vec<Bytes>, pieces: usize, facts: usize) {
    for _ in 0..facts {
        let next = record(random.pick(&[APART, MEETS, NOTPART, NOTPART]), random.below(pieces), random.below(pieces));
        let next = of(random.pick(&[SHEET, SCANNER]), next);
        if !book.contains(&next) {
            book.insert(random.below(book.len() + 1), next);
        }
    }
}

/// Makes a book of the former edition: TRAY records of either origin at any place, some of them of pieces that no other record names.
pub fn add_trays(random: &mut Random, book: &mut Vec<Bytes>, pieces: usize, trays: usize) {
    let mut seen: HashSet<Bytes> = book.iter().copied().collect();
    let last = (pieces + random.pick(&[0, 0, 1, 3])).min(2048);
    for _ in 0..trays {
        let b = random.pick(&[0, 1, 2047, 2048, 65535]);
        let next =
            of(random.pick(&[SHEET, SCANNER]), record(TRAY, random.below(last), if random.one_in(2) { b } else { random.below(65536) }));
        if book.len() < 8192 && seen.insert(next) {
            book.insert(random.below(book.len() + 1), next);
        }
    }
}

pub fn claims(random: &mut Random, pieces: usize, count: usize) -> Vec<Bytes> {
    let mut all: Vec<Bytes> = (0..count).map(|_| record(1 + random.below(4) as u8, random.below(pieces), random.below(pieces))).collect();
    give_origins(random, &mut all);
    all
}

/// Claims about pieces near each other, of which more follow.
pub fn near_claims(random: &mut Random, pieces: usize, count: usize) -> Vec<Bytes> {
    let mut all: Vec<Bytes> = (0..count)
        .map(|_| {
            let a = random.below(pieces);
            let b = (a + pieces - random.below(pieces.min(8))) % pieces;
            record(1 + random.below(4) as u8, a, b)
        })
        .collect();
    give_origins(random, &mut all);
    all
}

/// Claims about pieces that one record of the book names, or two, either way round.
pub fn named_claims(random: &mut Random, book: &[Bytes], count: usize) -> Vec<Bytes> {
    let number = |r: Bytes, at: usize| usize::from(u16::from_le_bytes([r[at], r[at + 1]]));
    let mut all: Vec<Bytes> = (0..if book.is_empty() { 0 } else { count })
        .map(|_| {
            let one = random.pick(book);
            let other = if random.one_in(2) { one } else { random.pick(book) };
            let (a, b) = (number(one, random.pick(&[2, 4])), number(other, random.pick(&[2, 4])));
            record(1 + random.below(4) as u8, a, b)
        })
        .collect();
    give_origins(random, &mut all);
    all
}

/// All four claims about every two pieces, on all facts and on cutting sheets only.
pub fn all_claims(pieces: usize) -> Vec<Bytes> {
    let kinds = [PART, APART, MEETS, NOTPART];
    let plain: Vec<Bytes> =
        kinds.iter().flat_map(|&kind| (0..pieces).flat_map(move |a| (0..pieces).map(move |b| record(kind, a, b)))).collect();
    [SHEET, SCANNER].iter().flat_map(|&origin| plain.iter().map(move |&claim| of(origin, claim))).collect()
}

/// Bytes that are no longer what they should be.
pub fn damage(random: &mut Random, bytes: &mut Vec<u8>) {
    for _ in 0..1 + random.below(3) {
        damage_once(random, bytes);
    }
}

fn damage_once(random: &mut Random, bytes: &mut Vec<u8>) {
    let count = bytes.len() / 6;
    if count == 0 || random.one_in(12) {
        let junk = (0..random.range(1, 8)).map(|_| random.next() as u8);
        return bytes.extend(junk.collect::<Vec<_>>());
    }
    let at = random.below(count) * 6;
    let wide = random.pick(&[0u16, 1, 255, 256, 2047, 2048, 2049, 4096, 65535]).to_le_bytes();
    match random.below(11) {
        0 => bytes[at] = random.pick(&[0, 1, 2, 3, 4, 5, 6, 7, 128, 255]),
        1 => bytes[at + 1] = random.pick(&[1, 2, 128, 255]),
        2 => bytes[at + 2..at + 4].copy_from_slice(&wide),
        3 => bytes[at + 4..at + 6].copy_from_slice(&wide),
        4 => bytes.copy_within(at + 2..at + 4, at + 4),
        5 | 6 => {
            let from = random.below(count) * 6;
            bytes.copy_within(from..from + 6, at);
        }
        7 => bytes.truncate(at + random.below(6)),
        8 => bytes[at] = 1,
        9 => bytes[at] = VOID,
        _ => {
            let i = random.below(bytes.len());
            bytes[i] = random.next() as u8;
        }
    }
}
