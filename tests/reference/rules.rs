//! Document 01's rules with document 02's R-10, three times over, none of them as the library works: rule by rule over single facts, rule by rule over whole rows (the
//! same rules, fast enough for the largest books), and contradiction by way of a laying.

#[derive(Clone, Copy, Debug, PartialEq, Eq)]
pub enum Kind {
    Part,
    Apart,
    Meets,
    Notpart,
}
use Kind::*;

impl Kind {
    pub fn opposite(self) -> Kind {
        match self {
            Part => Notpart,
            Notpart => Part,
            Apart => Meets,
            Meets => Apart,
        }
    }
}

#[derive(Clone, Copy, Debug, PartialEq, Eq)]
pub struct Fact {
    pub kind: Kind,
    pub a: usize,
    pub b: usize,
}

/// Everything that a list of facts derives, where some pieces are marked as void.
pub trait Derived {
    fn has(&self, fact: Fact) -> bool;

    /// Some claim and its opposite both have a derivation.
    fn contradictory(&self) -> bool;
}

// Rule by rule over single facts.

pub struct Facts {
    pieces: usize,
    void: Vec<bool>,
    known: [Vec<bool>; 4],
}

impl Facts {
    pub fn derive(pieces: usize, stored: &[Fact], void: &[bool]) -> Facts {
        let table = || vec![false; pieces * pieces];
        let mut all = Facts { pieces, void: void.to_vec(), known: [table(), table(), table(), table()] };
        for &fact in stored {
            all.add(fact);
        }
        while all.round() {}
        all
    }

    fn knows(&self, kind: Kind, a: usize, b: usize) -> bool {
        self.known[kind as usize][a * self.pieces + b]
    }

    /// Whether the fact is new. APART and MEETS are unordered.
    fn add(&mut self, Fact { kind, a, b }: Fact) -> bool {
        if self.knows(kind, a, b) {
            return false;
        }
        self.known[kind as usize][a * self.pieces + b] = true;
        if kind == Apart || kind == Meets {
            self.known[kind as usize][b * self.pieces + a] = true;
        }
        true
    }

    /// Applies every rule to all pieces g, h, k; whether a fact was new.
    fn round(&mut self) -> bool {
        let mut new = false;
        let n = self.pieces;
        for g in 0..n {
            new |= self.add(Fact { kind: Part, a: g, b: g }); // (c)
            new |= self.add(Fact { kind: Part, a: g, b: 0 }); // (f)
            new |= !self.void[g] && self.add(Fact { kind: Meets, a: g, b: g }); // (e'), for pieces not marked
            for h in 0..n {
                new |= self.void[g] && self.add(Fact { kind: Apart, a: g, b: h }); // (d), for marked pieces
                new |= self.void[g] && self.add(Fact { kind: Part, a: g, b: h }); // (e), for marked pieces
                for k in 0..n {
                    let rules = [
                        (self.knows(Part, g, h) && self.knows(Part, h, k), Fact { kind: Part, a: g, b: k }), // (a)
                        (self.knows(Part, g, h) && self.knows(Apart, h, k), Fact { kind: Apart, a: g, b: k }), // (b)
                        (self.knows(Part, g, h) && self.knows(Notpart, g, k), Fact { kind: Notpart, a: h, b: k }), // (a')
                        (self.knows(Notpart, g, k) && self.knows(Part, h, k), Fact { kind: Notpart, a: g, b: h }), // (b')
                        (self.knows(Part, h, k) && self.knows(Meets, g, h), Fact { kind: Meets, a: g, b: k }), // (c')
                        (self.knows(Meets, g, h) && self.knows(Apart, k, h), Fact { kind: Notpart, a: g, b: k }), // (d')
                    ];
                    for (holds, fact) in rules {
                        new |= holds && self.add(fact);
                    }
                }
            }
        }
        new
    }
}

impl Derived for Facts {
    fn has(&self, fact: Fact) -> bool {
        self.knows(fact.kind, fact.a, fact.b)
    }

    fn contradictory(&self) -> bool {
        (0..self.pieces * self.pieces).any(|i| {
            let at = |kind: Kind| self.known[kind as usize][i];
            at(Part) && at(Notpart) || at(Apart) && at(Meets)
        })
    }
}

// Rule by rule over rows of bits.

#[derive(Clone)]
struct Table {
    words: usize,
    bits: Vec<u64>,
}

impl Table {
    fn new(pieces: usize) -> Table {
        let words = pieces.div_ceil(64);
        Table { words, bits: vec![0; pieces * words] }
    }

    fn rows(&self) -> usize {
        self.bits.len() / self.words
    }

    fn row(&self, g: usize) -> &[u64] {
        &self.bits[g * self.words..][..self.words]
    }

    fn get(&self, g: usize, k: usize) -> bool {
        self.row(g)[k / 64] >> (k % 64) & 1 == 1
    }

    fn set(&mut self, g: usize, k: usize) {
        self.bits[g * self.words + k / 64] |= 1 << (k % 64);
    }

    /// The columns set in row g.
    fn members(&self, g: usize) -> Vec<usize> {
        let mut all = Vec::new();
        for (w, &word) in self.row(g).iter().enumerate() {
            let mut rest = word;
            while rest != 0 {
                all.push(w * 64 + rest.trailing_zeros() as usize);
                rest &= rest - 1;
            }
        }
        all
    }

    /// Joins a row to row g; whether that was new.
    fn join(&mut self, g: usize, row: &[u64]) -> bool {
        let mut new = 0;
        for (mine, theirs) in self.bits[g * self.words..].iter_mut().zip(row) {
            new |= theirs & !*mine;
            *mine |= theirs;
        }
        new != 0
    }

    /// A row to which nothing can be added.
    fn full(&self, g: usize) -> bool {
        self.row(g).iter().map(|word| word.count_ones() as usize).sum::<usize>() == self.rows()
    }

    /// Puts k into row g wherever h is in row g of `first` and k in row h of `second`; whether that was new.
    fn spread(&mut self, first: &Table, second: &Table) -> bool {
        let some: Vec<bool> = (0..second.rows()).map(|h| second.row(h).iter().any(|&word| word != 0)).collect();
        let mut new = false;
        for g in 0..self.rows() {
            if self.full(g) {
                continue;
            }
            for h in first.members(g).into_iter().filter(|&h| some[h]) {
                new |= self.join(g, second.row(h));
            }
        }
        new
    }

    /// The mirror image.
    fn turned(&self) -> Table {
        let mut other = Table::new(self.rows());
        for g in 0..self.rows() {
            for k in self.members(g) {
                other.set(k, g);
            }
        }
        other
    }

    /// Joins the mirror image.
    fn mirror(&mut self) {
        let turned = self.turned();
        for (mine, theirs) in self.bits.iter_mut().zip(&turned.bits) {
            *mine |= theirs;
        }
    }

    fn meets(&self, other: &Table) -> bool {
        self.bits.iter().zip(&other.bits).any(|(x, y)| x & y != 0)
    }
}

pub struct Rows {
    part: Table,
    apart: Table,
    meets: Table,
    notpart: Table,
}

impl Rows {
    pub fn derive(pieces: usize, stored: &[Fact], void: &[bool]) -> Rows {
        let table = Table::new(pieces);
        let mut all = Rows { part: table.clone(), apart: table.clone(), meets: table.clone(), notpart: table };
        for &Fact { kind, a, b } in stored {
            match kind {
                Part => all.part.set(a, b),
                Apart => all.apart.set(a, b),
                Meets => all.meets.set(a, b),
                Notpart => all.notpart.set(a, b),
            }
        }
        for g in 0..pieces {
            all.part.set(g, g); // (c)
            all.part.set(g, 0); // (f)
            if !void[g] {
                all.meets.set(g, g); // (e'), for pieces not marked
            }
        }
        for (g, k) in (0..pieces).filter(|&g| void[g]).flat_map(|g| (0..pieces).map(move |k| (g, k))) {
            all.apart.set(g, k); // (d), for marked pieces
            all.part.set(g, k); // (e), for marked pieces
        }
        all.apart.mirror();
        all.meets.mirror();
        while all.contain() {}
        while all.round() {}
        all
    }

    /// (a) g PART h, h PART k: g PART k. Whether a fact was new. No other rule has a PART for its result, so that these are whole before the others begin.
    fn contain(&mut self) -> bool {
        let part = &mut self.part;
        let mut new = false;
        for g in 0..part.rows() {
            if part.full(g) {
                continue;
            }
            for h in part.members(g) {
                let row = part.row(h).to_vec();
                new |= part.join(g, &row);
            }
        }
        new
    }

    /// Applies every other rule to all rows; whether a fact was new.
    fn round(&mut self) -> bool {
        let Rows { part, apart, meets, notpart } = self;
        let mut new = false;
        let parts = part.turned();
        new |= apart.spread(part, &apart.clone()); // (b) g PART h, h APART k: g APART k
        apart.mirror();
        new |= meets.spread(&meets.clone(), part); // (c') g MEETS h, h PART k: g MEETS k
        meets.mirror();
        new |= notpart.spread(meets, apart); // (d') g MEETS h, h APART k: g NOTPART k
        new |= notpart.spread(&parts, &notpart.clone()); // (a') g PART h, g NOTPART k: h NOTPART k
        new |= notpart.spread(&notpart.clone(), &parts); // (b') g NOTPART k, h PART k: g NOTPART h
        new
    }
}

impl Derived for Rows {
    fn has(&self, Fact { kind, a, b }: Fact) -> bool {
        match kind {
            Part => self.part.get(a, b),
            Apart => self.apart.get(a, b),
            Meets => self.meets.get(a, b),
            Notpart => self.notpart.get(a, b),
        }
    }

    fn contradictory(&self) -> bool {
        self.part.meets(&self.notpart) || self.apart.meets(&self.meets)
    }
}

// Contradiction by way of a laying.

/// All pieces, a part before its containers where no circle forbids it: the order saves rounds and decides nothing.
fn parts_first(containers: &[Vec<usize>]) -> Vec<usize> {
    let mut met = vec![false; containers.len()];
    let mut left = vec![];
    for start in 0..containers.len() {
        let mut path = if met[start] { vec![] } else { vec![(start, 0)] };
        met[start] = true;
        while let Some((piece, next)) = path.pop() {
            match containers[piece].get(next) {
                None => left.push(piece),
                Some(&container) => {
                    path.push((piece, next + 1));
                    if !std::mem::replace(&mut met[container], true) {
                        path.push((container, 0));
                    }
                }
            }
        }
    }
    left.reverse();
    left
}

/// Whether the facts have no laying. Tries the one that has least ice in common: a grain for each piece that is not marked and one for each stored
/// MEETS, each in its pieces and in whatever contains them. Every grain in it is forced, so where it breaks an APART or a NOTPART, or gives a marked
/// piece a grain, every laying does.
pub fn has_no_laying(pieces: usize, stored: &[Fact], void: &[bool]) -> bool {
    let met: Vec<&Fact> = stored.iter().filter(|f| f.kind == Meets).collect();
    let grains = pieces + met.len();
    let words = grains.div_ceil(64);
    let mut sets = vec![vec![0u64; words]; pieces];
    let mut put = |piece: usize, grain: usize| sets[piece][grain / 64] |= 1 << (grain % 64);
    for piece in (0..pieces).filter(|&piece| !void[piece]) {
        put(piece, piece);
    }
    for (i, fact) in met.iter().enumerate() {
        put(fact.a, pieces + i);
        put(fact.b, pieces + i);
    }
    // a part's grains go to its containers, until each has them
    let mut containers = vec![vec![0]; pieces];
    for fact in stored.iter().filter(|f| f.kind == Part) {
        containers[fact.a].push(fact.b);
    }
    let order = parts_first(&containers);
    let mut waiting = true;
    while waiting {
        waiting = false;
        for &part in &order {
            let set = std::mem::take(&mut sets[part]);
            for &container in containers[part].iter().filter(|&&container| container != part) {
                for (mine, theirs) in sets[container].iter_mut().zip(&set) {
                    waiting |= theirs & !*mine != 0;
                    *mine |= theirs;
                }
            }
            sets[part] = set;
        }
    }
    let filled_void = (0..pieces).any(|piece| void[piece] && sets[piece].iter().any(|&word| word != 0));
    filled_void
        || stored.iter().any(|fact| {
            let mut pairs = sets[fact.a].iter().zip(&sets[fact.b]);
            match fact.kind {
                Apart => pairs.any(|(x, y)| x & y != 0),
                Notpart => pairs.all(|(x, y)| x & !y == 0),
                Part | Meets => false,
            }
        })
}
