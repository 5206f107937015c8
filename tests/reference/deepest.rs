//! Every call on the deepest books that there are, on a thread with no more stack than the header asks for: a call that needs more ends the tester. What the calls come to is
//! held to each other and to what such books must come to.

use crate::books::*;
use crate::buffers::{Lent, LEAST};
use crate::chains;
use crate::jobs::seed;
use crate::piecebook::{self, Areas, Parts, Window, Working, AREA, FOLLOWS, LIST, PAIRS};
use crate::reference::Lengths;
use crate::steps::follow;
use crate::tally::Tally;
use crate::workspaces::{self, lend};
use crate::STACK;

const RECORDS: usize = 8192;
const STEPS: usize = 164_000;
/// The piece that catalogs are asked of.
const ASKED: usize = 2000;

/// Pairs (part, container) of all pieces, and whether containers have lower numbers.
type Deep = (&'static str, Vec<(usize, usize)>, bool);

fn deepest() -> Vec<Deep> {
    let ring = |first: usize, count: usize| (0..count).map(move |i| (first + i, first + (i + 1) % count));
    let above = |part: usize| (part - 1) / 2 * 2;
    let ladder =
        (1..2048).flat_map(|part| if above(part) == 0 { vec![(part, 0)] } else { vec![(part, above(part)), (part, above(part) - 1)] });
    let couples = (1..2047).step_by(2).flat_map(|part| ring(part, 2).chain((part > 2).then(|| (part, part.saturating_sub(2)))));
    vec![
        ("a line", (1..2048).map(|part| (part, part - 1)).collect(), true),
        ("a line in the worst order", (1..2047).map(|part| (part, part + 1)).collect(), false),
        ("a ladder", ladder.collect(), true),
        ("circles of two in a line", couples.collect(), false),
        ("a circle of all but 0", ring(1, 2047).collect(), false),
        ("a circle of all", ring(0, 2048).collect(), false),
    ]
}

/// As many records as there may be: the pairs, then facts that hold in every book without marks, the last piece's first.
fn filled(pairs: &[(usize, usize)]) -> Vec<Bytes> {
    let known = |a: usize| [record(MEETS, a, a), record(MEETS, a, 0), record(MEETS, 0, a), of(SCANNER, record(MEETS, a, a))];
    let pairs = pairs.iter().map(|&(part, container)| record(PART, part, container));
    pairs.chain((1..2048).rev().flat_map(known)).take(RECORDS).collect()
}

/// A book, what all calls on it must come to, and claims, half of them restricted.
struct Tried {
    book: Vec<u8>,
    rising: bool,
    number: usize,
    place: usize,
    claims: Vec<u8>,
}

fn differs<T: PartialEq + std::fmt::Debug>(call: &str, got: T, wanted: T) -> Result<(), String> {
    if got == wanted {
        return Ok(());
    }
    Err(format!("{call}: got {got:?}, expected {wanted:?}"))
}

impl Tried {
    fn told(&self) -> (usize, usize) {
        (self.number, self.place)
    }

    fn index_calls(&self, random: &mut Random) -> Result<Vec<u8>, String> {
        let lengths = Lengths { answers: self.claims.len() / 6, ..LEAST };
        let (mut lent, mut alone) = (Lent::new(random, lengths), Lent::new(random, LEAST));
        let outcome = lent.call(&self.book, Some(&self.claims));
        differs("answer", (outcome.number, outcome.place), self.told())?;
        differs("index", alone.call(&self.book, None), outcome)?;
        differs("index", alone.parentheses.lend(), lent.parentheses.lend())?;
        differs("index", alone.places.lend(), lent.places.lend())?;
        let grids = lend(&[&self.book], |workspace| piecebook::grid(workspace, &self.book));
        differs("grid", (grids.number, grids.place), if self.number == 0 { (16, 0) } else { self.told() })?;
        Ok(lent.answers.lend().to_vec())
    }

    /// Takes the last record away and adds it, asks, and withdraws one that a contradiction does not need.
    fn working_calls(&self, answers: &[u8]) -> Result<(), String> {
        let mut area = self.book.clone();
        let last = area.split_off(AREA - 6);
        area.resize(AREA, 0);
        let mut state = Working { records: RECORDS - 1, pieces: 0 };
        let books: [&[u8]; 1] = [&self.book];
        let added = lend(&books, |workspace| state.add(workspace, &mut area, &last));
        differs("add", (added.number, added.place), self.told())?;
        if self.number == 0 {
            differs("add", (state.records, state.pieces), (RECORDS, 2048))?;
            differs("add", &area, &self.book)?;
        }
        area.copy_from_slice(&self.book);
        state.records = RECORDS;
        for (claim, &answer) in self.claims.chunks(6).zip(answers).take(6) {
            let asked = lend(&books, |workspace| state.ask(workspace, &area, claim));
            differs(
                "ask",
                (asked.number, asked.place, asked.answer),
                (self.number, self.place, if self.number == 0 { answer.into() } else { 0 }),
            )?;
        }
        let withdrawn = lend(&books, |workspace| state.withdraw(workspace, &mut area, 5000));
        differs("withdraw", (withdrawn.number, withdrawn.place), (self.number, self.place.saturating_sub(1)))?;
        let started = lend(&books, |workspace| state.start(workspace, &mut area));
        differs("start", (started.number, state.records, area[0]), (0, 0, 0))
    }

    fn catalog_call(&self, random: &mut Random, kind: u8) -> Result<(), String> {
        let claims: Vec<u8> = (0..2048).flat_map(|x| record(kind, x, ASKED)).collect();
        let mut lent = Lent::new(random, Lengths { answers: 2048, ..LEAST });
        lent.call(&self.book, Some(&claims));
        let wanted: Vec<u16> = (0..2048).filter(|&x| self.number == 0 && lent.answers.lend()[usize::from(x)] == FOLLOWS).collect();
        let mut lists = [vec![0u16; LIST], vec![0; PAIRS], vec![0; PAIRS], vec![0; PAIRS]];
        let [list, meets, apart, notpart] = &mut lists;
        let mut areas = Areas { list, meets, apart, notpart };
        let mut index = Parts {
            parentheses: lent.parentheses.lend(),
            marks: lent.marks.lend(),
            shadows: lent.shadows.lend(),
            places: lent.places.lend(),
        };
        let got = lend(&[&self.book], |workspace| piecebook::catalog(workspace, &self.book, kind.into(), ASKED, &mut index, &mut areas));
        differs("catalog", (got.number, got.place), self.told())?;
        differs("catalog", &lists[0][..got.listed], &wanted[..])
    }

    fn other_calls(&self, random: &mut Random, answers: &[u8]) -> Result<(), String> {
        let books: [&[u8]; 1] = [&self.book];
        let mut out = vec![0; RECORDS * 6];
        let converted = lend(&books, |workspace| piecebook::convert(workspace, &self.book, &mut out));
        let late = self.book.chunks(6).position(|r| r[0] == PART && [r[5], r[4]] >= [r[3], r[2]]);
        differs("convert", (converted.number, converted.place), late.map_or(self.told(), |place| (8, place)))?;
        differs("convert", late.is_none(), self.rising)?;
        let log: Vec<u8> = (0..32768).flat_map(|_| (random.below(2048) as u16).to_le_bytes()).collect();
        let mut counts = vec![7; log.len()];
        let replicated =
            lend(&books, |workspace| piecebook::replicates(workspace, &self.book, Window { pieces: [0; 31], count: 0 }, &log, &mut counts));
        differs("replicates", (replicated.number, replicated.place), self.told())?;
        // no two pieces are APART
        let wanted = if self.number == 0 { [vec![0, 1], vec![0; log.len() - 2]].concat() } else { vec![7; log.len()] };
        differs("replicates", counts == wanted, true)?;
        let turned: Vec<u8> = self.book.chunks(6).rev().flatten().copied().collect();
        let mut out = vec![0; self.claims.len() / 2];
        let compared = lend(&books, |workspace| piecebook::compare(workspace, &self.book, &turned, &self.claims, &mut out));
        differs("compare", (compared.number, compared.place, compared.together), (self.number, self.place, usize::from(self.number == 0)))?;
        let wanted: Vec<u8> = answers.iter().flat_map(|&answer| [answer, answer, 1]).collect();
        differs("compare", self.number != 0 || out == wanted, true)
    }

    fn chain_calls(&self, answers: &[u8]) -> Result<(), String> {
        for (claim, &answer) in self.claims.chunks(6).zip(answers).take(12) {
            let mut steps = vec![0; STEPS];
            let got = lend(&[&self.book], |workspace| piecebook::chain(workspace, &self.book, claim, &mut steps));
            differs(
                "chain",
                (got.number, got.place, got.answer),
                (self.number, self.place, if self.number == 0 { answer.into() } else { 0 }),
            )?;
            let written = &steps[..10 * got.steps];
            differs("chain", got.steps > 0, self.number == 0 && answer < 3)?;
            let passes = lend(&[&self.book], |workspace| piecebook::chain_check(workspace, &self.book, claim, written));
            differs("chain_check", passes == 1, got.steps > 0)?;
            differs("chain", got.steps > 0 && !chains::passes(&self.book, 2048, claim, written), false)?;
        }
        Ok(())
    }

    fn clash_calls(&self) -> Result<(), String> {
        let mut steps = vec![0; STEPS];
        let got = lend(&[&self.book], |workspace| piecebook::clash(workspace, &self.book, &mut steps));
        differs("clash", (got.number, got.place, got.steps > 0), (self.number, self.place, self.number == 14))?;
        let written = &steps[..10 * got.steps];
        let passes = lend(&[&self.book], |workspace| piecebook::clash_check(workspace, &self.book, written));
        differs("clash_check", passes == 1, self.number == 14)?;
        let last = follow(&self.book, 2048, written, |record, _| record < self.place);
        differs("clash", last.is_some_and(|last| last.shows(MEETS, 3, 1)), self.number == 14)
    }

    fn all_calls(&self, random: &mut Random) -> Result<(), String> {
        let answers = self.index_calls(random)?;
        self.working_calls(&answers)?;
        for kind in [PART, APART, MEETS] {
            self.catalog_call(random, kind)?;
        }
        self.other_calls(random, &answers)?;
        self.chain_calls(&answers)?;
        self.clash_calls()
    }
}

/// Claims from one end of a book to the other, which every two are also asked of the sheets, and others.
fn some_claims(random: &mut Random) -> Vec<u8> {
    let ends = [(PART, 2047, 1), (PART, 1, 2047), (MEETS, 2046, 1), (NOTPART, 1, 2046), (PART, 1, 2046), (APART, 3, 2046)];
    let ends = ends.into_iter().flat_map(|(kind, a, b)| [record(kind, a, b), of(SCANNER, record(kind, a, b))]);
    let others = claims(random, 2048, 4084);
    ends.chain(others).flatten().collect()
}

/// The book in its order, turned, shuffled, and with a contradiction in its last record.
fn tried(random: &mut Random, pairs: &[(usize, usize)], rising: bool) -> Vec<Tried> {
    let book = filled(pairs);
    let mut shuffled = book.clone();
    random.shuffle(&mut shuffled);
    let clashing = [&book[..RECORDS - 1], &[record(APART, 3, 1)]].concat();
    let turned: Vec<Bytes> = book.iter().rev().copied().collect();
    [(book, 0, 0), (turned, 0, 0), (shuffled, 0, 0), (clashing, 14, RECORDS - 1)]
        .into_iter()
        .map(|(book, number, place)| Tried { book: book.concat(), rising, number, place, claims: some_claims(random) })
        .collect()
}

fn on_little_stack(name: &str, tried: &Tried) -> Option<String> {
    let calls = || {
        workspaces::begin(seed(name));
        let wrong = tried.all_calls(&mut seed(name)).err();
        wrong.or(workspaces::broken())
    };
    std::thread::scope(|scope| {
        let thread = std::thread::Builder::new().stack_size(STACK).spawn_scoped(scope, calls).expect("a thread");
        thread.join().unwrap_or_else(|_| Some("the thread has failed".into()))
    })
}

pub fn stage(tally: &mut Tally) {
    let failed = tally.failed;
    let mut count = 0;
    for (name, pairs, rising) in deepest() {
        for tried in tried(&mut tally.random, &pairs, rising) {
            count += 1;
            let wrong = on_little_stack(name, &tried);
            tally.count(wrong.map(|wrong| format!("{name}, number {}: {wrong}", tried.number)));
        }
    }
    tally.say(format!("every call on {count} of the deepest books, with {} KiB of stack; {} failed", STACK >> 10, tally.failed - failed));
}
