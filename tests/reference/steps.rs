//! Steps of chains as document 02 has them, and when they follow from each other and from a book: written from the papers alone, and shared with nothing of the library.

use crate::books::*;
use std::collections::HashSet;

/// The bytes of the longest chain.
pub const ROOM: usize = 164_000;

pub fn number(bytes: &[u8], at: usize) -> usize {
    usize::from(bytes[at]) + 256 * usize::from(bytes[at + 1])
}

/// A step as document 02 has it.
#[derive(Clone, Copy)]
pub struct Step {
    pub rule: u8,
    pub kind: u8,
    pub a: usize,
    pub b: usize,
    pub first: usize,
    pub second: usize,
}

impl Step {
    pub fn read(bytes: &[u8]) -> Step {
        Step { rule: bytes[0], kind: bytes[1], a: number(bytes, 2), b: number(bytes, 4), first: number(bytes, 6), second: number(bytes, 8) }
    }

    /// Unordered kinds either way round.
    pub fn shows(&self, kind: u8, a: usize, b: usize) -> bool {
        self.kind == kind && ((self.a, self.b) == (a, b) || ((kind == APART || kind == MEETS) && (self.a, self.b) == (b, a)))
    }
}

/// Document 02's check on a book that passes its rows, of so many pieces: the last step, where each follows from the steps that it names and from what may be cited, which is of
/// record i where `may_cite(i, its bytes)` says so, and any mark.
pub fn follow(book: &[u8], pieces: usize, chain: &[u8], may_cite: impl Fn(usize, &[u8]) -> bool) -> Option<Step> {
    if chain.is_empty() || chain.len() % 10 != 0 || chain.len() > ROOM {
        return None;
    }
    let records: Vec<&[u8]> = book.chunks(6).collect();
    let void: Vec<bool> = (0..pieces).map(|piece| records.iter().any(|r| r[0] == VOID && number(r, 2) == piece)).collect();
    let steps: Vec<Step> = chain.chunks(10).map(Step::read).collect();
    let holds = |i: usize, s: &Step| -> bool {
        if !(1..=4).contains(&s.kind) || s.a >= pieces || s.b >= pieces {
            return false;
        }
        let marks = |piece: usize| records.get(s.first).is_some_and(|r| r[0] == VOID && number(r, 2) == piece);
        match s.rule {
            0 => {
                s.second == 0
                    && records
                        .get(s.first)
                        .is_some_and(|r| (1..=4).contains(&r[0]) && may_cite(s.first, r) && s.shows(r[0], number(r, 2), number(r, 4)))
            }
            3 => (s.first, s.second) == (0, 0) && s.kind == PART && s.a == s.b,
            4 => (s.first, s.second) == (0, 0) && s.kind == PART && s.b == 0,
            9 => (s.first, s.second) == (0, 0) && s.kind == MEETS && s.a == s.b && !void[s.a],
            10 => s.second == 0 && s.kind == APART && (marks(s.a) || marks(s.b)),
            11 => s.second == 0 && s.kind == PART && marks(s.a),
            1 | 2 | 5..=8 => {
                if s.first >= i || s.second >= i {
                    return false;
                }
                let (p, q) = (&steps[s.first], &steps[s.second]);
                // the rule at every g, h, k that the steps name
                let named = [s.a, s.b, p.a, p.b, q.a, q.b];
                named.iter().any(|&g| {
                    named.iter().any(|&h| {
                        named.iter().any(|&k| {
                            let (x, y, z) = match s.rule {
                                1 => ((PART, g, h), (PART, h, k), (PART, g, k)),
                                2 => ((PART, g, h), (APART, h, k), (APART, g, k)),
                                5 => ((PART, g, h), (NOTPART, g, k), (NOTPART, h, k)),
                                6 => ((NOTPART, g, k), (PART, h, k), (NOTPART, g, h)),
                                7 => ((PART, h, k), (MEETS, g, h), (MEETS, g, k)),
                                _ => ((MEETS, g, h), (APART, k, h), (NOTPART, g, k)),
                            };
                            p.shows(x.0, x.1, x.2) && q.shows(y.0, y.1, y.2) && s.shows(z.0, z.1, z.2)
                        })
                    })
                })
            }
            _ => false,
        }
    };
    steps.iter().enumerate().all(|(i, s)| holds(i, s)).then(|| steps[steps.len() - 1])
}

/// The fact that two of the steps show, unordered kinds either way round.
pub fn repeated(chain: &[u8]) -> Option<String> {
    let mut shown = HashSet::new();
    let fact = |s: Step| if s.kind == APART || s.kind == MEETS { (s.kind, s.a.min(s.b), s.a.max(s.b)) } else { (s.kind, s.a, s.b) };
    chain.chunks(10).map(|bytes| fact(Step::read(bytes))).find(|&fact| !shown.insert(fact)).map(|fact| format!("two steps show {fact:?}"))
}

/// A good chain with a few bytes changed, a step cut out or put in twice, or two exchanged.
pub fn damage(random: &mut Random, chain: &[u8]) -> Vec<u8> {
    let mut bytes = chain.to_vec();
    let steps = bytes.len() / 10;
    match random.below(8) {
        0 => {
            bytes.truncate(random.below(bytes.len() + 1));
        }
        1 => {
            let at = 10 * random.below(steps);
            bytes.drain(at..at + 10);
        }
        2 => {
            let at = 10 * random.below(steps);
            let copy = bytes[at..at + 10].to_vec();
            bytes.splice(at..at, copy);
        }
        3 => {
            let (i, j) = (random.below(steps), random.below(steps));
            (0..10).for_each(|k| bytes.swap(10 * i + k, 10 * j + k));
        }
        _ => {
            for _ in 0..1 + random.below(2) {
                let at = random.below(bytes.len());
                bytes[at] = if random.one_in(2) { random.below(13) as u8 } else { random.next() as u8 };
            }
        }
    }
    bytes
}
