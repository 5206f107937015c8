//! What is lent to a call, guard values before and behind it: buffers of any numbers, and the four parts of an index with the answers.

use crate::books::Random;
use crate::piecebook::{self, Outcome, Parts};
use crate::reference::{Change, Lengths};
use crate::workspaces::lend;

/// A lent buffer: guard values, the lent part, guard values.
#[derive(Clone, PartialEq)]
pub struct Buffer<T> {
    all: Vec<T>,
    front: usize,
    pub length: usize,
}

impl<T: Copy + PartialEq> Buffer<T> {
    pub fn new(random: &mut Random, length: usize, value: impl Fn(u64) -> T) -> Buffer<T> {
        let front = random.below(9);
        let behind = random.range(1, 40);
        let start = random.next();
        let all = (0..(front + length + behind) as u64).map(|i| value((start.wrapping_add(i)).wrapping_mul(0x9e37_79b9_7f4a_7c15) >> 32));
        Buffer { all: all.collect(), front, length }
    }

    pub fn lend(&mut self) -> &mut [T] {
        &mut self.all[self.front..][..self.length]
    }

    pub fn write(&mut self, values: &[T]) {
        self.lend()[..values.len()].copy_from_slice(values);
    }

    /// Whether the guard values are the same: of two whose lent parts may differ.
    pub fn same_guards(&self, other: &Buffer<T>) -> bool {
        let behind = self.front + self.length;
        self.all[..self.front] == other.all[..self.front] && self.all[behind..] == other.all[behind..]
    }

    /// The first place in which two differ, counted from the lent part's start.
    pub fn difference(&self, other: &Buffer<T>) -> Option<isize> {
        if self.all == other.all {
            return None;
        }
        let at = self.all.iter().zip(&other.all).position(|(x, y)| x != y)?;
        Some(at as isize - self.front as isize)
    }
}

#[derive(Clone)]
pub struct Lent {
    pub parentheses: Buffer<u8>,
    pub marks: Buffer<u8>,
    pub shadows: Buffer<u16>,
    pub places: Buffer<u16>,
    pub answers: Buffer<u8>,
}

impl Lent {
    pub fn new(random: &mut Random, lengths: Lengths) -> Lent {
        Lent {
            parentheses: Buffer::new(random, lengths.parentheses, |x| x as u8),
            marks: Buffer::new(random, lengths.marks, |x| x as u8),
            shadows: Buffer::new(random, lengths.shadows, |x| x as u16),
            places: Buffer::new(random, lengths.places, |x| x as u16),
            answers: Buffer::new(random, lengths.answers, |x| x as u8),
        }
    }

    /// Calls the library: with claims the call that answers them, else the one that writes the index alone.
    pub fn call(&mut self, book: &[u8], claims: Option<&[u8]>) -> Outcome {
        let mut index = Parts {
            parentheses: self.parentheses.lend(),
            marks: self.marks.lend(),
            shadows: self.shadows.lend(),
            places: self.places.lend(),
        };
        lend(&[book], |workspace| match claims {
            Some(claims) => piecebook::answer(workspace, book, claims, &mut index, self.answers.lend()),
            None => piecebook::index(workspace, book, &mut index),
        })
    }

    pub fn apply(&mut self, change: &Change) {
        let (index, answers) = match change {
            Change::Nothing => return,
            Change::Index(index) => (index, None),
            Change::IndexAndAnswers(index, answers) => (index, Some(answers)),
        };
        self.parentheses.write(&index.parentheses);
        self.marks.write(&index.marks);
        self.shadows.write(&index.shadows);
        self.places.write(&index.places);
        if let Some(answers) = answers {
            self.answers.write(answers);
        }
    }

    pub fn difference(&self, other: &Lent) -> Option<String> {
        let places = [
            ("parentheses", self.parentheses.difference(&other.parentheses)),
            ("marks", self.marks.difference(&other.marks)),
            ("shadows", self.shadows.difference(&other.shadows)),
            ("places", self.places.difference(&other.places)),
            ("answers", self.answers.difference(&other.answers)),
        ];
        let (name, at) = places.into_iter().find_map(|(name, at)| at.map(|at| (name, at)))?;
        Some(format!("{name} differ at {at}"))
    }
}

pub const LEAST: Lengths = Lengths { parentheses: 2560, marks: 1280, shadows: 8192, places: 2048, answers: 0 };

/// Lengths that do, now and then just so.
pub fn enough(random: &mut Random, claims: usize) -> Lengths {
    let mut more = |least: usize| least + if random.one_in(3) { 0 } else { random.below(50) };
    Lengths {
        parentheses: more(LEAST.parentheses),
        marks: more(LEAST.marks),
        shadows: more(LEAST.shadows),
        places: more(LEAST.places),
        answers: more(claims),
    }
}

/// Lengths of which one at least, mostly, is too short.
pub fn short(random: &mut Random, claims: usize) -> Lengths {
    let mut lengths = enough(random, claims);
    for _ in 0..1 + random.below(2) {
        let length = match random.below(5) {
            0 => &mut lengths.parentheses,
            1 => &mut lengths.marks,
            2 => &mut lengths.shadows,
            3 => &mut lengths.places,
            _ => &mut lengths.answers,
        };
        let least = *length;
        *length = match random.below(4) {
            0 => 0,
            1 => random.below(least + 1),
            _ => least.saturating_sub(random.range(1, 52)),
        };
    }
    lengths
}
