//! The workspace that calls are lent: one for each thread, with gaps that no call may write to. Garbage comes into it before every call, since what it holds at entry must not matter.

use crate::books::Random;
use crate::piecebook::{Workspace, MATRIX};
use std::cell::RefCell;

/// The numbers before each matrix and behind the last.
const GAP: usize = 37;
/// The numbers of a row.
const ROW: usize = 32;
const ROWS: usize = MATRIX / ROW;
/// As many rows are filled before a call; those of a small book all.
const FILLED: usize = 256;

struct Lender {
    workspace: Workspace,
    random: Random,
    gaps: Vec<u64>,
    broken: Vec<usize>,
}

thread_local! {
    static LENDER: RefCell<Lender> = RefCell::new(Lender { workspace: Workspace::with_gaps(GAP), random: Random(0), gaps: vec![], broken: vec![] });
}

impl Lender {
    fn gaps(&mut self) -> Vec<u64> {
        self.workspace.numbers().chunks(GAP + MATRIX).flat_map(|gap_and_matrix| &gap_and_matrix[..GAP]).copied().collect()
    }

    /// Random bits, all ones, or a few bits, into some of the first rows of each matrix; or all is left as the last call left it.
    fn soil(&mut self, rows: usize) {
        let count = rows.min(FILLED);
        let from = self.random.below(rows - count + 1);
        let kind = self.random.below(4);
        if kind == 0 {
            return;
        }
        for matrix in self.workspace.numbers().chunks_exact_mut(GAP + MATRIX) {
            for number in &mut matrix[GAP..][ROW * from..ROW * (from + count)] {
                *number = match kind {
                    1 => u64::MAX,
                    2 => 1 << self.random.below(64),
                    _ => self.random.next(),
                };
            }
        }
    }
}

/// Fills the thread's workspace and its gaps with garbage from these random numbers.
pub fn begin(mut random: Random) {
    LENDER.with_borrow_mut(|lender| {
        lender.workspace.numbers().fill_with(|| random.next());
        lender.random = random;
        lender.gaps = lender.gaps();
        lender.broken.clear();
    });
}

/// The rows that a call on such records may use: one for each piece.
fn rows(books: &[&[u8]]) -> usize {
    let number = |r: &[u8], at: usize| usize::from(u16::from_le_bytes([r[at], r[at + 1]]));
    let largest = books.iter().flat_map(|book| book.chunks_exact(6)).map(|r| number(r, 2).max(number(r, 4))).max();
    (largest.unwrap_or(0) + 1).min(ROWS)
}

/// Lends the thread's workspace to a call on these books.
pub fn lend<R>(books: &[&[u8]], call: impl FnOnce(&mut Workspace) -> R) -> R {
    LENDER.with_borrow_mut(|lender| {
        lender.soil(rows(books));
        let result = call(&mut lender.workspace);
        let gaps = lender.gaps();
        lender.broken.extend(gaps.iter().zip(&lender.gaps).position(|(now, before)| now != before));
        lender.gaps = gaps;
        result
    })
}

/// Where calls wrote to a gap since the garbage came in.
pub fn broken() -> Option<String> {
    let broken = LENDER.with_borrow_mut(|lender| std::mem::take(&mut lender.broken));
    broken
        .first()
        .map(|at| format!("{} calls wrote beside the workspace's matrices, first into gap {} at {}", broken.len(), at / GAP, at % GAP))
}
