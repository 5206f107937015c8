//! The leaves that the crate `exports` exports, at every position of many strings of bits, against plain counts: ranks by running counts, matches by a stack of
//! open positions, no byte table and no search. The last line is 'N passed, M failed', where N + M are the strings and matrices compared and what must occur.

use std::collections::BTreeSet;

extern "C" {
    fn parentheses_ones_before(bytes: *const u8, length: usize, k: usize) -> usize;
    fn parentheses_select(bytes: *const u8, length: usize, j: usize) -> usize;
    fn parentheses_find_close(bytes: *const u8, length: usize, open: usize) -> usize;
    fn parentheses_find_close_by(bytes: *const u8, length: usize, open: usize) -> usize;
    fn parentheses_enclose(bytes: *const u8, length: usize, open: usize) -> usize;
    fn parentheses_subtree_end(bytes: *const u8, length: usize, place: usize) -> usize;
    fn relation_union_within(matrix: *mut u64, length: usize, d: usize, s: usize);
    fn relation_meet(m: *const u64, m_length: usize, r: usize, n: *const u64, n_length: usize, s: usize) -> bool;
}

type Leaf = unsafe extern "C" fn(*const u8, usize, usize) -> usize;

const LEAVES: [(&str, Leaf); 6] = [
    ("rank", parentheses_ones_before),
    ("select", parentheses_select),
    ("close", parentheses_find_close),
    ("close with ranks", parentheses_find_close_by),
    ("enclose", parentheses_enclose),
    ("range", parentheses_subtree_end),
];

fn ask(leaf: Leaf, bytes: &[u8], at: usize) -> usize {
    // SAFETY: the pointer comes with the length of its slice, which is read alone.
    unsafe { leaf(bytes.as_ptr(), bytes.len(), at) }
}

/// For each leaf its answer at each position or place from 0 to one past the last position. A missing position is the number of bits; what closes a 0, and what is asked
/// one past the end of it, is 0.
fn answers(bytes: &[u8]) -> [Vec<usize>; 6] {
    let total = 8 * bytes.len();
    let bits: Vec<bool> = (0..total).map(|k| bytes[k / 8] >> (k % 8) & 1 == 1).collect();
    let (mut rank, mut enclose, mut opened, mut stack) = (vec![], vec![], vec![], vec![]);
    let mut close = vec![0; total + 1];
    for (k, &bit) in bits.iter().enumerate() {
        rank.push(opened.len());
        enclose.push(stack.last().copied().unwrap_or(total));
        if bit {
            opened.push(k);
            stack.push(k);
            close[k] = total;
        } else if let Some(open) = stack.pop() {
            close[open] = k;
        }
    }
    rank.push(opened.len());
    enclose.push(stack.last().copied().unwrap_or(total));
    let select = (0..=total).map(|j| opened.get(j).copied().unwrap_or(total)).collect();
    let end = |place: usize| opened.get(place).map_or(opened.len(), |&open| rank[close[open]]);
    let range = (0..=total).map(end).collect();
    [rank, select, close.clone(), close, enclose, range]
}

#[derive(Default)]
struct Tally {
    passed: usize,
    failed: usize,
    /// for each leaf how often something was found, and how often nothing was
    found: [usize; 6],
    missing: [usize; 6],
}

impl Tally {
    fn count(&mut self, wrong: Option<String>) {
        match wrong {
            None => self.passed += 1,
            Some(wrong) => {
                self.failed += 1;
                if self.failed <= 10 {
                    println!("FAIL {wrong}");
                }
            }
        }
    }

    /// Asks all leaves at every position.
    fn string(&mut self, name: &str, bytes: &[u8]) {
        let total = 8 * bytes.len();
        let mut wrong = None;
        for (i, wanted) in answers(bytes).iter().enumerate() {
            let (leaf, ask_it) = LEAVES[i];
            for (at, &answer) in wanted.iter().enumerate() {
                let got = ask(ask_it, bytes, at);
                if got != answer && wrong.is_none() {
                    let shown = &bytes[..bytes.len().min(8)];
                    wrong = Some(format!("{name}: {leaf} at {at} of {total} bits is {got}, not {answer}; bytes {shown:?}"));
                }
            }
            self.missing[i] += wanted.iter().filter(|&&answer| answer == total).count();
            self.found[i] += wanted.iter().filter(|&&answer| answer != total).count();
        }
        self.count(wrong);
    }

    /// One line on a group of strings.
    fn group(&mut self, name: &str, strings: impl Iterator<Item = Vec<u8>>) {
        let (failed, mut strings_tried) = (self.failed, 0);
        for bytes in strings {
            self.string(name, &bytes);
            strings_tried += 1;
        }
        println!("{name}: {strings_tried} strings; {} failed", self.failed - failed);
    }
}

fn packed(bits: &[bool], length: usize) -> Vec<u8> {
    let mut bytes = vec![0; length];
    for (k, _) in bits.iter().enumerate().filter(|(_, &bit)| bit) {
        bytes[k / 8] |= 1 << (k % 8);
    }
    bytes
}

#[derive(Clone, Copy, Debug)]
enum Shape {
    Deep,
    Flat,
    Bushy,
    Unclosed,
}
use Shape::*;

const ALL: [Shape; 4] = [Deep, Flat, Bushy, Unclosed];

/// The 2 n bits of a string of n nodes; all ones where it is not closed.
fn shape(shape: Shape, n: usize) -> Vec<bool> {
    match shape {
        Deep => [vec![true; n], vec![false; n]].concat(),
        Flat => [vec![true], [true, false].repeat(n - 1), vec![false]].concat(),
        Unclosed => vec![true; 2 * n],
        Bushy => {
            let (mut bits, mut state, mut ones) = (vec![], 1u64, 0);
            while bits.len() < 2 * n {
                state = (state * 1103515245 + 12345) % (1 << 31);
                let depth = 2 * ones - bits.len();
                let bit = depth == 0 || ones < n && state >> 16 & 1 == 1;
                ones += usize::from(bit);
                bits.push(bit);
            }
            bits
        }
    }
}

/// splitmix64.
struct Random(u64);

impl Random {
    fn next(&mut self) -> u64 {
        self.0 = self.0.wrapping_add(0x9e37_79b9_7f4a_7c15);
        let mut z = self.0;
        z = (z ^ (z >> 30)).wrapping_mul(0xbf58_476d_1ce4_e5b9);
        z = (z ^ (z >> 27)).wrapping_mul(0x94d0_49bb_1331_11eb);
        z ^ (z >> 31)
    }

    fn below(&mut self, end: usize) -> usize {
        (self.next() % end as u64) as usize
    }

    /// Bytes in which so many of eight bits are 1, or runs of either.
    fn bytes(&mut self, length: usize) -> Vec<u8> {
        let ones = self.below(9);
        let runs = self.below(3) == 0;
        let mut bit = false;
        let bits: Vec<bool> = (0..8 * length)
            .map(|_| {
                if !runs || self.below(40) == 0 {
                    bit = self.below(8) < ones;
                }
                bit
            })
            .collect();
        packed(&bits, length)
    }
}

/// Document 01's example, its numbers written out: bytes 55 and 6.
fn session(tally: &mut Tally) {
    const N: usize = 16;
    let wanted: [[usize; 17]; 6] = [
        [0, 1, 2, 3, 3, 4, 5, 5, 5, 5, 6, 7, 7, 7, 7, 7, 7],
        [0, 1, 2, 4, 5, 9, 10, N, N, N, N, N, N, N, N, N, N],
        [13, 8, 3, 0, 7, 6, 0, 0, 0, 12, 11, 0, 0, 0, 0, 0, 0],
        [13, 8, 3, 0, 7, 6, 0, 0, 0, 12, 11, 0, 0, 0, 0, 0, 0],
        [N, 0, 1, 2, 1, 4, 5, 4, 1, 0, 9, 10, 9, 0, N, N, N],
        [7, 5, 3, 5, 5, 7, 7, 7, 7, 7, 7, 7, 7, 7, 7, 7, 7],
    ];
    for ((name, leaf), wanted) in LEAVES.into_iter().zip(wanted) {
        let got: Vec<usize> = (0..=N).map(|at| ask(leaf, &[55, 6], at)).collect();
        tally.count((got != wanted).then(|| format!("bytes 55 and 6, {name}: {got:?}")));
    }
}

/// What lies beyond: positions past the end are 0, or nothing for select and all nodes for a range; so is all of a string that is too long.
fn beyond(tally: &mut Tally) {
    for (length, far) in [(0, 1), (2, 17), (2560, 20481), (3, usize::MAX)] {
        let bytes = vec![5; length];
        let wanted = [0, 8 * length, 0, 0, 0, 2 * length];
        let got = LEAVES.map(|(_, leaf)| ask(leaf, &bytes, far));
        tally.count((got != wanted).then(|| format!("{length} bytes at {far}: {got:?}")));
    }
    let long = vec![255; 2561];
    let got: Vec<usize> = LEAVES.iter().flat_map(|&(_, leaf)| [0, 1, 20487, 20488].map(|at| ask(leaf, &long, at))).collect();
    tally.count(got.iter().any(|&answer| answer != 0).then(|| format!("2,561 bytes: {got:?}")));
}

/// Rows of random matrices: united, and whether two have a common bit. What is no matrix or no row of one is left alone.
fn matrices(tally: &mut Tally) {
    const WORDS: usize = 2048 * 32;
    let failed = tally.failed;
    let mut random = Random(3);
    let mut common = [0; 2];
    let sparse =
        |random: &mut Random| -> Vec<u64> { (0..WORDS).map(|_| if random.below(12) == 0 { 1 << random.below(64) } else { 0 }).collect() };
    let (mut m, n) = (sparse(&mut random), sparse(&mut random));
    for number in 0..1000 {
        let edge = [0, 1, 2046, 2047, 2048, usize::MAX];
        let mut row = || if random.below(8) == 0 { edge[random.below(6)] } else { random.below(2048) };
        let (d, s) = (row(), row());
        let length = if number % 50 == 7 { WORDS - 1 } else { WORDS };
        let sound = d < 2048 && s < 2048 && length == WORDS;
        let bit = |x: &[u64], r: usize, k: usize| x[32 * r + k / 64] >> (k % 64) & 1;
        let wanted = sound && (0..2048).any(|k| bit(&m, d, k) == 1 && bit(&n, s, k) == 1);
        // SAFETY: each pointer comes with a length that its slice has.
        let got = unsafe { relation_meet(m.as_ptr(), length, d, n.as_ptr(), WORDS, s) };
        common[usize::from(wanted)] += 1;
        let mut united = m.clone();
        for k in (0..2048).filter(|&k| sound && bit(&m, s, k) == 1) {
            united[32 * d + k / 64] |= 1 << (k % 64);
        }
        // SAFETY: the same, and nothing else has the slice.
        unsafe { relation_union_within(m.as_mut_ptr(), length, d, s) };
        tally
            .count((got != wanted || m != united).then(|| format!("rows {d} and {s}, {length} words: common bit {got}, or another union")));
        m = united;
    }
    tally.count(common.contains(&0).then(|| format!("common bits: {common:?}")));
    println!("matrices: 1000 pairs of rows, {} with a common bit; {} failed", common[1], tally.failed - failed);
}

fn main() {
    let mut tally = Tally::default();
    session(&mut tally);
    beyond(&mut tally);
    tally.group("no byte and one", std::iter::once(vec![]).chain((0..=255).map(|byte| vec![byte])));
    tally.group("two bytes", (0..=65535u16).map(|two| two.to_le_bytes().to_vec()));
    for (n, kinds) in [(1, &[Deep, Flat, Bushy][..]), (5, &ALL), (1000, &ALL), (10240, &ALL)] {
        for &kind in kinds {
            let bits = shape(kind, n);
            // of the greatest length, and no longer than need be
            let lengths = BTreeSet::from([2560, bits.len().div_ceil(8)]);
            tally.group(&format!("{kind:?}, {n} nodes"), lengths.into_iter().map(|length| packed(&bits, length)));
        }
    }
    let mut random = Random(1);
    tally.group(
        "random, up to 40 bytes",
        (0..2000).map(|_| {
            let length = random.below(41);
            random.bytes(length)
        }),
    );
    tally.group(
        "random, up to 2,560 bytes",
        (0..12).map(|i| {
            let length = if i % 3 == 0 { 2560 } else { random.below(2561) };
            random.bytes(length)
        }),
    );
    matrices(&mut tally);
    for (i, (leaf, _)) in LEAVES.iter().enumerate() {
        let (found, missing) = (tally.found[i], tally.missing[i]);
        tally.count((found == 0 || missing == 0).then(|| format!("{leaf}: found {found} times, missing {missing} times")));
    }
    println!("{} passed, {} failed", tally.passed, tally.failed);
    std::process::exit(if tally.failed == 0 { 0 } else { 1 });
}
