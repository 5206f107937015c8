//! Books of known shapes, up to the largest: every byte of the index by the reference, and whether each piece is PART of each other, held to a search from each piece along the pairs
//! alone. The counts of nodes and shadows, and a checksum of each part and of all rows of what pieces contain, were worked out once by another program, and stand here as numbers.

use crate::books::{record, Bytes, Random, MEETS, PART};
use crate::buffers::{Lent, LEAST};
use crate::piecebook::{Outcome, FOLLOWS, OPEN};
use crate::reference::{judge, Change, Edition, Lengths};
use crate::tally::Tally;
use std::time::Instant;

#[derive(Clone, Copy)]
enum Shape {
    Deep,
    Flat,
    Bushy,
    Ladder,
    Drawn,
}
use self::Shape::*;

/// So many pieces in so many groups, each piece in the group of its number modulo that, with the first so many pairs of a shape between the groups.
pub struct Named {
    pub name: &'static str,
    shape: Shape,
    groups: usize,
    pieces: usize,
    pairs: usize,
    /// nodes and shadows
    counts: [usize; 2],
    /// of parentheses, marks, shadow list, place list and rows
    sums: [u64; 5],
}

pub fn all() -> Vec<Named> {
    let named = |name, shape, [groups, pieces, pairs]: [usize; 3], counts, sums| Named { name, shape, groups, pieces, pairs, counts, sums };
    vec![
        named("alone", Flat, [1, 1, 0], [1, 0], [65383, 15138, 3570, 2127, 24070]),
        named("joined", Flat, [2048, 2048, 0], [2048, 0], [33197, 15138, 3570, 26154, 56026]),
        named("deep", Deep, [2048, 2048, 2047], [2048, 0], [44600, 15138, 3570, 26154, 45401]),
        named("flat", Flat, [2048, 2048, 2047], [2048, 0], [33197, 15138, 3570, 26154, 56026]),
        named("bushy", Bushy, [2048, 2048, 8188], [8172, 6124], [26768, 12513, 37583, 12617, 65204]),
        named("ladder", Ladder, [2001, 2001, 4000], [3999, 1998], [47774, 56913, 18296, 35371, 2147]),
        named("random, 7 pieces", Drawn, [7, 7, 12], [9, 2], [56886, 26759, 8033, 56657, 45738]),
        named("random, 50 pieces", Drawn, [50, 50, 100], [91, 41], [22316, 54561, 31355, 40697, 35942]),
        named("random, 300 pieces", Drawn, [300, 300, 1000], [968, 668], [48227, 52880, 15677, 52605, 25596]),
        named("random, 3,000 pairs", Drawn, [2048, 2048, 3000], [3427, 1379], [58465, 22783, 56379, 33692, 43795]),
        named("random, 8,192 pairs", Drawn, [2048, 2048, 8192], [8144, 6096], [46523, 11135, 43125, 11186, 2227]),
        named("one group", Flat, [1, 2048, 0], [1, 0], [65383, 15138, 3570, 2127, 5100]),
        named("a ladder of pairs", Ladder, [1024, 2048, 2046], [2045, 1021], [40600, 34363, 10834, 41205, 62940]),
        named("random groups", Drawn, [300, 2000, 1000], [968, 668], [48227, 52880, 15677, 1473, 4877]),
    ]
}

/// The pairs (part, container) of a shape, each once.
fn pairs(shape: Shape, groups: usize, count: usize) -> Vec<(usize, usize)> {
    let mut state = 1u64;
    let mut drawn = || {
        state = (state * 1103515245 + 12345) % (1 << 31);
        (state / 64 % 2048) as usize
    };
    let mut all: Vec<(usize, usize)> = vec![];
    for j in 0..count {
        let pair = match shape {
            Deep => (j + 1, j),
            Flat => (j + 1, 0),
            Bushy => (j / 4 + 1, (j / 4 + 1) / 2 / (j % 4 + 1)),
            // two pieces a level, each in both of the level above
            Ladder => {
                let (part, level) = (j / 2 + 1, j / 4);
                (part, if level == 0 { 0 } else { 2 * level - 1 + j % 2 })
            }
            Drawn => {
                let part = drawn() % groups;
                (part, drawn() % (part + 1))
            }
        };
        if pair.1 < pair.0 && pair.0 < groups {
            all.push(pair);
        }
    }
    all.sort();
    all.dedup();
    all
}

impl Named {
    /// The pairs, and those that make each group a circle.
    fn stored(&self) -> Vec<(usize, usize)> {
        let mut all = pairs(self.shape, self.groups, self.pairs);
        for first in 0..self.groups {
            let members: Vec<usize> = (first..self.pieces).step_by(self.groups).collect();
            if members.len() > 1 {
                all.extend((0..members.len()).map(|i| (members[i], members[(i + 1) % members.len()])));
            }
        }
        all
    }

    fn book(&self) -> Vec<u8> {
        let mut all: Vec<Bytes> = self.stored().iter().map(|&(part, container)| record(PART, part, container)).collect();
        // so that the last piece is named
        if self.pieces > 1 {
            all.push(record(MEETS, self.pieces - 1, 0));
        }
        all.concat()
    }

    /// For each piece the pieces that paths of pairs lead to it from; to 0 from all.
    fn contents(&self) -> Vec<Vec<bool>> {
        let mut parts = vec![vec![]; self.pieces];
        parts[0].extend(1..self.pieces);
        self.stored().iter().for_each(|&(part, container)| parts[container].push(part));
        let search = |piece: usize| {
            let mut found = vec![false; self.pieces];
            found[piece] = true;
            let mut waiting = vec![piece];
            while let Some(container) = waiting.pop() {
                for &part in &parts[container] {
                    if !std::mem::replace(&mut found[part], true) {
                        waiting.push(part);
                    }
                }
            }
            found
        };
        (0..self.pieces).map(search).collect()
    }

    /// A book of a known shape.
    pub fn stage(&self, tally: &mut Tally) {
        let start = Instant::now();
        let wrong = self.compare(&mut tally.random);
        tally.count(wrong.map(|wrong| format!("shape {}: {wrong}", self.name)));
        tally.say(format!(
            "shape {}: every byte of its index, all PART claims; {} failed; {:.1} s",
            self.name,
            tally.failed,
            start.elapsed().as_secs_f64()
        ));
    }

    /// All claims that one piece is PART of another, as many to a call as there may be; what is wrong, if anything.
    pub fn compare(&self, random: &mut Random) -> Option<String> {
        let book = self.book();
        let contents = self.contents();
        let expected = judge(&book, Edition::InForce, None, LEAST);
        let outcome = Outcome { number: 0, place: 0, pieces: self.pieces, nodes: self.counts[0], shadows: self.counts[1] };
        if expected.doubt.is_some() || expected.outcome != outcome {
            return Some(format!("the reference says {:?}, the papers {outcome:?}", expected.outcome));
        }
        let mut lent = Lent::new(random, LEAST);
        let mut after = lent.clone();
        after.apply(&expected.change);
        if lent.call(&book, None) != outcome {
            return Some("index alone: another outcome".into());
        }
        if let Some(wrong) = lent.difference(&after) {
            return Some(format!("index alone: {wrong}"));
        }
        // what the library says: bit part of row container
        let mut rows = vec![[0u64; 32]; 2048];
        let all: Vec<(usize, usize)> = (0..self.pieces).flat_map(|container| (0..self.pieces).map(move |part| (part, container))).collect();
        for some in all.chunks(4096) {
            let claims: Vec<u8> = some.iter().flat_map(|&(part, container)| record(PART, part, container)).collect();
            let mut lent = Lent::new(random, Lengths { answers: some.len(), ..LEAST });
            let mut after = lent.clone();
            after.apply(&expected.change);
            let answers: Vec<u8> = some.iter().map(|&(part, container)| if contents[container][part] { FOLLOWS } else { OPEN }).collect();
            after.answers.write(&answers);
            if lent.call(&book, Some(&claims)) != outcome {
                return Some("another outcome".into());
            }
            if let Some(wrong) = lent.difference(&after) {
                return Some(format!("{wrong}, claims from PART {:?} on", some[0]));
            }
            for (&(part, container), _) in some.iter().zip(lent.answers.lend()).filter(|(_, answer)| **answer == FOLLOWS) {
                rows[container][part / 64] |= 1 << (part % 64);
            }
        }
        let Change::Index(_) = expected.change else { return Some("no index".into()) };
        let sums = [
            checksum(lent.parentheses.lend().iter().map(|&x| x.into())),
            checksum(lent.marks.lend().iter().map(|&x| x.into())),
            checksum(lent.shadows.lend().iter().map(|&x| x.into())),
            checksum(lent.places.lend().iter().map(|&x| x.into())),
            checksum(rows.concat().into_iter()),
        ];
        (sums != self.sums).then(|| format!("checksums {sums:?}, not {:?}", self.sums))
    }
}

fn checksum(numbers: impl Iterator<Item = u64>) -> u64 {
    numbers.fold(0, |sum, x| (sum * 31 + x % 65521 + 1) % 65521)
}
