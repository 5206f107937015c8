//! Counts what was compared, and what occurred: what never occurs is not tested.

use crate::books::Random;
use crate::reference::Seen;

/// Counts what was compared.
pub struct Tally {
    pub random: Random,
    pub passed: usize,
    pub failed: usize,
    /// what is to be told
    pub lines: Vec<String>,
    /// How often each number and each answer occurred.
    pub numbers: [usize; 20],
    /// the same of conversions
    pub conversions: [usize; 20],
    /// and of catalogs
    pub catalog_numbers: [usize; 20],
    /// answers to claims on all facts, then to restricted ones
    pub answers: [[usize; 4]; 2],
    /// circles in the books of both calls, and of catalogs
    pub seen: Seen,
    pub catalog_seen: Seen,
}

impl Tally {
    pub fn new(random: Random) -> Tally {
        Tally {
            random,
            passed: 0,
            failed: 0,
            lines: vec![],
            numbers: [0; 20],
            conversions: [0; 20],
            catalog_numbers: [0; 20],
            answers: [[0; 4]; 2],
            seen: Seen::default(),
            catalog_seen: Seen::default(),
        }
    }

    pub fn say(&mut self, line: String) {
        self.lines.push(line);
    }

    /// Adds what another has counted; its lines are told by then.
    pub fn add(&mut self, other: &Tally) {
        self.passed += other.passed;
        self.failed += other.failed;
        for (mine, theirs) in [
            (&mut self.numbers, &other.numbers),
            (&mut self.conversions, &other.conversions),
            (&mut self.catalog_numbers, &other.catalog_numbers),
        ] {
            mine.iter_mut().zip(theirs).for_each(|(mine, theirs)| *mine += theirs);
        }
        self.answers.iter_mut().flatten().zip(other.answers.iter().flatten()).for_each(|(mine, theirs)| *mine += theirs);
        self.seen.add(&other.seen);
        self.catalog_seen.add(&other.catalog_seen);
    }

    pub fn count(&mut self, wrong: Option<String>) {
        match wrong {
            None => self.passed += 1,
            Some(wrong) => {
                self.failed += 1;
                if self.failed <= 10 {
                    self.say(format!("FAIL {wrong}"));
                }
            }
        }
    }

    /// Fails where just these numbers did not occur: what never occurs is not tested. Number 2 is never given, 8 by the converter alone, and its former books.
    pub fn occurred(&mut self, whose: &str, given: &[usize], numbers: &[usize]) {
        for number in 0..given.len() {
            let wanted = numbers.contains(&number);
            self.count((wanted != (given[number] > 0)).then(|| format!("{whose}: number {number} occurred {} times", given[number])));
        }
    }

    /// Fails where a kind of circle did not occur.
    pub fn circles_occurred(&mut self, whose: &str, seen: &Seen) {
        for (occurred, what) in seen.all() {
            self.count((!occurred).then(|| format!("{whose}: no {what} occurred")));
        }
    }

    /// The same of the calls that answer, convert and catalog, and of answers.
    pub fn all_occurred(&mut self) {
        let (numbers, conversions, catalogs) = (self.numbers, self.conversions, self.catalog_numbers);
        self.occurred("the two calls", &numbers, &[0, 1, 3, 4, 5, 6, 7, 9, 10, 11, 12, 13, 14, 19]);
        self.occurred("conversions", &conversions, &[0, 1, 3, 4, 5, 6, 7, 8, 9, 14]);
        let seen = std::mem::take(&mut self.seen);
        self.circles_occurred("the two calls", &seen);
        self.occurred("catalogs", &catalogs, &[0, 1, 3, 4, 5, 6, 7, 9, 12, 13, 14, 17, 19]);
        let seen = std::mem::take(&mut self.catalog_seen);
        self.circles_occurred("catalogs", &seen);
        for (origin, answer) in [0, 1].into_iter().flat_map(|origin| (1..4).map(move |answer| (origin, answer))) {
            let missing = self.answers[origin][answer] == 0;
            self.count(missing.then(|| format!("answer {answer} to a claim of origin {origin} never occurred")));
        }
    }
}
