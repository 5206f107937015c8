//! Parts of the test that need nothing of each other, each with its name.

use crate::books::*;
use crate::calls::reordered;
use crate::cases::*;
use crate::edges::{conversion_examples, examples, one_short};
use crate::tally::Tally;
use crate::{catalogs, chains, clashes, compare, days, deepest, records, replicates, shapes, sheets, texts};

pub type Job = (String, Box<dyn FnOnce(&mut Tally) + Send>);

struct Jobs {
    times: usize,
    list: Vec<Job>,
}

/// Random numbers of a name's own.
pub fn seed(name: &str) -> Random {
    Random(name.bytes().fold(7, |seed, byte| seed * 31 + u64::from(byte)))
}

impl Jobs {
    fn add(&mut self, name: &str, work: impl FnOnce(&mut Tally) + Send + 'static) {
        self.list.push((name.into(), Box::new(work)));
    }

    /// A group of random books.
    fn group(&mut self, name: &str, count: usize, make: impl Fn(&mut Random, usize) -> Case + Send + 'static) {
        let own = name.to_string();
        self.add(name, move |tally| tally.group(&own, count, make));
    }

    fn converted(&mut self, name: &str, count: usize, make: impl Fn(&mut Random, usize) -> (Vec<u8>, usize) + Send + 'static) {
        let own = name.to_string();
        self.add(name, move |tally| tally.converted(&own, count, make));
    }

    fn catalogs(&mut self, name: &str, count: usize, make: impl Fn(&mut Random, usize) -> catalogs::Case + Send + 'static) {
        let own = name.to_string();
        self.add(name, move |tally| catalogs::stage(tally, &own, count, make));
    }

    fn small_books(&mut self) {
        let times = self.times;
        self.group("small, from a layout", 3000 * times, |random, _| small_sound(random));
        self.group("small, facts thrown in", 3000 * times, |random, _| small_contradictory(random));
        self.group("damaged", 4000 * times, damaged);
        self.group("short buffers", 1000 * times, short_buffers);
        self.group("junk", 1000 * times, |random, _| junk(random));
        self.add("reordered", move |tally| reordered(tally, 1500 * times));
    }

    fn large_books(&mut self) {
        let times = self.times;
        let shapes = || RISING.into_iter().chain(FREE);
        for shape in shapes() {
            self.group(&format!("60 to 300 pieces, {shape:?}"), 16 * times, move |random, number| middle(random, shape, number));
        }
        self.group("most nodes", 1, |random, _| {
            let asked = claims(random, 2048, 4096);
            case(random, &widest(), &asked)
        });
        self.group("8,192 random pairs", 2, |random, number| {
            let (book, asked) = (scattered(random, number), claims(random, 2048, 4096));
            case(random, &book, &asked)
        });
        for shape in shapes() {
            self.group(&format!("2,048 pieces, 8,192 records, 4,096 claims, {shape:?}"), times, move |random, number| {
                largest(random, shape, 1000 + 3000 * (number % 2), 0)
            });
        }
        for shape in RISING.into_iter().chain([Shape::Couples, Shape::Entwined]) {
            self.group(&format!("2,048 pieces, 8,192 records, 4,096 claims, marks, {shape:?}"), times, move |random, _| {
                largest(random, shape, 2000, 20)
            });
        }
        for shape in shapes() {
            self.group(&format!("2,048 pieces, 8,192 records, contradictory, {shape:?}"), times, move |random, number| {
                largest_contradictory(random, shape, [8191, 4000, 100][(number + shape as usize) % 3])
            });
        }
    }

    fn conversions(&mut self) {
        let times = self.times;
        self.converted("converted, small", 3000 * times, small_former);
        self.converted("converted, damaged", 3000 * times, damaged_former);
        self.converted("converted, short outputs", 1000 * times, short_output);
        for shape in RISING {
            self.converted(&format!("converted, 60 to 300 pieces, {shape:?}"), 20 * times, move |random, number| {
                middle_former(random, shape, number)
            });
        }
    }

    fn catalogs_of_books(&mut self) {
        let times = self.times;
        self.add("catalogs by hand", |tally| {
            for wrong in [catalogs::session, catalogs::void_piece, catalogs::circle] {
                let wrong = wrong(&mut tally.random);
                tally.count(wrong);
            }
        });
        for (name, make) in
            [("catalogs, small", small_sound as fn(&mut Random) -> Case), ("catalogs, facts thrown in", small_contradictory)]
        {
            self.catalogs(name, 1500 * times, move |random, _| {
                let case = make(random);
                ask(random, case)
            });
        }
        self.catalogs("catalogs, damaged", 1500 * times, |random, number| {
            let case = damaged(random, number);
            ask(random, case)
        });
        self.catalogs("catalogs, short buffers", 300 * times, |random, number| {
            let case = short_buffers(random, number);
            ask(random, case)
        });
        for shape in RISING.into_iter().chain(FREE) {
            self.catalogs(&format!("catalogs, 60 to 300 pieces, {shape:?}"), 8 * times, move |random, number| {
                let case = middle(random, shape, number);
                ask(random, case)
            });
            self.catalogs(&format!("catalogs, 2,048 pieces, 8,192 records, {shape:?}"), times, move |random, number| {
                let number = number + shape as usize;
                let case = largest(random, shape, 1000 + 3000 * (number % 2), 10 * (number % 3));
                catalogs::ask_soundly(random, case.book, 2048, 1 + number % 3, case.lengths)
            });
        }
        self.catalogs("catalogs, 8,193 records", 1, |random, _| {
            let book: Vec<Bytes> = (0..8193).map(|i| record(MEETS, i / 2048, i % 2048)).collect();
            let case = case(random, &book, &[]);
            catalogs::ask_soundly(random, case.book, 2048, 1, case.lengths)
        });
    }
}

/// Those that take longest come first, so that no thread is left alone with one at the end.
pub fn all(times: usize) -> Vec<Job> {
    let mut jobs = Jobs { times, list: vec![] };
    jobs.add("examples", examples);
    jobs.add("conversions by hand", conversion_examples);
    jobs.add("parts one short", one_short);
    // plain C writes no chains
    if !cfg!(plain) {
        jobs.add("chains", move |tally| chains::stage(tally, 400 * times));
        jobs.add("clashes", move |tally| clashes::stage(tally, 1200 * times));
        jobs.add("deepest books", deepest::stage);
    }
    jobs.add("working books", move |tally| days::stage(tally, 60 * times));
    jobs.add("grids", move |tally| sheets::stage(tally, 600 * times));
    jobs.add("replicates", move |tally| replicates::stage(tally, 800 * times));
    jobs.add("texts", move |tally| texts::stage(tally, 20000 * times));
    jobs.add("texts of full size", texts::full_size);
    jobs.add("shown texts", move |tally| texts::shown(tally, 3000 * times));
    jobs.add("two books", move |tally| compare::stage(tally, 2400 * times, times));
    for named in shapes::all() {
        jobs.add(&format!("shape {}", named.name), move |tally| named.stage(tally));
    }
    for (name, part) in records::parts() {
        jobs.add(&name, part);
    }
    jobs.small_books();
    jobs.large_books();
    jobs.conversions();
    jobs.catalogs_of_books();
    jobs.list
}
