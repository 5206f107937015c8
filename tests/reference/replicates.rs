//! Measurement logs, whole and in parts, against the paper's words: each entry is held to each of the up to 31 before it, and every two of these to each
//! other.

use crate::books::*;
use crate::buffers::{Buffer, LEAST};
use crate::cases::{damaged, middle, small_contradictory, small_sound};
use crate::edges::many;
use crate::piecebook::{self, Replicated, Window};
use crate::reference::{judge, Change, Edition, Lengths, Seen};
use crate::tally::Tally;
use crate::workspaces::lend;
use std::collections::HashSet;
use std::time::Instant;

/// What must occur: numbers, refused entries that are not the first, windows of 32 entries that are pairwise APART or are not, and circles.
#[derive(Default)]
pub struct Met {
    pub numbers: [usize; 22],
    pub later_entries: usize,
    pub full_apart: usize,
    pub full_other: usize,
    pub seen: Seen,
}

/// A book, what its own rows come to, and which of its pieces below 60 are certainly APART.
struct Book {
    bytes: Vec<u8>,
    number: usize,
    place: usize,
    pieces: usize,
    apart: HashSet<(u16, u16)>,
}

impl Book {
    fn new(bytes: Vec<u8>) -> Book {
        let fresh = judge(&bytes, Edition::InForce, None, LEAST).outcome;
        let mut apart = HashSet::new();
        let asked = fresh.pieces.min(60) as u16;
        let pairs: Vec<(u16, u16)> = (0..asked).flat_map(|a| (0..asked).map(move |b| (a, b))).collect();
        let claims: Vec<Bytes> = pairs.iter().map(|&(a, b)| record(APART, a.into(), b.into())).collect();
        let lengths = Lengths { answers: claims.len(), ..LEAST };
        if let Change::IndexAndAnswers(_, answers) = judge(&bytes, Edition::InForce, Some(&claims.concat()), lengths).change {
            apart.extend(pairs.iter().zip(answers).filter(|(_, answer)| *answer == 1).map(|(pair, _)| *pair));
        }
        Book { bytes, number: fresh.number, place: fresh.place, pieces: fresh.pieces, apart }
    }

    /// What a part must come to, and the bytes that it must write.
    fn expected(&self, window: Window, log: &[u8], room: usize, met: &mut Met) -> (Replicated, Vec<u8>) {
        let refused = |number, place| (Replicated { number, place, window }, vec![]);
        if room < log.len() / 2 * 2 {
            return refused(1, 0);
        }
        if self.number != 0 {
            return refused(self.number, self.place);
        }
        if log.len() % 2 != 0 || log.len() / 2 > 32768 {
            return refused(20, 0);
        }
        if window.count > 31 || window.pieces[..window.count].iter().any(|&piece| usize::from(piece) >= self.pieces) {
            return refused(21, 0);
        }
        let entries: Vec<u16> = log.chunks(2).map(|two| u16::from_le_bytes([two[0], two[1]])).collect();
        if let Some(entry) = entries.iter().position(|&piece| usize::from(piece) >= self.pieces) {
            met.later_entries += usize::from(entry > 0);
            return refused(21, entry);
        }
        let all = [&window.pieces[..window.count], &entries[..]].concat();
        let mut bytes = vec![];
        for last in window.count..all.len() {
            let near = &all[last.saturating_sub(31)..=last];
            let apart = |a: u16, b: u16| self.apart.contains(&(a, b));
            let before = near[..near.len() - 1].iter().filter(|&&piece| apart(piece, all[last])).count();
            let every = (1..near.len()).all(|q| (0..q).all(|j| apart(near[j], near[q])));
            met.full_apart += usize::from(near.len() == 32 && every);
            met.full_other += usize::from(near.len() == 32 && !every);
            bytes.extend([before as u8, u8::from(every)]);
        }
        let kept = &all[all.len().saturating_sub(31)..];
        let mut next = Window { pieces: [0; 31], count: kept.len() };
        next.pieces[..kept.len()].copy_from_slice(kept);
        (Replicated { number: 0, place: 0, window: next }, bytes)
    }

    /// Sends a part and says what is wrong; else what it came to, and its bytes.
    fn send(&self, random: &mut Random, window: Window, log: &[u8], room: usize, met: &mut Met) -> Result<(Replicated, Vec<u8>), String> {
        let (wanted, bytes) = self.expected(window, log, room, met);
        let mut out = Buffer::new(random, room, |x| x as u8);
        let mut after = out.clone();
        after.write(&bytes);
        let before = (self.bytes.clone(), log.to_vec());
        let got = lend(&[&self.bytes], |workspace| piecebook::replicates(workspace, &self.bytes, window, log, out.lend()));
        met.numbers[wanted.number] += 1;
        if got != wanted {
            return Err(format!("got {got:?}, expected {wanted:?}"));
        }
        if let Some(at) = out.difference(&after) {
            return Err(format!("the output differs at {at}"));
        }
        if before != (self.bytes.clone(), log.to_vec()) {
            return Err("the book or the log was written to".into());
        }
        Ok((got, bytes))
    }

    /// Sends the log in two parts, at every place.
    fn split(&self, random: &mut Random, window: Window, log: &[u8], met: &mut Met) -> Result<(), String> {
        let room = log.len() + random.below(5);
        let (whole, bytes) = self.send(random, window, log, room, met)?;
        if whole.number != 0 {
            return Ok(());
        }
        for place in 0..=log.len() {
            let (first, mut joined) = self.send(random, window, &log[..place], room, met)?;
            let (second, rest) = self.send(random, first.window, &log[place..], room, met)?;
            joined.extend(rest);
            if first.number == 0 && second.number == 0 && (joined != bytes || second.window != whole.window) {
                return Err(format!("two parts, the second from byte {place} on, differ from the whole log"));
            }
        }
        Ok(())
    }
}

/// Pieces of which nearly every two are APART, by records or as parts of such pieces or in a circle with one, some of them void.
fn mostly_apart(random: &mut Random) -> Vec<u8> {
    let pieces = random.range(38, 60);
    let heads = random.range(36, pieces);
    let pairs: Vec<(usize, usize)> = (heads..pieces).map(|part| (part, random.range(1, heads))).collect();
    let mut book: Vec<Bytes> = pairs.iter().map(|&(part, container)| record(PART, part, container)).collect();
    if random.one_in(2) {
        book.extend(pairs.iter().filter(|_| random.one_in(3)).map(|&(part, container)| record(PART, container, part)));
    }
    for a in 1..heads {
        for b in 1..a {
            if !random.one_in(400) {
                book.push(if random.one_in(2) { record(APART, a, b) } else { record(APART, b, a) });
            }
        }
    }
    if random.one_in(2) {
        let marks = random.below(4);
        throw_marks(random, &mut book, pieces, marks);
    }
    give_origins(random, &mut book);
    random.shuffle(&mut book);
    book.concat()
}

fn some_book(random: &mut Random, number: usize) -> Vec<u8> {
    match number % 8 {
        0 | 1 => small_sound(random).book,
        2 => small_contradictory(random).book,
        3 => damaged(random, number).book,
        4 if number % 40 == 4 => many(8193).concat(),
        4 if number % 40 == 12 => {
            let shape = random.pick(&FREE);
            middle(random, shape, number / 40).book
        }
        _ => mostly_apart(random),
    }
}

/// Entries at random, or round and round through so many pieces that a window just has one twice or has not.
fn some_log(random: &mut Random, pieces: usize, length: usize) -> Vec<u8> {
    let all = pieces.min(60) as u16;
    let mut round: Vec<u16> = if all > 35 && random.one_in(2) { (1..36).collect() } else { (0..all).collect() };
    random.shuffle(&mut round);
    round.truncate(random.range(29, 36));
    let straight = random.one_in(2);
    let mut log: Vec<u16> = (0..length).map(|i| if straight { round[i % round.len()] } else { random.pick(&round) }).collect();
    for _ in 0..random.pick(&[0, 0, 0, 1]) {
        if length > 0 {
            log[random.below(length)] = random.pick(&[pieces as u16, 2048, 65535]);
        }
    }
    let mut bytes: Vec<u8> = log.iter().flat_map(|piece| piece.to_le_bytes()).collect();
    if random.one_in(12) {
        bytes.push(random.next() as u8);
    }
    bytes
}

/// A window with anything behind its count; now and then too long, or with a piece beyond the book's.
fn some_window(random: &mut Random, pieces: usize) -> Window {
    let mut window = Window { pieces: [0; 31], count: random.pick(&[0, 0, 1, 30, 31, 31]) };
    for piece in &mut window.pieces {
        *piece = random.next() as u16;
    }
    if random.one_in(3) {
        window.count = random.below(32);
    }
    for piece in &mut window.pieces[..window.count] {
        *piece = random.below(pieces.clamp(1, 60)) as u16;
    }
    match random.below(30) {
        0 => window.count = random.pick(&[32, 33, 65536, usize::MAX]),
        1 if window.count > 0 => window.pieces[random.below(window.count)] = random.pick(&[pieces as u16, 2048, 65535]),
        _ => {}
    }
    window
}

/// Sends logs about one book; what went wrong, if anything.
pub fn play(random: &mut Random, number: usize, met: &mut Met) -> Option<String> {
    let book = Book::new(some_book(random, number));
    met.seen.note(&book.bytes, book.number);
    let pieces = book.pieces.max(1);
    for log in 0..4 {
        let length = random.pick(&[0, 1, 2, 20, 33, 40, 70]);
        let bytes = some_log(random, pieces, length);
        let window = some_window(random, pieces);
        let room = if random.one_in(8) { random.below(bytes.len() + 1) } else { bytes.len() + random.below(4) };
        let mut tried = book.send(random, window, &bytes, room, met).map(|_| ());
        if number % 6 == 0 {
            tried = tried.and_then(|()| book.split(random, window, &bytes, met));
        }
        if let Err(wrong) = tried {
            return Some(format!("log {log}: {wrong}; {} bytes of book, window {window:?}, log {bytes:?}", book.bytes.len()));
        }
    }
    None
}

/// The longest log and longer ones.
pub fn longest(random: &mut Random, met: &mut Met) -> Option<String> {
    let book = Book::new(mostly_apart(random));
    let window = Window { pieces: [0; 31], count: 0 };
    let log: Vec<u8> = (0..32770).flat_map(|_| (random.below(book.pieces) as u16).to_le_bytes()).collect();
    [65534, 65536, 65537, 65538, 65540].into_iter().find_map(|length| {
        let tried = book.send(random, window, &log[..length], 65540, met);
        tried.err().map(|wrong| format!("{length} bytes: {wrong}"))
    })
}

/// Measurement logs, whole and in parts.
pub fn stage(tally: &mut Tally, count: usize) {
    let start = Instant::now();
    let failed = tally.failed;
    let mut random = Random(11);
    let mut met = Met::default();
    for number in 0..count {
        let wrong = play(&mut random, number, &mut met);
        tally.count(wrong.map(|wrong| format!("replicates, book {number}, {wrong}")));
    }
    let wrong = longest(&mut random, &mut met);
    tally.count(wrong.map(|wrong| format!("replicates, {wrong}")));
    tally.occurred("logs", &met.numbers, &[0, 1, 3, 4, 5, 6, 7, 9, 14, 19, 20, 21]);
    tally.circles_occurred("logs", &met.seen);
    for (what, count) in
        [("later entry refused", met.later_entries), ("full window APART", met.full_apart), ("full window not APART", met.full_other)]
    {
        tally.count((count == 0).then(|| format!("no {what} occurred")));
    }
    let parts: usize = met.numbers.iter().sum();
    let line = format!(
        "replicates: {count} books, {parts} parts of logs, {} full windows APART; {} failed; {:.1} s",
        met.full_apart,
        tally.failed - failed,
        start.elapsed().as_secs_f64()
    );
    tally.say(line);
}
