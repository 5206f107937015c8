//! Chains against the papers' words. The library's chain for every claim of a small book must pass the library's check and the one below, which is written from document
//! 02 alone; then bytes of good chains are damaged, and the two checks must agree on each.

use crate::books::*;
use crate::buffers::{Buffer, LEAST};
use crate::cases::{damaged, middle, small_contradictory, small_sound};
use crate::edges::many;
use crate::piecebook::{self, Chained, Outcome};
use crate::reference::{judge, Change, Edition, Lengths, Seen};
use crate::steps::{damage, follow, number, repeated, Step, ROOM};
use crate::tally::Tally;
use crate::workspaces::lend;
use std::time::Instant;

/// What must occur: numbers, answers, rule numbers in chains that the library writes, damaged chains that pass and that do not, and circles.
#[derive(Default)]
pub struct Met {
    pub numbers: [usize; 22],
    pub answers: [usize; 4],
    pub rules: [usize; 12],
    pub damaged: [usize; 2],
    pub longest: usize,
    pub seen: Seen,
    /// the session's chains
    pub told: Vec<String>,
}

/// Document 02's check on a book of so many pieces and a claim that are accepted.
pub fn passes(book: &[u8], pieces: usize, claim: &[u8], chain: &[u8]) -> bool {
    let (kind, a, b) = (claim[0], number(claim, 2), number(claim, 4));
    let last = follow(book, pieces, chain, |_, r| claim[1] == 0 || r[1] == 0);
    last.is_some_and(|last| last.shows(kind, a, b) || last.shows(5 - kind, a, b))
}

/// The library's check.
fn chain_check(book: &[u8], claim: &[u8], steps: &[u8]) -> usize {
    lend(&[book], |workspace| piecebook::chain_check(workspace, book, claim, steps))
}

/// What the book comes to without claims.
fn alone(book: &[u8]) -> Outcome {
    judge(book, Edition::InForce, None, LEAST).outcome
}

/// Number, place and answer of the call, from the reference's rows and from what the book comes to alone; and the piece count.
fn expected(book: &[u8], alone: Outcome, claim: &[u8], room: usize) -> (usize, usize, usize, usize) {
    if room < ROOM {
        return (15, 0, 0, 0);
    }
    let rows = |number: usize| (3..=9).contains(&number) || number == 19;
    if rows(alone.number) {
        return (alone.number, alone.place, 0, 0);
    }
    if claim.len() != 6 {
        return (10, 0, 0, 0);
    }
    let with = judge(book, Edition::InForce, Some(claim), Lengths { answers: 1, ..LEAST });
    let answer = match &with.change {
        Change::IndexAndAnswers(_, answers) => usize::from(answers[0]),
        _ => 0,
    };
    (with.outcome.number, with.outcome.place, answer, with.outcome.pieces)
}

/// One claim: its answer and the library's chain, held to both checks.
fn ask(random: &mut Random, book: &[u8], alone: Outcome, claim: &[u8], room: usize, met: &mut Met) -> Result<(usize, Vec<u8>), String> {
    let (number, place, answer, pieces) = expected(book, alone, claim, room);
    let mut steps = Buffer::new(random, room, |x| x as u8);
    let mut after = steps.clone();
    let before = (book.to_vec(), claim.to_vec());
    let got = lend(&[book], |workspace| piecebook::chain(workspace, book, claim, steps.lend()));
    met.numbers[number] += 1;
    met.answers[answer] += 1;
    let wanted = Chained { number, place, answer, steps: got.steps };
    if got != wanted || got.steps > 16400 || (got.steps > 0) != (answer == 1 || answer == 2) {
        return Err(format!("got {got:?}, expected {wanted:?}"));
    }
    let written = steps.lend()[..10 * got.steps].to_vec();
    after.write(&written);
    if let Some(at) = steps.difference(&after) {
        return Err(format!("the steps differ behind the chain, at {at}"));
    }
    if before != (book.to_vec(), claim.to_vec()) {
        return Err("the book or the claim was written to".into());
    }
    if !written.is_empty() {
        if !passes(book, pieces, claim, &written) {
            return Err(format!("a written chain does not pass the reference's check: {written:?}"));
        }
        if let Some(twice) = repeated(&written) {
            return Err(format!("{twice}: claim {claim:?}, chain {written:?}"));
        }
        let last = Step::read(&written[written.len() - 10..]);
        let kind = if answer == 1 { claim[0] } else { 5 - claim[0] };
        if !last.shows(kind, usize::from(claim[2]) + 256 * usize::from(claim[3]), usize::from(claim[4]) + 256 * usize::from(claim[5])) {
            return Err("the last step shows another fact than the answer".into());
        }
    }
    if chain_check(book, claim, &written) != usize::from(!written.is_empty()) {
        return Err(format!("the library's check disagrees on what was written: {written:?}"));
    }
    written.chunks(10).for_each(|s| met.rules[usize::from(s[0])] += 1);
    met.longest = met.longest.max(got.steps);
    Ok((answer, written))
}

fn some_book(random: &mut Random, number: usize) -> Vec<u8> {
    match number % 4 {
        0 if number % 8 == 0 => small_contradictory(random).book,
        1 | 2 => damaged(random, number).book,
        3 if number % 100 == 3 => many(8193).concat(),
        3 if number % 40 == 7 => {
            let shape = random.pick(&FREE);
            middle(random, shape, number / 40).book
        }
        _ => small_sound(random).book,
    }
}

/// Every claim of a book of few pieces, restricted or not; some of a larger one, and fewer of a refused one.
fn claims_of(random: &mut Random, pieces: usize, refused: bool) -> Vec<Bytes> {
    if pieces <= 5 && !refused {
        return all_claims(pieces);
    }
    (0..if refused { 3 } else { 40 })
        .map(|_| of(random.below(2) as u8, record(random.range(1, 5) as u8, random.below(pieces), random.below(pieces))))
        .collect()
}

/// All claims of one book, and damaged chains; what went wrong, if anything.
pub fn play(random: &mut Random, number: usize, met: &mut Met) -> Option<String> {
    let book = some_book(random, number);
    let alone = alone(&book);
    met.seen.note(&book, alone.number);
    let pieces = alone.pieces.max(1);
    let mut tried = Ok(());
    for claim in claims_of(random, pieces, alone.number != 0) {
        let room = if random.one_in(50) { ROOM - 1 - random.below(3) * random.below(ROOM) / 3 } else { ROOM + random.below(30) };
        let claim = match random.below(90) {
            0 => claim[..random.below(6)].to_vec(),
            1 => [claim, claim].concat(),
            2 => record(random.pick(&[0, 5, 6, 255]), 0, 0).to_vec(),
            3 => of(2, claim).to_vec(),
            4 => record(claim[0], pieces, 0).to_vec(),
            _ => claim.to_vec(),
        };
        tried = tried.and_then(|()| {
            let (_, written) = ask(random, &book, alone, &claim, room, met)?;
            for _ in 0..if written.is_empty() { 0 } else { 3 } {
                let bytes = damage(random, &written);
                let wanted = passes(&book, pieces, &claim, &bytes);
                met.damaged[usize::from(wanted)] += 1;
                if chain_check(&book, &claim, &bytes) != usize::from(wanted) {
                    return Err(format!("the checks disagree, {wanted} by the reference: claim {claim:?}, chain {bytes:?}"));
                }
            }
            Ok(())
        });
    }
    tried.err().map(|wrong| format!("{wrong}; book {book:?}"))
}

/// Claims on a book of 2,048 pieces with the answers that they must have, and chains of other claims and of refused books, which do not pass.
fn long(random: &mut Random, name: &str, records: &[Bytes], asked: &[(Bytes, usize)], met: &mut Met) -> Option<String> {
    let book = records.concat();
    let alone = alone(&book);
    for (claim, wanted) in asked {
        let chain = match ask(random, &book, alone, claim, ROOM, met) {
            Ok((answer, chain)) if answer == *wanted => chain,
            Ok((answer, _)) => return Some(format!("{name}, claim {claim:?}: its answer is {answer}, not {wanted}")),
            Err(wrong) => return Some(format!("{name}, claim {claim:?}: {wrong}")),
        };
        let other = record(MEETS, 0, 0);
        let refused = [&book[..], &record(VOID, 0, 0)[..]].concat();
        if !chain.is_empty()
            && (chain_check(&book, &other, &chain) != 0
                || chain_check(&refused, claim, &chain) != 0
                || chain_check(&book, &claim[..5], &chain) != 0)
        {
            return Some(format!("{name}, claim {claim:?}: its chain passes for another claim, a refused book or no claim"));
        }
    }
    None
}

/// All pieces in one line.
pub fn deep(random: &mut Random, met: &mut Met) -> Option<String> {
    let mut records: Vec<Bytes> = (1..2048).map(|part| record(PART, part, part - 1)).collect();
    records.push(record(NOTPART, 3, 2000));
    let asked = [
        (record(PART, 2047, 1), 1),
        (record(NOTPART, 1, 2047), 1),
        (record(MEETS, 2047, 2), 1),
        (record(APART, 5, 2047), 2),
        (record(PART, 2, 2047), 2),
        (record(NOTPART, 2, 2047), 1),
    ];
    long(random, "deep book", &records, &asked, met)
}

/// Pieces 1 to 2,046 in one circle, 2,047 beside it: whatever is known of one of them goes all round.
pub fn round(random: &mut Random, met: &mut Met) -> Option<String> {
    let mut records: Vec<Bytes> = (1..2047).map(|part| record(PART, part, part % 2046 + 1)).collect();
    records.extend([record(APART, 2047, 1000), record(NOTPART, 0, 1000)]);
    let asked = [
        (record(PART, 1, 2046), 1),
        (of(SCANNER, record(PART, 3, 2)), 1),
        (record(NOTPART, 5, 4), 2),
        (record(MEETS, 2047, 1001), 2),
        (record(NOTPART, 1001, 2047), 1),
        (record(PART, 2047, 1001), 2),
        (record(NOTPART, 0, 1001), 1),
    ];
    long(random, "round book", &records, &asked, met)
}

/// The session's ten claims, a line each with the steps of its chain; what went wrong, if anything.
pub fn session(random: &mut Random, met: &mut Met) -> Option<String> {
    const BOOK: &[u8] = include_bytes!("../../examples/book.rec");
    const CLAIMS: &[u8] = include_bytes!("../../examples/claims");
    const NAMES: [&str; 5] = ["", "PART", "APART", "MEETS", "NOTPART"];
    for (i, claim) in CLAIMS.chunks(6).enumerate() {
        let wanted = [1, 2, 3, 1, 2, 1, 1, 1, 1, 3][i];
        let (answer, chain) = match ask(random, BOOK, alone(BOOK), claim, ROOM, met) {
            Ok(asked) => asked,
            Err(wrong) => return Some(format!("session, claim {i}: {wrong}")),
        };
        if answer != wanted {
            return Some(format!("session, claim {i} has answer {answer}"));
        }
        let told = |s: &Step| {
            format!(
                "{} {} {} by {}",
                s.a,
                NAMES[usize::from(s.kind)],
                s.b,
                ["record", "a", "b", "c", "f", "a'", "b'", "c'", "d'", "e'", "d", "e"][usize::from(s.rule)]
            )
        };
        let steps: Vec<String> = chain.chunks(10).map(|s| told(&Step::read(s))).collect();
        let name = ["", "FOLLOWS", "DENIED", "OPEN"][answer];
        met.told.push(format!(
            "chain {i} {} {} {} {name}: {}",
            NAMES[usize::from(claim[0])],
            number(claim, 2),
            number(claim, 4),
            if steps.is_empty() { "no steps".into() } else { steps.join(", ") }
        ));
    }
    None
}

/// Chains, those that the library writes and damaged ones.
pub fn stage(tally: &mut Tally, count: usize) {
    let start = Instant::now();
    let failed = tally.failed;
    let mut random = Random(2);
    let mut met = Met::default();
    for number in 0..count {
        let wrong = play(&mut random, number, &mut met);
        tally.count(wrong.map(|wrong| format!("chains, book {number}: {wrong}")));
    }
    let wrong = session(&mut random, &mut met);
    tally.lines.append(&mut met.told);
    tally.count(wrong.map(|wrong| format!("chains, {wrong}")));
    for long in [deep, round] {
        let wrong = long(&mut random, &mut met);
        tally.count(wrong.map(|wrong| format!("chains, {wrong}")));
    }
    tally.occurred("chains", &met.numbers, &[0, 3, 4, 5, 6, 7, 9, 10, 12, 13, 14, 15, 19]);
    tally.circles_occurred("chains", &met.seen);
    for (rule, count) in met.rules.iter().enumerate() {
        tally.count((*count == 0).then(|| format!("rule {rule} was never cited")));
    }
    for (what, count) in [
        ("claim FOLLOWS", met.answers[1]),
        ("claim is DENIED", met.answers[2]),
        ("claim is OPEN", met.answers[3]),
        ("damaged chain fails", met.damaged[0]),
        ("damaged chain passes", met.damaged[1]),
    ] {
        tally.count((count == 0).then(|| format!("no {what}")));
    }
    let all: usize = met.numbers.iter().sum();
    let line = format!(
        "chains: {count} books, {all} claims, {} chains, the longest of {} steps; {} damaged ones, of which {} pass; {} failed; {:.1} s",
        met.answers[1] + met.answers[2],
        met.longest,
        met.damaged[0] + met.damaged[1],
        met.damaged[1],
        tally.failed - failed,
        start.elapsed().as_secs_f64()
    );
    tally.say(line);
}
