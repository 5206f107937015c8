//! Text read and shown against a reader and a writer of document 03's words alone: the result, every byte of what is lent, and the values around it.

use crate::books::*;
use crate::buffers::Buffer;
use crate::piecebook::{self, Reading, Shown, CLAIMS, FORM_BYTES, LOG, RECORDS, SHOWN_BYTES};
use crate::tally::Tally;
use std::time::Instant;

const NAMES: [&str; 3] = ["records", "claims", "entries"];
/// Reading stops behind so many entries.
const MOST: [usize; 3] = [8193, 4097, 32769];
const LONGEST: usize = 524_288;
const MARK: [u8; 3] = [239, 187, 191];

/// The kinds' words by their numbers.
const KINDS: [(u8, &str); 5] = [(PART, "part"), (APART, "apart"), (MEETS, "meets"), (NOTPART, "notpart"), (VOID, "void")];

/// The words that may stand behind the numbers, for 0 and 1.
fn choices(form: usize) -> [&'static str; 2] {
    if form == RECORDS {
        ["sheet", "scanner"]
    } else {
        ["all", "sheets"]
    }
}

/// A text's lines by their numbers, each cut into its words in small letters.
fn lines(text: &[u8]) -> Vec<Vec<Vec<u8>>> {
    let text = text.strip_prefix(&MARK).unwrap_or(text);
    let words = |line: &[u8]| {
        let said = line.split(|&x| x == b'#').next().expect("a first part");
        said.split(|x| [9, 13, 32].contains(x)).filter(|word| !word.is_empty()).map(<[u8]>::to_ascii_lowercase).collect()
    };
    text.split(|&x| x == 10).map(words).collect()
}

fn number(word: Option<&Vec<u8>>) -> Result<u16, usize> {
    let digits = word.filter(|word| word.iter().all(u8::is_ascii_digit)).ok_or(2_usize)?;
    let zeros = digits.iter().take_while(|&&x| x == b'0').count();
    let short = std::str::from_utf8(&digits[zeros.min(digits.len() - 1)..]).expect("digits");
    short.parse().map_err(|_| 2)
}

/// The bytes that a line with words says, or the reason why it says none.
fn entry(form: usize, words: &[Vec<u8>]) -> Result<Vec<u8>, usize> {
    let mut words = words.iter();
    if form == LOG {
        let piece = number(words.next())?;
        return if words.next().is_none() { Ok(piece.to_le_bytes().to_vec()) } else { Err(4) };
    }
    let first = words.next().expect("a word");
    let &(kind, _) = KINDS.iter().find(|&&(kind, name)| name.as_bytes() == first && (form, kind) != (CLAIMS, VOID)).ok_or(1_usize)?;
    let a = number(words.next())?;
    let b = if kind == VOID { 0 } else { number(words.next())? };
    let choice = match words.next() {
        None => 0,
        Some(word) => choices(form).iter().position(|name| name.as_bytes() == word).ok_or(3_usize)?,
    };
    if words.next().is_some() {
        return Err(4);
    }
    Ok(of(choice as u8, record(kind, a.into(), b.into())).to_vec())
}

/// The entries of a text, those before the first bad line; and its number with the reason.
fn read(form: usize, text: &[u8]) -> (Vec<u8>, Option<(usize, usize)>) {
    if text.len() > LONGEST {
        return (vec![], Some((0, 5)));
    }
    let (mut bytes, mut count) = (vec![], 0);
    for (at, words) in lines(text).iter().enumerate().filter(|(_, words)| !words.is_empty()) {
        if count == MOST[form] {
            break;
        }
        match entry(form, words) {
            Ok(more) => bytes.extend(more),
            Err(reason) => return (bytes, Some((at + 1, reason))),
        }
        count += 1;
    }
    (bytes, None)
}

/// What must occur.
#[derive(Default)]
struct Met {
    /// of each form, and of forms that are none
    numbers: [[usize; 8]; 4],
    features: Vec<(&'static str, usize)>,
    longest: usize,
}

/// What a text may have, where it is read.
fn features(text: &[u8]) -> Vec<(&'static str, bool)> {
    let has = |some: &[u8]| text.windows(some.len()).any(|at| at == some);
    let letter = |x: &u8| x.is_ascii_alphanumeric();
    let beside = |first: fn(&u8) -> bool, second: u8| text.windows(2).any(|at| first(&at[0]) && at[1] == second);
    vec![
        ("mark at the start", text.starts_with(&MARK)),
        ("no last line end", text.last().is_some_and(letter)),
        ("comment behind a word without a space", beside(u8::is_ascii_alphanumeric, b'#')),
        ("comment in a comment", has(b"##") || has(b"# #")),
        ("tab", has(b"\t")),
        ("CR LF", has(b"\r\n")),
        ("CR between words", text.windows(2).any(|at| at[0] == 13 && letter(&at[1]))),
        ("empty line", has(b"\n\n")),
        ("byte 0 in a comment", has(&[0])),
        ("byte 255 in a comment", has(&[255])),
        ("capital letter", text.iter().any(u8::is_ascii_uppercase)),
        ("small letter", text.iter().any(u8::is_ascii_lowercase)),
        ("zero in front", has(b" 00")),
        ("65535", has(b" 65535")),
        ("no byte", text.is_empty()),
    ]
}

/// One text in one form: read into so many bytes, and the lines of some entries.
fn compare(random: &mut Random, met: &mut Met, form: usize, text: &[u8], room: usize) -> Option<String> {
    let mut out = Buffer::new(random, room, |x| x as u8);
    let mut after = out.clone();
    let wanted = if form > LOG {
        Reading { number: 7, line: 0, length: 0 }
    } else if room < FORM_BYTES[form] {
        Reading { number: 6, line: 0, length: 0 }
    } else {
        let (bytes, bad) = read(form, text);
        after.write(&bytes);
        met.longest = met.longest.max(bytes.len());
        match bad {
            None => Reading { number: 0, line: 0, length: bytes.len() },
            Some((line, reason)) => Reading { number: reason, line, length: 0 },
        }
    };
    met.numbers[form.min(3)][wanted.number] += 1;
    let before = text.to_vec();
    let got = piecebook::read_text(form, text, out.lend());
    let shown = |what: String| Some(format!("{what}; form {form}, text {:?}", String::from_utf8_lossy(&text[..text.len().min(400)])));
    if got != wanted {
        return shown(format!("got {got:?}, expected {wanted:?}"));
    }
    if let Some(at) = out.difference(&after) {
        return shown(format!("what was read differs at {at}"));
    }
    if before != text {
        return shown("the text was written to".into());
    }
    if got.number == 0 {
        let found = features(text);
        met.features.resize(found.len(), ("", 0));
        met.features.iter_mut().zip(found).for_each(|(met, (what, has))| *met = (what, met.1 + usize::from(has)));
    }
    entry_lines(random, text).and_then(shown)
}

/// The lines of some entries.
fn entry_lines(random: &mut Random, text: &[u8]) -> Option<String> {
    let numbers: Vec<usize> = lines(text).iter().enumerate().filter(|(_, words)| !words.is_empty()).map(|(at, _)| at + 1).collect();
    let end = numbers.len();
    [0, random.below(end + 1), end.saturating_sub(1), end, end + 1, usize::MAX].into_iter().find_map(|k| {
        let (got, wanted) = (piecebook::text_line(text, k), numbers.get(k).copied().unwrap_or(0));
        (got != wanted).then(|| format!("entry {k} has line {got}, expected {wanted}"))
    })
}

/// Room that does, now and then just so.
fn room(random: &mut Random, form: usize) -> usize {
    FORM_BYTES[form] + if random.one_in(2) { 0 } else { random.below(30) }
}

fn any_case(random: &mut Random, word: &str) -> Vec<u8> {
    let style = random.below(3);
    let letter = |x: u8| if style == 0 || (style == 1 && random.one_in(2)) { x.to_ascii_uppercase() } else { x };
    word.bytes().map(letter).collect()
}

fn any_number(random: &mut Random) -> Vec<u8> {
    let value = match random.below(12) {
        0 => random.pick(&[65534, 65535, 65536, 65537, 99999, 100000, 655350, 131071]),
        1 | 2 => random.below(70000),
        _ => random.below(2048),
    };
    let most = random.pick(&[6, 6, 6, 6, 6, 300]);
    let zeros = if random.one_in(10) { random.below(most) } else { 0 };
    let mut digits = vec![b'0'; zeros];
    digits.extend(value.to_string().bytes());
    if random.one_in(200) {
        // values that wrap in few bits
        digits = random
            .pick(&["4294967297", "18446744073709551617", "340282366920938463463374607431768211457", "-1", "+1", "1.0", "0x1"])
            .bytes()
            .collect();
    }
    digits
}

/// The words of a line that is mostly good.
fn words(random: &mut Random, form: usize) -> Vec<Vec<u8>> {
    let mut words = vec![];
    if form == LOG {
        words.push(any_number(random));
    } else {
        let (kind, name) = random.pick(&KINDS[..if form == CLAIMS { 4 } else { 5 }]);
        words.extend([any_case(random, name), any_number(random)]);
        if kind != VOID {
            words.push(any_number(random));
        }
        if random.one_in(3) {
            let word = random.pick(&choices(form));
            words.push(any_case(random, word));
        }
    }
    words
}

const OTHERS: [&str; 22] = [
    "part", "VOID", "meets", "sheet", "sheets", "scanner", "all", "parts", "par", "notpar", "apart.", "tray", "0", "7", "65536", "x", "1x",
    "x1", "sheet,", "scanners", "-", "@`[{",
];

/// One word is left out, put in, moved or changed.
fn spoil(random: &mut Random, words: &mut Vec<Vec<u8>>) {
    let at = random.below(words.len());
    match random.below(6) {
        0 => drop(words.remove(at)),
        1 | 2 => {
            let at = random.below(words.len() + 1);
            let other = random.pick(&OTHERS);
            words.insert(at, any_case(random, other));
        }
        3 => words[at] = random.pick(&OTHERS).into(),
        4 => {
            let other = random.below(words.len());
            words.swap(at, other);
        }
        _ => {
            let inside = random.below(words[at].len() + 1);
            let byte = random.pick(&[0, 255, b'#', b'/', b':', b'@', b'[', b'{', b'`', 11, 12, 127, 128, 160, 176, 225]);
            words[at].insert(inside, byte);
        }
    }
}

fn blanks(random: &mut Random, least: usize) -> Vec<u8> {
    let count = if random.one_in(4) { least + random.below(4) } else { least };
    (0..count).map(|_| if random.one_in(3) { random.pick(&[9, 13, 32]) } else { 32 }).collect()
}

fn comment(random: &mut Random) -> Vec<u8> {
    let said = (0..random.below(12)).map(|_| random.pick(b" #part 1 2 \0\xff\t\r\x80x"));
    [b'#'].into_iter().chain(said).collect()
}

/// A line without its end.
fn line(random: &mut Random, form: usize, bad: usize) -> Vec<u8> {
    let mut line = blanks(random, 0);
    if !random.one_in(6) {
        let mut said = words(random, form);
        if random.one_in(bad) {
            spoil(random, &mut said);
        }
        for (i, word) in said.iter().enumerate() {
            line.extend(blanks(random, usize::from(i > 0)));
            line.extend(word);
        }
    }
    line.extend(blanks(random, 0));
    if random.one_in(4) {
        line.extend(comment(random));
    }
    if random.one_in(6) {
        line.push(13);
    }
    line
}

fn text(random: &mut Random, form: usize) -> Vec<u8> {
    let mut text = vec![];
    match random.below(24) {
        0..=2 => text.extend(MARK),
        3 => text.extend(&MARK[..random.range(1, 3)]),
        4 => text.extend([MARK, MARK].concat()),
        5 => text.extend([239, 187, 190]),
        _ => {}
    }
    let count = if random.one_in(30) { random.below(80) } else { random.below(9) };
    let bad = random.pick(&[4, 12, 100]);
    for _ in 0..count {
        text.extend(line(random, form, bad));
        text.push(10);
    }
    if random.one_in(3) {
        text.pop();
    }
    if random.one_in(60) {
        let at = random.below(text.len() + 1);
        text.splice(at..at, MARK);
    }
    text
}

/// Bytes of any sort, mostly those that lines are made of.
fn junk(random: &mut Random) -> Vec<u8> {
    let any = random.one_in(4);
    (0..random.below(60))
        .map(|_| if any { random.below(256) as u8 } else { random.pick(b"partVOID 0123456789\n\n\t\r#sheall  ") })
        .collect()
}

/// Good lines with every bad line at every place of them.
fn every_place(random: &mut Random, met: &mut Met) -> Option<String> {
    let good = [
        &["part 1 2", "VOID 3", "Meets 4 5 scanner", "", "# nothing", "apart 7 8 sheet"][..],
        &["part 1 2 all", " ", "notpart 5 2 sheets"],
        &["1", "#", "65535"],
    ];
    let bad: [&[(&str, usize)]; 3] = [
        &[
            ("tray 1 2", 1),
            ("1 2 part", 1),
            ("part", 2),
            ("part 1", 2),
            ("part x 1 2 3 4", 2),
            ("part 1 65536", 2),
            ("void sheet", 2),
            ("part 1 2 3", 3),
            ("part 1 2 all", 3),
            ("void 1 0", 3),
            ("void 1 2 3", 3),
            ("part 1 2 sheet sheet", 4),
            ("void 1 scanner 2", 4),
        ],
        &[("void 1", 1), ("part 1 sheets", 2), ("part 1 2 sheet", 3), ("meets 1 2 scanner", 3), ("meets 1 2 all all", 4)],
        &[("part", 2), ("65536", 2), ("1x 2", 2), ("1 2", 4), ("1 x", 4)],
    ];
    for form in [RECORDS, CLAIMS, LOG] {
        for &(line, reason) in bad[form] {
            for at in 0..=2 * good[form].len() {
                let mut all: Vec<&str> = good[form].iter().chain(good[form]).copied().collect();
                all.insert(at, line);
                for text in [all.join("\n"), all.join("\r\n") + "\n"] {
                    if read(form, text.as_bytes()).1 != Some((at + 1, reason)) {
                        return Some(format!("{line:?} at {at} has not reason {reason} in the tester"));
                    }
                    let room = room(random, form);
                    if let Some(wrong) = compare(random, met, form, text.as_bytes(), room) {
                        return Some(wrong);
                    }
                }
            }
        }
    }
    None
}

/// Document 03's examples in words, with what they must come to.
fn by_hand() -> Option<String> {
    let cases: [(usize, &[u8], &[u8]); 7] = [
        (
            RECORDS,
            b"PART 1 2\n  # nothing\n\nVOID 007 scanner#x\n\tMEETS 300 65535  sheet ",
            &[1, 0, 1, 0, 2, 0, 6, 1, 7, 0, 0, 0, 3, 0, 44, 1, 255, 255],
        ),
        (CLAIMS, b"NOTPART 5 2 SHEETS\r\napart 0 1 all\r\n", &[4, 1, 5, 0, 2, 0, 2, 0, 0, 0, 1, 0]),
        (LOG, b"7\n300 # again", &[7, 0, 44, 1]),
        (RECORDS, b"", &[]),
        (LOG, b"\xef\xbb\xbf1", &[1, 0]),
        (LOG, b"\xef\xbb\xbf", &[]),
        (LOG, b"\n\n\r\n00000000000000000000000000065535", &[255, 255]),
    ];
    cases.iter().find_map(|&(form, text, wanted)| {
        let mut out = vec![0; FORM_BYTES[form]];
        let got = piecebook::read_text(form, text, &mut out);
        let good = got == Reading { number: 0, line: 0, length: wanted.len() } && &out[..wanted.len()] == wanted;
        (!good || read(form, text) != (wanted.to_vec(), None))
            .then(|| format!("by hand, form {form}, {:?}: {got:?}", String::from_utf8_lossy(text)))
    })
}

/// Random texts in every form.
pub fn stage(tally: &mut Tally, count: usize) {
    let start = Instant::now();
    let failed = tally.failed;
    let mut random = Random(39);
    let mut met = Met::default();
    tally.count(by_hand());
    let wrong = every_place(&mut random, &mut met);
    tally.count(wrong.map(|wrong| format!("texts, every place: {wrong}")));
    for i in 0..count {
        let form = i % 3;
        let text = if i % 8 == 7 { junk(&mut random) } else { text(&mut random, form) };
        let (form, room) = match random.below(40) {
            0 => (form, random.pick(&[0, FORM_BYTES[form] - 1, FORM_BYTES[form] / 2])),
            1 => (random.pick(&[3, 4, 255, 256, 1 << 32, usize::MAX]), random.pick(&[0, 65538])),
            // one form's text is another's bad one
            2 => (random.below(3), 65538),
            _ => (form, room(&mut random, form)),
        };
        let wrong = compare(&mut random, &mut met, form, &text, room);
        tally.count(wrong.map(|wrong| format!("texts, {i}: {wrong}")));
    }
    tally.occurred("texts of records", &met.numbers[RECORDS], &[0, 1, 2, 3, 4, 6]);
    tally.occurred("texts of claims", &met.numbers[CLAIMS], &[0, 1, 2, 3, 4, 6]);
    tally.occurred("texts of a log", &met.numbers[LOG], &[0, 2, 4, 6]);
    tally.occurred("texts of no form", &met.numbers[3], &[7]);
    for (what, count) in &met.features {
        tally.count((*count == 0).then(|| format!("texts: no {what} in a text that is read")));
    }
    let line = format!(
        "texts: {count} of them, by number of records {:?}, claims {:?}, entries {:?}, no form {}; {} failed; {:.1} s",
        &met.numbers[RECORDS][..7],
        &met.numbers[CLAIMS][..7],
        &met.numbers[LOG][..7],
        met.numbers[3][7],
        tally.failed - failed,
        start.elapsed().as_secs_f64()
    );
    tally.say(line);
}

/// So many good lines.
fn many(random: &mut Random, form: usize, count: usize) -> Vec<u8> {
    let mut text = vec![];
    for _ in 0..count {
        let (kind, name) = random.pick(&KINDS[..4]);
        let [a, b] = [random.below(2048), random.below(2048)];
        let said = match form {
            LOG => format!("{a}\n"),
            RECORDS if kind == MEETS && random.one_in(9) => format!("void {a}\n"),
            _ => format!("{name} {a} {b}{}\n", if random.one_in(5) { format!(" {}", random.pick(&choices(form))) } else { String::new() }),
        };
        text.extend(said.bytes());
    }
    text
}

/// A text with a comment behind it, so that it has that length.
fn filled(mut text: Vec<u8>, length: usize) -> Vec<u8> {
    text.push(b'#');
    text.resize(length, b'.');
    text
}

/// Texts at every limit.
pub fn full_size(tally: &mut Tally) {
    let start = Instant::now();
    let failed = tally.failed;
    let mut random = Random(524);
    let mut met = Met::default();
    let mut texts: Vec<(usize, String, Vec<u8>)> = vec![];
    for (form, name) in NAMES.iter().enumerate() {
        for count in MOST[form] - 2..=MOST[form] + 2 {
            let good = many(&mut random, form, count);
            texts.push((form, format!("{count} {name}"), good.clone()));
            texts.push((form, format!("{count} {name}, no last line end"), good[..good.len() - 1].to_vec()));
            texts.push((form, format!("{count} {name} and a bad line"), [&good[..], b"?\n"].concat()));
            texts.push((form, format!("{count} {name} and comments"), [&good[..], b"# 1\n\n \n#"].concat()));
        }
        for length in [LONGEST - 1, LONGEST, LONGEST + 1, LONGEST + 7] {
            let good = many(&mut random, form, MOST[form] / 2);
            let bad = [&good[..], b"part 1 ?\n"].concat();
            texts.push((form, format!("{length} bytes of {name}"), filled(good.clone(), length)));
            texts.push((form, format!("{length} bytes of {name}, marked"), filled([&MARK[..], &good].concat(), length)));
            texts.push((form, format!("{length} bytes of {name}, one of them bad"), filled(bad, length)));
            let empty = [vec![10; length - 1], b"?".to_vec()].concat();
            texts.push((form, format!("{length} bytes of line ends and a bad one"), empty));
            let words: &[u8] = if form == LOG { b"" } else { b"meets 5 " };
            let zeros = [words, &vec![b'0'; length - words.len() - 1], b"7"].concat();
            texts.push((form, format!("{length} bytes of one number, {name}"), zeros));
            let nines = [words, &vec![b'9'; length - words.len()]].concat();
            texts.push((form, format!("{length} bytes of one long number, {name}"), nines));
            let one = [words, b"7", &vec![b' '; length - words.len() - 3], b"?\n"].concat();
            texts.push((form, format!("{length} bytes of one line, {name}"), one));
        }
    }
    let count = texts.len();
    for (form, name, text) in texts {
        let room = room(&mut random, form);
        let wrong = compare(&mut random, &mut met, form, &text, room);
        tally.count(wrong.map(|wrong| format!("texts of full size, {name}: {wrong}")));
    }
    tally.occurred("texts of records, full size", &met.numbers[RECORDS], &[0, 1, 2, 3, 5]);
    tally.occurred("texts of claims, full size", &met.numbers[CLAIMS], &[0, 1, 2, 3, 5]);
    tally.occurred("texts of a log, full size", &met.numbers[LOG], &[0, 2, 4, 5]);
    tally.count((met.longest != FORM_BYTES[LOG]).then(|| format!("texts of full size: at most {} bytes were read", met.longest)));
    let line = format!("texts of full size: {count} of them; {} failed; {:.1} s", tally.failed - failed, start.elapsed().as_secs_f64());
    tally.say(line);
}

/// A record as document 03 shows it; a number that is no kind has no word.
fn show_record(record: &[u8], choice: &str) -> String {
    let kind = KINDS.iter().find(|(kind, _)| *kind == record[0]).map_or(String::new(), |(_, name)| name.to_uppercase());
    let [a, b] = [2, 4].map(|at| u16::from_le_bytes([record[at], record[at + 1]]));
    let numbers = if record[0] == VOID { format!("{a}") } else { format!("{a} {b}") };
    let choice = if record[1] == 1 { format!(" {choice}") } else { String::new() };
    format!("{kind} {numbers}{choice}\n")
}

/// Bytes of a book or of claims, those that can be read back, and others.
fn some_records(random: &mut Random, form: usize, count: usize, sound: bool) -> Vec<u8> {
    let mut bytes = vec![];
    for _ in 0..count {
        let numbers = [(); 2]
            .map(|()| random.pick(&[0, 9, 10, 99, 100, 2047, 9999, 10000, 65535, 1234]) * usize::from(random.one_in(2)) + random.below(2));
        let [a, b] = numbers.map(|n| n.min(65535));
        let (kind, _) = random.pick(&KINDS[..if form == CLAIMS { 4 } else { 5 }]);
        bytes.extend(of(random.below(2) as u8, record(kind, a, if kind == VOID { 0 } else { b })));
    }
    if !sound {
        for _ in 0..1 + random.below(4) {
            if !bytes.is_empty() {
                let at = random.below(bytes.len());
                bytes[at] = random.below(256) as u8;
            }
        }
        bytes.extend((0..random.below(6)).map(|_| random.below(256) as u8));
    }
    bytes
}

/// A book or claims on a page that is long enough, just so or too short; and read back.
fn show(random: &mut Random, numbers: &mut [usize; 2], form: usize, bytes: &[u8], sound: bool) -> Option<String> {
    let choice = if form == RECORDS { "scanner" } else { "sheets" };
    let text: String = bytes.chunks_exact(6).map(|record| show_record(record, choice)).collect();
    let enough = SHOWN_BYTES * (bytes.len() / 6);
    let lengths = [text.len(), enough, text.len() + random.below(9), text.len().saturating_sub(1), random.below(text.len() + 1), 0];
    for length in lengths {
        let mut page = Buffer::new(random, length, |x| x as u8);
        let mut after = page.clone();
        let fits = text.len() <= length;
        let wanted = Shown { number: usize::from(!fits), length: if fits { text.len() } else { 0 } };
        numbers[wanted.number] += 1;
        let got = if form == RECORDS { piecebook::show(bytes, page.lend()) } else { piecebook::show_claims(bytes, page.lend()) };
        if got != wanted {
            return Some(format!("a page of {length} bytes: got {got:?}, expected {wanted:?}"));
        }
        if fits {
            after.write(text.as_bytes());
        }
        if (fits && page != after) || !page.same_guards(&after) {
            return Some(format!("a page of {length} bytes differs, or was written beside"));
        }
    }
    let mut out = vec![0; FORM_BYTES[form]];
    let back = piecebook::read_text(form, text.as_bytes(), &mut out);
    let same = back == Reading { number: 0, line: 0, length: bytes.len() } && &out[..bytes.len()] == bytes;
    (sound && !same).then(|| format!("read back: {back:?}"))
}

/// Random books and claims as text.
pub fn shown(tally: &mut Tally, count: usize) {
    let start = Instant::now();
    let failed = tally.failed;
    let mut random = Random(3);
    let mut numbers = [[0; 2]; 2];
    for i in 0..count {
        let (form, sound) = (i % 2, i % 3 > 0);
        let records = match i {
            0 | 1 => MOST[form],
            2 | 5 => MOST[form] - 1,
            _ => random.below(20),
        };
        let bytes = some_records(&mut random, form, records, sound || i < 2);
        let wrong = show(&mut random, &mut numbers[form], form, &bytes, sound || i < 2);
        tally.count(
            wrong.map(|wrong| format!("shown texts, {i}: {wrong}, of {} {}: {:?}", records, NAMES[form], &bytes[..bytes.len().min(60)])),
        );
    }
    tally.occurred("shown books", &numbers[RECORDS], &[0, 1]);
    tally.occurred("shown claims", &numbers[CLAIMS], &[0, 1]);
    let line =
        format!("shown texts: {count} books and lists of claims; {} failed; {:.1} s", tally.failed - failed, start.elapsed().as_secs_f64());
    tally.say(line);
}
