"""What `pbook` prints and writes, by documents 01 to 03 alone: for small books, by the rules one after another.

A record or a claim is (kind, origin, a, b). A `Source` is the bytes of a file in either form. The sentences of refusals and of what cannot be read are those of the manual's tables.
"""
import functools
import pathlib
import re
import sys

ROOT = pathlib.Path(__file__).resolve().parent.parent.parent
sys.path.insert(0, str(ROOT / "tests"))
from program import counts  # noqa: E402
from rules import APART, MEETS, NAMES, NOTPART, OPPOSITE, PART, answer, contradictory, saturate  # noqa: E402

TRAY, VOID = 5, 6
RECORDS, CLAIMS, LOG = "records", "claims", "log"
MOST = {RECORDS: 8193, CLAIMS: 4097, LOG: 32769}
KINDS = {b"part": PART, b"apart": APART, b"meets": MEETS, b"notpart": NOTPART}
CHOICES = {RECORDS: {b"sheet": 0, b"scanner": 1}, CLAIMS: {b"all": 0, b"sheets": 1}, LOG: {}}
WORDS = {1: "FOLLOWS", 2: "DENIED", 3: "OPEN"}
MANUAL = ROOT / "docs" / "pbook.md"


@functools.cache
def table(heading):
    """A table of the manual whose heading row begins so: the sentence of each number, and at 8 that of reason 3 for claims."""
    rows = MANUAL.read_text().split(heading)[1].split("\n\n")[0].splitlines()[2:]
    cells = [[cell.strip() for cell in row.strip("|").split("|")] for row in rows]
    return {8 if row[0].endswith("claim") else int(row[0]): row[-1] for row in cells}


def sentence(number):
    return table("| number |")[number]


def reason_sentence(reason, claims):
    return table("| reason |")[8 if reason == 3 and claims else reason]


# ---- text


def number_of(word):
    return int(word) if re.fullmatch(rb"[0-9]+", word) and int(word) <= 65535 else None


def read_line(form, line):
    """None of a line without words, the reason that it is bad, or its entry."""
    words = [word.lower() for word in re.split(rb"[\t\r ]+", line.split(b"#")[0]) if word]
    if not words:
        return None
    kind, numbers = 0, 1
    if form != LOG:
        kind = KINDS.get(words[0], VOID if form == RECORDS and words[0] == b"void" else 0)
        if kind == 0:
            return 1
        words, numbers = words[1:], 1 if kind == VOID else 2
    values = []
    for place in range(numbers):
        value = number_of(words[place]) if place < len(words) else None
        if value is None:
            return 2
        values.append(value)
    words, choice = words[numbers:], 0
    if words and form != LOG:
        if words[0] not in CHOICES[form]:
            return 3
        words, choice = words[1:], CHOICES[form][words[0]]
    if words:
        return 4
    return kind, choice, values[0], values[1] if numbers == 2 else 0


def six(kind, origin, a, b):
    return bytes([kind, origin, a % 256, a // 256, b % 256, b // 256])


def packed(records):
    return b"".join(six(*record) for record in records)


def unpacked(data):
    return [(r[0], r[1], r[2] + 256 * r[3], r[4] + 256 * r[5]) for r in (data[i : i + 6] for i in range(0, len(data) // 6 * 6, 6))]


class Source:
    """`unread` is (line, reason) or None; `records` are bytes; `lines` has the line of each record of a text."""

    def __init__(self, form, data):
        self.form, self.unread, self.lines = form, None, None
        self.text = form == LOG or data[:1] > b"\x08"
        if not self.text:
            self.records = data[: 6 * MOST[form]]
            return
        self.lines, entries = [], []
        if len(data) > 524288:
            self.unread = 0, 5
            return
        lines = data.removeprefix(b"\xef\xbb\xbf").split(b"\n")
        for place, line in enumerate(lines if lines[-1] else lines[:-1], 1):
            if len(entries) == MOST[form]:
                break
            entry = read_line(form, line)
            if isinstance(entry, int):
                self.unread = place, entry
                return
            if entry is not None:
                entries.append(entry)
                self.lines.append(place)
        self.entries = entries
        self.records = packed(entries)

    def line(self, place):
        return f" line {self.lines[place]}" if self.lines is not None else ""


def read_words(form, words):
    """The entry that the words say, or the page that tells why they say none."""
    line = b" ".join(words).replace(b"\n", b" ")
    entry = read_line(form, line) if len(b" ".join(words)) <= 4095 else 7
    if entry is None:
        entry = 2 if form == LOG else 1
    if isinstance(entry, int):
        return None, f"WORDS UNREAD {reason_sentence(entry, form == CLAIMS)}\n"
    return entry, None


def unread(source, name=""):
    if source.unread is None:
        return None
    line, reason = source.unread
    return f"{name}UNREAD line {line} {reason_sentence(reason, source.form == CLAIMS)}\n"


# ---- the rows


def rows(book, former=False):
    if len(book) % 6:
        return 3, 0
    if len(book) > 8192 * 6:
        return 4, 0
    seen = set()
    for place, (kind, origin, a, b) in enumerate(unpacked(book)):
        for number, wrong in [
            (5, kind not in (1, 2, 3, 4, TRAY if former else VOID)),
            (6, origin > 1),
            (7, a > 2047 or kind in NAMES and b > 2047),
            (19, kind == VOID and (b != 0 or a == 0)),
            (8, former and kind == PART and b >= a),
            (9, (kind, origin, a, b) in seen),
        ]:
            if wrong:
                return number, place
        seen.add((kind, origin, a, b))
    return None


def claim_rows(claims, pieces):
    if len(claims) % 6:
        return 10, 0
    if len(claims) > 4096 * 6:
        return 11, 0
    for place, (kind, choice, a, b) in enumerate(unpacked(claims)):
        if kind not in NAMES or choice > 1:
            return 12, place
        if max(a, b) >= pieces:
            return 13, place
    return None


def pieces_of(book):
    return 1 + max([max(a, b) if kind in NAMES else a for kind, _, a, b in unpacked(book)], default=0)


def marks(book):
    return frozenset(a for kind, _, a, _ in unpacked(book) if kind == VOID)


def facts(book, sheets=False):
    return frozenset((kind, a, b) for kind, origin, a, b in unpacked(book) if kind in NAMES and not (sheets and origin))


@functools.lru_cache(maxsize=4096)
def closed(stored, pieces, void):
    return frozenset(saturate(stored, range(pieces), void))


def derived(book, pieces, void, sheets=False):
    return closed(facts(book, sheets), pieces, void)


def clash(book):
    """The place of 14, or None."""
    pieces, void = pieces_of(book), marks(book)
    if not contradictory(derived(book, pieces, void)):
        return None
    return next(k for k in range(len(book) // 6) if contradictory(derived(book[: 6 * k + 6], pieces, void)))


def judged(book, former=False):
    """Rows 3 to 9, 19 and 14."""
    refusal = rows(book, former)
    if refusal is None and (place := clash(book)) is not None:
        refusal = 14, place
    return refusal


# ---- pages


def refused(refusal, book, other=None):
    """`other` is what the places of 12, 13 and 21 count in, where it was read from a text."""
    number, place = refusal
    line = ""
    if number in (5, 6, 7, 8, 9, 14, 19):
        line = book.line(place)
    elif number in (12, 13, 21) and other is not None:
        line = other.line(place)
    return f"REFUSED {number} {place}{line} {sentence(number)}\n"


def count_line(book):
    return counts({(a, b) for kind, a, b in facts(book) if kind == PART}, pieces_of(book))


def answers_of(book, claims, pieces):
    void = marks(book)
    return [answer(derived(book, pieces, void, bool(sheets)), (kind, a, b)) for kind, sheets, a, b in unpacked(claims)]


def session(source, claims, other=None):
    """Document 01's session for claims that are bytes."""
    book = source.records
    refusal = rows(book) or claim_rows(claims, pieces_of(book)) or judged(book)
    if refusal:
        return refused(refusal, source, other)
    lines = [f"{i} {NAMES[kind]} {a} {b} {WORDS[said]}\n" for i, ((kind, _, a, b), said) in enumerate(zip(unpacked(claims), answers_of(book, claims, pieces_of(book))))]
    return count_line(book) + "".join(lines)


def check(data):
    source = Source(RECORDS, data)
    return unread(source) or session(source, b"")


def ask(data, claims):
    source, asked = Source(RECORDS, data), Source(CLAIMS, claims)
    return unread(source) or unread(asked, "CLAIMS ") or session(source, asked.records, asked)


def ask_words(data, words):
    entry, page = read_words(CLAIMS, words)
    source = Source(RECORDS, data)
    return page or unread(source) or session(source, six(*entry))


def listed(kind, data, words):
    entry, page = read_words(LOG, words)
    source = Source(RECORDS, data)
    if page := page or unread(source):
        return page
    book, piece = source.records, entry[2]
    refusal = rows(book) or ((13, 0) if piece >= pieces_of(book) else None) or judged(book)
    if refusal:
        return refused(refusal, source)
    known = derived(book, pieces_of(book), marks(book))
    found = [other for other in range(pieces_of(book)) if (kind, other, piece) in known]
    return f"PIECES {len(found)}\n" + "".join(f"{other}\n" for other in found)


def sign(known, void, a, b):
    def holds(kind, x, y):
        return (kind, x, y) in known

    if a in void or b in void:
        return "v"
    if holds(PART, a, b):
        return "=" if holds(PART, b, a) else "<"
    if holds(PART, b, a):
        return ">"
    if holds(APART, a, b):
        return "|"
    if holds(MEETS, a, b):
        return "x" if holds(NOTPART, a, b) and holds(NOTPART, b, a) else "o"
    return "."


def grid(data):
    source = Source(RECORDS, data)
    if page := unread(source):
        return page
    book = source.records
    n = pieces_of(book)
    refusal = rows(book) or (judged(book) if n <= 12 else None) or ((16, 0) if n > 64 else None)
    if refusal:
        return refused(refusal, source)
    known, void = derived(book, n, marks(book)), marks(book)
    tens = ["   " + "".join(" " if b < 10 else str(b // 10) for b in range(n)) + "\n"] if n > 10 else []
    lines = [f"{a:2} " + "".join(sign(known, void, a, b) for b in range(n)) + "\n" for a in range(n)]
    return "".join([f"PIECES {n}\n", *tens, "   " + "".join(str(b % 10) for b in range(n)) + "\n", *lines])


def replicates(data, log):
    source, logged = Source(RECORDS, data), Source(LOG, log)
    if page := unread(source) or unread(logged, "LOG "):
        return page
    book, entries = source.records, [a for _, _, a, _ in unpacked(logged.records)]
    n = pieces_of(book)
    refusal = judged(book) or ((20, 0) if len(entries) > 32768 else None)
    refusal = refusal or next(((21, i) for i, piece in enumerate(entries) if piece >= n), None)
    if refusal:
        return refused(refusal, source, logged)
    known = derived(book, n, marks(book))
    lines = []
    for i, piece in enumerate(entries):
        window = entries[max(0, i - 31) : i]
        before = sum((APART, other, piece) in known for other in window)
        window = [*window, piece]
        every = all((APART, window[j], window[k]) in known for k in range(len(window)) for j in range(k))
        lines.append(f"{i} {piece} {before} {'YES' if every else 'NO'}\n")
    return "".join(lines)


def compare(data, second, claims):
    one, two, asked = Source(RECORDS, data), Source(RECORDS, second), Source(CLAIMS, claims)
    if page := unread(one) or unread(two, "SECOND ") or unread(asked, "CLAIMS "):
        return page
    if refusal := judged(one.records):
        return refused(refusal, one)
    if refusal := judged(two.records):
        return "SECOND " + refused(refusal, two)
    n = max(pieces_of(one.records), pieces_of(two.records))
    if refusal := claim_rows(asked.records, n):
        return refused(refusal, one, asked)
    joined = one.records + two.records
    together = not contradictory(derived(joined, n, marks(joined)))
    lines = [f"TOGETHER {'YES' if together else 'NO'}\n"]
    both = zip(unpacked(asked.records), answers_of(one.records, asked.records, n), answers_of(two.records, asked.records, n))
    for i, ((kind, _, a, b), x, y) in enumerate(both):
        agreement = "SAME" if x == y else "ONE OPEN" if 3 in (x, y) else "OPPOSED"
        lines.append(f"{i} {NAMES[kind]} {a} {b} {WORDS[x]} {WORDS[y]} {agreement}\n")
    return "".join(lines)


def shown(records):
    def line(kind, origin, a, b):
        numbers = f"{a}" if kind == VOID else f"{a} {b}"
        return f"{NAMES.get(kind, 'VOID')} {numbers}{' scanner' if origin else ''}\n"

    return "".join(line(*record) for record in records)


def show(data):
    source = Source(RECORDS, data)
    if page := unread(source):
        return page
    if refusal := rows(source.records):
        return refused(refusal, source)
    return shown(unpacked(source.records)) or "# no records\n"


# ---- the commands that write: the page, and the new bytes, or None where there are none


def kept(source, book):
    if refusal := judged(book):
        return refused(refusal, source), None
    return f"RECORDS {len(book) // 6} PIECES {pieces_of(book)}\n", book


def pack(data):
    source = Source(RECORDS, data)
    if page := unread(source):
        return page, None
    return kept(source, source.records)


def convert(data):
    source = Source(RECORDS, data)
    if page := unread(source):
        return page, None
    old = source.records
    if refusal := judged(old, former=True):
        return refused(refusal, source), None
    new = packed(record for record in unpacked(old) if record[0] != TRAY)
    if pieces_of(new) < pieces_of(old):
        new += six(PART, 0, pieces_of(old) - 1, 0)
    return f"RECORDS {len(new) // 6} PIECES {pieces_of(new)}\n", new


def changed(data, form, words, change):
    entry, page = read_words(form, words)
    if page:
        return page, None
    source = Source(RECORDS, data)
    if source.text:
        return f"UNREAD line 0 {reason_sentence(6, False)}\n", None
    book = source.records
    if len(book) % 6:
        return refused((3, 0), source), None
    if len(book) > 8192 * 6:
        return refused((4, 0), source), None
    return change(source, book, entry)


def add(data, words):
    def change(source, book, entry):
        return kept(source, book + six(*entry))

    return changed(data, RECORDS, words, change)


def withdraw(data, words):
    def change(source, book, entry):
        at = 6 * entry[2]
        if at >= len(book):
            return refused((18, 0), source), None
        return kept(source, book[:at] + book[at + 6 :])

    return changed(data, LOG, words, change)


# ---- chains

NUMBER = r"(0|[1-9][0-9]*)"
FIRST = re.compile(f"(PART|APART|MEETS|NOTPART) {NUMBER} {NUMBER}( sheets)? (FOLLOWS|DENIED|OPEN)\n")
STEP = re.compile(f"{NUMBER} (PART|APART|MEETS|NOTPART) {NUMBER} {NUMBER} (RECORD|RULE [de] RECORD|RULE [cf]|RULE e'|RULE (?:a|b|a'|b'|c'|d') FROM)(?: {NUMBER})?(?: {NUMBER})?\n")
KIND = {name: kind for kind, name in NAMES.items()}
TWO = {
    "a": lambda g, h, k: ((PART, g, h), (PART, h, k), (PART, g, k)),
    "b": lambda g, h, k: ((PART, g, h), (APART, h, k), (APART, g, k)),
    "a'": lambda g, h, k: ((PART, g, h), (NOTPART, g, k), (NOTPART, h, k)),
    "b'": lambda g, h, k: ((NOTPART, g, k), (PART, h, k), (NOTPART, g, h)),
    "c'": lambda g, h, k: ((PART, h, k), (MEETS, g, h), (MEETS, g, k)),
    "d'": lambda g, h, k: ((MEETS, g, h), (APART, k, h), (NOTPART, g, k)),
}


def same(fact, other):
    kind, a, b = fact
    return fact == other or kind in (APART, MEETS) and (kind, b, a) == other


def step_holds(book, pieces, void, may_cite, shown_before, fact, ground, numbers):
    kind, a, b = fact
    records = unpacked(book)
    if max(a, b) >= pieces:
        return False
    words = ground.split()
    if words[-1] == "RECORD":
        if len(numbers) != 1 or numbers[0] >= len(records):
            return False
        cited = records[numbers[0]]
        if len(words) == 1:
            return cited[0] in NAMES and may_cite(numbers[0], cited) and same(fact, (cited[0], *cited[2:]))
        if cited[0] != VOID:
            return False
        return kind == APART and cited[2] in (a, b) if words[1] == "d" else kind == PART and cited[2] == a
    if words[-1] != "FROM":
        shape = {"c": (PART, a, a), "f": (PART, a, 0), "e'": (MEETS, a, a)}[words[1]]
        return not numbers and fact == shape and not (words[1] == "e'" and a in void)
    if len(numbers) != 2 or max(numbers) >= len(shown_before):
        return False
    one, two = (shown_before[number] for number in numbers)
    named = {a, b, *one[1:], *two[1:]}
    for g in named:
        for h in named:
            for k in named:
                x, y, z = TWO[words[1]](g, h, k)
                if same(one, x) and same(two, y) and same(fact, z):
                    return True
    return False


def last_step(book, may_cite, text):
    """What the last step of the lines shows, where they are steps, each printed as `why` prints it and each following; else None."""
    pieces, void, facts_shown, at = pieces_of(book), marks(book), [], 0
    while at < len(text):
        found = STEP.match(text, at)
        if not found or int(found[1]) != len(facts_shown) or len(facts_shown) == 16400:
            return None
        fact = KIND[found[2]], int(found[3]), int(found[4])
        numbers = [int(number) for number in found.groups()[5:] if number is not None]
        if not step_holds(book, pieces, void, may_cite, facts_shown, fact, found[5], numbers):
            return None
        facts_shown.append(fact)
        at = found.end()
    return facts_shown[-1] if facts_shown else None


def verify(data, chain):
    source = Source(RECORDS, data)
    if page := unread(source):
        return page
    return "PASSES\n" if passes(source.records, chain) else "FAILS\n"


def passes(book, chain):
    if judged(book):
        return False
    try:
        text = chain.decode("ascii")
    except UnicodeDecodeError:
        return False
    found = FIRST.match(text)
    if not found or found[5] == "OPEN":
        return False
    claim = KIND[found[1]], int(found[2]), int(found[3])
    if max(claim[1:]) >= pieces_of(book):
        return False
    last = last_step(book, lambda _, record: not (found[4] and record[1]), text[found.end() :])
    wanted = claim if found[5] == "FOLLOWS" else (OPPOSITE[claim[0]], *claim[1:])
    return last is not None and same(last, wanted)


def why_is(data, words, page):
    """Whether the page is one that `why BOOK KIND ..` may print: the steps are free."""
    entry, told = read_words(CLAIMS, words)
    source = Source(RECORDS, data)
    if told := told or unread(source):
        return page == told
    book = source.records
    refusal = rows(book) or claim_rows(six(*entry), pieces_of(book)) or judged(book)
    if refusal:
        return page == refused(refusal, source)
    kind, sheets, a, b = entry
    said = answers_of(book, six(*entry), pieces_of(book))[0]
    first = f"{NAMES[kind]} {a} {b}{' sheets' if sheets else ''} {WORDS[said]}\n"
    if said == 3:
        return page == first
    return page.startswith(first) and passes(book, page.encode())


def contradiction_is(data, page):
    """The same of `why BOOK`: each step follows from records before the place and from marks wherever they stand."""
    source = Source(RECORDS, data)
    if told := unread(source):
        return page == told
    book = source.records
    refusal = judged(book)
    if refusal is None or refusal[0] != 14:
        return page == check(data)
    first = refused(refusal, source)
    if not page.startswith(first):
        return False
    place = refusal[1]
    kind, _, a, b = unpacked(book)[place]
    last = last_step(book, lambda number, _: number < place, page[len(first) :])
    return last is not None and same(last, (OPPOSITE[kind], a, b))
