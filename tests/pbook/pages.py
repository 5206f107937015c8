"""Every command on good and bad books in both forms, against the reference; random books; the edges of reading."""
import random

import reference as ref
from reference import APART, MEETS, NOTPART, PART, RECORDS, TRAY, VOID, packed, shown, six

SESSION = [(PART, 0, 1, 0), (PART, 0, 2, 0), (PART, 0, 3, 1), (PART, 0, 4, 1), (PART, 0, 4, 2), (PART, 0, 5, 4), (APART, 0, 3, 4), (MEETS, 0, 3, 2), (NOTPART, 0, 2, 1)]
GOOD = {
    "empty": [],
    "the session": SESSION,
    "the scanner's": [(PART, 1, 2, 1), (PART, 0, 3, 2), (APART, 1, 3, 4), (MEETS, 0, 4, 1), (NOTPART, 1, 1, 2)],
    "void": [(VOID, 1, 1, 0), (PART, 0, 2, 0), (VOID, 0, 3, 0), (PART, 0, 3, 2), (MEETS, 1, 4, 2)],
    "circles": [(PART, 0, 1, 2), (PART, 0, 2, 1), (PART, 0, 3, 2), (APART, 0, 4, 1), (PART, 0, 3, 3)],
    "one circle": [(PART, 0, 0, 1), (PART, 0, 1, 2), (PART, 1, 2, 0)],
    "twelve": [(PART, 0, a, (a - 1) // 3) for a in range(1, 12)] + [(APART, 0, 4, 5), (MEETS, 0, 7, 2), (APART, 1, 11, 9)],
    "both origins": [(APART, 0, 1, 2), (APART, 1, 1, 2), (APART, 0, 2, 1)],
}
BAD = {
    "5": packed(SESSION) + six(7, 0, 1, 0),
    "5, a TRAY": packed(SESSION[:2]) + six(TRAY, 0, 1, 700),
    "5, of 0": six(0, 0, 0, 0),
    "6": packed(SESSION) + six(APART, 2, 1, 2),
    "7": packed(SESSION) + six(MEETS, 0, 2048, 1),
    "7, in b": six(MEETS, 0, 1, 2048),
    "19": packed(SESSION) + six(VOID, 0, 0, 0),
    "19, with b": packed(SESSION) + six(VOID, 0, 1, 3),
    "9": packed([*SESSION, SESSION[4]]),
    "3": packed(SESSION)[:-1],
    "4": packed((MEETS, 0, a, b) for a in range(91) for b in range(91))[: 6 * 8193],
    "4, longer than is read": packed((MEETS, 0, a, b) for a in range(91) for b in range(91)) + b"\7" * 999,
    "14": packed([*SESSION, (MEETS, 0, 5, 3), (PART, 0, 1, 0)]),
    "14, by a mark": packed([(MEETS, 0, 2, 1), (PART, 0, 3, 0), (VOID, 1, 1, 0)]),
    "14, at record 0": packed([(APART, 0, 2, 2)]),
    "14, by the scanner": packed([(PART, 0, 1, 2), (PART, 1, 2, 3), (NOTPART, 0, 1, 3)]),
}
TEXTS = {
    "7": b"# core 12\n\npart 1 0\nPART 2 3000 # late\n",
    "9": b"\xef\xbb\xbfmeets 1 2\r\n\tMEETS 1 2 Sheet\r\n",
    "19": b"VOID 0 scanner",
    "14": b"#\n#\nVOID 1\nNotPart 2 2\n",
    "reason 1": b"PART 1 0\nPARTS 2 0\n",
    "reason 1, of a TRAY": b"TRAY 1 2\n",
    "reason 1, of a byte": b"\tpart 1 0\n\x0bpart 1 0\n",
    "reason 2": b"PART 1\n",
    "reason 2, of a word": b"PART 1 x\n",
    "reason 2, of 65536": b"PART 65536 1\n",
    "reason 2, of a sign": b"PART -1 1\n",
    "reason 2, of no number": b"VOID\n",
    "reason 3": b"PART 1 0 sheets\n",
    "reason 3, of a VOID": b"VOID 1 2\n",
    "reason 4": b"PART 1 0 sheet sheet\n",
    "reason 4, of a VOID": b"\n\nVOID 1 scanner scanner # x",
    "reason 2 before 3 and 4": b"PART 1 0x scan x\n",
    "7, up to 65535": b"PART 00065535 1",
}
CLAIM_RUNS = [six(7, 0, 0, 0), six(PART, 2, 0, 0), six(PART, 0, 0, 0)[:5], six(MEETS, 0, 0, 0) + six(PART, 1, 99, 0)]
CLAIM_TEXTS = [b"part 5 2\nNOTPART 0 1 sheets # x\n\nmeets 2 3 all", b"PART 1 2 sheet\n", b"void 1\n", b"PART 1\n", b"PART 1 2 all all\n", b"\n# none\n", b"PART 9999 0\n", b"#\nPART 1 0\n# \nAPART 1 70\n"]
LOG_TEXTS = [b"3\n4\n\n5 # late\n3\n", b"", b"#\n", b"3 4\n", b"x\n", b"65536\n", b"3\n# x\n77\n", b"1\r\n2"]
WORDS = [[b"PART", b"5", b"2"], [b"part 5", b"2 sheets"], [b"Meets", b"2", b"3", b"ALL"], [b"NOTPART", b"0", b"0"], [b"apart", b"1", b"99"], [b"apart", b"1", b"65536"], [b"void", b"1"], [b""], [b"# x"],
         [b"PART", b"1"], [b"PART", b"1", b"2", b"scanner"], [b"PART", b"1", b"2", b"all", b"x"], [b"PART\n1\n2\nsheets\n# x\nvoid"], [b"MEETS\t1", b"\r2 "]]
NUMBERS = [[b"1"], [b"0"], [b"2#", b"3"], [b"99"], [b""], [b"x"], [b"1", b"2"], [b"065535"], [b"65536"], [b"\n1"]]


def claims_about(pieces):
    return packed((kind, sheets, a, b) for kind in (1, 2, 3, 4) for sheets in (0, 1) for a in range(pieces) for b in range(pieces))


def reads(lab, name, data, full=True):
    """Every command that reads, on a book that stands in a file; the file stays as it is."""
    room = lab.room()
    book = room / "book"
    book.write_bytes(data)
    source = ref.Source(RECORDS, data)
    pieces = min(ref.pieces_of(source.records), 6) if source.unread is None else 1
    lab.page(f"{name}: check", ref.check(data), room, "check", "book")
    lab.page(f"{name}: why", lambda page: ref.contradiction_is(data, page), room, "why", "book")
    lab.page(f"{name}: show", ref.show(data), room, "show", "book")
    lab.page(f"{name}: grid", ref.grid(data), room, "grid", "book")
    claims = claims_about(pieces)[: 6 * 300]
    lab.page(f"{name}: ask", ref.ask(data, claims), room, "ask", "book", given=claims)
    for command, kind in (("inside", PART), ("touching", MEETS), ("apart", APART)):
        for words in NUMBERS if full else NUMBERS[:2]:
            lab.page(f"{name}: {command} {words}", ref.listed(kind, data, words), room, command, "book", *words)
    for words in WORDS if full else WORDS[:4]:
        lab.page(f"{name}: ask {words}", ref.ask_words(data, words), room, "ask", "book", *words)
        lab.page(f"{name}: why {words}", lambda page, words=words: ref.why_is(data, words, page), room, "why", "book", *words)
    for given in (*CLAIM_TEXTS, *CLAIM_RUNS) if full else CLAIM_TEXTS[:1]:
        lab.page(f"{name}: ask {given}", ref.ask(data, given), room, "ask", "book", given=given)
    for given in LOG_TEXTS if full else LOG_TEXTS[:1]:
        lab.page(f"{name}: replicates {given}", ref.replicates(data, given), room, "replicates", "book", given=given)
    lab.count(f"{name}: as it was", book.read_bytes() == data and [p.name for p in room.iterdir()] == ["book"])


def writes(lab, name, data, full=True):
    """The commands that write, on a book that stands in a file."""
    room = lab.room()
    book, out = room / "book", room / "out"
    book.write_bytes(data)
    for command, (page, new) in (("pack", ref.pack(data)), ("convert", ref.convert(data))):
        lab.page(f"{name}: {command}", page, room, command, "book", "out")
        lab.count(f"{name}: {command} writes", (out.read_bytes() if out.exists() else None) == new and book.read_bytes() == data)
        out.unlink(missing_ok=True)
    changes = [("add", words, ref.add(data, words)) for words in (ADDED if full else ADDED[:2])] + [("withdraw", words, ref.withdraw(data, words)) for words in (WITHDRAWN if full else WITHDRAWN[:2])]
    for command, words, (page, new) in changes:
        book.write_bytes(data)
        lab.page(f"{name}: {command} {words}", page, room, command, "book", *words)
        lab.count(f"{name}: {command} {words} writes", book.read_bytes() == (data if new is None else new) and [p.name for p in room.iterdir()] == ["book"], book.read_bytes())


ADDED = [[b"PART", b"5", b"2"], [b"void", b"4", b"SCANNER"], [b"meets 5 3"], [b"PART", b"1", b"0"], [b"PART", b"1", b"0", b"scanner"], [b"APART", b"3000", b"1"], [b"void", b"0"], [b"void", b"1", b"2"], [b"PART", b"1", b"2", b"all"],
         [b""], [b"tray", b"1", b"1"], [b"notpart", b"1", b"0"]]
WITHDRAWN = [[b"0"], [b"4"], [b"9"], [b"8", b"# the last"], [b"65535"], [b"x"], [b"0", b"0"], [b""]]


def compares(lab):
    room = lab.room()
    books = {"one": packed(SESSION), "two": packed(GOOD["the scanner's"]), "void": packed(GOOD["void"]), "text": shown(GOOD["circles"]).encode(), "bad": BAD["14"], "bad text": TEXTS["14"], "unread": TEXTS["reason 3"], "none": b""}
    for name, data in books.items():
        (room / name).write_bytes(data)
    for one, data in books.items():
        for two, second in books.items():
            for given in (CLAIM_TEXTS[0], claims_about(4), *([CLAIM_TEXTS[1], CLAIM_TEXTS[6], b"\1\0\0", b""] if one == "one" else [])):
                lab.page(f"compare {one}, {two}, {given[:20]}", ref.compare(data, second, given), room, "compare", one, two, given=given)


def converts(lab):
    room = lab.room()
    trays = [(TRAY, 0, 7, 65535), (PART, 0, 3, 1), (TRAY, 1, 2, 5), (APART, 1, 2, 4)]
    cases = [packed(trays), packed(trays[1:]), packed(trays[:1]), packed([(TRAY, 0, 0, 1)]), packed([(PART, 0, 2, 3)]), packed([(PART, 0, 2, 2)]), packed([*trays, (VOID, 0, 1, 0)]), packed([*trays, (MEETS, 0, 1, 2), (NOTPART, 0, 3, 0)]),
             packed(trays)[:-1], packed([(TRAY, 2, 1, 1)]), packed([(TRAY, 0, 2048, 1)]), b"part 3 1\nvoid 2\n", b"part 3 1\npart 2 4\n", b"apart 3 1 scanner\n", packed([*trays, trays[0]])]
    for i, data in enumerate(cases):
        (room / "old").write_bytes(data)
        page, new = ref.convert(data)
        lab.page(f"convert {i}", page, room, "convert", "old", "out")
        out = room / "out"
        lab.count(f"convert {i} writes", (out.read_bytes() if out.exists() else None) == new)
        out.unlink(missing_ok=True)


def round_trips(lab):
    """`show` then `pack` gives the same bytes, of every book that passes its rows and 14."""
    for name, records in GOOD.items():
        room = lab.room()
        (room / "book").write_bytes(packed(records))
        text, _, _ = lab.run(room, "show", "book")
        (room / "text").write_bytes(text)
        again, _, _ = lab.run(room, "show", "text")
        lab.run(room, "pack", "text", "out")
        lab.count(f"{name}: show and pack", again == text and (room / "out").read_bytes() == packed(records), text)


def dressed(random_, records):
    """The text of records as somebody might type it."""
    lines = []
    for record in records:
        for _ in range(random_.randrange(2)):
            lines.append(random_.choice(["", "# slab", " \t", "#PART 1 2"]))
        words = shown([record]).split()
        if words[-1] != "scanner" and random_.randrange(3) == 0:
            words.append("sheet")
        words = [random_.choice([str.lower, str.upper, str.title])(word) for word in words]
        words = ["0" * random_.randrange(3) + word if word.isdigit() else word for word in words]
        lines.append(random_.choice(["", " ", "\t"]) + random_.choice([" ", "\t", "  "]).join(words) + random_.choice(["", "\r", " # x", "#"]))
    text = "\n".join(lines) + random_.choice(["", "\n", "\n\n"])
    return (random_.choice([b"", b"", b"\xef\xbb\xbf"]) + text.encode()) if lines else b""


def random_book(random_):
    pieces = random_.randrange(2, 6)
    records = []
    for _ in range(random_.randrange(1, 8)):
        kind = random_.choice([PART, PART, APART, MEETS, NOTPART, VOID] if random_.randrange(2) else [PART, PART, PART, MEETS, NOTPART])
        a, b = random_.randrange(pieces), random_.randrange(pieces)
        record = (VOID, random_.randrange(2), max(a, 1), 0) if kind == VOID else (kind, random_.randrange(2), a, b)
        if record not in records or random_.randrange(30) == 0:
            records.append(record)
    return records


def randoms(lab, count):
    random_ = random.Random(3)
    for i in range(count):
        records = random_book(random_)
        data = packed(records) if i % 2 else dressed(random_, records)
        if random_.randrange(8) == 0 and data:
            at = random_.randrange(len(data))
            data = data[:at] + bytes([random_.randrange(256)]) + data[at + 1 :]
        room = lab.room()
        (room / "book").write_bytes(data)
        lab.page(f"random {i}: check", ref.check(data), room, "check", "book")
        lab.page(f"random {i}: why", lambda page: ref.contradiction_is(data, page), room, "why", "book")
        lab.page(f"random {i}: show", ref.show(data), room, "show", "book")
        lab.page(f"random {i}: grid", ref.grid(data), room, "grid", "book")
        claims = claims_about(min(5, ref.pieces_of(ref.Source(RECORDS, data).records) if ref.Source(RECORDS, data).unread is None else 1))
        lab.page(f"random {i}: ask", ref.ask(data, claims), room, "ask", "book", given=claims)
        for _ in range(3):
            words = [random_.choice([b"PART", b"APART", b"meets", b"notpart"]), b"%d" % random_.randrange(5), b"%d" % random_.randrange(5), random_.choice([b"all", b"sheets"])]
            page = lab.page(f"random {i}: why {words}", lambda page: ref.why_is(data, words, page), room, "why", "book", *words)
            (room / "chain").write_text(page)
            lab.page(f"random {i}: verify {words}", ref.verify(data, page.encode()), room, "verify", "book", "chain")
        words = [random_.choice([b"PART", b"APART", b"meets", b"notpart"]), b"%d" % random_.randrange(6), b"%d" % random_.randrange(6)]
        page, new = ref.add(data, words)
        lab.page(f"random {i}: add", page, room, "add", "book", *words)
        lab.count(f"random {i}: add writes", (room / "book").read_bytes() == (data if new is None else new))
        data = data if new is None else new
        words = [b"%d" % random_.randrange(6)]
        page, new = ref.withdraw(data, words)
        lab.page(f"random {i}: withdraw", page, room, "withdraw", "book", *words)
        lab.count(f"random {i}: withdraw writes", (room / "book").read_bytes() == (data if new is None else new))


def chains(lab):
    """A printed chain with any one byte changed verifies only where it is still a right chain."""
    random_ = random.Random(5)
    for name, data, words in [
        ("the session", packed(SESSION), [b"PART", b"5", b"1"]),
        ("the session, denied", packed(SESSION), [b"MEETS", b"3", b"5"]),
        ("sheets", packed([(PART, 1, 3, 2), (PART, 0, 3, 2), (PART, 0, 2, 1)]), [b"PART", b"3", b"1", b"sheets"]),
        ("void", packed(GOOD["void"]), [b"APART", b"2", b"3"]),
        ("circles", packed(GOOD["circles"]), [b"NOTPART", b"4", b"3"]),
    ]:
        room = lab.room()
        (room / "book").write_bytes(data)
        page = lab.run(room, "why", "book", *words)[0]
        lab.count(f"{name}: a chain", ref.passes(data, page), page)

        def tried(what, chain, name=name, room=room, data=data):
            (room / "chain").write_bytes(chain)
            lab.page(f"{name}: {what}, {chain[:300]}", ref.verify(data, chain), room, "verify", "book", "chain")

        for at in range(len(page)):
            for byte in {page[at] ^ 1, random_.choice(b"0123456789 \nPART'abcdef"), random_.randrange(256)} - {page[at]}:
                tried(f"byte {at}", page[:at] + bytes([byte]) + page[at + 1 :])
        for at in range(len(page) + 1):
            if at % 3 == 0 or page[at - 1 : at] == b"\n":
                tried(f"the first {at} bytes", page[:at])
        lines = page.splitlines(keepends=True)
        for i in range(len(lines)):
            tried(f"without line {i}", b"".join(lines[:i] + lines[i + 1 :]))
            tried(f"line {i} twice", b"".join(lines[: i + 1] + lines[i:]))
        for what, chain in [("CR LF", page.replace(b"\n", b"\r\n")), ("a byte more", page + b"\n"), ("a mark before", b"\xef\xbb\xbf" + page), ("small letters", page.lower()), ("a 0 more", page.replace(b"0 P", b"00 P", 1)),
                            ("a comment", page.replace(b"\n", b" # x\n", 1)), ("two spaces", page.replace(b" ", b"  ", 1)), ("the other answer", page.replace(b"FOLLOWS", b"DENIED", 1))]:
            tried(what, chain)


def long_things(lab):
    """Lengths at and behind what is read."""
    room = lab.room()

    def page(name, expected, *words, given=b""):
        lab.page(name, expected, room, *words, given=given)

    line = b"PART 1 0\n"
    for length in (524288, 524289):
        (room / "text").write_bytes(line + b"#" * (length - len(line)))
        page(f"a text of {length} bytes", ref.check((room / "text").read_bytes()), "check", "text")
        (room / "log").write_bytes(b"1\n" + b" " * (length - 2))
        given = (room / "log").read_bytes()
        (room / "book").write_bytes(line)
        page(f"a log of {length} bytes", ref.replicates(line, given), "replicates", "book", given=given)
        given = b"PART 1 0\n" + b"\n" * (length - 9)
        page(f"claims of {length} bytes", ref.ask(line, given), "ask", "book", given=given)
        page(f"a second book of {length} bytes", ref.compare(line, given, b""), "compare", "book", "text")
        lab.run(room, "pack", "text", "out")
        lab.count(f"pack of {length} bytes", (room / "out").exists() == (length == 524288))
        (room / "out").unlink(missing_ok=True)
    pairs = [(MEETS, 0, a, b) for a in range(91) for b in range(91)]
    for count in (8192, 8193, 8194):
        data = shown(pairs[:count]).encode()
        (room / "many").write_bytes(data)
        expected = "PIECES 91 NODES 91 SHADOWS 0\n" if count == 8192 else ref.refused((4, 0), None)
        page(f"a text of {count} records", expected, "check", "many")
        (room / "many").write_bytes(data + b"bad\n")
        expected = f"UNREAD line 8193 {ref.reason_sentence(1, False)}\n" if count == 8192 else ref.refused((4, 0), None)
        page(f"a text of {count} records and a bad line", expected, "check", "many")
        (room / "many").write_bytes(packed(pairs[:count]))
        page(f"{count} records", "PIECES 91 NODES 91 SHADOWS 0\n" if count == 8192 else ref.refused((4, 0), None), "check", "many")
    (room / "many").write_bytes(packed(pairs[:8192]))
    page("an addition to 8,192 records", ref.refused((4, 0), None), "add", "many", "PART", "1", "0")
    page("a withdrawal of the last of 8,192", "RECORDS 8191 PIECES 91\n", "withdraw", "many", "8191")
    page("an addition that makes 8,192", "RECORDS 8192 PIECES 91\n", "add", "many", "meets", "90", "1")
    lab.count("8,192 records stand", (room / "many").read_bytes() == packed([*pairs[:8191], (MEETS, 0, 90, 1)]))
    for count in (4096, 4097, 5000):
        asked = [(MEETS, i % 2, 0, 1) for i in range(count)]
        said = "PIECES 2 NODES 2 SHADOWS 0\n" + "".join(f"{i} MEETS 0 1 FOLLOWS\n" for i in range(count)) if count == 4096 else ref.refused((11, 0), None)
        page(f"{count} claims", said, "ask", "book", given=packed(asked))
        text = "".join(f"meets 0 1 {'sheets' if i % 2 else 'all'}\n" for i in range(count)).encode()
        page(f"a text of {count} claims", said, "ask", "book", given=text)
        said = "TOGETHER YES\n" + "".join(f"{i} MEETS 0 1 FOLLOWS FOLLOWS SAME\n" for i in range(count)) if count == 4096 else ref.refused((11, 0), None)
        page(f"{count} claims on two books", said, "compare", "book", "book", given=text)
    for count in (32768, 32769, 33000):
        said = "".join(f"{i} 1 0 {'YES' if i == 0 else 'NO'}\n" for i in range(count)) if count == 32768 else ref.refused((20, 0), None)
        page(f"a log of {count} entries", said, "replicates", "book", given=b"1\n" * count)
    for length in (4094, 4095, 4096, 9000):
        words = [b"PART", b"1", b"0" * (length - 7)]
        page(f"words of {length} bytes", ref.ask_words(line, words), "ask", "book", *words)
        words = [b"PART", b"1", b"0", b"#" + b"x" * (length - 10), b""]
        page(f"words of {length} bytes and an empty one", ref.ask_words(line, words), "ask", "book", *words)
        words = [b"x" * length]
        page(f"a word of {length} bytes", ref.listed(PART, line, words), "inside", "book", *words)
        (room / "rec").write_bytes(b"")
        words = [b"PART", b"1", b"0", b" " * (length - 9)]
        expected, new = ref.add(b"", words)
        page(f"an addition of {length} bytes", expected, "add", "rec", *words)
        lab.count(f"an addition of {length} bytes writes", (room / "rec").read_bytes() == (new or b""))


def grids(lab):
    """64 pieces and 65, of which the rules need not be asked."""
    room = lab.room()
    for last, word in ((63, "grid"), (64, "number 16")):
        (room / "book").write_bytes(packed([(APART, 0, 1, last), (VOID, 0, 9, 0)]))
        if last == 64:
            lab.page(word, ref.refused((16, 0), None), room, "grid", "book")
            continue

        def sign(a, b):
            if 9 in (a, b):
                return "v"
            if a == b:
                return "="
            return "<" if b == 0 else ">" if a == 0 else "|" if {a, b} == {1, 63} else "."

        lines = ["PIECES 64", "   " + " " * 10 + "".join(str(b // 10) for b in range(10, 64)), "   " + "".join(str(b % 10) for b in range(64))]
        lines += [f"{a:2} " + "".join(sign(a, b) for b in range(64)) for a in range(64)]
        lab.page(word, "".join(line + "\n" for line in lines), room, "grid", "book")


def good_books(lab):
    for name, records in GOOD.items():
        full = name in ("the session", "empty")
        reads(lab, name, packed(records), full)
        reads(lab, f"{name}, text", dressed(random.Random(1), records), full)
        writes(lab, name, packed(records), full)
        writes(lab, f"{name}, text", shown(records).encode(), full)


def bad_books(lab):
    for name, data in BAD.items():
        reads(lab, f"number {name}", data, full=name == "14")
        writes(lab, f"number {name}", data, full=False)
    for name, data in TEXTS.items():
        reads(lab, f"text: {name}", data, full=name == "reason 3")
        writes(lab, f"text: {name}", data, full=False)


def all_pages(lab):
    good_books(lab)
    lab.group("good books")
    bad_books(lab)
    lab.group("bad books")
    compares(lab)
    converts(lab)
    round_trips(lab)
    grids(lab)
    lab.group("two books, former books, round trips, grids")
    long_things(lab)
    lab.group("lengths")
    chains(lab)
    lab.group("chains with a byte changed")
    randoms(lab, 120)
    lab.group("random books")
