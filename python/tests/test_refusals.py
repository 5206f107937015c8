"""Each number that a call of the package can be refused by, and arguments that never reach the library."""
import re
import tempfile
import unittest
from unittest import mock

from piecebook import Answer, Book, Kind, LibraryMissing, Record, Refused, Step, WorkingBook, _library
from piecebook.pictures import chain_svg, grid_svg, page_html, tree_svg
from piecebook.refusals import NOT_FACTS, OF_CLAIMS, OF_RECORDS, REASONS, SENTENCES

from .examples import REPOSITORY, SESSION

PART = b"\1\0\1\0\0\0"


def refusal(question):
    """Number, place and line of the refusal."""
    try:
        question()
    except Refused as told:
        return told.number, told.place, told.line
    return None


class Numbers(unittest.TestCase):
    def test_rows_of_a_book(self):
        many = [("PART", a, b) for a in range(1, 200) for b in range(a)]
        for records, number, place in [
            (PART + b"\1", 3, 0),
            (b"\1" * 5, 3, 0),
            (PART + b"\5\0\1\0\0\0", 5, 1),
            (PART + b"\1\2\1\0\0\0", 6, 1),
            (PART + b"\1\0\0\x08\0\0", 7, 1),
            (PART * 2, 9, 1),
            (PART + b"\6\0\1\0\1\0", 19, 1),
            (b"\6\0\0\0\0\0", 19, 0),
        ]:
            self.assertEqual(refusal(lambda: Book.from_records(records)), (number, place, None))
        self.assertEqual(Book.from_records(many[:8192]).pieces, 129)
        self.assertEqual(refusal(lambda: Book.from_records(many[:8193])), (4, 0, None))

    def test_rows_of_a_text_have_lines(self):
        self.assertEqual(refusal(lambda: Book.from_text("#\npart 1 0\n\npart 2048 0")), (7, 1, 4))
        self.assertEqual(refusal(lambda: Book.from_text("#\npart 1 0\n\npart 1 0")), (9, 1, 4))
        self.assertEqual(refusal(lambda: Book.from_text("\nvoid 0")), (19, 0, 2))
        self.assertEqual(refusal(lambda: Book.from_text("\napart 1 1").pieces), (14, 0, 2))

    def test_claims(self):
        claim = b"\1\0\1\0\0\0"
        self.assertEqual(refusal(lambda: SESSION.ask_all(claim + b"\1")), (10, 0, None))
        self.assertEqual(refusal(lambda: SESSION.ask_all(claim * 4097)), (11, 0, None))
        self.assertEqual(SESSION.ask_all(claim * 4096), [Answer.FOLLOWS] * 4096)
        self.assertEqual(refusal(lambda: SESSION.ask_all(claim + b"\6\0\1\0\0\0")), (12, 1, None))
        self.assertEqual(refusal(lambda: SESSION.ask_all(claim + b"\1\2\1\0\0\0")), (12, 1, None))
        self.assertEqual(refusal(lambda: SESSION.ask_all([("PART", 1, 0), ("PART", 1, 6)])), (13, 1, None))
        self.assertEqual(refusal(lambda: SESSION.ask("PART", 65535, 0)), (13, 0, None))
        self.assertEqual(refusal(lambda: SESSION.why("PART", 6, 0)), (13, 0, None))
        self.assertEqual(refusal(lambda: SESSION.inside(6)), (13, 0, None))

    def test_whole_books(self):
        for text in ("apart 2 2", "notpart 1 0", "apart 1 0"):
            self.assertEqual(refusal(lambda: Book.from_text(text).ask("PART", 0, 0)), (14, 0, 1))
        self.assertEqual(Book.from_text("notpart 0 1").pieces, 2)
        self.assertEqual(refusal(Book.from_text("part 64 0").grid), (16, 0, None))
        self.assertEqual(Book.from_text("part 63 0").grid().pieces, 64)

    def test_former_edition(self):
        self.assertEqual(refusal(lambda: Book.convert(b"\1\0\1\0\1\0")), (8, 0, None))
        self.assertEqual(refusal(lambda: Book.convert(PART + b"\6\0\1\0\0\0")), (5, 1, None))
        self.assertEqual(refusal(lambda: Book.convert(PART + b"\2\0\1\0\0\0")), (14, 1, None))

    def test_log(self):
        self.assertEqual(refusal(lambda: list(SESSION.replicates([1, 2, 6]))), (21, 2, None))
        self.assertEqual(refusal(lambda: list(SESSION.replicates("1\n\n2\n6"))), (21, 2, 4))
        self.assertEqual(refusal(lambda: list(SESSION.replicates([0] * 40000 + [9]))), (21, 40000, None))
        self.assertEqual(refusal(lambda: list(SESSION.replicates("1\n" * 32769))), (20, 0, None))

    def test_compare(self):
        bad = Book.from_text("part 1 0\napart 1 1")
        self.assertEqual(refusal(lambda: SESSION.compare(bad)), (14, 1, 2))
        with self.assertRaises(Refused) as caught:
            SESSION.compare(bad)
        self.assertEqual(str(caught.exception), f"SECOND REFUSED 14 1 line 2 {SENTENCES[14]}")
        self.assertEqual(caught.exception.book, 2)
        with self.assertRaises(Refused) as caught:
            bad.compare(SESSION)
        self.assertEqual(str(caught.exception), f"REFUSED 14 1 line 2 {SENTENCES[14]}")
        self.assertEqual(refusal(lambda: SESSION.compare(SESSION, "part 9 0")), (13, 0, 1))

    def test_sentences_are_the_programs(self):
        proved = REPOSITORY / "crates" / "sentences" / "specs"
        refusals = (proved / "Refusals.antt").read_text()
        listed = re.findall(r'ascii "(.*)\\n"', refusals)
        self.assertEqual(len(listed), 22)
        self.assertEqual(SENTENCES, {number: sentence for number, sentence in enumerate(listed) if sentence})
        (places,) = re.findall(r'^places = ascii "([-rc]*)"', refusals, re.M)
        self.assertEqual(OF_RECORDS, {number for number, what in enumerate(places) if what == "r"})
        self.assertEqual(OF_CLAIMS, {number for number, what in enumerate(places) if what == "c"})
        unread = (proved / "Unread.antt").read_text().partition("\nreasons =\n")[2].partition("\n\n")[0]
        reasons = re.findall(r'ascii "(.*)\\n"', unread)
        self.assertEqual(REASONS, dict(enumerate(reasons[1:6], 1)))
        self.assertEqual(NOT_FACTS, reasons[8])

    def test_sentences(self):
        self.assertEqual(sorted(SENTENCES), [1, *range(3, 22)])
        for number, sentence in SENTENCES.items():
            self.assertEqual(str(Refused(number, 3)), f"REFUSED {number} 3 {sentence}")


class Arguments(unittest.TestCase):
    """The library is not called at all."""

    def refuse(self, kind, question):
        with mock.patch.object(_library, "call", side_effect=AssertionError("the library was called")):
            with self.assertRaises(kind):
                question()

    def test_types(self):
        steps = SESSION.why("PART", 5, 2)
        working = WorkingBook()
        for question in (
            lambda: SESSION.ask("PART", "5", 2),
            lambda: SESSION.ask("PART", 5.0, 2),
            lambda: SESSION.ask("PART", True, 2),
            lambda: SESSION.ask("PART", None, 2),
            lambda: SESSION.ask(None, 5, 2),
            lambda: SESSION.ask("PART", 5, 2, sheets="yes"),
            lambda: SESSION.ask_all([("PART", 5)]),
            lambda: SESSION.ask_all([["PART", 5, 2]]),
            lambda: SESSION.ask_all(7),
            lambda: SESSION.inside("1"),
            lambda: SESSION.apart(1.5),
            lambda: SESSION.replicates(5),
            lambda: list(SESSION.replicates([1, "2"])),
            lambda: SESSION.compare("book"),
            lambda: SESSION.passes([1, 2], "PART", 5, 2),
            lambda: SESSION.contradicted_by([steps[0], None]),
            lambda: Book("PART 1 0"),
            lambda: Book.from_text(5),
            lambda: Book.from_records(5),
            lambda: Book.from_records([PART]),
            lambda: Book.convert("text"),
            lambda: WorkingBook("book"),
            lambda: working.add("PART", 1, None),
            lambda: working.withdraw("0"),
        ):
            self.refuse(TypeError, question)

    def test_values(self):
        working = WorkingBook()
        for question in (
            lambda: SESSION.ask("PRAT", 5, 2),
            lambda: SESSION.ask("meet\u017f", 5, 2),
            lambda: SESSION.ask("VOID", 5, 0),
            lambda: SESSION.ask(5, 5, 2),
            lambda: SESSION.ask(6, 5, 0),
            lambda: SESSION.ask("PART", -1, 2),
            lambda: SESSION.ask("PART", 65536, 2),
            lambda: SESSION.ask("PART", 2**70, 2),
            lambda: SESSION.touching(-1),
            lambda: list(SESSION.replicates([-1])),
            lambda: SESSION.passes([Step(0, Kind.PART, 70000, 0, None, 0, ())], "PART", 5, 2),
            lambda: SESSION.passes([Step(0, Kind.PART, 1, 0, "z", None, ())], "PART", 5, 2),
            lambda: Book.from_records([Record(Kind.PART, 1, 65536)]),
            lambda: working.add("PART", 1, -1),
            lambda: working.withdraw(-1),
            lambda: working.withdraw(2**64),
        ):
            self.refuse(ValueError, question)

    def test_pictures(self):
        first = Step(0, Kind.PART, 1, 0, None, 0, ())
        for draw in (tree_svg, grid_svg, page_html):
            self.refuse(TypeError, lambda: draw("part 1 0"))
        self.refuse(TypeError, lambda: chain_svg(["0 PART 1 0 RECORD 0"]))
        self.refuse(TypeError, lambda: chain_svg(7))
        self.refuse(ValueError, lambda: chain_svg(iter([])))
        self.refuse(ValueError, lambda: chain_svg([first._replace(number=1)]))
        for premises in ((0, 1), (-1, 0), (0, 5)):
            self.refuse(ValueError, lambda: chain_svg([first, Step(1, Kind.PART, 1, 0, "a", None, premises)]))

    def test_a_long_chain_is_judged_by_the_library(self):
        steps = [Step(0, Kind.PART, 1, 0, None, 0, ())] * 20000
        self.assertFalse(SESSION.passes(steps, "PART", 1, 0))

    def test_grid_beyond_its_pieces(self):
        grid = SESSION.grid()
        self.assertRaises(ValueError, grid.follows, "PART", 6, 0)
        self.assertRaises(ValueError, grid.sign, 0, 6)


class Files(unittest.TestCase):
    def test_open(self):
        with tempfile.NamedTemporaryFile() as file:
            self.assertEqual(Book.open(file.name).pieces, 1)
            for content, told in ((b"\1" * 60001, (4, 0, None)), (b"#\npart 1 0\npart 1 0", (9, 1, 3)), (PART + b"\1", (3, 0, None))):
                file.seek(0)
                file.truncate()
                file.write(content)
                file.flush()
                self.assertEqual(refusal(lambda: Book.open(file.name)), told)
        self.assertRaises(FileNotFoundError, Book.open, file.name)

    def test_missing_library(self):
        with mock.patch.dict("os.environ", {_library.VARIABLE: "/nowhere/libpiecebook.so"}):
            _library._function.cache_clear()
            with self.assertRaises(LibraryMissing) as caught:
                Book()
            _library._function.cache_clear()
        self.assertIn("/nowhere/libpiecebook.so", str(caught.exception))
        self.assertIn("python/build", str(caught.exception))

    def test_another_library(self):
        with mock.patch.dict("os.environ", {_library.VARIABLE: "libc.so.6"}):
            _library._function.cache_clear()
            with self.assertRaises(LibraryMissing) as caught:
                Book()
            _library._function.cache_clear()
        self.assertIn("another edition", str(caught.exception))


if __name__ == "__main__":
    unittest.main()
