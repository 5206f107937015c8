"""Books, claims and logs as text, by document 03."""
import random
import unittest

from piecebook import Answer, Book, Kind, Record, Refused, Unread, _text

from .examples import random_records

LONGEST = 524288


def unread(text, form=_text.RECORDS):
    """The line, the number and the sentence of what cannot be read."""
    try:
        _text.read(text, form)
    except Unread as bad:
        return bad.line, bad.reason, bad.sentence
    return None


class Reading(unittest.TestCase):
    def test_records(self):
        book = Book.from_text("part 3 1\nVoid 2\nMEETS 1 3 Scanner\nnotPart 3 2 SHEET\n apart\t1\r 2 # a note\n")
        expected = [Record(Kind.PART, 3, 1), Record(Kind.VOID, 2), Record(Kind.MEETS, 1, 3, True)]
        expected += [Record(Kind.NOTPART, 3, 2), Record(Kind.APART, 1, 2)]
        self.assertEqual(book.records, expected)

    def test_lines_are_counted_all(self):
        text = b"\xef\xbb\xbf# a book\n\r\n \t\npart 1 0#1\n\npart 2 0"
        self.assertEqual(_text.read(text, _text.RECORDS), b"\1\0\1\0\0\0\1\0\2\0\0\0")
        self.assertEqual([_text.line_of(text, place) for place in (0, 1)], [4, 6])
        self.assertEqual(unread(b"\n\xef\xbb\xbfpart 1 0"), (2, 1, "not a kind"))

    def test_reasons_from_the_left(self):
        number = "a number from 0 to 65535 is missing"
        for line, reason, sentence in [
            (b"port 1", 1, "not a kind"),
            (b"1 2", 1, "not a kind"),
            (b"part", 2, number),
            (b"part 1", 2, number),
            (b"part 1 x sheet too many", 2, number),
            (b"part 65536 1", 2, number),
            (b"part -1 1", 2, number),
            (b"part 1_0 1", 2, number),
            (b"part \xd9\xa1 1", 2, number),
            (b"void", 2, number),
            (b"part 1 2 all", 3, "not an origin: sheet or scanner"),
            (b"void 1 2", 3, "not an origin: sheet or scanner"),
            (b"part 1 2 sheet 3", 4, "a word too many"),
            (b"part 1 2 \x0b", 3, "not an origin: sheet or scanner"),
        ]:
            self.assertEqual(unread(b"part 1 0\n" + line), (2, reason, sentence), line)

    def test_reasons_of_claims_and_logs(self):
        self.assertEqual(unread(b"void 1", _text.CLAIMS), (1, 1, "not a kind"))
        self.assertEqual(unread(b"part 1 2 scanner", _text.CLAIMS), (1, 3, "not a choice of facts: all or sheets"))
        self.assertEqual(unread(b"part 1 2 all sheets", _text.CLAIMS), (1, 4, "a word too many"))
        self.assertEqual(unread(b"3\n4 5", _text.LOG), (2, 4, "a word too many"))
        self.assertEqual(unread(b"3\nx", _text.LOG), (2, 2, "a number from 0 to 65535 is missing"))

    def test_numbers(self):
        read = _text.read(b"0\n00065535\n" + b"0" * 9000 + b"7", _text.LOG)
        self.assertEqual(read, b"\0\0\xff\xff\7\0")
        self.assertEqual(unread(b"1" * 9000, _text.LOG)[1], 2)

    def test_where_reading_stops(self):
        line = b"part 1 0\n"
        self.assertEqual(len(_text.read(line * 8193 + b"bad", _text.RECORDS)), 6 * 8193)
        self.assertEqual(unread(line * 8192 + b"bad")[0], 8193)
        self.assertEqual(len(_text.read(line * 4097 + b"bad", _text.CLAIMS)), 6 * 4097)
        self.assertEqual(len(_text.read(b"1\n" * 32769 + b"bad", _text.LOG)), 2 * 32769)

    def test_length(self):
        self.assertIsNone(unread(b" " * LONGEST))
        self.assertEqual(unread(b" " * (LONGEST + 1)), (0, 5, "longer than 524288 bytes"))


class Shown(unittest.TestCase):
    def test_round_trip(self):
        chance = random.Random(30)
        for _ in range(200):
            records = random_records(chance, 40, 30)
            text = "".join(f"{record}\n" for record in records)
            self.assertEqual(Book.from_text(text).records, records)
            self.assertEqual(str(Book.from_records(records)), text)

    def test_a_record_of_each_form(self):
        shown = str(Book.from_text("void 2 scanner\nvoid 3\npart 1 0 scanner\nnotpart 0 1"))
        self.assertEqual(shown, "VOID 2 scanner\nVOID 3\nPART 1 0 scanner\nNOTPART 0 1\n")


class EitherForm(unittest.TestCase):
    def test_first_byte(self):
        self.assertEqual([_text.is_text(bytes([first])) for first in (0, 1, 6, 8, 9, 10, 35, 239)], [False] * 4 + [True] * 4)
        self.assertFalse(_text.is_text(b""))

    def test_unread_text_names_its_line(self):
        with self.assertRaises(Unread) as caught:
            Book.from_text("part 1 0\npart one 0")
        self.assertEqual(str(caught.exception), "UNREAD line 2 a number from 0 to 65535 is missing")
        with self.assertRaises(Unread) as caught:
            Book().ask_all("part 0 0 sheet")
        self.assertEqual(str(caught.exception), "CLAIMS UNREAD line 1 not a choice of facts: all or sheets")
        with self.assertRaises(Unread) as caught:
            Book().replicates("#" * (LONGEST + 1))
        self.assertEqual(str(caught.exception), "LOG UNREAD line 0 longer than 524288 bytes")

    def test_claims_of_a_text_have_lines(self):
        book = Book.from_text("part 1 0")
        with self.assertRaises(Refused) as caught:
            book.ask_all("# claims\n\npart 1 0\npart 9 0")
        self.assertEqual(str(caught.exception), "REFUSED 13 1 line 4 the book has no piece of that number")
        self.assertEqual(book.ask_all("apart 1 0 # no\n"), [Answer.DENIED])


if __name__ == "__main__":
    unittest.main()
