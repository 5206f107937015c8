"""Document 01's session, the README's examples and the season's book."""
import contextlib
import io
import os
import unittest

from piecebook import Answer, Book, Claim, Kind, Record, Refused, Step

from .examples import REPOSITORY, SEASON, SESSION, rules

GRID = """\
PIECES 6
   012345
 0 =>>>>>
 1 <=o>>>
 2 <o=o>>
 3 <<o=||
 4 <<<|=>
 5 <<<|<="""


class Session(unittest.TestCase):
    def test_answers(self):
        said = [line.split() for line in (REPOSITORY / "examples" / "expected.txt").read_text().splitlines()[1:]]
        self.assertEqual([str(answer) for answer in SESSION.ask_all(rules.CLAIMS)], [words[-1] for words in said])
        self.assertEqual([str(SESSION.ask(*words[1:2], *map(int, words[2:4]))) for words in said], [words[-1] for words in said])

    def test_files_in_both_forms(self):
        book = Book.open(REPOSITORY / "examples" / "book.rec")
        self.assertEqual(book, SESSION)
        self.assertEqual(Book.from_text(str(book)), SESSION)
        claims = (REPOSITORY / "examples" / "claims").read_bytes()
        shown = "\n".join(str(Claim(Kind(kind), a, b)) for kind, a, b in rules.CLAIMS)
        self.assertEqual(book.ask_all(claims), book.ask_all(shown))
        self.assertEqual(book.ask_all(shown.encode()), book.ask_all(rules.CLAIMS))

    def test_index(self):
        self.assertEqual((SESSION.pieces, SESSION.nodes, SESSION.shadows), (6, 7, 1))
        tree = SESSION.tree()
        self.assertEqual(tree.places, (0, 1, 5, 2, 3, 4))
        self.assertEqual([node.parent for node in tree.nodes], [None, 0, 1, 1, 3, 0, 5])
        self.assertEqual([node.stands_for for node in tree.nodes], [None] * 6 + [3])
        self.assertEqual(tree.nodes[6].pieces, (4,))
        self.assertEqual(tree.groups, [])

    def test_lists_and_grid(self):
        self.assertEqual(SESSION.inside(1), [1, 3, 4, 5])
        self.assertEqual(SESSION.touching(3), [0, 1, 2, 3])
        self.assertEqual(SESSION.apart(3), [4, 5])
        self.assertEqual(str(SESSION.grid()), GRID)

    def test_chain(self):
        chain = SESSION.why("part", 5, 2)
        self.assertEqual((chain.answer, chain[-1].shown, chain[-1].rule), (Answer.FOLLOWS, "PART 5 2", "a"))
        self.assertEqual({(step.shown, step.record) for step in chain if step.rule is None}, {("PART 5 4", 5), ("PART 4 2", 4)})
        self.assertEqual(str(chain).splitlines(), ["PART 5 2 FOLLOWS"] + [str(step) for step in chain])
        denied = SESSION.why("PART", 2, 1)
        self.assertEqual((denied.answer, denied[-1].shown), (Answer.DENIED, "NOTPART 2 1"))
        self.assertEqual(str(SESSION.why(Kind.PART, 3, 2)), "PART 3 2 OPEN")
        self.assertTrue(str(SESSION.why("PART", 5, 2, sheets=True)).startswith("PART 5 2 sheets FOLLOWS\n"))

    def test_lines_of_steps(self):
        self.assertEqual(str(Step(0, Kind.PART, 5, 4, None, 5, ())), "0 PART 5 4 RECORD 5")
        self.assertEqual(str(Step(0, Kind.PART, 1, 1, "c", None, ())), "0 PART 1 1 RULE c")
        self.assertEqual(str(Step(2, Kind.MEETS, 1, 1, "e'", None, ())), "2 MEETS 1 1 RULE e'")
        self.assertEqual(str(Step(1, Kind.APART, 2, 1, "d", 4, ())), "1 APART 2 1 RULE d RECORD 4")
        self.assertEqual(str(Step(7, Kind.NOTPART, 2, 1, "d'", None, (0, 6))), "7 NOTPART 2 1 RULE d' FROM 0 6")
        self.assertIn("RULE e RECORD 1", str(Book.from_text("part 1 0\nvoid 2").why("part", 2, 1)))

    def test_empty_book(self):
        book = Book()
        self.assertEqual((book.pieces, book.nodes, book.shadows, book.records), (1, 1, 0, []))
        self.assertEqual(book.ask_all([]), [])
        self.assertEqual(str(book.grid()), "PIECES 1\n   0\n 0 =")
        self.assertEqual(Book.from_text(""), book)

    def test_sheets_only(self):
        book = Book.from_text("part 2 1 scanner\npart 3 2")
        self.assertEqual(book.ask("part", 3, 1), Answer.FOLLOWS)
        self.assertEqual(book.ask("part", 3, 1, sheets=True), Answer.OPEN)
        self.assertEqual(book.ask_all("part 3 1 sheets\npart 3 1 all\npart 3 2 sheets"), [Answer.OPEN, Answer.FOLLOWS, Answer.FOLLOWS])

    def test_convert(self):
        tray = bytes([5, 0, 7, 0, 255, 255])
        book = Book.convert(bytes(SESSION) + tray)
        self.assertEqual(book.records, SESSION.records + [Record(Kind.PART, 7, 0)])
        self.assertEqual(Book.convert(bytes(SESSION)), SESSION)
        self.assertEqual(Book.convert(tray).records, [Record(Kind.PART, 7, 0)])

    def test_season(self):
        book = Book.open(SEASON)
        self.assertIsNone(book.refusal)
        self.assertEqual((book.pieces, book.tree().groups, book.void), (23, [(18, 19)], [20]))
        self.assertTrue(any(record.scanner for record in book.records))
        self.assertEqual(book.ask("apart", 21, 6), Answer.FOLLOWS)
        self.assertEqual(book.ask("notpart", 14, 16), Answer.FOLLOWS)
        self.assertEqual(book.ask("meets", 14, 2), Answer.FOLLOWS)
        self.assertEqual(book.ask("meets", 14, 2, sheets=True), Answer.OPEN)
        self.assertEqual(book.inside(3), [3, 15, 16, 17, 18, 19, 20])
        self.assertEqual(str(book.grid()).splitlines()[1:3], [" " * 13 + "1111111111222", "   01234567890123456789012"])


class Readme(unittest.TestCase):
    def test_example(self):
        example = (REPOSITORY / "python" / "README.md").read_text().split("```python\n")[1].split("```")[0]
        shown = [line.split("# ") for line in example.splitlines() if line.startswith("book.")]
        names = {}
        self.addCleanup(os.chdir, os.getcwd())
        os.chdir(REPOSITORY)
        with contextlib.redirect_stdout(io.StringIO()) as printed:
            exec(example, names)
        self.assertEqual([repr(eval(asked, names)).split(":")[0].strip("<") for asked, _ in shown], [told.split(":")[0] for _, told in shown])
        self.assertIn("\n8 3 False\nREFUSED 14 39 the records up to this one contradict each other\n", printed.getvalue())


class Contradiction(unittest.TestCase):
    def test_session_with_a_record_more(self):
        book = Book.from_text(str(SESSION) + "meets 5 3")
        self.assertEqual(str(book.refusal), "REFUSED 14 9 line 10 the records up to this one contradict each other")
        chain = book.contradiction()
        self.assertEqual((chain[-1].kind, {chain[-1].a, chain[-1].b}), (Kind.APART, {3, 5}))
        self.assertTrue(book.contradicted_by(chain))
        self.assertFalse(book.contradicted_by(chain[:-1]))
        self.assertFalse(SESSION.contradicted_by(chain))

    def test_none(self):
        self.assertEqual(SESSION.contradiction(), [])

    def test_shown_but_not_asked(self):
        book = Book.from_text("apart 2 2")
        self.assertEqual(str(book), "APART 2 2\n")
        self.assertEqual(book.contradiction()[-1].shown, "MEETS 2 2")
        for question in (lambda: book.pieces, lambda: book.ask("part", 1, 1), book.tree, book.grid, lambda: book.replicates([])):
            with self.assertRaises(Refused) as caught:
                question()
            self.assertEqual((caught.exception.number, caught.exception.line), (14, 1))


class Checking(unittest.TestCase):
    def test_a_chain_and_an_altered_one(self):
        chain = SESSION.why("apart", 3, 5)
        self.assertTrue(SESSION.passes(chain, "apart", 3, 5))
        self.assertTrue(SESSION.passes(chain, "meets", 3, 5))
        self.assertFalse(SESSION.passes(chain, "apart", 3, 4))
        for k, step in enumerate(chain):
            altered = chain[:k] + [step._replace(a=step.a ^ 1)] + chain[k + 1 :]
            self.assertFalse(SESSION.passes(altered, "apart", 3, 5))
        self.assertFalse(SESSION.passes([], "apart", 3, 5))


if __name__ == "__main__":
    unittest.main()
