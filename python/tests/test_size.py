"""Two threads at once, and the largest books."""
import random
import threading
import time
import unittest
import xml.etree.ElementTree as xml

from piecebook import Answer, Book, Claim, Kind, WorkingBook, _library
from piecebook.pictures import chain_svg, page_html, tree_svg

SECONDS = 5


class Threads(unittest.TestCase):
    def test_each_has_its_own_answers(self):
        chance = random.Random(60)
        books = [Book.from_records([("PART", n, chance.randrange(n)) for n in range(1, 700)]) for _ in range(2)]
        claims = [("PART", chance.randrange(700), chance.randrange(700)) for _ in range(4000)]
        wanted = [book.ask_all(claims) for book in books]
        self.assertNotEqual(*wanted)
        wrong, matrices = [], []

        def ask(k):
            matrices.append(_library._workspace.matrices)
            for _ in range(8):
                if books[k].ask_all(claims) != wanted[k] or not books[k].passes(books[k].why("PART", 699, 0), "PART", 699, 0):
                    wrong.append(k)

        threads = [threading.Thread(target=ask, args=(k,)) for k in range(2)]
        for thread in threads:
            thread.start()
        for thread in threads:
            thread.join()
        self.assertEqual(wrong, [])
        self.assertEqual(len(matrices), 2)
        self.assertIsNot(matrices[0], matrices[1])
        self.assertIsNot(matrices[0], _library._workspace.matrices)


    def test_a_small_stack_is_told(self):
        told = []

        def ask():
            try:
                Book.from_text("part 1 0")
            except RuntimeError as problem:
                told.append(str(problem))

        for size in (2**18, 2**20):
            former = threading.stack_size(size)
            try:
                thread = threading.Thread(target=ask)
                thread.start()
                thread.join()
            finally:
                threading.stack_size(former)
        self.assertEqual(len(told), 1)
        self.assertIn("threading.stack_size", told[0])


class Large(unittest.TestCase):
    def setUp(self):
        self.begun = time.process_time()

    def tearDown(self):
        self.assertLess(time.process_time() - self.begun, SECONDS)

    def test_deep(self):
        book = Book.from_records([("PART", n, n - 1) for n in range(1, 2048)])
        chain = book.why("PART", 2047, 1)
        self.assertEqual(chain.answer, Answer.FOLLOWS)
        self.assertGreater(len(chain), 4000)
        self.assertTrue(book.passes(chain, "PART", 2047, 1))
        self.assertEqual(len(xml.fromstring(tree_svg(book)).findall(".//*[@id]")), 2048)
        self.assertGreater(len(xml.fromstring(chain_svg(chain)).findall(".//*[@id]")), 4000)
        self.assertEqual(book.inside(1000), list(range(1000, 2048)))

    def test_wide(self):
        book = Book.from_records([("PART", n, 0) for n in range(1, 2048)])
        root = xml.fromstring(tree_svg(book))
        self.assertEqual(len(root.findall(".//*[@id]")), 2048)
        self.assertLess(float(root.get("width")), 1500)
        self.assertEqual(page_html(book, Claim(Kind.PART, 2047, 0)).count("<tr><td"), 2047)

    def test_most_records(self):
        chance = random.Random(61)
        records = dict.fromkeys(("PART", n, chance.randrange(n)) for n in range(1, 2048) for _ in range(5))
        records = dict.fromkeys([("PART", n, n // 2) for n in range(1, 2048)] + list(records))
        book = Book.from_records(list(records)[:8192])
        self.assertEqual((len(book.records), book.pieces), (8192, 2048))
        self.assertEqual(len(xml.fromstring(tree_svg(book)).findall(".//*[@id]")), book.nodes)
        self.assertGreater(book.shadows, 4000)
        self.assertEqual(len(page_html(book).split("<tr><td")), 8193)

    def test_one_group(self):
        book = Book.from_records([("PART", n, n - 1) for n in range(1, 2048)] + [("PART", 0, 2047)])
        self.assertEqual(book.tree().groups, [tuple(range(2048))])
        self.assertEqual(book.ask("PART", 0, 2047), Answer.FOLLOWS)

    def test_a_day(self):
        day = WorkingBook(Book.from_records([("PART", n, n // 3) for n in range(1, 2048)]))
        for n in range(20):
            day.add("MEETS", 2047 - n, n + 1)
        day.withdraw(0)
        self.assertEqual(len(day), 2066)
        self.assertEqual(len(list(day.book().replicates(range(2048)))), 2048)


if __name__ == "__main__":
    unittest.main()
