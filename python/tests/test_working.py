"""Days at the bench, the log, and two books of one core."""
import random
import threading
import unittest

from piecebook import Answer, Book, Kind, Record, Refused, WorkingBook

from .examples import FACTS, SESSION, random_records


class Days(unittest.TestCase):
    def test_as_a_fresh_book(self):
        chance = random.Random(40)
        refusals = set()
        for _ in range(40):
            day = WorkingBook()
            standing = []
            for _ in range(25):
                wanted = list(standing)
                if standing and chance.random() < 0.3:
                    number = chance.randrange(len(standing) + 1)
                    step = lambda: day.withdraw(number)
                    del wanted[number : number + 1]
                    none = number == len(standing)
                else:
                    record = random_records(chance, 5, 1)[0]
                    step = lambda: day.add(*record)
                    wanted.append(record)
                    none = False
                told = self.told(lambda: Book.from_records(wanted).pieces)
                told = (18, 0) if none else told
                self.assertEqual(self.told(step), told)
                refusals.add(told and told[0])
                standing = wanted if told is None else standing
                self.assertEqual(day.records, standing)
                self.assertEqual((len(day), day.pieces), (len(standing), Book.from_records(standing).pieces))
            self.ask_all(day, Book.from_records(standing))
        self.assertEqual(refusals, {None, 9, 14, 18})

    def told(self, step):
        try:
            step()
        except Refused as refusal:
            return refusal.number, refusal.place
        return None

    def ask_all(self, day, book):
        self.assertEqual(day.book(), book)
        claims = [(kind, a, b, sheets) for kind in FACTS for a in range(book.pieces) for b in range(book.pieces) for sheets in (False, True)]
        self.assertEqual([day.ask(*claim) for claim in claims], book.ask_all(claims))

    def test_begun_with_a_book(self):
        day = WorkingBook(SESSION)
        self.assertEqual((day.records, day.pieces), (SESSION.records, 6))
        day.withdraw(8)
        day.add("void", 7)
        self.assertEqual(day.records, SESSION.records[:8] + [Record(Kind.VOID, 7)])
        self.assertEqual((day.pieces, day.ask("notpart", 2, 1), day.ask("apart", 7, 1)), (8, Answer.OPEN, Answer.FOLLOWS))
        self.assertEqual(SESSION.ask("notpart", 2, 1), Answer.FOLLOWS)
        self.assertRaises(Refused, WorkingBook, Book.from_text("apart 1 1"))

    def test_several_threads_on_one(self):
        day = WorkingBook()
        adders = [threading.Thread(target=lambda first=first: [day.add("part", 2000 - n, 0) for n in range(first, 200, 2)]) for first in (0, 1)]
        for adder in adders:
            adder.start()
        for adder in adders:
            adder.join()
        self.assertEqual(sorted(record.a for record in day.records), list(range(1801, 2001)))


class Logs(unittest.TestCase):
    def expected(self, book, log):
        """Document 02's words, entry by entry."""
        apart = {g: set(book.apart(g)) for g in set(log)}
        for k, piece in enumerate(log):
            window = log[max(0, k - 31) : k + 1]
            pairs = all(window[j] in apart[window[i]] for i in range(len(window)) for j in range(i))
            yield piece, sum(other in apart[piece] for other in window[:-1]), pairs

    def test_of_any_length(self):
        book = Book.from_records([("APART", a, b) for a in range(1, 60) for b in range(1, a) if (a, b) != (7, 3)])
        chance = random.Random(41)
        runs = [chance.sample(range(1, 60), 59) for _ in range(4)]
        log = [piece for run in runs for piece in run] + [0, 5, 5, 3, 7]
        told = [tuple(entry) for entry in book.replicates(log)]
        self.assertEqual(told, list(self.expected(book, log)))
        self.assertEqual({entry[2] for entry in told}, {False, True})
        self.assertEqual([tuple(entry) for entry in book.replicates("\n".join(map(str, log)))], told)

    def test_in_parts(self):
        book = Book.from_text("apart 1 2\napart 2 3")
        log = [1, 2, 3] * 30000
        told = list(book.replicates(iter(log)))
        self.assertEqual([tuple(entry) for entry in told[:200]], list(self.expected(book, log[:200])))
        self.assertEqual(len(told), len(log))
        # from the 32nd entry on the log and its window repeat every three entries
        self.assertEqual(told[34:], told[31:-3])
        self.assertEqual(list(book.replicates([])), [])


class TwoBooks(unittest.TestCase):
    def test_agreements(self):
        first = Book.from_text("part 2 1\napart 3 1")
        second = Book.from_text("part 2 1\nmeets 3 1")
        found = first.compare(second, "part 2 1\napart 3 2\napart 3 1")
        self.assertFalse(found.together)
        self.assertEqual([str(row.agreement) for row in found.claims], ["SAME", "ONE OPEN", "OPPOSED"])
        self.assertEqual([(row.first, row.second) for row in found.claims][2], (Answer.FOLLOWS, Answer.DENIED))
        self.assertEqual(str(found.claims[1].claim), "APART 3 2")
        self.assertTrue(first.compare(first).together)
        self.assertEqual(first.compare(second).claims, [])

    def test_random(self):
        chance = random.Random(42)
        together = set()
        for _ in range(60):
            pair = [Book.from_records(random_records(chance, 5, 5)) for _ in range(2)]
            if any(book.refusal for book in pair):
                continue
            most = max(book.pieces for book in pair)
            claims = [(kind, a, b) for kind in FACTS for a in range(most) for b in range(most)]
            found = pair[0].compare(pair[1], claims)
            wider = [book if book.pieces == most else Book.from_records(book.records + [Record(Kind.PART, most - 1, 0)]) for book in pair]
            answers = list(zip(*(book.ask_all(claims) for book in wider)))
            self.assertEqual([(row.first, row.second) for row in found.claims], answers)
            joined = Book.from_records(dict.fromkeys(pair[0].records + pair[1].records))
            self.assertEqual(found.together, joined.refusal is None)
            together.add(found.together)
        self.assertEqual(together, {False, True})


if __name__ == "__main__":
    unittest.main()
