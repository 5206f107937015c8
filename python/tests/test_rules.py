"""Small books, the printed session and random ones, against the rules, applied one by one."""
import random
import unittest

from piecebook import Answer, Book, Claim
from piecebook.steps import RULES

from .examples import FACTS, SESSION, facts_of, marks_of, pieces_of, random_records, rules

BOOKS = 80


def both_ways(facts):
    """The facts, unordered ones either way round."""
    facts = set(facts)
    return facts | {(kind, b, a) for kind, a, b in facts if kind in (rules.APART, rules.MEETS)}


def some_books():
    """The printed session, then random books without end."""
    yield SESSION.records
    chance = random.Random(20)
    while True:
        yield random_records(chance, chance.randrange(2, 6), chance.randrange(1, 9))


def accepted_books():
    """Books that the rules have no quarrel with, with what they derive from all facts and from the sheets."""
    found = []
    books = some_books()
    while len(found) < BOOKS:
        records = next(books)
        pieces, void = pieces_of(records), marks_of(records)
        known = rules.saturate(facts_of(records), pieces, void)
        if not rules.contradictory(known):
            found.append((records, pieces, known, rules.saturate(facts_of(records, sheets=True), pieces, void)))
    return found


class Random(unittest.TestCase):
    @classmethod
    def setUpClass(cls):
        cls.accepted = accepted_books()

    def test_answers_of_all_claims(self):
        told = set()
        for records, pieces, known, by_sheets in self.accepted:
            book = Book.from_records(records)
            self.assertEqual(book.pieces, len(pieces))
            claims = [Claim(kind, a, b, sheets) for kind in FACTS for a in pieces for b in pieces for sheets in (False, True)]
            wanted = [rules.answer(by_sheets if claim.sheets else known, claim[:3]) for claim in claims]
            self.assertEqual(book.ask_all(claims), wanted)
            told.update(wanted)
        self.assertEqual(told, {1, 2, 3})

    def test_lists_and_grids(self):
        for records, pieces, known, _ in self.accepted:
            book = Book.from_records(records)
            grid = book.grid()
            for b in pieces:
                self.assertEqual(book.inside(b), [a for a in pieces if (rules.PART, a, b) in known])
                self.assertEqual(book.touching(b), [a for a in pieces if (rules.MEETS, a, b) in known])
                self.assertEqual(book.apart(b), [a for a in pieces if (rules.APART, a, b) in known])
                for a in pieces:
                    self.assertEqual([grid.follows(kind, a, b) for kind in FACTS], [(kind, a, b) in known for kind in FACTS])
                    self.assertEqual(grid.void(a), a in marks_of(records))

    def test_groups_and_places(self):
        several = 0
        for records, pieces, known, _ in self.accepted:
            records = [record for record in records if record.kind is not FACTS[0] or record.a != record.b]
            book = Book.from_records(records)
            parts = rules.saturate({fact for fact in facts_of(records) if fact[0] == rules.PART}, pieces_of(records))
            same = lambda a, b: (rules.PART, a, b) in parts and (rules.PART, b, a) in parts
            tree = book.tree()
            for piece, place in enumerate(tree.places):
                self.assertEqual(tree.nodes[place].pieces, tuple(other for other in pieces_of(records) if same(piece, other)))
            for node in tree.nodes[1:]:
                self.assertIn((rules.PART, node.pieces[0], tree.nodes[node.parent].pieces[0]), parts)
                self.assertEqual(node.pieces, tree.nodes[node.place if node.stands_for is None else node.stands_for].pieces)
            several += bool(tree.groups)
        self.assertGreater(several, 3)

    def check_step(self, step, earlier, records, pieces, sheets):
        """A step is a record or follows by one rule from the steps that it names."""
        fact = (step.kind, step.a, step.b)
        if step.rule is None:
            self.assertIn(fact, both_ways(facts_of([records[step.record]], sheets)))
        void = set() if step.record is None or step.rule is None else marks_of([records[step.record]])
        marks = marks_of(records) if step.rule == "e'" else void
        if step.rule is not None:
            premises = both_ways((other.kind, other.a, other.b) for other in (earlier[premise] for premise in step.premises))
            self.assertIn(fact, both_ways(rules.new_facts(premises, pieces, marks)))

    def test_chains(self):
        rules_seen = set()
        for records, pieces, known, by_sheets in self.accepted[:30]:
            book = Book.from_records(records)
            for kind, a, b, sheets in ((kind, a, b, sheets) for kind in FACTS for a in pieces for b in pieces for sheets in (False, True)):
                chain = book.why(kind, a, b, sheets)
                self.assertEqual(chain.answer, rules.answer(by_sheets if sheets else known, (kind, a, b)))
                self.assertEqual(bool(chain), chain.answer is not Answer.OPEN)
                for step in chain:
                    self.check_step(step, chain[: step.number], records, pieces, sheets)
                    rules_seen.add(step.rule)
                if chain:
                    shown = kind if chain.answer is Answer.FOLLOWS else rules.OPPOSITE[kind]
                    self.assertIn((shown, a, b), both_ways([(chain[-1].kind, chain[-1].a, chain[-1].b)]))
                    self.assertTrue(book.passes(chain, kind, a, b, sheets))
        self.assertEqual({None, *RULES} - rules_seen, set())

    def test_contradictions(self):
        chance = random.Random(21)
        found = 0
        while found < 30:
            records = random_records(chance, 4, 9)
            book = Book.from_records(records)
            if book.refusal is None:
                self.assertEqual(book.contradiction(), [])
                continue
            found += 1
            place, pieces, void = book.refusal.place, pieces_of(records), marks_of(records)
            self.assertFalse(rules.contradictory(rules.saturate(facts_of(records[:place]), pieces, void)))
            self.assertTrue(rules.contradictory(rules.saturate(facts_of(records[: place + 1]), pieces, void)))
            chain = book.contradiction()
            for step in chain:
                self.check_step(step, chain[: step.number], records, pieces, False)
                self.assertTrue(step.record is None or step.rule is not None or step.record < place)
            opposite = (rules.OPPOSITE[records[place].kind], records[place].a, records[place].b)
            self.assertIn(opposite, both_ways([(chain[-1].kind, chain[-1].a, chain[-1].b)]))
            self.assertTrue(book.contradicted_by(chain))


if __name__ == "__main__":
    unittest.main()
