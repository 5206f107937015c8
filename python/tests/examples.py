"""Books that several tests ask, and the rules of document 01 one by one."""
import importlib.util
import pathlib
import random
import sys

from piecebook import Book, Kind, Record

REPOSITORY = pathlib.Path(__file__).resolve().parents[2]
SEASON = REPOSITORY / "examples" / "season.txt"


def _rules():
    sys.dont_write_bytecode = True
    spec = importlib.util.spec_from_file_location("rules", REPOSITORY / "tests" / "rules.py")
    module = importlib.util.module_from_spec(spec)
    spec.loader.exec_module(module)
    return module


rules = _rules()
SESSION = Book.from_records(rules.SESSION)
FACTS = (Kind.PART, Kind.APART, Kind.MEETS, Kind.NOTPART)


def random_records(chance: random.Random, pieces: int, count: int) -> list[Record]:
    """Distinct records, few of them APART or VOID, so that many books are accepted; containers of any number."""
    records = {}
    for _ in range(count):
        kind = chance.choice([Kind.PART] * 5 + [Kind.MEETS, Kind.NOTPART, Kind.APART] * 2 + [Kind.VOID])
        a = chance.randrange(1, pieces) if kind is Kind.VOID else chance.randrange(pieces)
        b = 0 if kind is Kind.VOID else chance.randrange(pieces)
        records[Record(kind, a, b, chance.random() < 0.3)] = None
    return list(records)


def facts_of(records, sheets=False):
    """The facts that count: all, or those of cutting sheets."""
    return {(record.kind, record.a, record.b) for record in records if record.kind is not Kind.VOID and not (sheets and record.scanner)}


def marks_of(records):
    """The pieces that are marked void."""
    return {record.a for record in records if record.kind is Kind.VOID}


def pieces_of(records):
    """All pieces up to the largest number named."""
    return range(1 + max([0] + [max(record.a, record.b) for record in records]))
