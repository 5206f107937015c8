"""The piece book of an ice core laboratory, from Python.

    from piecebook import Book
    book = Book.open("season.txt")
    book.ask("PART", 5, 2)            # Answer.FOLLOWS, Answer.DENIED or Answer.OPEN
    print(book.why("PART", 5, 2))     # the steps behind it

All answers come from the proved library; `python/build` puts it beside this package. A call has 1 MiB of its thread's stack.
"""
from ._library import LibraryMissing
from .book import Book
from .comparison import Agreement, Comparison
from .grid import Grid
from .records import Answer, Claim, Kind, Record
from .refusals import Refused, Unread
from .replicates import Replicate
from .steps import Chain, Step
from .tree import Node, Tree
from .working import WorkingBook

__all__ = [
    "Agreement",
    "Answer",
    "Book",
    "Chain",
    "Claim",
    "Comparison",
    "Grid",
    "Kind",
    "LibraryMissing",
    "Node",
    "Record",
    "Refused",
    "Replicate",
    "Step",
    "Tree",
    "Unread",
    "WorkingBook",
]
