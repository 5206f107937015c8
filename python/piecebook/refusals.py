"""What a book is refused by, and what cannot be read: each with a plain sentence."""
from __future__ import annotations

# the same words as the program's; 2 does not occur
SENTENCES = {
    1: "a lent buffer is too short",
    3: "the book is not whole records of six bytes",
    4: "the book has more than 8192 records",
    5: "this record has no known kind",
    6: "this record has no known origin",
    7: "this record names a piece above 2047",
    8: "this record names a piece before its container",
    9: "this record repeats an earlier one",
    10: "the claims are not whole claims of six bytes",
    11: "there are more than 4096 claims",
    12: "this claim has no known kind or choice of facts",
    13: "the book has no piece of that number",
    14: "the records up to this one contradict each other",
    15: "there is too little room for the steps",
    16: "a grid has at most 64 pieces",
    17: "there is too little room for the lists",
    18: "there is no record of that number",
    19: "this VOID record names a second piece, or piece 0",
    20: "the log is not whole entries of two bytes, or has more than 32768",
    21: "this entry names a piece that the book does not have",
}
CONTRADICTORY = 14
# whose place counts records, and whose counts claims or entries of a log
OF_RECORDS = frozenset({5, 6, 7, 8, 9, 14, 19})
OF_CLAIMS = frozenset({12, 13, 21})

REASONS = {
    1: "not a kind",
    2: "a number from 0 to 65535 is missing",
    3: "not an origin: sheet or scanner",
    4: "a word too many",
    5: "longer than 524288 bytes",
}
# words have no lines
WORDS = "WORDS "
NOT_FACTS = "not a choice of facts: all or sheets"


class Refused(Exception):
    """The library refused. `number` says why and `sentence` says it in words; `place` is the record or claim, from 0.

    `line` is the line of the text that the place was read from, or None; `book` is 2 where a comparison refused the second book.
    """

    def __init__(self, number: int, place: int, line: int | None = None, book: int = 0) -> None:
        super().__init__(number, place, line, book)
        self.number = number
        self.place = place
        self.line = line
        self.book = book
        self.sentence = SENTENCES[number]

    def __str__(self) -> str:
        words = ["SECOND"] * (self.book == 2) + ["REFUSED", str(self.number), str(self.place)]
        words += [] if self.line is None else ["line", str(self.line)]
        return " ".join(words + [self.sentence])


class Unread(Exception):
    """A text cannot be read: its first bad line, from 1, the number of the reason, and the sentence.

    `source` is "CLAIMS ", "LOG " or, for words in the arguments of a command, "WORDS "; it is empty for a book.
    """

    def __init__(self, line: int, reason: int, sentence: str, source: str = "") -> None:
        super().__init__(line, reason, sentence, source)
        self.line = line
        self.reason = reason
        self.sentence = sentence
        self.source = source

    def __str__(self) -> str:
        line = "" if self.source == WORDS else f"line {self.line} "
        return f"{self.source}UNREAD {line}{self.sentence}"
