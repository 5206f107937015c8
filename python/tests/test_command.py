"""The pictures from the command line."""
import contextlib
import io
import os
import pathlib
import subprocess
import sys
import tempfile
import unittest
import xml.etree.ElementTree as xml

from piecebook import Book
from piecebook.__main__ import main
from piecebook.pictures import grid_svg, page_html, tree_svg

from .examples import REPOSITORY, SEASON

PACKAGE = REPOSITORY / "python"


def run(*words, **environment):
    """Exit status, standard output and standard error."""
    done = subprocess.run(
        [sys.executable, "-B", "-m", "piecebook", *map(str, words)], cwd=PACKAGE, capture_output=True, text=True, env={**os.environ, **environment}
    )
    return done.returncode, done.stdout, done.stderr


def told(*words):
    """The same without a process of its own."""
    out, problem = io.TextIOWrapper(io.BytesIO(), encoding="utf-8"), io.StringIO()
    with contextlib.redirect_stdout(out), contextlib.redirect_stderr(problem):
        try:
            status = main([str(word) for word in words])
        except SystemExit as end:
            status = end.code
    return status, out.buffer.getvalue().decode(), problem.getvalue()


class Command(unittest.TestCase):
    def test_pictures(self):
        book = Book.open(SEASON)
        self.assertEqual(run("tree", SEASON), (0, tree_svg(book), ""))
        self.assertEqual(told("grid", SEASON), (0, grid_svg(book), ""))
        status, text, _ = told("chain", SEASON, "Apart", 21, 6)
        self.assertEqual((status, xml.fromstring(text)[0].text), (0, "Why APART 21 6 FOLLOWS"))

    def test_page_into_a_file(self):
        with tempfile.TemporaryDirectory() as folder:
            out = pathlib.Path(folder) / "page.html"
            self.assertEqual(told("page", SEASON, "meets", 14, 2, "sheets", "-o", out), (0, "", ""))
            self.assertIn("Why MEETS 14 2 sheets OPEN", out.read_text())
            self.assertEqual(told("page", SEASON, "-o", out), (0, "", ""))
            self.assertEqual(out.read_text(), page_html(Book.open(SEASON), title="season.txt"))

    def test_refusals_and_mistakes(self):
        with tempfile.TemporaryDirectory() as folder:
            bad, unread = pathlib.Path(folder) / "bad", pathlib.Path(folder) / "unread"
            bad.write_text("part 2 1\napart 2 1\n")
            unread.write_text("prat 2 1\n")
            self.assertEqual(run("tree", bad), (1, "", "REFUSED 14 1 line 2 the records up to this one contradict each other\n"))
            self.assertEqual(told("grid", unread), (1, "", "UNREAD line 1 not a kind\n"))
            self.assertEqual(told("chain", bad)[0], 0)
            self.assertEqual(told("page", bad)[0], 0)
            self.assertEqual(told("tree", pathlib.Path(folder) / "none")[0], 2)
        for words in (("chain", SEASON), ("chain", SEASON, "meets", 14, 2, "sheets")):
            self.assertEqual(told(*words)[:2], (2, ""), words)
        number = "a number from 0 to 65535 is missing"
        for claim, reason in (
            ("part x 1", number),
            ("part", number),
            ("part 1 \u0663", number),
            ("prat 1 2", "not a kind"),
            ("void 1", "not a kind"),
            ("part 1 2 sheet", "not a choice of facts: all or sheets"),
            ("part 1 2 all all", "a word too many"),
        ):
            self.assertEqual(told("chain", SEASON, *claim.split()), (1, "", f"WORDS UNREAD {reason}\n"), claim)
        self.assertEqual(told("tree", SEASON, "part", 1, 2)[:2], (2, ""))
        self.assertEqual(told("chain", SEASON, "part", 1, 99)[:2], (1, ""))
        self.assertEqual(told("fresco", SEASON)[0], 2)

    def test_missing_library(self):
        status, text, told = run("tree", SEASON, PIECEBOOK_LIBRARY="/nowhere/libpiecebook.so")
        self.assertEqual((status, text), (2, ""))
        self.assertIn("python/build", told)
        self.assertEqual(len(told.splitlines()), 1)


if __name__ == "__main__":
    unittest.main()
