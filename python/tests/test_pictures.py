"""The pictures: well-formed, whole, nothing upon anything else, and text that stays text."""
import html.parser
import itertools
import random
import re
import unittest
import xml.etree.ElementTree as xml

from piecebook import Book, Claim, Kind, Step
from piecebook.pictures import chain_svg, grid_svg, page_html, tree_svg

from .examples import REPOSITORY, SEASON, SESSION, random_records

SVG = "{http://www.w3.org/2000/svg}"
NASTY = "<b>&\"'\x00\x1b\ud800]]>"
EMPTY = {"meta", "br", "hr", "img", "link", "input"}


def legend(root):
    """The lines that explain the rules of a chain."""
    return ["".join(text.itertext()) for group in root.iter(f"{SVG}g") if group.get("class") == "legend" for text in group]


def texts(root):
    """All drawn text but these."""
    explained = {text for group in root.iter(f"{SVG}g") if group.get("class") == "legend" for text in group}
    return ["".join(text.itertext()) for text in root.iter(f"{SVG}text") if text not in explained]


def boxes(root):
    """The boxes with round corners: x, y, width, height, and whether dashed."""
    rects = [rect for rect in root.iter(f"{SVG}rect") if rect.get("rx")]
    return [tuple(float(rect.get(side)) for side in ("x", "y", "width", "height")) for rect in rects]


def accepted(chance, pieces, count):
    while True:
        book = Book.from_records(random_records(chance, pieces, count))
        if book.refusal is None:
            return book


class Page(html.parser.HTMLParser):
    """Every tag is closed in order, ids occur once, and nothing is loaded."""

    def __init__(self):
        super().__init__()
        self.open, self.ids, self.seen, self.bad = [], set(), [], []

    def handle_starttag(self, tag, attributes):
        given = dict(attributes)
        self.seen.append(tag)
        self.bad += [name for name in given if name in ("src", "srcset", "data", "action") or name.startswith("on")]
        self.bad += [value for name, value in attributes if name == "href" and not value.startswith("#")]
        self.bad += [name for name in self.ids if name == given.get("id")]
        self.ids.update(value for name, value in attributes if name == "id")
        if tag not in EMPTY:
            self.open.append(tag)

    def handle_startendtag(self, tag, attributes):
        self.handle_starttag(tag, attributes)
        if tag not in EMPTY:
            self.open.pop()

    def handle_endtag(self, tag):
        if not self.open or self.open.pop() != tag:
            self.bad.append(tag)


class Pictures(unittest.TestCase):
    def assert_apart(self, root):
        """No two boxes overlap, and all lie within the picture."""
        width, height = float(root.get("width")), float(root.get("height"))
        found = boxes(root)
        for x, y, w, h in found:
            self.assertTrue(0 <= x and 0 <= y and x + w <= width and y + h <= height)
        for (x, y, w, h), (p, q, v, g) in itertools.combinations(found, 2):
            self.assertTrue(x + w <= p or p + v <= x or y + h <= q or q + g <= y, ((x, y, w, h), (p, q, v, g)))


class Trees(Pictures):
    def test_session(self):
        root = xml.fromstring(tree_svg(SESSION))
        self.assertEqual(sorted(texts(root))[:7], ["0", "1", "2", "3", "4", "4", "5"])
        tooltips = [title.text for title in root.iter(f"{SVG}title")]
        self.assertIn("4 in 2 too: a shadow of the node under 1", tooltips)
        self.assertIn("5 in 4", tooltips)
        shadow = root.find(f".//{SVG}a")
        self.assertEqual((shadow.get("href"), shadow.find(f".//{SVG}rect").get("stroke-dasharray")), ("#place-3", "4 3"))
        self.assertEqual(sum(path.get("stroke-dasharray") == "4 3" for path in root.iter(f"{SVG}path")), 1)

    def test_groups_and_void(self):
        root = xml.fromstring(tree_svg(Book.open(SEASON)))
        self.assertIn("18 = 19", texts(root))
        self.assertIn("20 void", texts(root))
        self.assert_apart(root)

    def test_nothing_overlaps(self):
        chance = random.Random(50)
        for pieces in (5, 12, 30, 60):
            for _ in range(8):
                book = accepted(chance, pieces, pieces + 2)
                root = xml.fromstring(tree_svg(book, lambda piece: "piece " * (piece % 4) + str(piece)))
                self.assertEqual(len(root.findall(f".//{SVG}g[@id]")), book.nodes)
                self.assert_apart(root)

    def test_both_forms(self):
        wide = Book.from_records([("PART", n, n % 7) for n in range(7, 150)])
        deep = Book.from_records([("PART", n, n - 1) for n in range(1, 150)])
        widths = [float(xml.fromstring(tree_svg(book)).get("width")) for book in (wide, deep)]
        self.assertLess(max(widths), 1500)
        self.assertGreater(widths[0], 600)
        self.assert_apart(xml.fromstring(tree_svg(wide)))
        self.assert_apart(xml.fromstring(tree_svg(deep)))

    def test_lines_of_an_outline_end_at_boxes(self):
        chance = random.Random(52)
        parts = [("PART", n, chance.randrange(n)) for n in range(1, 150)] + [("PART", n, 149 - n) for n in range(100, 140)]
        for records in ([("PART", n, n % 7) for n in range(7, 150)], list(dict.fromkeys(parts))):
            book = Book.from_records(records)
            root = xml.fromstring(tree_svg(book))
            self.assert_apart(root)
            found = boxes(root)[: book.nodes]
            reached = set()
            for path in root.iter(f"{SVG}path"):
                numbers = [float(number) for number in re.findall(r"[-0-9.]+", path.get("d"))]
                command = re.findall("[A-Z]", path.get("d"))[-1]
                end = {"C": numbers[-2:], "H": numbers[:-3:-1], "V": (numbers[0], numbers[-1])}[command]
                reached.update(box for box in found if abs(end[0] - box[0]) < 0.2 and abs(end[1] - box[1] - box[3] / 2) < 0.2)
                reached.update(box for box in found if abs(end[0] - box[0] - box[2] / 2) < 0.2 and abs(end[1] - box[1]) < 0.2)
            self.assertEqual(len(reached), book.nodes - 1)

    def test_a_large_group_is_shortened(self):
        circle = Book.from_records([("PART", n, n - 1) for n in range(1, 300)] + [("PART", 0, 299)])
        root = xml.fromstring(tree_svg(circle))
        self.assertIn("0 = 1 = 2 = 3 and 296 more", texts(root))
        self.assertIn("299", root.find(f".//{SVG}g/{SVG}title").text)
        self.assertLess(float(root.get("width")), 500)


class Grids(Pictures):
    def test_cells(self):
        book = Book.open(SEASON)
        root = xml.fromstring(grid_svg(book))
        cells = [use for use in root.iter(f"{SVG}use") if use.find(f"{SVG}title") is not None]
        self.assertEqual(len(cells), 22 * 22)
        self.assertEqual(len({(cell.get("x"), cell.get("y")) for cell in cells}), 22 * 22)
        told = {cell.find(f"{SVG}title").text: cell.get("href") for cell in cells}
        signs = {told["18 and 19 are the same ice"], told["6 lies wholly in 5"], told["6 and 7 share no ice"], told["7 and 8 share ice"]}
        self.assertEqual(len(signs), 4)
        self.assertIn("14 and 3 share ice, and neither lies wholly in the other", told)
        self.assertIn("14 and 16: open", told)

    def test_void_pieces_stand_apart(self):
        root = xml.fromstring(grid_svg(Book.from_text("void 2\nvoid 3\npart 4 1")))
        cells = [use for use in root.iter(f"{SVG}use") if use.find(f"{SVG}title") is not None]
        self.assertEqual(len(cells), 9)
        self.assertEqual(len(boxes(root)), 2)
        self.assert_apart(root)

    def test_every_sign_is_the_grids(self):
        chance = random.Random(51)
        for _ in range(20):
            book = accepted(chance, 6, 7)
            grid = book.grid()
            pieces = [piece for piece in range(book.pieces) if not grid.void(piece)]
            root = xml.fromstring(grid_svg(book))
            drawn = {group.get("id"): group.find(f"{SVG}text").text for group in root.iter(f"{SVG}g") if group.get("id")}
            cells = [drawn[use.get("href")[1:]] for use in root.iter(f"{SVG}use") if use.find(f"{SVG}title") is not None]
            self.assertEqual(cells, [grid.sign(a, b) for a in pieces for b in pieces])

    def test_long_names_are_turned(self):
        self.assertIn("rotate(-90)", grid_svg(SESSION, lambda piece: f"bag {piece}"))
        self.assertNotIn("rotate(-90)", grid_svg(SESSION))


class Chains(Pictures):
    def test_session(self):
        steps = [Step(0, Kind.PART, 5, 4, None, 5, ()), Step(1, Kind.PART, 4, 2, None, 4, ()), Step(2, Kind.PART, 5, 2, "a", None, (0, 1))]
        self.assertTrue(SESSION.passes(steps, "PART", 5, 2))
        root = xml.fromstring(chain_svg(steps))
        self.assertEqual(texts(root), ["PART 5 4", "record 5", "PART 4 2", "record 4", "PART 5 2", "rule a"])
        self.assertEqual(legend(root), ["rule a: a part of a part is a part"])
        left = {text: box[0] for text, box in zip(texts(root)[::2], boxes(root))}
        self.assertEqual(left["PART 5 4"], left["PART 4 2"])
        self.assertLess(left["PART 4 2"], left["PART 5 2"])

    def test_records_left_conclusion_right(self):
        book = Book.open(SEASON)
        claims = [(kind, a, b) for kind in ("PART", "APART", "NOTPART", "MEETS") for a in (6, 13, 14, 21) for b in (0, 3, 14, 16)]
        drawn = 0
        for claim in claims:
            chain = book.why(*claim)
            if not chain:
                continue
            drawn += 1
            root = xml.fromstring(chain_svg(chain))
            self.assert_apart(root)
            lowest = max(y + h for _, y, _, h in boxes(root))
            lines = [float(text.get("y")) for group in root.iter(f"{SVG}g") if group.get("class") == "legend" for text in group]
            self.assertTrue(all(lowest < y - 10 and y < float(root.get("height")) for y in lines))
            placed = list(zip(boxes(root), texts(root)[::2], texts(root)[1::2]))
            first, last = min(box[0] for box, _, _ in placed), max(box[0] for box, _, _ in placed)
            self.assertEqual({box[0] for box, _, source in placed if source.startswith("record")} or {first}, {first})
            self.assertEqual([shown for box, shown, _ in placed if box[0] == last][-1], chain[-1].shown)
            self.assertEqual(len({shown for _, shown, _ in placed}), len(placed))
        self.assertGreater(drawn, 30)

    def test_lines_end_at_boxes(self):
        root = xml.fromstring(chain_svg(Book.open(SEASON).why("APART", 21, 6)))
        sides = {(end, y + h / 2) for x, y, w, h in boxes(root) for end in (x, x + w)}
        paths = [path.get("d").replace("M", "").replace("C", "").split() for path in root.iter(f"{SVG}path")]
        self.assertGreater(len(paths), 7)
        for path in paths:
            near = lambda x, y: any(abs(float(x) - p) < 0.2 and abs(float(y) - q) < 0.2 for p, q in sides)
            self.assertTrue(near(*path[:2]) and near(*path[-2:]), path)

    def test_a_long_chain_has_rows(self):
        book = Book.from_records([("PART", n, n - 1) for n in range(1, 200)])
        root = xml.fromstring(chain_svg(book.why("PART", 199, 1)))
        self.assert_apart(root)
        self.assertLess(float(root.get("width")), 1000)
        self.assertGreaterEqual(len(boxes(root)), 197 + 198)
        self.assertGreaterEqual(len(root.findall(f".//{SVG}a")), 2 * 197)

    def test_any_iterable(self):
        chain = SESSION.why("PART", 5, 2)
        self.assertEqual(xml.fromstring(chain_svg(iter(chain)))[0].text, "Why PART 5 2")

    def test_no_steps(self):
        self.assertRaises(ValueError, chain_svg, SESSION.why("PART", 3, 2))

    def test_of_a_contradiction(self):
        root = xml.fromstring(chain_svg(Book.from_text(str(SESSION) + "meets 5 3").contradiction()))
        self.assertIn(texts(root)[-2], ("APART 5 3", "APART 3 5"))


class Text(Pictures):
    def test_names_are_escaped(self):
        for draw in (tree_svg, grid_svg):
            root = xml.fromstring(draw(SESSION, lambda piece: NASTY + str(piece)))
            self.assertTrue(any("<b>&\"'" in text for text in texts(root)))
        self.check(page_html(SESSION, Claim(Kind.PART, 5, 2), NASTY, lambda piece: NASTY + str(piece)))

    def check(self, text):
        parser = Page()
        parser.feed(text)
        parser.close()
        self.assertEqual((parser.open, parser.bad), ([], []))
        self.assertNotIn("b", parser.seen)
        self.assertEqual(set(re.findall(r"https?://[^\s\"']*", text)), {"http://www.w3.org/2000/svg"})
        self.assertNotIn("@import", text)
        self.assertNotIn("url(", text)
        text.encode()
        return parser

    def test_page(self):
        book = Book.open(SEASON)
        text = page_html(book, Claim(Kind.APART, 21, 6), "season.txt")
        self.assertEqual(self.check(text).seen.count("svg"), 3)
        for part in ("<td class=\"number\">23</td>", "Why APART 21 6 FOLLOWS", "<td>scanner</td>", f"<pre>{book.why('APART', 21, 6)}</pre>"):
            self.assertIn(part, text)
        self.assertEqual(text.count("<tr><td"), len(book.records))

    def test_page_of_other_books(self):
        self.assertEqual(self.check(page_html(Book.from_text("part 64 0"))).seen.count("svg"), 1)
        self.assertEqual(self.check(page_html(SESSION, Claim(Kind.PART, 3, 2))).seen.count("svg"), 2)
        refused = page_html(Book.from_text("part 2 1\napart 2 1"))
        self.assertEqual(self.check(refused).seen.count("svg"), 1)
        self.assertIn("REFUSED 14 1 line 2", refused)
        self.assertIn("Record 1 says APART 2 1", refused)
        self.assertIn("leave this claim open", page_html(SESSION, Claim(Kind.PART, 3, 2)))

    def test_the_repositorys_pictures(self):
        book = Book.open(SEASON)
        folder = REPOSITORY / "docs" / "pictures"
        self.assertEqual((folder / "tree.svg").read_text(), tree_svg(book))
        self.assertEqual((folder / "grid.svg").read_text(), grid_svg(book))
        self.assertEqual((folder / "chain.svg").read_text(), chain_svg(book.why("APART", 21, 6)))


if __name__ == "__main__":
    unittest.main()
