"""The steps behind an answer: records at the left, the conclusion at the right."""
from __future__ import annotations

from typing import Iterable

from ..records import Kind
from ..steps import RULES, Chain, Step
from . import svg

WIDTH = 164
HEIGHT = 42
COLUMN = WIDTH + 56
APART = HEIGHT + 16
LANE = 22
# what is larger is drawn as rows
MOST_STEPS = 60
MOST_LEVELS = 12
ROW = 30

SPOKEN = {
    Kind.PART: "{a} lies wholly in {b}",
    Kind.APART: "{a} and {b} share no ice",
    Kind.MEETS: "{a} and {b} share some ice",
    Kind.NOTPART: "some ice of {a} lies outside {b}",
}
BECAUSE = {
    "a": "a part of a part is a part",
    "b": "what shares no ice with the whole shares none with its part",
    "c": "every piece is part of itself",
    "f": "every piece is part of piece 0",
    "a'": "where some ice of a part lies outside, some of the whole does",
    "b'": "what lies outside the whole lies outside its part",
    "c'": "what shares ice with a part shares ice with the whole",
    "d'": "what shares ice with something lies partly outside all that is apart from that",
    "e'": "every piece that is not void shares ice with itself",
    "d": "a void piece is apart from every piece",
    "e": "a void piece is part of every piece",
}


def _checked(steps: Iterable[Step]) -> list[Step]:
    """Steps numbered from 0, each premise earlier than its use; or TypeError or ValueError."""
    checked = list(steps)
    if not checked:
        raise ValueError("there are no steps to draw: an open claim has none")
    for number, step in enumerate(checked):
        if not isinstance(step, Step):
            raise TypeError(f"a step is a Step, not {type(step).__name__}")
        if step.number != number or not all(0 <= premise < number for premise in step.premises):
            raise ValueError(f"step {number} is out of order: {step}")
    return checked


def _needed(steps: list[Step]) -> list[Step]:
    """The steps that the last one rests on, each fact once, numbered as they were."""
    first: dict[tuple, int] = {}
    for step in steps:
        first.setdefault((step.kind, step.a, step.b), step.number)
    kept: dict[int, Step] = {}
    wanted = {first[steps[-1].kind, steps[-1].a, steps[-1].b]}
    for step in reversed(steps):
        if step.number in wanted:
            shown = [steps[premise] for premise in step.premises]
            premises = tuple(first[premise.kind, premise.a, premise.b] for premise in shown)
            kept[step.number] = step._replace(premises=premises)
            wanted.update(premises)
    return [kept[number] for number in sorted(kept)]


def _levels(steps: list[Step]) -> dict[int, int]:
    """The column of each step: 0 without premises, else behind all of them."""
    levels: dict[int, int] = {}
    for step in steps:
        levels[step.number] = 1 + max((levels[premise] for premise in step.premises), default=-1)
    return levels


def _columns(steps: list[Step], levels: dict[int, int]) -> list[list[int]]:
    """What stands in each column: its steps, and those that only pass through it to a later one."""
    last_use = dict(levels)
    for step in steps:
        for premise in step.premises:
            last_use[premise] = max(last_use[premise], levels[step.number] - 1)
    columns: list[list[int]] = [[] for _ in range(max(levels.values()) + 1)]
    for step in steps:
        for column in range(levels[step.number], last_use[step.number] + 1):
            columns[column].append(step.number)
    return columns


def _as_read(steps: list[Step]) -> list[int]:
    """The steps in the order in which a reader comes to them from the conclusion, premises from the left."""
    by_number = {step.number: step for step in steps}
    waiting = [steps[-1].number]
    order: dict[int, None] = {}
    while waiting:
        number = waiting.pop()
        if number not in order:
            order[number] = None
            waiting.extend(reversed(by_number[number].premises))
    return list(order)


def _spread(wanted: list[tuple[float, int]], heights: dict[int, float]) -> dict[int, float]:
    """The middles of a column's entries: near where each is wanted, in that order, none upon another."""
    middles: dict[int, float] = {}
    below = None
    for middle, number in sorted(wanted):
        half = heights[number] / 2
        middles[number] = middle if below is None else max(middle, below + half)
        below = middles[number] + half
    drift = sum(middles[number] - middle for middle, number in wanted) / len(wanted)
    return {number: middle - drift for number, middle in middles.items()}


def _middles(steps: list[Step], levels: dict[int, int]) -> list[dict[int, float]]:
    """For each column how high each entry stands."""
    premises = {step.number: step.premises for step in steps}
    order = {number: rank for rank, number in enumerate(_as_read(steps))}
    placed: list[dict[int, float]] = []
    for level, column in enumerate(_columns(steps, levels)):
        heights = {number: float(APART if levels[number] == level else LANE) for number in column}
        wanted = []
        for number in column:
            before = [number] if levels[number] < level else premises[number]
            middles = [placed[-1][premise] for premise in before] if before else [order[number] * 1.0]
            wanted.append((sum(middles) / len(middles), number))
        placed.append(_spread(wanted, heights))
    lowest = min(min(column.values()) for column in placed)
    top = svg.MARGIN + APART / 2 - lowest
    return [{number: middle + top for number, middle in column.items()} for column in placed]


def _source(step: Step) -> str:
    rule = "" if step.rule is None else f"rule {step.rule}"
    record = "" if step.record is None else f"record {step.record}"
    return ", ".join(part for part in (rule, record) if part)


def _tooltip(step: Step) -> str:
    spoken = SPOKEN[step.kind].format(a=step.a, b=step.b)
    return f"{spoken}: " + (f"record {step.record} says so" if step.rule is None else BECAUSE[step.rule]) + f" (step {step.number})"


def _style(step: Step, last: bool) -> str:
    if last:
        return f'fill="{svg.INK}" stroke="{svg.INK}"'
    stored = step.record is not None
    return f'fill="{"#fdf0d5" if stored else svg.FILL}" stroke="{"#b87d00" if stored else svg.BORDER}" stroke-width="1.2"'


def _box(step: Step, x: float, middle: float, last: bool) -> str:
    ink, faint = ("#fff", "#cfe0ec") if last else (svg.INK, svg.FAINT)
    centred = ' text-anchor="middle"'
    shapes = svg.box(x, middle - HEIGHT / 2, WIDTH, HEIGHT, _style(step, last))
    shapes += svg.words(x + WIDTH / 2, middle - 3, step.shown, f'{centred} font-weight="bold" fill="{ink}"')
    shapes += svg.words(x + WIDTH / 2, middle + 13, _source(step), f'{centred} font-size="11" fill="{faint}"')
    return svg.titled(shapes, _tooltip(step))


def _edges(steps: list[Step], levels: dict[int, int], middles: list[dict[int, float]]) -> list[str]:
    """A line from each premise to its use, level across the columns between."""
    left = lambda column: svg.MARGIN + COLUMN * column
    edges: dict[str, None] = {}
    for step in steps:
        for premise in step.premises:
            points = [(left(levels[premise]) + WIDTH, middles[levels[premise]][premise])]
            for column in range(levels[premise] + 1, levels[step.number]):
                across = middles[column][premise]
                points += [(left(column), across), (left(column) + WIDTH, across)]
            points.append((left(levels[step.number]), middles[levels[step.number]][step.number]))
            edges[svg.line(svg.curve(points, False))] = None
    return list(edges)


def _legend(steps: list[Step], y: float) -> tuple[str, float, float]:
    """The rules that are used, in words; their width, and where they end."""
    lines = [f"rule {rule}: {BECAUSE[rule]}" for rule in RULES if any(step.rule == rule for step in steps)]
    shapes = "".join(svg.words(svg.MARGIN, y + 18 * k, text) for k, text in enumerate(lines))
    width = max((svg.width_of(text, 11) for text in lines), default=0) + 2 * svg.MARGIN
    return f'<g class="legend" font-size="11" fill="{svg.FAINT}">{shapes}</g>', width, y + 18 * len(lines)


def _as_graph(steps: list[Step], levels: dict[int, int], title: str) -> str:
    middles = _middles(steps, levels)
    shapes = _edges(steps, levels, middles)
    for step in steps:
        level = levels[step.number]
        shapes.append(_box(step, svg.MARGIN + COLUMN * level, middles[level][step.number], step is steps[-1]))
    width = COLUMN * max(levels.values()) + WIDTH + 2 * svg.MARGIN
    bottom = max(max(column.values()) for column in middles) + APART / 2
    legend, least, height = _legend(steps, bottom + 18)
    return svg.picture(max(width, least), height, title, [*shapes, legend])


def _row(step: Step, y: float, last: bool) -> str:
    """A step of a long chain: its premises are named, and lead to their rows."""
    x = svg.MARGIN + 60 + (0 if not step.premises else 2 * COLUMN if last else COLUMN)
    ink = "#fff" if last else svg.INK
    shapes = svg.box(x, y, WIDTH, 22, _style(step, last))
    shapes += svg.words(x + WIDTH / 2, y + 15, step.shown, f' text-anchor="middle" font-weight="bold" fill="{ink}"')
    row = svg.words(svg.MARGIN + 44, y + 15, str(step.number), f' text-anchor="end" fill="{svg.FAINT}"')
    row += svg.titled(shapes, _tooltip(step), f' id="step-{step.number}"')
    row += svg.words(x + WIDTH + 10, y + 15, _source(step) + (" from" if step.premises else ""), f' fill="{svg.FAINT}"')
    for k, premise in enumerate(step.premises):
        row += f'<a href="#step-{premise}">' + svg.words(x + WIDTH + 84 + 48 * k, y + 15, str(premise), ' fill="#0072b2"') + "</a>"
    return row


def _as_rows(steps: list[Step], title: str) -> str:
    shapes = [_row(step, svg.MARGIN + ROW * k, step is steps[-1]) for k, step in enumerate(steps)]
    width = svg.MARGIN * 2 + 60 + 2 * COLUMN + WIDTH + 190
    return svg.picture(width, 2 * svg.MARGIN + ROW * len(steps), title, shapes)


def chain_svg(steps: Iterable[Step]) -> str:
    """The steps behind an answer as SVG, each fact once; a long chain one step a row. Tooltips say each step in words."""
    needed = _needed(_checked(steps))
    levels = _levels(needed)
    answered = isinstance(steps, Chain) and steps.claim is not None
    title = f"Why {steps.claim} {steps.answer}" if answered else f"Why {needed[-1].shown}"
    if len(needed) > MOST_STEPS or max(levels.values()) >= MOST_LEVELS:
        return _as_rows(needed, title)
    return _as_graph(needed, levels, title)
