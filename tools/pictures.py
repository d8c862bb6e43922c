#!/usr/bin/env python3
"""Draws the pictures of the pages, as SVG in docs/pictures, from what stands in the repository.

usage: tools/pictures.py [--check]

- crates.svg: the crates of crates.txt, each above those that it stands on.
- parts.svg: the plain numbers of README.md's table of locales, with their parts by tables/six_locales.json.
- showable.svg: which showable size numbers around 999,500 go to.
- tables.svg: a table's way from CLDR to a text.
- speed.svg: the first table of docs/PERFORMANCE.md.

With --check nothing is written, and a picture that is another is named. Exit status: 0 done, 1 a picture is another, 2 wrong
arguments.
"""
import html
import itertools
import json
import math
import os
import re
import sys
from collections.abc import Iterable, Mapping, Sequence
from typing import TypeAlias

ROOT = os.path.dirname(os.path.dirname(os.path.abspath(__file__)))
sys.path.insert(0, os.path.join(ROOT, "tests"))
import usage  # noqa: E402

FOLDER = "docs/pictures"
SANS = "DejaVu Sans, Verdana, Noto Sans, Noto Sans Bengali, Noto Sans CJK JP, sans-serif"
MONO = "DejaVu Sans Mono, Menlo, Consolas, monospace"
MONO_WIDTH = 0.62  # of a character, in the size of the font
INK, GREY, PALE = "#1a1a1a", "#6b7280", "#e5e7eb"
BLUE, ORANGE, GREEN, RED = "#1d4ed8", "#c2410c", "#15803d", "#b91c1c"
# Numbers around 999,500, and what short English writes of them; tests/docs.py compares the program.
SHOWN = [
    (998000, "998K"),
    (998500, "998K"),
    (998501, "999K"),
    (999000, "999K"),
    (999499, "999K"),
    (999500, "1M"),
    (1000000, "1M"),
    (1100000, "1.1M"),
]


def read(path: str) -> str:
    with open(os.path.join(ROOT, path), encoding="utf-8") as file:
        return file.read()


# Elements

def number(value: float) -> str:
    """A coordinate, in tenths at most."""
    return f"{value:.1f}".rstrip("0").rstrip(".")


def element(name: str, body: str | None = None, **attributes: str | float) -> str:
    words = "".join(
        f' {key.rstrip("_").replace("_", "-")}="{number(value) if isinstance(value, (int, float)) else html.escape(value)}"'
        for key, value in attributes.items()
    )
    return f"<{name}{words}/>" if body is None else f"<{name}{words}>{html.escape(body, quote=False)}</{name}>"


def text(
    x: float, y: float, body: str, size: int = 14, anchor: str = "start", fill: str = INK, family: str = SANS, **more: str
) -> str:
    return element("text", body, x=x, y=y, font_size=size, text_anchor=anchor, fill=fill, font_family=family, **more)


def line(x1: float, y1: float, x2: float, y2: float, stroke: str = INK, width: float = 1.5) -> str:
    return element("line", x1=x1, y1=y1, x2=x2, y2=y2, stroke=stroke, stroke_width=width)


def box(x: float, y: float, width: float, height: float, fill: str) -> str:
    return element("rect", x=x, y=y, width=width, height=height, rx=5, fill=fill, stroke=INK, stroke_width=1.2)


def arrow_head(x: float, y: float, dx: float, dy: float, size: int = 7) -> str:
    """The head of an arrow that ends at a point, in one of the two directions."""
    length = (dx * dx + dy * dy) ** 0.5
    dx, dy = dx / length * size, dy / length * size
    points = [(x, y), (x - dx - dy / 2, y - dy + dx / 2), (x - dx + dy / 2, y - dy - dx / 2)]
    return element("polygon", points=" ".join(f"{number(a)},{number(b)}" for a, b in points), fill=GREY)


def picture(width: float, height: float, title: str, elements: Iterable[str]) -> str:
    size = f'viewBox="0 0 {width} {height}" width="{width}" height="{height}"'
    head = f'<svg xmlns="http://www.w3.org/2000/svg" {size} role="img">'
    back = element("rect", x=0, y=0, width=width, height=height, fill="white")
    return "\n".join([head, element("title", title), back, *elements, "</svg>", ""])


# The crates

# Those that each crate uses.
Uses: TypeAlias = dict[str, list[str]]
# A crate, or the bend in a layer of the edges to a crate, and edges between them.
Node: TypeAlias = str | tuple[str, int]
Edges: TypeAlias = list[tuple[Node, Node]]


def crates() -> Uses:
    """The crates of the repository, each with those that its line names."""
    named: Uses = {}
    for row in read("crates.txt").splitlines():
        name, _, rest = row.partition("#")[0].partition(":")
        if name.strip():
            named[name.split()[0]] = rest.split()
    return {name: [dep for dep in deps if dep in named] for name, deps in named.items()}


def reduced(uses: Uses) -> Uses:
    """The direct uses that no other way leads to."""
    def below(name: str) -> set[str]:
        return {name}.union(*(below(dep) for dep in uses[name]))
    return {
        name: [dep for dep in deps if not any(dep in below(other) for other in deps if other != dep)]
        for name, deps in uses.items()
    }


def layers_of(uses: Uses) -> dict[str, int]:
    """The layer of each crate: one above the highest that it stands on; what stands on none is next to its lowest user."""
    layer: dict[str, int] = {}

    def find(name: str) -> int:
        if name not in layer:
            layer[name] = max((find(dep) + 1 for dep in uses[name]), default=0)
        return layer[name]

    for name in uses:
        find(name)
    for name in uses:
        if not uses[name]:
            layer[name] = min(layer[user] for user in uses if name in uses[user]) - 1
    return layer


def with_bends(uses: Uses, layer: Mapping[str, int]) -> tuple[list[list[Node]], Edges]:
    """Nodes by layer and edges of one layer each: an edge over several layers has a bend in each, shared by its target."""
    rows: list[list[Node]] = [[name for name in uses if layer[name] == at] for at in range(max(layer.values()) + 1)]
    edges: set[tuple[Node, Node]] = set()
    for name, deps in uses.items():
        for dep in deps:
            above: Node = name
            for at in range(layer[name] - 1, layer[dep], -1):
                bend = (dep, at)
                if bend not in rows[at]:
                    rows[at].append(bend)
                edges.add((above, bend))
                above = bend
            edges.add((above, dep))
    return rows, sorted(edges, key=str)


def crossings(rows: Sequence[Sequence[Node]], edges: Edges) -> int:
    """How many edges cross."""
    place = {node: at for row in rows for at, node in enumerate(row)}
    level = {node: at for at, row in enumerate(rows) for node in row}
    count = 0
    for at, (upper, lower) in enumerate(edges):
        for other, under in edges[at + 1:]:
            if level[upper] == level[other]:
                count += (place[upper] - place[other]) * (place[lower] - place[under]) < 0
    return count


def ordered(rows: list[list[Node]], edges: Edges) -> tuple[list[list[Node]], dict[Node, list[Node]]]:
    """The rows in an order with few crossings: by the mean place of the neighbours, and then by exchanges."""
    near: dict[Node, list[Node]] = {node: [] for row in rows for node in row}
    for upper, lower in edges:
        near[upper].append(lower)
        near[lower].append(upper)
    for _ in range(24):
        for row in rows:
            place = {node: at / len(other) for other in rows for at, node in enumerate(other)}
            row.sort(key=lambda node: (sum(place[other] for other in near[node]) / max(1, len(near[node])), str(node)))
    least, is_better = crossings(rows, edges), True
    while is_better:
        is_better = False
        for row in rows:
            for first in range(len(row)):
                for second in range(first + 1, len(row)):
                    row[first], row[second] = row[second], row[first]
                    now = crossings(rows, edges)
                    if now < least:
                        least, is_better = now, True
                    else:
                        row[first], row[second] = row[second], row[first]
    return rows, near


def apart(wanted: Sequence[float], gaps: Sequence[float]) -> list[float]:
    """The places nearest to those that are wanted, in this order and at least these gaps apart."""
    offsets = list(itertools.accumulate([0, *gaps]))
    # the mean place of nodes that stand as near as they may, and how many they are
    blocks: list[tuple[float, int]] = []
    for place, shift in zip(wanted, offsets):
        blocks.append((place - shift, 1))
        while len(blocks) > 1 and blocks[-2][0] > blocks[-1][0]:
            mean, count = blocks.pop()
            mean_before, count_before = blocks.pop()
            total = count_before + count
            blocks.append(((mean_before * count_before + mean * count) / total, total))
    flat = [mean for mean, count in blocks for _ in range(count)]
    return [place + shift for place, shift in zip(flat, offsets)]


def crates_picture() -> str:
    size, height, step = 13, 30, 74
    uses = reduced(crates())
    rows, edges = with_bends(uses, layers_of(uses))
    rows, near = ordered(rows, edges)
    width = {node: len(node) * size * MONO_WIDTH + 18 if isinstance(node, str) else 12 for row in rows for node in row}
    x = {node: 140.0 * at for row in rows for at, node in enumerate(row)}
    for _ in range(200):
        for row in rows:
            wanted = [sum(x[other] for other in near[node]) / len(near[node]) if near[node] else x[node] for node in row]
            gaps = [(width[a] + width[b]) / 2 + 16 for a, b in zip(row, row[1:])]
            x.update(zip(row, apart(wanted, gaps)))
    left = min(x[node] - width[node] / 2 for node in x) - 16
    x = {node: place - left for node, place in x.items()}
    right = round(max(x[node] + width[node] / 2 for node in x) + 16)
    y = {node: 16 + (len(rows) - 1 - at) * step for at, row in enumerate(rows) for node in row}
    drawn = []
    for upper, lower in edges:
        from_y, to_y = y[upper] + height, y[lower]
        drawn.append(line(x[upper], from_y, x[lower], to_y, GREY, 1.3))
        if isinstance(lower, str):
            drawn.append(arrow_head(x[lower], to_y, x[lower] - x[upper], to_y - from_y))
    for bend in (node for node in x if not isinstance(node, str)):
        drawn.append(line(x[bend], y[bend], x[bend], y[bend] + height, GREY, 1.3))
    kinds = dict.fromkeys(("decfmt", "locnum", "talmuiga_c", "examples"), "#dbeafe")
    for name in uses:
        fill = "#f3f4f6" if name.startswith(("rows", "test_")) else kinds.get(name, "#dcfce7")
        drawn.append(box(x[name] - width[name] / 2, y[name], width[name], height, fill))
        drawn.append(text(x[name], y[name] + 20, name, size, "middle", family=MONO))
    base = 16 + len(rows) * step
    at = 16
    told_of = {"#dbeafe": "programs, the library for C", "#dcfce7": "libraries", "#f3f4f6": "rows and tests"}
    for fill, told in told_of.items():
        drawn += [box(at, base - 24, 22, 16, fill), text(at + 30, base - 11, told, 13)]
        at += 50 + 8 * len(told)
    title = "The crates: each stands on those that its arrows lead to, and on what these stand on"
    return picture(right, base + 6, title, drawn)


# Parts

def parts_of(number_text: str, symbols: Mapping[str, str]) -> list[tuple[str, int, int]]:
    """Which cells of a plain number are which part: pairs of a name and a range."""
    point = number_text.index(symbols["decimal"])
    groups = [("group", at, at + 1) for at, letter in enumerate(number_text[:point]) if letter == symbols["group"]]
    return [("integer", 0, point), *groups, ("decimal", point, point + 1), ("fraction", point + 1, len(number_text))]


def parts_picture() -> str:
    rows = re.findall(r"^\| ([\w-]+) \| `([^`]+)` \| `", read("README.md"), flags=re.M)
    tables = {entry["locale"]: entry for entry in json.loads(read("tables/six_locales.json"))["symbols"]}
    colours = {"integer": BLUE, "group": ORANGE, "decimal": RED, "fraction": GREEN}
    cell, column, row_height = 23, 390, 76
    drawn = []
    for at, (locale, told) in enumerate(rows):
        left, top = 20 + at % 2 * column, 44 + at // 2 * row_height
        drawn.append(text(left, top, locale, 16, fill=GREY))
        start = left + 66
        for place, letter in enumerate(told):
            if letter.strip():
                drawn.append(text(start + (place + 0.5) * cell, top, letter, 28, "middle"))
        for name, first, last in parts_of(told, tables[locale]):
            low = top + (22 if name == "group" else 13)
            drawn.append(line(start + first * cell + 2, low, start + last * cell - 2, low, colours[name], 4))
    base = 44 + (len(rows) + 1) // 2 * row_height
    at = 86
    for name, colour in colours.items():
        drawn += [line(at, base - 6, at + 30, base - 6, colour, 4), text(at + 38, base, name, 16)]
        at += 150
    return picture(20 + 2 * column, base + 20, "1234567.8 in six locales, with the parts of the text underlined", drawn)


# Showable sizes

def showable_picture() -> str:
    first, last, left, right, axis = 997700, 1000600, 40, 960, 120

    def place(value: float) -> float:
        return left + (value - first) / (last - first) * (right - left)

    drawn = [line(left, axis, right, axis, INK, 2)]
    bands = [("998K", first, 998500, BLUE), ("999K", 998500, 999500, GREEN), ("1M", 999500, last, ORANGE)]
    for name, low, high, colour in bands:
        drawn.append(line(place(low) + 2, axis, place(high) - 2, axis, colour, 9))
    for value, name, colour in ((998000, "998K", BLUE), (999000, "999K", GREEN), (1000000, "1M", ORANGE)):
        drawn.append(element("circle", cx=place(value), cy=axis, r=9, fill=colour, stroke="white", stroke_width=2))
        drawn += [text(place(value), axis - 46, name, 24, "middle", colour, font_weight="bold")]
        drawn += [text(place(value), axis - 22, f"{value:,}", 15, "middle")]
    for value, name, side in ((998500, "998K", "of the two 998 is even"), (999500, "1M", "of the two 1,000 is even")):
        drawn += [line(place(value), axis - 14, place(value), axis + 22, INK, 2)]
        drawn += [text(place(value), axis + 42, f"{value:,} → {name}", 16, "middle", font_weight="bold")]
        drawn += [text(place(value), axis + 63, side, 14, "middle", GREY)]
    drawn += [text(place(999000), axis + 42, "998,501 to", 14, "middle", GREEN)]
    drawn += [text(place(999000), axis + 61, "999,499", 14, "middle", GREEN)]
    told = "Dots are showable sizes; between two of them lies the midpoint, which goes to the even one."
    drawn.append(text(left, 28, told, 15))
    drawn.append(text(right, axis + 92, "the next showable size is 1,100,000 (1.1M)", 14, "end", GREY))
    drawn.append(text(left, axis + 92, "short English, by tables/sample.json", 14, "start", GREY))
    return picture(1000, axis + 110, "Which showable size a number around 999,500 goes to", drawn)


# A table's way

def tables_picture() -> str:
    steps = [
        ("a CLDR release", ["core.zip, or the", "JSON packages"], "#f3f4f6"),
        ("cldr.json", ["symbols, digits,", "rules, patterns"], "#f3f4f6"),
        ("Tables", ["judged: the tables", "or the first fault"], "#dcfce7"),
        ("a formatter", ["of a locale, a style", "and options"], "#dcfce7"),
        ("123萬", ["the text, with", "its parts"], "#dcfce7"),
    ]
    between = [("cldr_to_", "tables.py"), ("from_", "json"), ("try_new_", ".._unstable"), ("format", "1234567")]
    width, gap, top, height = 160, 106, 40, 84
    drawn = []
    for at, (name, told, fill) in enumerate(steps):
        x = 16 + at * (width + gap)
        drawn.append(box(x, top, width, height, fill))
        drawn.append(text(x + width / 2, top + 27, name, 17, "middle", font_weight="bold"))
        drawn += [text(x + width / 2, top + 50 + 18 * row, words, 14, "middle") for row, words in enumerate(told)]
        if at < len(between):
            drawn.append(line(x + width + 4, top + height / 2, x + width + gap - 8, top + height / 2, GREY, 1.6))
            drawn.append(arrow_head(x + width + gap - 3, top + height / 2, 1, 0, 9))
            upper, lower = between[at]
            drawn.append(text(x + width + gap / 2 - 1, top + height / 2 - 9, upper, 13, "middle", family=MONO))
            drawn.append(text(x + width + gap / 2 - 1, top + height / 2 + 19, lower, 13, "middle", family=MONO))
    end = 16 + 5 * width + 4 * gap
    middle = 16 + 2 * width + 1.5 * gap
    low = top + height + 22
    border = middle - gap / 2
    spans = [(16, border - 4, "tested; what comes out compared with ICU"), (border + 4, end, "proved")]
    for first, last, label in spans:
        drawn += [line(first, low, last, low, INK, 2), text((first + last) / 2, low + 24, label, 16, "middle")]
    drawn.append(text(16, 24, "A table's way from CLDR to a text", 16))
    return picture(end + 16, low + 40, "A table's way from CLDR to a text", drawn)


# Speed

def speed_picture() -> str:
    table = read("docs/PERFORMANCE.md").split("| program |")[1].split("\n\n")[0].splitlines()[2:]
    rows = []
    for row in table:
        cells = [cell.strip() for cell in row.strip("|").split("|")]
        ratios = [re.match(r"[\d.]+", cell) for cell in (cells[1], cells[3])]
        notes = ["" if same in ("yes", "–") else f", {same}" for same in (cells[2], cells[4])]
        rows.append((cells[0], list(zip((float(ratio[0]) if ratio else None for ratio in ratios), (BLUE, ORANGE), notes))))
    left, right, top, bar = 130, 840, 62, 17
    low, high = math.log(0.3), math.log(200)

    def place(ratio: float) -> float:
        return left + (math.log(ratio) - low) / (high - low) * (right - left)

    bottom = top + len(rows) * 54
    drawn = [text(left - 114, 24, "Time, as a multiple of rust_plain's (logarithmic; less is faster)", 16)]
    for mark in (0.5, 1, 2, 5, 10, 20, 50, 100):
        drawn.append(line(place(mark), top - 12, place(mark), bottom, INK if mark == 1 else PALE, 1.5))
        drawn.append(text(place(mark), bottom + 20, f"{mark:g}", 14, "middle"))
    for at, (name, bars) in enumerate(rows):
        y = top + at * 54
        drawn.append(text(left - 12, y + 22, name, 15, "end"))
        for lane, (ratio, colour, note) in enumerate(bars):
            middle = y + lane * (bar + 2)
            if ratio is None:
                drawn.append(text(place(1) + 8, middle + 14, "can't read the long lines", 14, fill=GREY))
                continue
            first, last = sorted((place(1), place(ratio)))
            drawn.append(element("rect", x=first, y=middle, width=max(last - first, 2), height=bar, fill=colour))
            is_less = ratio < 1
            at_x, anchor = (first - 6, "end") if is_less else (last + 6, "start")
            drawn.append(text(at_x, middle + 14, f"{ratio:.2f}{note}", 14, anchor))
    at = left
    for name, colour in (("mixed lines", BLUE), ("long lines", ORANGE)):
        drawn.append(element("rect", x=at, y=bottom + 36, width=24, height=14, fill=colour))
        drawn.append(text(at + 32, bottom + 48, name, 15))
        at += 160
    return picture(900, bottom + 64, "Times of programs, as multiples of those of rust_plain", drawn)


PICTURES = {
    "crates": crates_picture,
    "parts": parts_picture,
    "showable": showable_picture,
    "tables": tables_picture,
    "speed": speed_picture,
}


def stale() -> dict[str, str]:
    """The pictures that aren't as they are drawn, each with its text."""
    wanted = {f"{FOLDER}/{name}.svg": draw() for name, draw in PICTURES.items()}
    return {
        path: drawn for path, drawn in wanted.items()
        if not os.path.exists(os.path.join(ROOT, path)) or read(path) != drawn
    }


def main(words: Sequence[str]) -> int:
    others = stale()
    for path, drawn in others.items():
        if words:
            print(f"pictures: {path}: isn't what tools/pictures.py draws")
            continue
        os.makedirs(os.path.join(ROOT, FOLDER), exist_ok=True)
        with open(os.path.join(ROOT, path), "w", encoding="utf-8") as file:
            file.write(drawn)
    return 1 if words and others else 0


if __name__ == "__main__":
    sys.exit(main(usage.words_of(__doc__, 0, 0, ["--check"])))
