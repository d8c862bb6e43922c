#!/usr/bin/env python3
"""Writes crates/rows_numbers/data/shown_numbers.rows: 600 numbers as they are shown by precisions, modes and compact tables. The
wanted values are computed with Python's fractions by what UTS 35 and ICU's user guide say of number skeletons: which numbers can be
shown is decided for each magnitude, and the neighbours of a number are looked for in all magnitudes. First stand rows with the
results that ICU's NumberFormatter gives. The same rows come of each run.

usage: tests/make_shown_rows.py
"""
import os
import random
import sys
from collections.abc import Iterator
from fractions import Fraction
from typing import NamedTuple

import usage

DATA = os.path.join(os.path.dirname(os.path.abspath(__file__)), "..", "crates", "rows_numbers", "data")
HEAD = """\
# Numbers as they are shown: the significand with its digits and, by a table, its exponent. The first rows are examples whose results
# ICU's NumberFormatter gives; the others are computed by tests/make_shown_rows.py, which writes this file, with Python's fractions.
"""
COUNT = 600
MODES = ("Ceil", "Floor", "Expand", "Trunc", "HalfCeil", "HalfFloor", "HalfExpand", "HalfTrunc", "HalfEven")
TABLES = ("", "short_english.txt", "long_french.txt", "4 4 other {0}X; 6 5 other {0}Y; 9 8 other {0}Z")


class Precision(NamedTuple):
    """Fraction digits, significant digits or both, each the least and the greatest count, or an increment."""

    fraction: tuple[int, int | None] | None = None
    significant: tuple[int, int | None] | None = None
    priority: str = ""
    keeps_least: bool = False
    increment: Fraction | None = None


PRECISIONS = {
    "precision-unlimited": Precision(fraction=(0, None)),
    "precision-integer": Precision(fraction=(0, 0)),
    ".0": Precision(fraction=(1, 1)),
    ".00": Precision(fraction=(2, 2)),
    ".0##": Precision(fraction=(1, 3)),
    ".00+": Precision(fraction=(2, None)),
    "@": Precision(significant=(1, 1)),
    "@@@": Precision(significant=(3, 3)),
    "@@#": Precision(significant=(2, 3)),
    "@@+": Precision(significant=(2, None)),
    "precision-integer/@@+": Precision((0, 0), (1, 2), "relaxed", True),
    ".00/@@+": Precision((2, 2), (1, 2), "relaxed", True),
    ".00/@##": Precision((2, 2), (1, 3), "strict", True),
    ".0/@@@r": Precision((1, 1), (3, 3), "relaxed"),
    ".0/@@@s": Precision((1, 1), (3, 3), "strict"),
    ".0/@@#r": Precision((1, 1), (2, 3), "relaxed"),
    ".0/@@#s": Precision((1, 1), (2, 3), "strict"),
    "precision-increment/0.25": Precision(fraction=(2, None), increment=Fraction(1, 4)),
    "precision-increment/0.05": Precision(fraction=(2, None), increment=Fraction(1, 20)),
    "precision-increment/0.50": Precision(fraction=(2, None), increment=Fraction(1, 2)),
    "precision-increment/0.2": Precision(fraction=(1, None), increment=Fraction(1, 5)),
    "precision-increment/1": Precision(fraction=(0, None), increment=Fraction(1)),
    "precision-increment/20": Precision(fraction=(0, None), increment=Fraction(20)),
    "precision-increment/2500": Precision(fraction=(0, None), increment=Fraction(2500)),
}
# What ICU's NumberFormatter shows.
KNOWN = (
    ("short_english.txt .00 HalfEven 1 999994", "999.99 e3"),
    ("short_english.txt .0 HalfEven 1 999950", "1.0 e6"),
    ("short_english.txt .0 Trunc 1 999999", "999.9 e3"),
    ("short_english.txt precision-integer/@@+ HalfEven 1 1234567", "1.2 e6"),
    ("short_english.txt precision-integer/@@+ HalfEven 1 -999950", "-1 e6"),
    ("short_english.txt precision-integer/@@+ HalfEven 1 12345", "12 e3"),
    ("short_english.txt @@@ HalfEven 1 1234567", "1.23 e6"),
    (".00 HalfEven 1 -1.005", "-1.00"),
    ("@@# HalfEven 1 1234567", "1230000"),
    (".00/@@+ HalfEven 1 0.00124", "0.0012"),
    ("precision-increment/0.25 HalfExpand 1 0.375", "0.50"),
    ("precision-integer HalfCeil 1 -2.5", "-2"),
    ("precision-integer Floor 1 -0.5", "-1"),
    (".0 HalfEven 3 7.25", "007.2"),
    (".00/w HalfEven 1 2000", "2000"),
    (".0/@@@s HalfEven 1 99.96", "100"),
    (".0/@@@r HalfEven 1 99.96", "100.0"),
    ("@ Floor 1 -0.0123", "-0.02"),
    ("@@@ HalfEven 1 99.96", "100"),
    ("@@@ HalfEven 1 0", "0.00"),
)


def exponents(table: str) -> list[tuple[int, int]]:
    """The types and exponents of a table."""
    if not table:
        return []
    if table.endswith(".txt"):
        with open(os.path.join(DATA, table), encoding="utf-8") as file:
            entries = [line for line in file if not line.startswith("#")]
    else:
        entries = table.split("; ")
    return [(int(entry.split(" ")[0]), int(entry.split(" ")[1])) for entry in entries]


def exponent_of(entries: list[tuple[int, int]], magnitude: int) -> int:
    """The exponent of a magnitude."""
    reached = [exponent for log10_type, exponent in entries if log10_type <= magnitude]
    return reached[-1] if reached else 0


def magnitude_of(number: Fraction) -> int:
    """The power of the first digit other than 0, and 0 for zero."""
    if number == 0:
        return 0
    power = len(str(number.numerator)) - len(str(number.denominator))
    return power if Fraction(10) ** power <= number else power - 1


def steps_of(precision: Precision, magnitude: int) -> tuple[Fraction | None, Fraction | None]:
    """The steps of fraction digits and of significant digits, where they have a greatest count."""
    fraction = significant = None
    if precision.fraction and precision.fraction[1] is not None:
        fraction = Fraction(10) ** -precision.fraction[1]
    if precision.significant and precision.significant[1] is not None:
        significant = Fraction(10) ** (magnitude - precision.significant[1] + 1)
    return fraction, significant


def step_of(precision: Precision, magnitude: int) -> Fraction | None:
    """The step of a significand's magnitude; none where every digit is shown."""
    if precision.increment:
        return precision.increment
    steps = [step for step in steps_of(precision, magnitude) if step is not None]
    if not steps:
        return None
    return max(steps) if precision.priority == "strict" else min(steps)


def unit_of(precision: Precision, entries: list[tuple[int, int]], magnitude: int) -> Fraction | None:
    """The unit of a magnitude."""
    exponent = exponent_of(entries, magnitude)
    step = step_of(precision, magnitude - exponent)
    return None if step is None else step * Fraction(10) ** exponent


def neighbours(precision: Precision, entries: list[tuple[int, int]], number: Fraction) -> tuple[Fraction, Fraction]:
    """The greatest number up to a number, and the least from it on, that can be shown, among those of all magnitudes."""
    if number == 0:
        return number, number
    low, high = Fraction(0), None
    for magnitude in range(magnitude_of(number) - 12, magnitude_of(number) + 13):
        unit = unit_of(precision, entries, magnitude)
        first, end = Fraction(10) ** magnitude, Fraction(10) ** (magnitude + 1)
        if unit is None:
            if first <= number < end:
                return number, number
            continue
        below = min(number, end) // unit * unit
        if below == end:
            below -= unit
        if below >= first:
            low = max(low, below)
        above = -(-max(number, first) // unit) * unit
        if above < end and (high is None or above < high):
            high = above
    assert high is not None
    return low, high


def taken(mode: str, is_negative: bool, low: Fraction, high: Fraction, number: Fraction, unit: Fraction | None) -> Fraction:
    """What a mode takes of the neighbours of a number."""
    up, down = {"Ceil": "Expand", "HalfCeil": "HalfExpand"}, {"Floor": "Trunc", "HalfFloor": "HalfTrunc"}
    mirrored = {"Ceil": "Trunc", "HalfCeil": "HalfTrunc", "Floor": "Expand", "HalfFloor": "HalfExpand"}
    of_size = mirrored.get(mode, mode) if is_negative else {**up, **down}.get(mode, mode)
    if low == high or of_size in ("Expand", "Trunc"):
        return high if of_size == "Expand" else low
    if number - low != high - number:
        return low if number - low < high - number else high
    if of_size != "HalfEven":
        return high if of_size == "HalfExpand" else low
    assert unit is not None
    return low if low / unit % 2 == 0 else high


def least_digits(precision: Precision, significand: Fraction) -> int:
    """How many digits a shown significand has behind its point at least."""
    magnitude = magnitude_of(significand)
    fraction = precision.fraction[0] if precision.fraction else 0
    significant = max(0, precision.significant[0] - 1 - magnitude) if precision.significant else 0
    if not precision.significant or precision.keeps_least:
        return fraction
    if not precision.fraction:
        return significant
    of_fraction, of_significant = steps_of(precision, magnitude)
    assert of_fraction is not None and of_significant is not None
    is_finer = of_significant <= of_fraction
    return significant if is_finer == (precision.priority == "relaxed") else fraction


def shown(table: str, name: str, mode: str, digits: int, text: str) -> str:
    """What is shown of a number."""
    precision, entries = PRECISIONS[name.removesuffix("/w")], exponents(table)
    if table and precision.increment and 1 % precision.increment:
        return "IncrementOfCompact"
    sign = text[0] if text[0] in "+-" else ""
    number = Fraction(text.lstrip("+-"))
    low, high = neighbours(precision, entries, number)
    size = taken(mode, sign == "-", low, high, number, unit_of(precision, entries, magnitude_of(number)))
    exponent = exponent_of(entries, magnitude_of(size))
    significand = size / Fraction(10) ** exponent
    count = 0 if name.endswith("/w") and significand.denominator == 1 else least_digits(precision, significand)
    while (significand * 10**count).denominator > 1:
        count += 1
    whole = str(significand * 10**count).rjust(count + digits, "0") if count + digits > 0 else str(significand)
    whole = whole.rjust(count + 1, "0")
    written = whole[: len(whole) - count] + ("." + whole[len(whole) - count :] if count else "")
    return sign + written + (f" e{exponent}" if table else "")


def numbers(chance: random.Random) -> Iterator[str]:
    """Numbers with few digits and many, ties, carries and zeros, without end."""
    while True:
        kind = chance.randrange(6)
        if kind == 0:
            digits = "9" * chance.randrange(1, 9) + chance.choice(("4", "5", "50", "51", "49", "99", ""))
        elif kind == 1:
            digits = str(chance.randrange(1, 100)) + chance.choice(("5", "50", "25", "125", "375", "05", "15"))
        elif kind == 2:
            digits = "1" + "0" * chance.randrange(0, 8)
        elif kind == 3:
            digits = chance.choice(("0", "00", "000"))
        else:
            digits = str(chance.randrange(1, 10 ** chance.randrange(1, 12)))
        point = chance.randrange(-4, len(digits) + 4)
        if point <= 0:
            text = "0." + "0" * -point + digits
        elif point < len(digits):
            text = digits[:point] + "." + digits[point:]
        else:
            text = digits + "0" * (point - len(digits))
        yield chance.choice(("", "", "-", "-", "+")) + text


def row(table: str, name: str, mode: str, digits: int, text: str) -> str:
    """A row."""
    words = [f"'{table}'" if " " in table else table] if table else []
    return " ".join(["shown", *words, name, mode, str(digits), text, "=", shown(table, name, mode, digits, text)])


def rows() -> list[str]:
    """All rows, each once."""
    lines: dict[str, None] = {}
    for words, wanted in KNOWN:
        *table, name, mode, digits, text = words.split(" ")
        line = row("".join(table), name, mode, int(digits), text)
        if not line.endswith(f"= {wanted}"):
            sys.exit(f"{line}, but ICU has {wanted}")
        lines[line] = None
    chance = random.Random(20240301)
    for text in numbers(chance):
        name = chance.choice(list(PRECISIONS)) + chance.choice(("", "", "", "/w"))
        integer_digits = chance.choice((1, 1, 1, 1, 0, 3))
        lines[row(chance.choice(TABLES), name, chance.choice(MODES), integer_digits, text)] = None
        if len(lines) >= COUNT:
            return list(lines)
    return list(lines)


def main() -> int:
    usage.words_of(__doc__ or "", 0, 0)
    with open(os.path.join(DATA, "shown_numbers.rows"), "w", encoding="utf-8") as file:
        file.write(HEAD + "\n" + "".join(f"{line}\n" for line in rows()))
    return 0


if __name__ == "__main__":
    sys.exit(main())
