#!/usr/bin/env python3
"""Writes crates/rows_numbers/data/rounding.rows: 2,000 numbers that are rounded by nine modes to multiples of 1, 2, 5 and 25 times
a power of ten, each with the result by Python's decimal. The rows have halves, what is a little more or less, carries, zeros, both
signs, and the ends of the range. The same rows come of each run.

usage: tests/make_rounding_rows.py
"""
import decimal
import os
import random
import re
import sys
from collections.abc import Iterator
from decimal import Decimal

import usage

FILE = os.path.join(os.path.dirname(os.path.abspath(__file__)), "..", "crates", "rows_numbers", "data", "rounding.rows")
HEAD = """\
# Numbers that are rounded by a mode to multiples of 1, 2, 5 or 25 times ten to a power: halves, what is a little more or less,
# carries, zeros, both signs. tests/make_rounding_rows.py writes this file; the wanted values are computed by Python's decimal.
"""
COUNT = 2000
INCREMENTS = (1, 2, 5, 25)
# For each mode how decimal names it, for numbers without a minus and for those with one.
MODES = {
    "Ceil": (decimal.ROUND_CEILING, decimal.ROUND_CEILING),
    "Floor": (decimal.ROUND_FLOOR, decimal.ROUND_FLOOR),
    "Expand": (decimal.ROUND_UP, decimal.ROUND_UP),
    "Trunc": (decimal.ROUND_DOWN, decimal.ROUND_DOWN),
    "HalfCeil": (decimal.ROUND_HALF_UP, decimal.ROUND_HALF_DOWN),
    "HalfFloor": (decimal.ROUND_HALF_DOWN, decimal.ROUND_HALF_UP),
    "HalfExpand": (decimal.ROUND_HALF_UP, decimal.ROUND_HALF_UP),
    "HalfTrunc": (decimal.ROUND_HALF_DOWN, decimal.ROUND_HALF_DOWN),
    "HalfEven": (decimal.ROUND_HALF_EVEN, decimal.ROUND_HALF_EVEN),
}
# How far a number lies above a multiple, in steps.
PARTS = ("0", "0.5", "0.500001", "0.499999", "0.000001", "0.999999", "0.2", "0.8")
POWERS = (-40, -16, -5, -2, -1, 0, 1, 2, 3, 5, 17)
# What stands in front of a number.
SIGNS = ("", "-", "+", "", "-")
# The greatest power that is written, and one more than the greatest number of digits before the point.
LIMIT = Decimal((0, (1,), 32768))
# Every result is exact: what isn't is an error.
EXACT = decimal.Context(prec=100_000, Emax=decimal.MAX_EMAX, Emin=decimal.MIN_EMIN, traps=[decimal.Inexact, decimal.InvalidOperation])


def spelled(sign: str, number: Decimal, low: int, high: int) -> str:
    """A number with a digit at each power of a range that includes 0."""
    whole = number.scaleb(-low, EXACT).to_integral_value(context=EXACT)
    digits = f"{whole:f}".rjust(high - low + 1, "0")
    point = len(digits) + low
    return sign + digits[:point] + ("." + digits[point:] if low < 0 else "")


def shortened(text: str) -> str:
    """A text in which a digit that is repeated often is written once."""
    return re.sub(r"(\d)\1{39,}", lambda run: f"{{{run[1]}*{len(run[0])}}}", text)


def rounded(text: str, power: int, mode: str, increment: int) -> str:
    """A number rounded by a mode to a multiple of the increment at the power, or `Limit` and the number where the result reaches
    ten to the power 32768. The sign stays."""
    sign = text[0] if text[0] in "+-" else ""
    number = Decimal(text)
    before, _, after = text.lstrip("+-").partition(".")
    high, low = max(len(before), 1) - 1, -len(after)
    steps = EXACT.divide(number.scaleb(-power, EXACT), Decimal(increment))
    whole = steps.to_integral_value(MODES[mode][sign == "-"], EXACT)
    result = EXACT.multiply(whole, Decimal(increment)).scaleb(power, EXACT).copy_abs()
    if result >= LIMIT:
        return f"Limit | {spelled(sign, number.copy_abs(), low, high)}"
    magnitude = result.adjusted() if result else 0
    return spelled(sign, result, min(power, 0), max(high, power - 1, magnitude))


def row(call: str, text: str, power: int, mode: str, increment: int) -> str:
    """A row of a call, which names an increment or has none."""
    is_unsigned = call.startswith("Unsigned")
    answer = rounded(text, power, mode, increment)
    if is_unsigned:
        answer = re.sub(r"^(Limit \| )?[+-]", r"\1", answer)
    words = f"{call} {text} {power} {mode}" + (f" {increment}" if call.endswith("increment") else "")
    return f"{shortened(words)} = {shortened(answer)}"


def heads(increment: int) -> tuple[int, ...]:
    """Counts of steps: few, even and odd, and the last before a carry."""
    tens = 100 // increment
    return (0, 1, 2, 3, 4, 5, 7, 8, tens - 1, 10 * tens - 1, 1_000_000 * tens - 1, 11 * tens + 1, tens, 10 * tens, 123_456_789 * tens + 2)


def numbers(chance: random.Random, increment: int) -> Iterator[tuple[str, int]]:
    """Numbers around multiples of an increment, with the powers at which they are rounded, without end."""
    while True:
        power = chance.choice(POWERS)
        steps = EXACT.add(Decimal(chance.choice(heads(increment))), Decimal(chance.choice(PARTS)))
        number = EXACT.multiply(steps, Decimal(increment)).scaleb(power, EXACT)
        text = f"{number.normalize(EXACT):f}"
        if chance.random() < 0.2:
            text = "00" + text
        if chance.random() < 0.2:
            text += "00" if "." in text else ".00"
        if text.startswith("0.") and chance.random() < 0.2:
            text = text[1:]
        # Now and then the number is little beside the power, or has no digits below it.
        shift = chance.choice((0, 0, 0, 0, 0, 0, 1, 2, 3, -1, -2, -9))
        yield chance.choice(SIGNS) + text, power + shift


def ends(mode: str, increment: int) -> Iterator[tuple[str, int]]:
    """Numbers at the ends of the range, with the powers at which they are rounded."""
    yield "9" * 32768, 0
    yield "-" + "9" * 32768 + ".5", -1 if mode.startswith("Half") else 0
    yield "-2", 32767 if increment > 1 else 32766
    yield "0." + "0" * 32767 + "1", -32768


def rows() -> list[str]:
    """All rows, each once."""
    chance = random.Random(20240229)
    taken: dict[str, None] = {}
    pairs = [(increment, mode) for increment in INCREMENTS for mode in MODES]
    for at, (increment, mode) in enumerate(pairs):
        kinds = ("rounded_with_mode", "UnsignedDecimal::rounded_with_mode") if increment == 1 else ()
        calls = (*kinds, "rounded_with_mode_and_increment", "UnsignedDecimal::rounded_with_mode_and_increment")
        for index, (text, power) in enumerate(ends(mode, increment)):
            if index == at % 4 or mode in ("Expand", "HalfEven"):
                taken[row(calls[at % len(calls)], text, power, mode, increment)] = None
        wanted = COUNT * (at + 1) // len(pairs)
        for text, power in numbers(chance, increment):
            if len(taken) >= wanted:
                break
            taken[row(chance.choice(calls), text, power, mode, increment)] = None
    return list(taken)


def main() -> int:
    usage.words_of(__doc__ or "", 0, 0)
    with open(FILE, "w", encoding="utf-8") as file:
        file.write(HEAD + "\n" + "".join(f"{line}\n" for line in rows()))
    return 0


if __name__ == "__main__":
    sys.exit(main())
