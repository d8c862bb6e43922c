#!/usr/bin/env python3
"""Writes rows of rounded numbers, whose answers are those of ICU.

usage: tests/icu_rounding.py PEER FILE

PEER is a command that runs tests/icu_skeletons_peer.cpp, compiled. FILE gets 2,000 rows of the call `shown`: what a number
becomes by the precision and the rounding mode of a number skeleton, in a compact table or in none. The numbers lie at halves, at
carries and at zero, and have both signs. The skeletons are a fixed sample of all modes and of many precisions.

ICU keeps the zeros of a strict precision by a number that isn't rounded; where such a number becomes 0, there is no row.
"""
import random
import re
import subprocess
import sys

import usage

# Modes by their stems, with their names in ICU4X.
MODES = {
    "half-even": "HalfEven", "half-up": "HalfExpand", "half-down": "HalfTrunc", "half-ceiling": "HalfCeil",
    "half-floor": "HalfFloor", "ceiling": "Ceil", "floor": "Floor", "up": "Expand", "down": "Trunc",
}
PRECISIONS = (
    "precision-integer", ".0", ".00", ".0#", ".##", ".00+", ".000", "@", "@@", "@@@", "@##", "@@#", "@@+", ".00/@@+", ".0/@@+",
    "precision-integer/@@+", ".0#/@##", ".0/@@@s", ".0/@@@r", ".##/@@@s", ".##/@@r", "precision-unlimited", ".00/w", "@@@/w",
    ".0##/@@#r/w", "precision-increment/5", "precision-increment/0.5", "precision-increment/0.05",
    "precision-increment/0.50", "precision-increment/0.25", "precision-increment/25", "precision-increment/20",
    "precision-increment/1000", "precision-increment/0.2", "precision-increment/2.5/w",
)
COMPACT = tuple(precision for precision in PRECISIONS if not re.search(r"increment/(5|25|20|1000|2\.5/w)$", precision))
NUMBERS = (
    "0", "0.00", "1", "7", "0.5", "1.5", "2.5", "0.25", "0.125", "0.375", "0.75", "0.05", "0.15", "0.025", "0.995", "9.995",
    "99.95", "99.96", "9.5", "99.5", "999.5", "0.0995", "0.00124", "0.004", "0.006", "0.000001", "12.345", "12.5", "37.5",
    "62.5", "112.5", "1.001", "1234.5", "1250", "1350", "1450", "1550", "950", "999", "999.4", "1000", "1049", "1050", "1051",
    "9950", "9999", "99950", "999499", "999500", "999501", "999950", "999994", "999999", "1234567", "1249999.5", "1250000",
    "1350000", "123456789.125", "9999999999.5", "0.1", "0.12345", "0.98765", "5", "15", "20", "22.5", "97.5", "997.5", "2500",
    "500", "1500", "12345678901234567890.5", "0.00000000000005",
)
COUNT = 2000


def cases() -> list[tuple[bool, str, str, str]]:
    """Whether a table is used, a precision, a mode and a number each."""
    chance = random.Random(35)
    found: dict[tuple[bool, str, str, str], None] = {}
    while len(found) < 3 * COUNT:
        is_compact = chance.random() < 0.4
        precision = chance.choice(COMPACT if is_compact else PRECISIONS)
        mode = chance.choice(list(MODES))
        number = chance.choice(("", "-")) + chance.choice(NUMBERS)
        found.setdefault((is_compact, precision, mode, number))
    return list(found)


def answer_of(is_compact: bool, number: str, text: str) -> str:
    """The digits of a text with the number's sign, and the exponent of its pattern."""
    exponents = {"K": 3, "M": 6, "B": 9, "T": 12}
    sign = "-" if number.startswith("-") else ""
    letter = text[-1] if text[-1] in exponents else ""
    exponent = f" e{exponents.get(letter, 0)}" if is_compact else ""
    return f"{sign}{text.removesuffix(letter)}{exponent}"


def main() -> int:
    peer, path = usage.words_of(__doc__, 2, 2)
    version = subprocess.run(f"{peer} --version", stdout=subprocess.PIPE, shell=True, check=True).stdout.decode().strip()
    tried = cases()
    lines = "".join(
        f"# en {number} {'K ' if is_compact else ''}{precision} rounding-mode-{mode} group-off sign-never\n"
        for is_compact, precision, mode, number in tried)
    done = subprocess.run(peer, input=lines.encode(), stdout=subprocess.PIPE, shell=True, check=True)
    rows = []
    for (is_compact, precision, mode, number), text in zip(tried, done.stdout.decode().splitlines()):
        is_strict = re.search(r"s(/w)?$|@##", precision) is not None
        if text.startswith("?") or is_strict and not re.search("[1-9]", text):
            continue
        table = "short_english.txt " if is_compact else ""
        rows.append(f"shown {table}{precision} {MODES[mode]} 1 {number} = {answer_of(is_compact, number, text)}")
    with open(path, "w", encoding="utf-8") as file:
        file.write(f"# Numbers as they are shown by a precision and a mode, with ICU {version}'s answers, as in shown_numbers.rows\n"
                   "# tests/icu_rounding.py makes this file.\n\n")
        file.writelines(f"{row}\n" for row in rows[:COUNT])
    return len(rows) < COUNT


if __name__ == "__main__":
    sys.exit(main())
