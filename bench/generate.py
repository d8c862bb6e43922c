#!/usr/bin/env python3
"""Writes an input of the comparison, always the same: `generate.py mixed|long`; or tables of many locales, the sample's
or those of another file under other names: `generate.py tables [BYTES [FILE]]`; or the sample with the signs that CLDR has
in Arabic, which ICU writes: `generate.py locales`."""

import json
import os
import sys
from typing import Any

sys.path.insert(0, os.path.join(os.path.dirname(os.path.abspath(__file__)), "../tests"))
import usage  # noqa: E402

COUNT = {"mixed": 1_000_000, "long": 1_800}


class Numbers:
    """A 64-bit linear congruential generator (Knuth's MMIX constants)."""

    def __init__(self, seed: int) -> None:
        self.state = seed

    def below(self, limit: int) -> int:
        self.state = (self.state * 6364136223846793005 + 1442695040888963407) % 2**64
        return (self.state >> 33) % limit

    def digits(self, count: int) -> str:
        """Digits of which the first isn't 0."""
        text = [str(1 + self.below(9))]
        left = count - 1
        while left > 0:
            width = min(left, 8)
            text.append(str(self.below(10**width)).zfill(width))
            left -= width
        return "".join(text)


def mixed_line(numbers: Numbers) -> str:
    """A short or long whole number, a fraction or a negative number."""
    kind = numbers.below(8)
    sign = "-" if numbers.below(4) == 0 else ""
    if kind < 3:
        return sign + numbers.digits(1 + numbers.below(6))
    if kind < 5:
        return sign + numbers.digits(7 + numbers.below(9))
    return sign + numbers.digits(1 + numbers.below(8)) + "." + numbers.digits(1 + numbers.below(4))


def long_line(numbers: Numbers) -> str:
    """A whole number of some thousand to 30,000 digits, every third one negative."""
    length = 100 + numbers.below(13_000) if numbers.below(8) else 20_000 + numbers.below(10_001)
    return ("-" if numbers.below(3) == 0 else "") + numbers.digits(length)


SAMPLE = os.path.join(os.path.dirname(__file__), "../tables/sample.json")
# The bytes of tables of many locales.
SIZE = 10_000_000


def read_tables(name: str = SAMPLE) -> dict[str, Any]:
    """The tables of a file, by default the sample."""
    with open(name, encoding="utf-8") as file:
        content: dict[str, Any] = json.load(file)
    return content


def tables(size: int, name: str) -> str:
    """The tables of a file, and their entries again and again under other locales, up to so many bytes."""
    sample = read_tables(name)
    kinds = ("symbols", "rules", "short", "long")
    texts: dict[str, list[str]] = {kind: [] for kind in kinds}
    written = turn = 0
    while written < size:
        for kind in kinds:
            for entry in sample[kind]:
                renamed = {**entry, "locale": entry["locale"] + (f"-x{turn}" if turn else "")}
                texts[kind].append(json.dumps(renamed, ensure_ascii=False))
                written += len(texts[kind][-1].encode())
        turn += 1
    parts = [f'"digits":{json.dumps(sample["digits"], ensure_ascii=False)}']
    parts += [f'"{kind}":[{",".join(texts[kind])}]' for kind in kinds]
    return "{" + ",".join(parts) + "}"


def locales() -> str:
    """The sample tables, with the letter mark before Arabic signs."""
    sample = read_tables()
    for entry in sample["symbols"]:
        if entry["numsys"] == "arab":
            entry["minus"], entry["plus"] = ["\u061c-", ""], ["\u061c+", ""]
    return json.dumps(sample, ensure_ascii=False)


def main() -> None:
    words = usage.words_of(__doc__, 1, 3)
    shape = words[0]
    if shape not in ("locales", "tables", *COUNT):
        print(f"{sys.argv[0]}: {shape}: not expected; --help says what is", file=sys.stderr)
        sys.exit(2)
    if shape == "locales":
        print(locales())
        return
    if shape == "tables":
        print(tables(int(words[1]) if words[1:] else SIZE, words[2] if words[2:] else SAMPLE))
        return
    numbers = Numbers({"mixed": 1, "long": 2}[shape])
    line = {"mixed": mixed_line, "long": long_line}[shape]
    out = sys.stdout
    for _ in range(COUNT[shape]):
        out.write(line(numbers) + "\n")


main()
