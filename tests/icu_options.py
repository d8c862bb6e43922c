#!/usr/bin/env python3
"""Compares what locnum writes by its rounding options with what ICU writes by the number skeleton that means the same.

usage: tests/icu_options.py PEER LOCNUM TABLES [COUNT]

PEER is a command that runs tests/icu_skeletons_peer.cpp, compiled; LOCNUM is the program, and TABLES a file of tables for it.
COUNT sets of options (2,000 by default) are drawn, each with a locale of LOCALES that the tables have, and write 20 numbers:
halves, carries, zeros and random ones, with both signs. Marks of the direction of writing aren't compared, since releases of
CLDR differ in them. Percents have no groups where their pattern has groups of its own, which tables can't express, and
accounts always show signs, since no skeleton says otherwise.

The last line is 'N passed, M failed'.
"""
import json
import random
import subprocess
import sys
from collections.abc import Sequence
from typing import NamedTuple

import usage

LOCALES = ("en", "de", "fr", "de-CH", "ja", "bn", "ar-EG", "es", "hi", "pl")
MODES = ("half-even", "half-up", "half-down", "half-ceiling", "half-floor", "up", "down", "ceiling", "floor")
INCREMENTS = ("0.05", "0.5", "0.50", "0.25", "5", "25", "20", "1000", "0.2", "2.5", "0.010", "1", "10")
SIGNS = ("auto", "always", "never", "except-zero", "negative")
CURRENCIES = ("USD", "EUR", "JPY", "CHF", "KWD")
NUMBERS = (
    "0", "0.00", "1", "7", "007.25", "0.5", "1.5", "2.5", "0.25", "0.125", "0.375", "0.75", "0.05", "0.15", "0.025", "0.995",
    "9.995", "99.95", "99.96", "9.5", "99.5", "999.5", "0.0995", "0.00124", "0.004", "0.006", "0.000001", "12.345", "12.33",
    "12.325", "1.13", "62.5", "112.5", "1.001", "1234.5", "1250", "99950", "999999", "1234567", "123456789.125", "0.12345",
    "0.98765", "15", "22.5", "97.5", "2500", "12345678901234567890.5", "0.00000000000005",
)
EACH = 20
OTHER_GROUPS = ("bn",)
MARKS = str.maketrans("", "", "\u061c\u200e\u200f")


class Case(NamedTuple):
    """Options of locnum, and the skeleton of the same meaning."""
    locale: str
    options: tuple[str, ...]
    skeleton: str


def counts(chance: random.Random, least: int) -> tuple[int, int]:
    """A least and a greatest count of digits."""
    first = chance.randint(least, 4)
    return first, chance.choice((first, chance.randint(first, 6)))


def range_text(first: int, last: int) -> str:
    """Counts as an option has them."""
    return str(first) if first == last else f"{first}..{last}"


def drawn_precision(chance: random.Random, is_money: bool) -> tuple[tuple[str, ...], str]:
    """An option that says how fine numbers are, with its skeleton; amounts may have none, or be those of cash."""
    kind = chance.choice(("fraction", "significant", "increment", "own", "cash") if is_money else ("fraction", "significant", "increment"))
    if kind == "fraction":
        first, last = counts(chance, 0)
        return ("--fraction", range_text(first, last)), "." + "0" * first + "#" * (last - first) if last else "precision-integer"
    if kind == "significant":
        first, last = counts(chance, 1)
        return ("--significant", range_text(first, last)), "@" * first + "#" * (last - first)
    if kind == "increment":
        increment = chance.choice(INCREMENTS)
        return ("--increment", increment), f"precision-increment/{increment}"
    return (("--cash",), "precision-currency-cash") if kind == "cash" else ((), "precision-currency-standard")


def drawn_unit(chance: random.Random) -> tuple[tuple[str, ...], str, bool]:
    """What is written of numbers, with its skeleton, and whether that is an amount."""
    unit = chance.choice(("plain", "percent", "money", "money"))
    if unit == "plain":
        return (), "", False
    if unit == "percent":
        return ("--percent",), "percent scale/100", False
    code = chance.choice(CURRENCIES)
    form = chance.choice((((), ""), (("--width", "narrow"), "unit-width-narrow"), (("--width", "name"), "unit-width-full-name"),
                          (("--accounting",), "sign-accounting")))
    return ("--currency", code, *form[0]), f"currency/{code} {form[1]}", True


def drawn_sign(chance: random.Random, is_accounting: bool) -> tuple[tuple[str, ...], str]:
    """Which signs are written, with its skeleton."""
    sign = chance.choice([sign for sign in SIGNS if not is_accounting or sign != "never"])
    if is_accounting:
        stem = "sign-accounting" if sign == "auto" else f"sign-accounting-{sign}"
    else:
        stem = f"sign-{sign}"
    return ("--sign", sign), stem


def drawn(chance: random.Random, locales: Sequence[str]) -> Case:
    """A random case."""
    locale = chance.choice(locales)
    unit, unit_stems, is_money = drawn_unit(chance)
    precision, precision_stem = drawn_precision(chance, is_money)
    is_accounting = "--accounting" in unit
    sign, sign_stem = drawn_sign(chance, is_accounting)
    mode = chance.choice(MODES)
    grouping, grouping_stem = chance.choice(((("--grouping=never",), "group-off"), ((), "group-auto")))
    if "--percent" in unit and locale in OTHER_GROUPS:
        grouping, grouping_stem = ("--grouping=never",), "group-off"
    stems = [stem for stem in unit_stems.split() if not stem.startswith("sign-")]
    stems += [precision_stem, sign_stem, f"rounding-mode-{mode}", grouping_stem]
    return Case(locale, (*unit, *precision, *sign, "--round", mode, *grouping), " ".join(stems))


def drawn_number(chance: random.Random) -> str:
    """A number of NUMBERS, or a random one."""
    digits = f"{chance.randint(0, 10 ** chance.randint(1, 9))}.{chance.randint(0, 10 ** chance.randint(1, 6))}"
    return chance.choice(("", "-")) + chance.choice((digits, chance.choice(NUMBERS), chance.choice(NUMBERS)))


def main() -> int:
    peer, locnum, tables, *rest = usage.words_of(__doc__, 3, 4)
    with open(tables, encoding="utf-8") as file:
        had = {entry["locale"] for entry in json.load(file)["symbols"]}
    locales = [locale for locale in LOCALES if locale in had]
    chance = random.Random(73)
    cases = [(drawn(chance, locales), [drawn_number(chance) for _ in range(EACH)]) for _ in range(int(rest[0]) if rest else 2000)]
    lines = "".join(f"# {case.locale} {number} {case.skeleton}\n" for case, numbers in cases for number in numbers)
    wanted = subprocess.run(peer, input=lines.encode(), stdout=subprocess.PIPE, shell=True, check=True).stdout.decode().splitlines()
    passed = failed = 0
    for index, (case, numbers) in enumerate(cases):
        words = [locnum, "--tables", tables, "--locale", case.locale, *case.options, "--", *numbers]
        given = subprocess.run(words, stdout=subprocess.PIPE, stderr=subprocess.PIPE, check=False)
        texts = given.stdout.decode().splitlines() if given.returncode == 0 else [given.stderr.decode().strip()] * EACH
        for number, want, text in zip(numbers, wanted[index * EACH:], texts):
            if text.translate(MARKS) == want.translate(MARKS):
                passed += 1
                continue
            failed += 1
            if failed <= 40:
                print(f"icu_options: {case.locale} {' '.join(case.options)} {number} ({case.skeleton}): {text!r}, by ICU {want!r}")
    print(f"{passed} passed, {failed} failed")
    return failed > 0


if __name__ == "__main__":
    sys.exit(main())
