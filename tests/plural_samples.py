#!/usr/bin/env python3
"""Gives every sample of every cardinal rule set of a CLDR release to a program that answers categories, and compares.

usage: tests/plural_samples.py RELEASE PROGRAM, where PROGRAM is the one of tests/plural_samples.sh
"""
import decimal
import io
import pathlib
import re
import subprocess
import sys
from collections.abc import Iterator, Mapping
from typing import TypeAlias

sys.path.insert(0, str(pathlib.Path(__file__).resolve().parent.parent / "tools"))
import cldr_patterns  # noqa: E402
import cldr_reports  # noqa: E402
import cldr_to_tables as cldr  # noqa: E402
import usage  # noqa: E402
from cldr_release import Release  # noqa: E402

# The rules of locales: pairs of a category and a text with samples.
Rules: TypeAlias = tuple[tuple[str, str], ...]


def values(item: str) -> list[str]:
    """The numbers of a sample: one, or with `~` all from the first to the second by steps of the last written digit
    (UTS 35 Part 3, Samples)."""
    first, _, last = item.partition("~")
    if not last:
        return [first]
    low, high = decimal.Decimal(first), decimal.Decimal(last)
    step = decimal.Decimal((0, (1,), int(low.as_tuple().exponent)))
    return [str(low + step * index) for index in range(int((high - low) / step) + 1)]


def samples(text: str) -> Iterator[tuple[str, str]]:
    """The samples of a rule as significands and exponents: `1.1c6` is 1.1 and 6."""
    for listed in re.findall(r"@(?:integer|decimal)([^@]*)", text):
        for item in listed.split(","):
            if item.strip() not in ("", "…", "..."):
                for value in values(item.strip()):
                    significand, _, exponent = re.sub("[ce]", " ", value).partition(" ")
                    yield significand, exponent or "0"


def rule_sets(release: Release) -> dict[Rules, list[str]]:
    """The locales of each set of rules, by its pairs of a category and a text."""
    sets: dict[Rules, list[str]] = {}
    for locale, rules in release.cardinals.items():
        sets.setdefault(tuple(rules), []).append(locale)
    return sets


def questions(release: Release, sets: Mapping[Rules, list[str]]) -> Iterator[tuple[str, str, str]]:
    """The program's lines, each with the locale and the category that is wanted: rules are those that tables have."""
    for rules, locales in sets.items():
        conditions = "\t".join(map(":".join, cldr_patterns.conditions(release, locales[0], release.cardinals)))
        for category, text in rules:
            for significand, exponent in samples(text):
                yield f"{significand}\t{exponent}\t{conditions}", locales[0], category


def main(name: str, program: str) -> int:
    """Compares all samples, and answers the exit status."""
    release = cldr.open_release(name, cldr_reports.Reports(io.StringIO()))
    sets = rule_sets(release)
    asked = list(questions(release, sets))
    text = "".join(line + "\n" for line, _, _ in asked)
    run = subprocess.run([program], input=text, stdout=subprocess.PIPE, encoding="utf-8", check=True)
    answers = run.stdout.splitlines()
    failed = abs(len(asked) - len(answers))
    for (line, locale, wanted), answer in zip(asked, answers):
        if answer != wanted:
            failed += 1
            print(f"plural_samples: {locale}: {line.split(chr(9))[:2]} is {answer}, wanted {wanted}")
    print(f"CLDR {release.version()}: {len(sets)} rule sets of {len(release.cardinals)} locales")
    print(f"{len(asked) - failed} passed, {failed} failed")
    return 1 if failed else 0


if __name__ == "__main__":
    sys.exit(main(*usage.words_of(__doc__, 2, 2)))
