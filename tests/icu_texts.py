#!/usr/bin/env python3
"""Compares what locnum writes by number skeletons with ICU, on random skeletons, locales and numbers.

usage: tests/icu_texts.py PEER LOCNUM RELEASE [COUNT]

PEER is a command that runs tests/icu_skeletons_peer.cpp, compiled. LOCNUM is the program. RELEASE is a release of CLDR, of which
tables are made; it should be that of ICU. COUNT skeletons (5,000 by default) get 20 numbers each. Skeletons that ask for what no
form has are drawn again. A text that differs has to differ for one of the reasons of REASONS.

The last line is 'N passed, M failed'.
"""
import random
import re
import subprocess
import sys
import tempfile
from collections import Counter
from dataclasses import dataclass
from pathlib import Path

import usage

LOCALES = ("en", "de", "fr", "es", "it", "pt", "nl", "sv", "ja", "ru", "pl", "tr", "hi", "bn", "ar-EG", "en-IN", "de-CH", "de-AT")
CURRENCIES = ("EUR", "USD", "JPY", "CHF", "GBP", "INR", "KWD")
UNITS = ("kilometer", "meter", "liter", "hour", "byte")
# Tokens of a skeleton, one of each kind at most; the empty ones stand for none.
KINDS = (
    ("", "", "", "K", "KK", "compact-short"),
    ("", "", "percent", "%x100", *(f"currency/{code}" for code in CURRENCIES), *(f"unit/{name}" for name in UNITS)),
    ("", "", "", "unit-width-narrow", "unit-width-short", "unit-width-full-name"),
    ("", "", "precision-integer", ".0", ".00", ".0#", ".##", ".00+", "@@", "@@@", "@##", "@@+", ".00/@@+", ".0#/@##", ".0/@@@s",
     ".0/@@@r", "precision-unlimited", ".00/w", "precision-increment/0.05", "precision-increment/0.25", "precision-increment/5",
     "precision-currency-standard", "precision-currency-cash"),
    ("", "", "", *(f"rounding-mode-{mode}" for mode in (
        "ceiling", "floor", "down", "up", "half-up", "half-down", "half-ceiling", "half-floor"))),
    ("", "", "", "000", "integer-width/+00"),
    ("", "", "", "scale/100", "scale/0.01", "scale/1000"),
    ("", "", "", "group-off", "group-min2", "group-auto"),
    ("", "", "", "sign-always", "sign-never", "sign-except-zero", "sign-negative", "sign-accounting", "sign-accounting-always"),
)
NUMBERS = (
    "0", "-0", "1", "-1", "2", "5", "12", "0.5", "-0.5", "1.5", "2.5", "-2.5", "0.05", "0.125", "-0.375", "0.995", "9.995",
    "99.96", "-0.001", "0.00124", "12.345", "-12.5", "999", "999.5", "-1000", "1234.5", "-1250", "9950", "12345.678", "99999.5",
    "-123456", "999499", "999950", "-999999", "1234567", "1500000", "-2000000", "12345678.9", "1234567890123", "0.000000123",
)
EACH = 20
# How many differences without a reason are shown.
SHOWN = 40

REASONS = {
    "strict zero": "ICU takes the least digits of a strict precision by the number that isn't rounded",
    "release": "the locale has other data in this release than in ICU",
}
# What of a skeleton chooses data of the locale: the notation, what is counted, its width, and the form for accounting.
DATA = r"KK?|compact-short|percent|%x100|currency/.*|unit/.*|unit-width-.*|sign-accounting.*"
PLAIN_NUMBERS = ("12", "-12", "1", "-1", "123456", "-123456")


@dataclass(frozen=True)
class Programs:
    """The command that asks ICU, the program, and the folder of its tables."""

    peer: str
    locnum: str
    folder: Path


@dataclass(frozen=True)
class Case:
    """A number in a locale, by a skeleton."""

    locale: str
    skeleton: str
    number: str


def skeleton_of(chance: random.Random) -> str:
    """A random skeleton."""
    tokens = [token for kind in KINDS if (token := chance.choice(kind))]
    if "%x100" in tokens:
        tokens = [token for token in tokens if not token.startswith("scale/")]
    if any(re.fullmatch("KK?|compact-short", token) for token in tokens):
        tokens = [token for token in tokens if token != "precision-increment/5"]
    chance.shuffle(tokens)
    return " ".join(tokens)


def reason_of(case: Case, ours: str) -> str | None:
    """Why two texts differ, if the program's text says it."""
    if re.search(r"\.0/@@@s|@##", case.skeleton) and not re.search(r"[1-9\u0661-\u0669\u0967-\u096f\u09e7-\u09ef]", ours):
        return "strict zero"
    return None


def tables_in(folder: Path, release: str) -> None:
    """Makes a file of tables for each locale."""
    converter = Path(__file__).parent.parent / "tools" / "cldr_to_tables.py"
    subprocess.run(
        [sys.executable, str(converter), release, *LOCALES, "--currencies", ",".join(CURRENCIES), "--percents", "--units", ",".join(UNITS),
         "-o", f"{folder}/"], check=True, stdout=subprocess.DEVNULL)


def written(programs: Programs, locale: str, skeleton: str, numbers: list[str]) -> list[str] | None:
    """What the program writes; None if it rejects the skeleton as not supported."""
    done = subprocess.run([programs.locnum, "-t", str(programs.folder), "-l", locale, "--skeleton", skeleton, "--", *numbers], capture_output=True, check=False)
    note = done.stderr.decode()
    if done.returncode and ("not supported" in note or " has no " in note):
        return None
    return done.stdout.decode().splitlines() if done.returncode == 0 else [f"? {note.strip()}"] * len(numbers)


def texts_of_icu(peer: str, cases: list[Case]) -> list[str]:
    """What ICU writes."""
    lines = "".join(f"# {case.locale} {case.number} {case.skeleton}\n" for case in cases)
    return subprocess.run(peer, input=lines.encode(), stdout=subprocess.PIPE, shell=True, check=True).stdout.decode().split("\n")[:-1]


def has_other_data(programs: Programs, case: Case) -> bool:
    """Whether the locale has other data than ICU for what the skeleton chooses."""
    skeleton = " ".join(token for token in case.skeleton.split() if re.fullmatch(DATA, token))
    numbers = [*PLAIN_NUMBERS, case.number]
    ours = written(programs, case.locale, skeleton, numbers)
    return ours != texts_of_icu(programs.peer, [Case(case.locale, skeleton, number) for number in numbers])


def main() -> int:
    words = usage.words_of(__doc__ or "", 3, 4)
    count = int(words[3]) if len(words) > 3 else 5000
    version = subprocess.run(f"{words[0]} --version", stdout=subprocess.PIPE, shell=True, check=True).stdout.decode().strip()
    chance, found, failed = random.Random(73), Counter[str](), 0
    cases: list[Case] = []
    texts: list[str] = []
    with tempfile.TemporaryDirectory() as name:
        programs = Programs(words[0], words[1], Path(name))
        tables_in(programs.folder, words[2])
        while len(cases) < count * EACH:
            locale, skeleton, numbers = chance.choice(LOCALES), skeleton_of(chance), chance.sample(NUMBERS, EACH)
            written_texts = written(programs, locale, skeleton, numbers)
            if written_texts is not None:
                cases += [Case(locale, skeleton, number) for number in numbers]
                texts += written_texts
        for case, ours, theirs in zip(cases, texts, texts_of_icu(programs.peer, cases)):
            if ours == theirs:
                continue
            reason = reason_of(case, ours) or ("release" if has_other_data(programs, case) else None)
            if reason:
                found[reason] += 1
                continue
            failed += 1
            if failed <= SHOWN:
                print(f"{case.locale} {case.number} {case.skeleton}: {ours!r}, and of ICU {theirs!r}")
    print(f"ICU {version}: {count} skeletons, {len(cases)} texts")
    for reason, times in sorted(found.items()):
        print(f"{times} differ: {REASONS[reason]}")
    print(f"{len(cases) - failed} passed, {failed} failed")
    return 1 if failed else 0


if __name__ == "__main__":
    sys.exit(main())
