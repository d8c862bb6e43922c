#!/usr/bin/env python3
"""Compares the ranges that locnum writes with those of ICU's NumberRangeFormatter, over all modern locales of a CLDR release, and
prints the tables of docs/TESTING.md.

Each range is judged twice. The rules of crates/icu_ranges/README.md and of crates/icu_unit_ranges/README.md, restated over texts in
range_texts and range_measures, have to make it of locnum's own texts of single numbers. And it has to be ICU's text, or to differ
from it for a known reason: each reason makes a text of those of both ends where its conditions hold, and this has to be just what ICU
wrote. If already the texts of the ends, the separators or the patterns of a unit or of a name differ, ICU's range has to follow in the
same way from ICU's own texts of single numbers. Any other difference is printed, and fails.

usage: tests/icu_ranges.py PEER RELEASE PROGRAM [LOCALE..], where PEER runs tests/icu_peer.cpp; locales instead of all modern ones

The last line is 'N passed, M failed', one for each range.
"""
import io
import json
import os
import pathlib
import random
import shlex
import subprocess
import sys
import tempfile
from collections import Counter, defaultdict
from collections.abc import Iterable, Iterator, Mapping, Sequence
from concurrent.futures import ThreadPoolExecutor
from decimal import Decimal
from itertools import islice
from typing import NamedTuple

import icu_money
import usage
from icu_compare import Job, entry_of

# icu_compare has put the folder of the tools into the path
import cldr_to_tables as cldr
from cldr_release import MONEY, PERCENTS, RANGES, UNITS
from cldr_reports import Reports
from range_measures import Answer, Measure, Measures, Program, TableCategories, places_of_numbers
from range_texts import (
    MINUSES,
    Bare,
    Ends,
    but_for_spaces,
    is_approximate,
    is_bare,
    is_number,
    is_zero,
    joined,
    parts_of,
    with_sign_within,
    written_once,
)

CODES = ("USD", "EUR", "JPY", "CHF")
UNIT_NAMES = ("kilometer", "day")
# What is written, as tests/icu_peer.cpp names it.
PLAIN = ("plain", "plain 0", "plain 1", "plain 2")
COMPACT = ("short", "short 2", "long")
AMOUNTS = ("percent", "percent 0", "percent 1", *(f"money {code} short" for code in CODES))
ACCOUNTS = ("money USD short accounting", "money EUR short accounting")
MEASURES = ("unit kilometer long 0", "unit kilometer long 1", "unit kilometer short 1", "unit day long 0", "unit day narrow 0")
NAMES = ("money USD name", "money EUR name")
STYLES = (*PLAIN, *COMPACT, *AMOUNTS, *ACCOUNTS, "money USD compact", "money EUR compact", *MEASURES, *NAMES)
# Each with signs as usual and with all; some with other signs too.
SIGNED = ("plain 0", "short", "percent 0", "money EUR short", "unit kilometer long 0")
OTHER_SIGNS = ("never", "except-zero", "negative")
OPTIONS: dict[str, list[str]] = {"plain": [], "short": ["--style", "short"], "long": ["--style", "long"], "percent": ["--percent"]}

# The keys of tables that have entries of a locale.
KEYS = (
    "symbols", "rules", "short", "long", "ranges", "plural_ranges", "currencies", "currency_symbols", "currency_compact", "percents",
    "currency_decimals", "units",
)

# Of these ICU writes the separator between two digits, and the approximately sign in front of a digit.
DIGITS = "1..2"
DIGIT = "1..1"
NO_BREAK_SPACE = "\u00a0"
# Equal ends and texts, zeros, both signs, carries, ends that round to one text, a bare end beside one that isn't.
SPECIAL = (
    "3..5 3..3 0..0 -0..0 0..5 -5..0 -5..-3 -3..5 -1..1 -0..-0 0..0.00 1.0..1 1..1.00 1.5..1.50 0.5..1.5 0.001..0.004 -0.004..0.004 "
    "-0.004..-0.001 0.03..0.05 -0.05..-0.03 0.0301..0.0304 0.995..1.004 0.9995..1.0004 9.95..10.04 99.5..100.4 99.95..100.04 "
    "999.95..1000.04 999.995..1000.004 -1000.04..-999.95 -0.5..0.5 1234.5..9999 -9999..-1234.5 1..1000000 999..1000 950..1049 "
    "999.5..1000 1..2000 1000..2000 1000..1000 1000..1001 1000..1040 900..2000 0..1000 -1000..1000 -2000..-1234 -2000..-1000 "
    "-2000..900 1100000..1120000 999499..999500 999949..999950 999999..1000000 1000000..1000000 1000000..2000000 1000..2000000 "
    "-1500000..-1000000 1000000..1000000000 12345678901234..98765432109876 0.00000001..123456789012345678901234567890"
)
# Those with other signs.
FEW = (
    "3..5 3..3 0..0 0..5 -3..5 -0..0 -5..-3 -0.004..3 -0.001..0.001 -0.00004..0.00004 0.03..0.05 -0.05..-0.03 999.95..1000.04 "
    "900..2000 1000..2000 -2000..-1234"
)
RANDOM = 12
# How many failures are shown.
SHOWN = 40

SIGNS = "signs: ICU writes what stands around both numbers once where it is equal and more than a character, the sign with it"
PATTERNS = "compact patterns: ICU writes them once where they are equal and more than a character"
SPACES = "spaces: ICU puts none where nothing stands around the first number, whatever stands around the second"
IDENTITY = "identity: ICU writes both numbers where they differ but in signs that aren't shown; here equal texts are one"
PLACES = "places: in ICU the approximately sign stands in a compact pattern where minus stands there, here in front of the pattern"
NUMERALS = "digits: those of hanidec aren't of the general category Nd, so that numbers in them aren't bare here"
DATA = (
    "an end by itself, the separator, the approximately sign or a pattern has another text in ICU (tests/icu.sh), and ICU's range "
    "follows from ICU's"
)
SYMBOLS = "symbols: ICU leaves the symbol in amounts with a name, where it has a pattern for the locale's own currency (tests/icu.sh)"
REASONS = (SIGNS, PATTERNS, SPACES, IDENTITY, PLACES, NUMERALS, SYMBOLS, DATA)


class Case(NamedTuple):
    """A range that is asked for."""

    job: Job
    signs: str
    start: str
    end: str

    def has_sign(self, ends: Ends) -> bool:
        """Whether one of these texts of the ends has a sign."""
        return is_signed(self.signs, self.start, ends.start) or is_signed(self.signs, self.end, ends.end)

    def has_place(self, ends: Ends) -> bool:
        """Whether the pattern of the start has a place for the approximately sign: that of minus has none if it has no minus."""
        is_minus = self.start.startswith("-") and is_signed(self.signs, self.start, ends.start)
        return not is_minus or any(minus in ends.start for minus in MINUSES)

    def is_compact(self) -> bool:
        """Whether the numbers are written in compact patterns."""
        return self.job.style in COMPACT or self.job.style.endswith(" compact")

    def is_amount(self) -> bool:
        """Whether both numbers may stand in one pattern."""
        return self.job.style in (*AMOUNTS, *ACCOUNTS)

    def is_measure(self) -> bool:
        """Whether both numbers stand in the pattern of their plural category."""
        return self.job.style in (*MEASURES, *NAMES)

    def length(self) -> tuple[int, bool, str]:
        """What is less of a smaller input."""
        return len(self.start + self.end), self.job.system != "-", self.job.locale

    def shown(self) -> str:
        """The range with its form."""
        signs = "" if self.signs == "auto" else f" sign={self.signs}"
        return f"{' '.join(self.job)}{signs} {self.start}..{self.end}"


class Failure(NamedTuple):
    """A range whose text is neither by the rules nor by a reason."""

    why: str
    case: Case
    ours: Answer
    theirs: Answer


def is_signed(signs: str, number: str, text: str) -> bool:
    """Whether a number that is written so has a sign, by which signs are shown."""
    is_negative = number.startswith("-")
    shown = {"auto": is_negative, "always": True, "never": False, "negative": is_negative and not is_zero(text)}
    return shown.get(signs, not is_zero(text))


def by_rules(case: Case, answer: Answer, bare: Bare = is_bare) -> str | None:
    """What the rules of this project make of the texts of single numbers, if those of both ends differ."""
    once = written_once(answer.ends, bare) if case.is_amount() and not case.has_sign(answer.ends) else None
    return answer.holding(joined(answer.numbers(), bare)) if once is None else once


def is_by_rules(case: Case, answer: Answer) -> bool:
    """Whether a text is what the rules of this project make of the texts of single numbers."""
    if not answer.has_equal_ends():
        return answer.text == by_rules(case, answer)
    if not case.has_place(answer.ends):
        return answer.text == answer.ends.start
    if case.is_amount():
        return is_approximate(answer.text, answer.ends.start, answer.sign)
    return answer.text == answer.approximate()


def has_symbol(case: Case, measure: Measure) -> bool:
    """Whether an amount with a name has a symbol besides, which ICU leaves there: in front of it, or behind it."""
    return case.job.style in NAMES and (measure.pattern.before != "" or measure.symbol_behind() != "")


def amounts_with_symbols(answer: Answer, measure: Measure) -> tuple[Ends, str]:
    """Both amounts with the symbols that ICU leaves there, and the name behind both."""
    symbol, separator = measure.symbol_behind(), answer.ends.separator
    name = measure.pattern.after.removeprefix(symbol)
    if symbol:
        return Ends(measure.numbers.start + symbol, measure.numbers.end + symbol, separator), name
    return Ends(answer.ends.start.removesuffix(name), answer.ends.end.removesuffix(name), separator), name


def by_reasons(case: Case, answer: Answer) -> Iterator[tuple[str, str | None]]:
    """What ICU would make of these texts, by each reason whose conditions hold."""
    yield from by_reasons_of_equal_texts(case, answer) if answer.has_equal_ends() else by_reasons_of_two_texts(case, answer)


def by_reasons_of_equal_texts(case: Case, answer: Answer) -> Iterator[tuple[str, str | None]]:
    """The same, if the texts of both ends are equal."""
    numbers = answer.numbers()
    if case.start.startswith("-") and not case.end.startswith("-"):
        yield IDENTITY, answer.holding(written_once(numbers) or joined(numbers, is_number))
    if case.is_compact():
        yield PLACES, with_sign_within(answer.ends.start, answer.sign)
        # no space, where it is there between a symbol and a digit alone; or spaces beside other characters
        yield PLACES, with_sign_within(answer.ends.start, answer.sign, NO_BREAK_SPACE)
        yield PLACES, but_for_spaces(answer.text, with_sign_within(answer.ends.start, answer.sign))
        # in the place of the space behind the symbol, in front of the letter of a compact pattern
        yield PLACES, answer.ends.start.replace(NO_BREAK_SPACE, answer.sign, 1)
    if answer.measure is not None and has_symbol(case, answer.measure):
        yield SYMBOLS, answer.sign + answer.ends.start


def by_reasons_of_two_texts(case: Case, answer: Answer) -> Iterator[tuple[str, str | None]]:
    """The same, if they differ."""
    numbers = answer.numbers()
    if case.has_sign(numbers):
        yield SIGNS, answer.holding(written_once(numbers))
    elif case.is_compact():
        yield PATTERNS, written_once(numbers)
    if is_number(numbers.start) and not is_number(numbers.end):
        yield SPACES, answer.holding(numbers.start + numbers.separator + numbers.end)
    if is_number(parts_of(numbers.start).number) and not is_bare(parts_of(numbers.start).number):
        yield NUMERALS, by_rules(case, answer, is_number)
    if answer.measure is not None and has_symbol(case, answer.measure):
        amounts, name = amounts_with_symbols(answer, answer.measure)
        yield SYMBOLS, (written_once(amounts) or joined(amounts, is_number)) + name


def reason_of(case: Case, ours: Answer, theirs: Answer) -> str | None:
    """Why two texts differ, if the reason is known."""
    if ours.sources() != theirs.sources():
        if is_by_rules(case, theirs):
            return DATA
        reason = reason_of(case, theirs, theirs)
        return reason if reason in (None, SYMBOLS) else DATA
    return next((reason for reason, text in by_reasons(case, theirs) if text == theirs.text), None)


def drawn_number(chance: random.Random) -> str:
    """A random number with at most nine digits before the point, and at most four behind it."""
    number = str(chance.randrange(10 ** chance.randrange(1, 10)))
    places = chance.choice((0, 0, 1, 2, 4))
    return number + (f".{chance.randrange(10 ** places):0{places}}" if places else "")


def near(chance: random.Random, number: str) -> str:
    """A number that is a little greater or less."""
    return format(Decimal(number) + Decimal(chance.randrange(-20, 20)).scaleb(-chance.randrange(4)), "f")


def drawn(chance: random.Random, job: Job) -> Case:
    """A random range."""
    one = chance.choice(("", "", "-")) + drawn_number(chance)
    other = near(chance, one) if chance.random() < 0.3 else chance.choice(("", "", "-")) + drawn_number(chance)
    start, end = sorted((one, other), key=Decimal)
    return Case(job, "auto", start, end)


def listed(job: Job, signs: str, ranges: str) -> list[Case]:
    """The ranges of a list."""
    return [Case(job, signs, *text.split("..")) for text in ranges.split()]


def runs_of(job: Job) -> list[list[Case]]:
    """The ranges that are asked for of a job, each list with the same signs."""
    chance = random.Random(" ".join(job))
    usual = listed(job, "auto", SPECIAL) + [drawn(chance, job) for _ in range(RANDOM)]
    others = ("always", *(OTHER_SIGNS if job.style in SIGNED else ()))
    return [usual, *(listed(job, signs, FEW) for signs in others)]


def words_of(job: Job, signs: str) -> list[str]:
    """How locnum is asked for the texts of a job."""
    kind, *places = job.style.split()
    if kind == "money":
        return [*icu_money.words_of(job), "--sign", signs]
    if kind == "unit":
        unit, width, fraction = places
        return [*icu_money.words_of(job._replace(style=f"unit {unit} {width}")), "--fraction", fraction, "--sign", signs]
    words = ["-l", job.locale, "--invalid", "fail", *(["--system", job.system] if job.system != "-" else [])]
    return [*words, *OPTIONS[kind], *(["--fraction", *places] if places else []), "--sign", signs]


def asked_of(cases: Iterable[Case]) -> list[str]:
    """What both programs are asked for: each range, and both its ends."""
    return [text for case in cases for text in (f"{case.start}..{case.end}", case.start, case.end)]


def answers_of(program: Program, cases: Sequence[Case], texts: Sequence[str]) -> list[Answer]:
    """The answers to some ranges of one job, by the texts of ranges and ends, in turn."""
    separator, sign = program.separator, program.sign
    answers = [Answer(text, Ends(start, end, separator), sign) for text, start, end in zip(texts[::3], texts[1::3], texts[2::3])]
    if not cases[0].is_measure():
        return answers
    job, signs = cases[0].job, cases[0].signs
    plain = job._replace(style=f"plain {places_of_numbers(job)}")
    alone = program.writes(plain, signs, [number for case in cases for number in (case.start, case.end)])
    categories = program.categories(job, asked_of(cases))
    measures = Measures(program, job)
    return [answer._replace(measure=measures.measure(of_case, answer.ends, numbers)) for answer, of_case, numbers in zip(
        answers, zip(categories[::3], categories[1::3], categories[2::3]), zip(alone[::2], alone[1::2]))]


class Both:
    """locnum and ICU in a locale and a numbering system."""

    def __init__(self, locnum: icu_money.Locnum, peer: str, locale: str, system: str) -> None:
        self.program = locnum.program
        self.peer = shlex.split(peer)
        self.plain = Job(locale, system, "plain")
        tables = locnum.tables_of(locale)
        self.path = locnum.write(f"{locale}.{system}.json", tables)
        entry = entry_of(tables["ranges"], system)
        separator, sign = entry["pattern"][len("{0}") : -len("{1}")], entry.get("approximately", "~")
        self.locnum = Program(self.by_locnum, TableCategories(tables).categories, separator, sign)
        two_digits, one_digit = self.written_by_icu(self.plain, "auto", [DIGITS, DIGIT])
        self.icu = Program(self.written_by_icu, self.categories_in_icu, two_digits[1:-1], one_digit[:-1])

    def by_locnum(self, job: Job, signs: str, asked: Sequence[str]) -> list[str]:
        """What locnum writes; what it says in the place of each text if it fails."""
        words = [str(self.program), "-t", str(self.path), *words_of(job, signs), "--", *asked]
        run = subprocess.run(words, capture_output=True, encoding="utf-8", check=False)
        texts = run.stdout.split("\n")[:-1]
        return texts if run.returncode == 0 and len(texts) == len(asked) else [f"? {run.stderr.strip()}"] * len(asked)

    def by_icu(self, asked: Iterable[tuple[Job, str, Sequence[str]]]) -> list[str]:
        """What ICU writes for some jobs."""
        lines = [line for job, signs, texts in asked for line in ("= " + " ".join(job) + f" sign={signs}", *texts)]
        run = subprocess.run(self.peer, input="\n".join(lines) + "\n", stdout=subprocess.PIPE, encoding="utf-8", check=True)
        return run.stdout.split("\n")[:-1]

    def written_by_icu(self, job: Job, signs: str, asked: Sequence[str]) -> list[str]:
        """What ICU writes for a job."""
        return self.by_icu([(job, signs, asked)])

    def categories_in_icu(self, job: Job, asked: Sequence[str]) -> list[str]:
        """ICU's own categories of numbers and ranges."""
        return self.written_by_icu(job._replace(style=f"category {places_of_numbers(job)}"), "auto", asked)

    def answers(self) -> Iterator[tuple[Case, Answer, Answer]]:
        """All ranges of the locale, with the answers of both."""
        runs = [run for style in STYLES for run in runs_of(self.plain._replace(style=style))]
        theirs = iter(self.by_icu((cases[0].job, cases[0].signs, asked_of(cases)) for cases in runs))
        for cases in runs:
            asked = asked_of(cases)
            ours = self.by_locnum(cases[0].job, cases[0].signs, asked)
            yield from zip(cases, answers_of(self.locnum, cases, ours), answers_of(self.icu, cases, list(islice(theirs, len(asked)))))


def group_of(case: Case) -> str:
    """Which row of the printed table a range belongs to."""
    kind = case.job.style.split()[0]
    if kind == "money":
        groups = {"accounting": "money in accounts", "compact": "compact money", "name": "money, names"}
        return groups.get(case.job.style.split()[-1], "money, symbols")
    return {"plain": "numbers", "short": "compact numbers, short", "long": "compact numbers, long", "percent": "percents",
            "unit": "numbers with a unit"}[kind]


class Judged:
    """What was found: ranges by groups, those that differ by reasons, and failures."""

    def __init__(self) -> None:
        self.compared: Counter[str] = Counter()
        self.equal: Counter[str] = Counter()
        self.found: defaultdict[str, list[tuple[Case, str, str]]] = defaultdict(list)
        self.failures: list[Failure] = []

    def judge(self, case: Case, ours: Answer, theirs: Answer) -> None:
        """Judges a range."""
        self.compared[group_of(case)] += 1
        self.equal[group_of(case)] += ours.text == theirs.text
        if not is_by_rules(case, ours):
            self.failures.append(Failure("not by the rules", case, ours, theirs))
        elif ours.text != theirs.text:
            reason = reason_of(case, ours, theirs)
            if reason is None:
                self.failures.append(Failure("no known reason", case, ours, theirs))
            else:
                self.found[reason].append((case, ours.text, theirs.text))

    def print_failures(self) -> None:
        """Prints the smallest failure of each kind and style."""
        smallest: dict[tuple[str, str], Failure] = {}
        for failure in sorted(self.failures, key=lambda it: it.case.length()):
            smallest.setdefault((failure.why, failure.case.job.style), failure)
        for why, case, ours, theirs in list(smallest.values())[:SHOWN]:
            print(f"icu_ranges: {why}: {case.shown()}: `{ours.text}` of {ours.shown()}, ICU `{theirs.text}` of {theirs.shown()}")

    def print_tables(self) -> None:
        """Prints what was compared, and the reasons of differences."""
        print("\n| ranges | compared | equal |\n|---|---|---|")
        for group, count in self.compared.items():
            print(f"| {group} | {count:,} | {self.equal[group]:,} |")
        print(f"| together | {self.compared.total():,} | {self.equal.total():,} |")
        print("\n| difference | ranges | locales | example |\n|---|---|---|---|")
        for reason in REASONS:
            differing = self.found[reason]
            print(f"| {reason} | {len(differing):,} | {len({case.job.locale for case, *_ in differing})} | {example_of(differing)} |")
        print(f"| any other | {len(self.failures)} | {len({it.case.job.locale for it in self.failures})} | |\n")


def is_plain(letter: str) -> bool:
    """Whether a letter is Latin, or a usual mark."""
    return letter < "\u0250" or "\u2010" <= letter <= "\u2014"


def example_of(found: Iterable[tuple[Case, str, str]]) -> str:
    """The shortest of some differences, one in plain letters if there is one."""
    shown = (f"{case.shown()}: `{ours}`, ICU `{theirs}`" for case, ours, theirs in found)
    return min(shown, key=lambda text: (sum(not is_plain(letter) for letter in text), len(text)), default="")


def compared(locnum: icu_money.Locnum, peer: str, places: Sequence[tuple[str, str]]) -> Judged:
    """Compares all ranges in these locales and numbering systems."""
    judged = Judged()
    with ThreadPoolExecutor(len(os.sched_getaffinity(0))) as runs:
        for answers in runs.map(lambda place: list(Both(locnum, peer, *place).answers()), places):
            for answer in answers:
                judged.judge(*answer)
    return judged


def places_of(tables: Mapping[str, list[Mapping[str, str]]]) -> list[tuple[str, str]]:
    """The locales of tables with the numbering systems of each, `-` for the usual one."""
    return [(it["locale"], it.get("system", "-")) for it in tables["symbols"]]


def main(peer: str, name: str, program: str, *names: str) -> int:
    """Compares, and answers the exit status."""
    release = cldr.open_release(name, Reports(io.StringIO()), (MONEY, PERCENTS, RANGES, UNITS))
    asked = [*shlex.split(peer), "--version"]
    versions = subprocess.run(asked, stdout=subprocess.PIPE, encoding="utf-8", check=True).stdout.split()
    wanted = cldr.Wanted(currencies=CODES, percents=True, units=UNIT_NAMES, ranges=True)
    tables = json.loads(cldr.written(cldr.make_tables(release, cldr.chosen(release, names), wanted)))
    places = places_of(tables)
    with tempfile.TemporaryDirectory() as folder:
        judged = compared(icu_money.Locnum(pathlib.Path(program).resolve(), tables, folder, KEYS), peer, places)
    count, failed = judged.compared.total(), len(judged.failures)
    locales = len({locale for locale, _ in places})
    print(f"icu_ranges: ICU {versions[0]} with the data of CLDR {versions[1]}, the release is {release.version()}: {locales} locales, "
          f"{len(places)} numbering systems in them")
    judged.print_tables()
    judged.print_failures()
    print(f"{count - failed} passed, {failed} failed")
    return 1 if failed else 0


if __name__ == "__main__":
    sys.exit(main(*usage.words_of(__doc__ or "", 3, 1000)))
