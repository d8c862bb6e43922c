#!/usr/bin/env python3
"""Compares decfmt with ICU over all modern locales of a CLDR release, in all styles, and prints the tables of
docs/TESTING.md. Differences of a known kind are counted by its name; any other one is printed, and fails.

A kind isn't recognized by its looks. Each has a reason, which changes the tables, the rules or the number in a known way;
decfmt then has to write just what ICU wrote.

usage: tests/icu_compare.py PEER RELEASE PROGRAM [LOCALE..], where PEER runs tests/icu_peer.cpp; locales instead of all
modern ones
"""
import copy
import decimal
import io
import json
import math
import pathlib
import shlex
import subprocess
import sys
import tempfile
import unicodedata
from collections.abc import Callable, Iterable, Iterator, Mapping, Sequence
from concurrent.futures import ThreadPoolExecutor
from typing import Any, NamedTuple, TypeAlias

sys.path.insert(0, str(pathlib.Path(__file__).resolve().parent.parent / "tools"))
import cldr_paths  # noqa: E402
import cldr_patterns  # noqa: E402
import cldr_to_tables as cldr  # noqa: E402
import usage  # noqa: E402
from cldr_numbers import CompactReader, formats_of, named  # noqa: E402
from cldr_release import Release  # noqa: E402
from cldr_reports import Reports  # noqa: E402

STYLES = ("plain", "short", "long")
SINGLE = (
    "0 -0 0.0 0.00 -0.0 +0 +5 +1234.5 1.0 1.00 -1.0 2.0 0.1 -0.1 0.5 0.05 0.000123 0.00999 0.0095 0.995 0.9949 0.25 "
    "0.35 1250 1350 1450000 1650 1750 9949 9950 99949 99950 999499 999499.99 999500 999500.00 -999999 +1000 +2000000"
)
SCALED = "1 -1 1.1 1.5 2 -2.5 3 4.5 5 7 8.8 9.95 9.949 11 12 13 15 19 21 22.2 25 101 -111 999.5"
POWERS = range(16)
HUGE = (18, 20, 21, 25, 30, 40)
# the digits of a whole number that a double always holds
DOUBLE_DIGITS = 15

EXPLICIT_ONE = "exactly one: ICU compares the number with its sign, so that -1000 isn't exactly one thousand"
SIGN_WITHIN = "a negative subpattern or a sign in a compact pattern, which tables can't express"
LONG_TYPES = "long patterns of some types alone: ICU doesn't take the other types from the short style"
OPERANDS = "plural categories of significands of more than 15 digits: ICU takes n as a double, and i by 18 digits"
OTHER = "any other"

# Tables, or an entry of them, as their JSON is read.
Json: TypeAlias = dict[str, Any]
# What a program writes for some lines; nothing for those that it rejects.
Texts: TypeAlias = Sequence[str | None]


class Job(NamedTuple):
    """Which texts are asked for: `-` is the usual numbering system of the locale."""

    locale: str
    system: str
    style: str


class Difference(NamedTuple):
    """What the programs write of a number where they differ."""

    job: Job
    number: str
    ours: str | None
    theirs: str | None


# What would be written by the reason of a kind of difference.
Reason: TypeAlias = Callable[[Difference], Iterable[str | None]]


def numbers() -> list[str]:
    """The numbers that each formatter gets: halves, carries, digits that plural rules look at, in all magnitudes."""
    found = SINGLE.split()
    for power in POWERS:
        found += [format(decimal.Decimal(digits).scaleb(power), "f") for digits in SCALED.split()]
    for power in HUGE:
        found += ["1" + "0" * power, "-" + "9" * power]
    found.append("123456789" * 5 + "." + "123456789" * 3)
    return list(dict.fromkeys(found))


class Formatters:
    """decfmt with some tables, and ICU."""

    def __init__(self, peer: str, program: str, folder: str) -> None:
        self.peer = shlex.split(peer)
        self.program = program
        self.folder = pathlib.Path(folder)

    def write(self, name: str, tables: Json) -> pathlib.Path:
        """Puts tables into a file."""
        path = self.folder / name
        path.write_text(json.dumps(tables, ensure_ascii=False), encoding="utf-8")
        return path

    def decfmt(self, path: pathlib.Path, job: Job, lines: Sequence[str]) -> Texts:
        """What decfmt writes for each line, or nothing where its tables have no such entry."""
        run = subprocess.run(
            [self.program, path, *job], input="\n".join(lines) + "\n", capture_output=True, encoding="utf-8"
        )
        if run.returncode != 0:
            return [None] * len(lines)
        return run.stdout.split("\n")[:-1]

    def decfmt_all(self, path: pathlib.Path, jobs: Iterable[Job], lines: Sequence[str]) -> list[Texts]:
        """The same for each job."""
        with ThreadPoolExecutor() as runs:
            return list(runs.map(lambda job: self.decfmt(path, job, lines), jobs))

    def icu_all(self, jobs: Iterable[Job], lines: Sequence[str]) -> list[list[str]]:
        """What ICU writes for each job and line."""
        asked = "".join("= " + " ".join(job) + "\n" + "\n".join(lines) + "\n" for job in jobs)
        run = subprocess.run(self.peer, input=asked, stdout=subprocess.PIPE, encoding="utf-8", check=True)
        answers = run.stdout.split("\n")[:-1]
        return [answers[start : start + len(lines)] for start in range(0, len(answers), len(lines))]


def of_locale(tables: Json, locale: str) -> Json:
    """The tables' entries of one locale."""
    kept = {
        key: [entry for entry in value if entry["locale"] == locale]
        for key, value in tables.items()
        if key in ("symbols", "rules", "short", "long")
    }
    return copy.deepcopy({"digits": tables["digits"], **kept})


def entry_of(entries: Sequence[Json], system: str) -> Json:
    """The entry that answers for a numbering system."""
    named = [entry for entry in entries if entry.get("system") == system]
    return (named or [entry for entry in entries if "system" not in entry])[0]


class WithSign(CompactReader):
    """Reads compact patterns as they are for numbers with a certain sign, or with none, each sign in its place."""

    sign = ""
    is_signed = False

    def read(self, power: int, count: str, pattern: str) -> tuple[int | None, str]:
        """The subpattern for the sign; where there is no negative one, minus stands before the positive one."""
        positive, negative = cldr_patterns.subpatterns(pattern)
        number = cldr_patterns.around_number(positive)[1]
        pieces = (negative or [("special", "-")] + positive) if self.is_signed else positive
        before, _, after = cldr_patterns.around_number(pieces)
        prefix, suffix = (cldr_patterns.literal(part, {"-": self.sign}) for part in (before, after))
        text = prefix + cldr_patterns.PLACE * bool(number) + suffix
        exponent = 0 if pattern == "0" else power + 1 - len(number or "")
        return (exponent if number else None), text


class KnownKinds:
    """Known kinds of difference, by their names. Each has a method that answers what ICU would write by its reason, or
    nothing where the reason doesn't apply."""

    known: dict[str, Reason] = {}

    def __init__(self, release: Release) -> None:
        self.release = release
        self.names = {named(locale): locale for locale in release.locales}

    def kind_of(self, difference: Difference) -> str | None:
        """The name of the difference's kind, or None."""
        for name, reason in self.known.items():
            if difference.theirs in reason(difference):
                return name
        return None


class Kinds(KnownKinds):
    """The known kinds of difference in numbers."""

    def __init__(self, formatters: Formatters, release: Release, tables: Json) -> None:
        super().__init__(release)
        self.formatters = formatters
        self.tables = tables
        self.without_alias = self.release_without_alias()
        self.known = {
            EXPLICIT_ONE: self.explicit_one,
            SIGN_WITHIN: self.sign_within,
            LONG_TYPES: self.long_types,
            OPERANDS: self.operands,
        }

    def release_without_alias(self) -> Release:
        """The release, in which the long style isn't an alias of the short one."""
        release = type(self.release)(self.release.folder, Reports(io.StringIO()))
        for path in list(release.tree("root").aliases):
            if path[-1] == cldr_paths.step("decimalFormatLength", {"type": "long"}):
                del release.tree("root").aliases[path]
        return release

    def again(self, job: Job, tables: Json, number: str) -> Texts:
        """What decfmt writes with other tables."""
        return self.formatters.decfmt(self.formatters.write("changed.json", tables), job, [number])

    def with_patterns(self, job: Job, reader_type: type[CompactReader], release: Release, **values: object) -> Json:
        """The locale's tables with the patterns that a reader finds."""
        tables = of_locale(self.tables, job.locale)
        locale = self.names[job.locale]
        system = formats_of(release, locale, entry_of(tables["symbols"], job.system)["numsys"])
        rules = [(category, condition) for category, condition in tables["rules"][0]["rules"]]
        reader = reader_type(release, locale, system, job.style, rules)
        vars(reader).update(values)
        tables[job.style] = [{"locale": job.locale, "patterns": reader.table()}]
        return tables

    def explicit_one(self, difference: Difference) -> Texts:
        """A negative number with the patterns for exactly one taken away."""
        job, number, *_ = difference
        tables = of_locale(self.tables, job.locale)
        if job.style == "plain" or not number.startswith("-"):
            return []
        for entry in tables[job.style]:
            for _, _, elements in entry["patterns"]:
                elements.pop("explicit_one", None)
        return self.again(job, tables, number)

    def sign_within(self, difference: Difference) -> Texts:
        """The number without its sign, in the pattern for numbers of this sign."""
        job, number, *_ = difference
        if job.style == "plain":
            return []
        signs = entry_of(of_locale(self.tables, job.locale)["symbols"], job.system)
        sign = signs["plus" if number[0] == "+" else "minus"][0]
        tables = self.with_patterns(job, WithSign, self.release, sign=sign, is_signed=number[0] in "+-")
        return self.again(job, tables, number.lstrip("+-"))

    def long_types(self, difference: Difference) -> Texts:
        """The long style with the types alone that aren't found in the short one."""
        job, number, *_ = difference
        if job.style != "long":
            return []
        return self.again(job, self.with_patterns(job, CompactReader, self.without_alias), number)

    def operands(self, difference: Difference) -> Texts:
        """The category by operands that are doubles, for a significand that a double may not hold."""
        job, number, ours, _ = difference
        digits = "".join(letter for letter in ours or "" if unicodedata.decimal(letter, None) is not None)
        if job.style == "plain" or len(digits) <= DOUBLE_DIGITS:
            return []
        tables = of_locale(self.tables, job.locale)
        category = category_by_doubles(tables["rules"][0]["rules"], int(digits))
        tables["rules"] = [{"locale": job.locale, "rules": [[category, ""]]}]
        return self.again(job, tables, number)


def category_by_doubles(rules: Iterable[Sequence[str]], number: int) -> str:
    """The category of a whole number, if n is a double and i its lowest eighteen digits as a double."""
    operands = {"n": float(number), "i": float(number % 10**18)}
    for category, condition in rules:
        for relations in cldr_patterns.alternatives(condition):
            if all(holds_of(operands, relation) for relation in relations):
                return category
    return "other"


def holds_of(operands: Mapping[str, float], relation: cldr_patterns.Relation) -> bool:
    """Tells whether a relation holds of operands; those that aren't given are zero."""
    operand, modulus, sign, items = relation.groups()
    value = operands.get(operand, 0.0)
    value = math.fmod(value, int(modulus)) if modulus else value
    ranges = [[int(end) for end in item.split("..")] for item in items.split(",")]
    return any(ends[0] <= value <= ends[-1] for ends in ranges) == (sign == "=")


def differences_of(
    jobs: Iterable[Job], lines: Sequence[str], ours: Iterable[Texts], theirs: Iterable[Texts]
) -> Iterator[Difference]:
    """All lines that differ."""
    for job, mine, other in zip(jobs, ours, theirs):
        for number, left, right in zip(lines, mine, other):
            if left != right:
                yield Difference(job, number, left, right)


def shown(difference: Difference) -> str:
    """A difference as one text."""
    job, number, ours, theirs = difference
    return f"{job.locale} {job.system} {job.style} {number}: `{ours}`, ICU `{theirs}`"


def same_version(left: str, right: str | None) -> bool:
    """Tells whether two versions are the same: 46 and 46.0 are."""
    return right is not None and (left.split(".") + ["0"])[:2] == (right.split(".") + ["0"])[:2]


def print_table(
    versions: Sequence[str], jobs: Sequence[Job], lines: Sequence[str], kinds: Mapping[str, Sequence[Difference]]
) -> None:
    """Prints what was compared, and the kinds of difference."""
    compared = len(jobs) * len(lines)
    equal = compared - sum(len(found) for found in kinds.values())
    print("\n| ICU | its CLDR data | locales | numbering systems in them | styles | numbers | compared | equal |")
    print("|---" * 8 + "|")
    locales = len({job.locale for job in jobs})
    systems = len(jobs) // len(STYLES)
    counts = f"{locales} | {systems} | {len(STYLES)} | {len(lines)} | {compared:,} | {equal:,}"
    print(f"| {versions[0]} | {versions[1]} | {counts} |")
    print("\n| difference | lines | locales | example |\n|---|---|---|---|")
    for name, found in kinds.items():
        example = min(map(shown, found), key=lambda text: (sum(letter > "~" for letter in text), len(text)), default="")
        print(f"| {name} | {len(found)} | {len({it.job.locale for it in found})} | {example} |")
    print()


def compare(
    formatters: Formatters, release: Release, names: Sequence[str], versions: Sequence[str]
) -> tuple[int, int]:
    """Compares all, and answers how many formatters had a difference of no known kind, of how many."""
    tables = json.loads(cldr.written(cldr.make_tables(release, cldr.chosen(release, names))))
    jobs = [Job(it["locale"], it.get("system", "-"), style) for it in tables["symbols"] for style in STYLES]
    lines = numbers()
    ours = formatters.decfmt_all(formatters.write("tables.json", tables), jobs, lines)
    theirs = formatters.icu_all(jobs, lines)
    kinds = Kinds(formatters, release, tables)
    counted: dict[str, list[Difference]] = {name: [] for name in kinds.known}
    unknown = counted.setdefault(OTHER, [])
    for difference in differences_of(jobs, lines, ours, theirs):
        counted[kinds.kind_of(difference) or OTHER].append(difference)
    for difference in unknown[:50]:
        print(f"icu: {shown(difference)}")
    print_table(versions, jobs, lines, counted)
    return len({difference.job for difference in unknown}), len(jobs)


def main(peer: str, name: str, program: str, *names: str) -> int:
    """Compares, if release and ICU have the same data, and answers the exit status."""
    release = cldr.open_release(name, Reports(io.StringIO()))
    asked = [*shlex.split(peer), "--version"]
    versions = subprocess.run(asked, stdout=subprocess.PIPE, encoding="utf-8", check=True).stdout.split()
    if not same_version(versions[1], release.version()):
        print(f"icu: skipped: ICU {versions[0]} has the data of CLDR {versions[1]}, the release is {release.version()}")
        return 0
    with tempfile.TemporaryDirectory() as folder:
        failed, count = compare(Formatters(peer, program, folder), release, names, versions)
    print(f"{count - failed} passed, {failed} failed")
    return 1 if failed else 0


if __name__ == "__main__":
    sys.exit(main(*usage.words_of(__doc__, 3, 1000)))
