#!/usr/bin/env python3
"""Compares locnum with ICU over all modern locales of a CLDR release, in money, percents and units, and prints the tables
of docs/TESTING.md. Differences of a known kind are counted by its name; any other one is printed, and fails.

A kind isn't recognized by its looks. Each has a reason, which changes the tables in a known way, or says for which data it
holds; locnum then has to write just what ICU wrote.

usage: tests/icu_money.py PEER RELEASE PROGRAM [LOCALE..], where PEER runs tests/icu_peer.cpp; locales instead of all
modern ones
"""
import collections
import copy
import io
import itertools
import json
import os
import pathlib
import shlex
import subprocess
import sys
import tempfile
import unicodedata
from collections.abc import Iterable, Iterator, Mapping, Sequence
from concurrent.futures import ThreadPoolExecutor

sys.path.insert(0, str(pathlib.Path(__file__).resolve().parent.parent / "tools"))
import cldr_dimension  # noqa: E402
import cldr_numbers  # noqa: E402
import cldr_patterns  # noqa: E402
import cldr_paths  # noqa: E402
import cldr_to_tables as cldr  # noqa: E402
import usage  # noqa: E402
from cldr_release import MONEY, PERCENTS, UNITS, Release  # noqa: E402
from cldr_reports import Reports  # noqa: E402
from icu_compare import (  # noqa: E402
    OTHER,
    Difference,
    Job,
    Json,
    KnownKinds,
    Texts,
    differences_of,
    same_version,
    shown,
)

# The keys of tables that have entries of a locale.
KEYS = ("symbols", "rules", "currencies", "currency_symbols", "currency_compact", "percents", "units", "currency_decimals")

CODES = ["USD", "EUR", "JPY", "CHF", "KWD", "INR", "BRL", "CVE"]
UNIT_NAMES = (
    "kilometer meter centimeter mile foot inch year month week day hour minute second kilogram gram pound liter "
    "milliliter celsius fahrenheit degree bit byte gigabyte kilometer-per-hour meter-per-second square-meter hectare "
    "kilowatt calorie"
).split()
NUMBERS = "0 1 -1 2 1.0 3 5 11 21 100 -0.5 0.005 0.015 1234.5 -1234567.891 999.995 1000000"
LARGE = "1500 -15500 123456 9995000 -1234567890 98765432101 1234567890123456"
EXPLICIT = "+0 +1 +1234.5"

GROUPS = "groups of accounts, names and percents of their own, which tables can't express"
OWN_PATTERN = "patterns and separators of a single currency, which tables can't express"
OWN_FOR_ALL = "the same of the locale's own currency, which ICU takes for all others too"
OTHER_SCRIPT = "units and names of a locale whose script isn't the likely one: ICU has those of the likely one"
OWN_WITH_NAME = "names beside the pattern of the locale's own currency, in which ICU leaves the symbol"
REPEATED = "types whose patterns the next type has, too, with another exponent: tables leave out the earlier one"
LATIN_PLACES = "names where the usual numbering system has no patterns of money: ICU takes no other one's places"

# The files that hold lists of numbers, a line each.
FILES = {NUMBERS: "numbers", LARGE: "large", EXPLICIT: "explicit"}


def kinds() -> list[str]:
    """All kinds of texts, as the peer is asked for them."""
    money = [f"money {code} {width}" for code in CODES for width in ("short", "narrow", "name", "compact")]
    accounts = [f"money {code} {width} accounting" for code in CODES for width in ("short", "narrow")]
    units = [f"unit {unit} {width}" for unit in UNIT_NAMES for width in ("long", "short", "narrow")]
    return [*money, *accounts, "percent", *units]


def words_of(job: Job) -> list[str]:
    """How locnum is asked for the texts of a job."""
    kind, *rest = job.style.split()
    words = ["-l", job.locale, "--invalid", "fail", *(["--system", job.system] if job.system != "-" else [])]
    if kind == "percent":
        return [*words, "--percent"]
    name, width, *accounting = rest
    words += ["--currency" if kind == "money" else "--unit", name]
    words += ["--style", "short"] if width == "compact" else ["--width", width]
    return [*words, "--accounting"] if accounting else words


def runs_of(job: Job) -> list[tuple[str, str]]:
    """The numbers that a job gets, each list with the word for signs: compact money has larger ones too, units have none with
    an explicit sign."""
    large = [("auto", LARGE)] if job.style.endswith(" compact") else []
    return [("auto", NUMBERS), *large, *([] if job.style.startswith("unit") else [("always", EXPLICIT)])]


def lines_of(job: Job) -> list[str]:
    """All of these numbers."""
    return [number for _, numbers in runs_of(job) for number in numbers.split()]


class Locnum:
    """locnum, over the tables of one locale at a time."""

    def __init__(self, program: pathlib.Path, tables: Json, folder: str, keys: Sequence[str] = KEYS) -> None:
        self.program = program
        self.tables = tables
        self.keys = keys
        self.folder = pathlib.Path(folder)
        self.texts_of: dict[str, str] = {}
        self.by_locale: collections.defaultdict[str, dict[str, list[Json]]] = collections.defaultdict(dict)
        for key, entries in tables.items():
            if key not in ("cldr", "digits", "currency_digits"):
                for entry in entries:
                    self.by_locale[entry["locale"]].setdefault(key, []).append(entry)

    def tables_of(self, locale: str) -> Json:
        """A copy of the tables of a locale."""
        if locale not in self.texts_of:
            common = {key: self.tables[key] for key in ("digits", "currency_digits")}
            self.texts_of[locale] = json.dumps(common | {key: self.by_locale[locale].get(key, []) for key in self.keys})
        tables: Json = json.loads(self.texts_of[locale])
        return tables

    def write(self, name: str, tables: Json) -> pathlib.Path:
        path = self.folder / name
        path.write_text(json.dumps(tables, ensure_ascii=False), encoding="utf-8")
        return path

    def texts(self, path: pathlib.Path, jobs: Sequence[Job]) -> list[Texts]:
        """What it writes for each of these jobs of one locale, for numbers with an explicit plus with the word for it."""
        run = []
        for job in jobs:
            for signs, numbers in runs_of(job):
                words = shlex.join([str(self.program), "-t", str(path), "--sign", signs, *words_of(job)])
                run.append(f"{words} <{shlex.quote(str(self.folder / FILES[numbers]))} 2>&1")
            run.append("echo =")
        said = subprocess.run(["sh"], input="\n".join(run), stdout=subprocess.PIPE, encoding="utf-8", check=True).stdout
        answers: list[list[str]] = []
        lines: list[str] = []
        for line in said.split("\n")[:-1]:
            if line == "=":
                answers.append(lines)
                lines = []
            else:
                lines.append(line)
        # a text that is refused or missing leaves another number of lines
        return [self.whole(job, mine) for job, mine in zip(jobs, answers)]

    @staticmethod
    def whole(job: Job, lines: list[str]) -> Texts:
        """The lines of a job, or nothing for each of its numbers where they are more or less than these."""
        if len(lines) != len(lines_of(job)):
            return [None] * len(lines_of(job))
        return lines


def icu_texts(peer: str, jobs: Sequence[Job]) -> list[list[str]]:
    """What ICU writes for each of these jobs."""
    asked = "".join("= " + " ".join(job) + "\n" + "\n".join(lines_of(job)) + "\n" for job in jobs)
    said = subprocess.run(shlex.split(peer), input=asked, stdout=subprocess.PIPE, encoding="utf-8", check=True).stdout
    lines = iter(said.split("\n"))
    return [list(itertools.islice(lines, len(lines_of(job)))) for job in jobs]


class EarlierTypes(cldr_dimension.CompactMoneyReader):
    """Reads compact patterns of money without the types that repeat the patterns of an earlier one with another exponent:
    tables can't have both, and else leave out the earlier one."""

    def keep(
        self, kept: list[cldr_numbers.Row], power: int, exponent: int, elements: cldr_numbers.Elements
    ) -> None:
        """Puts a type behind those that are kept if it isn't such a one."""
        if not kept or elements != cldr_numbers.without_explicit_one(kept[-1].elements):
            super().keep(kept, power, exponent, elements)


class Kinds(KnownKinds):
    """The known kinds of difference in money, percents and units."""

    def __init__(self, locnum: Locnum, release: Release) -> None:
        super().__init__(release)
        self.locnum = locnum
        self.last: Job | None = None
        self.answers: dict[str, Texts] = {}
        self.known = {
            GROUPS: self.own_groups,
            OWN_PATTERN: self.own_pattern,
            OWN_FOR_ALL: self.own_for_all,
            OTHER_SCRIPT: self.other_script,
            OWN_WITH_NAME: self.own_with_name,
            LATIN_PLACES: self.root_places,
            REPEATED: self.earlier_types,
        }

    def entry(self, tables: Json, key: str, job: Job) -> Json | None:
        """The entry under a key for the locale and the numbering system of a job, or None."""
        system = None if job.system == "-" else job.system
        entries: list[Json] = tables.get(key, [])
        return next((entry for entry in entries if entry.get("system") == system), None) or next(
            (entry for entry in entries if "system" not in entry), None)

    def symbols(self, tables: Json, job: Job) -> Json:
        """The symbols for the locale and the numbering system of a job."""
        entry = self.entry(tables, "symbols", job)
        if entry is None:
            raise LookupError(f"no symbols of {job.locale}")
        return entry

    def again(self, tables: Json, difference: Difference) -> Texts:
        """What locnum writes with other tables; all numbers of a job are asked at once, since most of them differ alike."""
        job, text = difference.job, json.dumps(tables)
        if job != self.last:
            self.last, self.answers = job, {}
        if text not in self.answers:
            self.answers[text] = self.locnum.texts(self.locnum.write("changed.json", tables), [job])[0]
        return [self.answers[text][lines_of(job).index(difference.number)]]

    def pattern_of(self, job: Job, system: str) -> str | None:
        """CLDR's pattern for the numbers of a job, by whose groups ICU writes them."""
        locale, kind = self.names[job.locale], job.style.split()
        if kind[0] == "percent":
            path_of = cldr_paths.percent_path
            return self.release.text(locale, path_of(cldr_numbers.formats_of(self.release, locale, system, path_of)))
        if kind[2] == "name":
            return cldr_dimension.plain_pattern(self.release, locale, system)
        patterns = cldr_dimension.money_patterns(
            self.release, locale, cldr_dimension.money_formats(self.release, locale, system))
        return patterns["accounting" if len(kind) > 3 else "standard"]

    def own_groups(self, difference: Difference) -> Texts:
        """The text with the groups of CLDR's own pattern for these numbers."""
        job = difference.job
        if job.style.startswith("unit"):
            return []
        tables = self.locnum.tables_of(job.locale)
        numbers = self.symbols(tables, job)
        key = "symbols" if job.style == "percent" else "currency_decimals"
        entry = copy.deepcopy(self.entry(tables, key, job) or numbers)
        pattern = self.pattern_of(job, numbers["numsys"])
        sizes = cldr_patterns.sizes_of(pattern) if pattern is not None else entry["sizes"][:2]
        if sizes == entry["sizes"][:2]:
            return []
        entry["sizes"] = [*sizes, entry["sizes"][2]]
        tables[key] = [{**entry, **({} if job.system == "-" else {"system": job.system})}]
        return self.again(tables, difference)

    def owns_of(self, locale: str, system: str, code: str) -> list[dict[str, str]]:
        """What a locale or a parent has for a currency alone, a pattern or separators; and the same with the separators
        of the numbers of the locale that has it, which ICU's data repeat there."""
        path = cldr_paths.currency_path(code)
        for ancestor in self.release.chain(locale):
            found = {name: self.release.tree(ancestor).values.get((*path, cldr_paths.step(name, {}))) for name in cldr_dimension.OWN}
            own = {name: text for name, text in found.items() if text is not None}
            if own:
                names = {name: cldr_numbers.symbol(self.release, ancestor, system, name) for name in ("decimal", "group")}
                return [own, {**names, **own}]
        return []

    def with_own(self, difference: Difference, own: Mapping[str, str]) -> Texts:
        """The text with a pattern and separators in the place of those of the tables; ICU has one pattern for such a
        currency, which it takes for accounts too."""
        job = difference.job
        tables = self.locnum.tables_of(job.locale)
        for entry in tables["currencies"]:
            pattern = own.get("pattern", entry["standard"])
            entry.update(standard=pattern, accounting=pattern)
        numbers = self.entry(tables, "currency_decimals", job) or self.symbols(tables, job)
        tables["currency_decimals"] = [{**numbers, **{name: own[name] for name in ("decimal", "group") if name in own}}]
        return self.again(tables, difference)

    def texts_with_own(self, difference: Difference, codes: Iterable[str]) -> Iterator[str | None]:
        """The text by what the locale has for each of these currencies alone."""
        job = difference.job
        locale, system = self.names[job.locale], self.symbols(self.locnum.tables_of(job.locale), job)["numsys"]
        for code in codes:
            for own in self.owns_of(locale, system, code):
                yield from self.with_own(difference, own)

    def own_pattern(self, difference: Difference) -> Iterable[str | None]:
        """The text with the pattern and the separators that the locale has for this currency alone."""
        kind = difference.job.style.split()
        return self.texts_with_own(difference, kind[1:2]) if kind[0] == "money" else []

    def own_for_all(self, difference: Difference) -> Iterable[str | None]:
        """The text with the pattern and the separators that the locale has for another currency alone."""
        if not difference.job.style.startswith("money"):
            return []
        return self.texts_with_own(difference, self.release.named([self.names[difference.job.locale]], "currencies", "currency"))

    def other_script(self, difference: Difference) -> Iterator[str | None]:
        """The text by the units and names of the same language and region in another script."""
        job = difference.job
        parts = job.locale.split("-")
        if len(parts) != 3:
            return
        others = [name for name in self.locnum.by_locale if name.split("-")[::2] == parts[::2] and name != job.locale]
        tables = self.locnum.tables_of(job.locale)
        for other in others:
            found = self.locnum.tables_of(other)
            taken = {key: [{**it, "locale": job.locale} for it in found[key]] for key in ("units", "currency_symbols")}
            yield from self.again(tables | taken, difference)

    def own_with_name(self, difference: Difference) -> Iterator[str | None]:
        """The amount with its symbol by the pattern that the locale has for a currency of its own, and the name behind it;
        where that pattern's number ends in a zero which isn't in ICU's own, it stands behind the name."""
        job, number, ours, _ = difference
        if not job.style.endswith(" name") or ours is None:
            return
        short = Difference(job._replace(style=job.style.replace(" name", " short")), number, ours, "")
        name = ours[max(place for place, letter in enumerate(ours) if unicodedata.decimal(letter, None) is not None) + 1:]
        for amount in self.texts_with_own(short, self.release.named([self.names[job.locale]], "currencies", "currency")):
            if amount is not None:
                yield amount + name
                yield amount[:-1] + name + amount[-1:]

    def root_places(self, difference: Difference) -> Texts:
        """The text with the name behind the amount, as root has it."""
        job = difference.job
        tables, locale = self.locnum.tables_of(job.locale), self.names[job.locale]
        usual = self.symbols(tables, job._replace(system="-"))["numsys"]
        path = cldr_paths.money_path(usual, "standard")
        has_own = any(path in self.release.tree(ancestor).values for ancestor in self.release.chain(locale))
        if not job.style.endswith(" name") or has_own:
            return []
        for entry in tables["currencies"]:
            entry["names"] = {"other": "{0} {1}"}
        return self.again(tables, difference)

    def earlier_types(self, difference: Difference) -> Texts:
        """The text by the patterns of the earlier of two types that repeat each other."""
        job = difference.job
        if not job.style.endswith(" compact"):
            return []
        tables, locale = self.locnum.tables_of(job.locale), self.names[job.locale]
        rules = [(category, condition) for category, condition in tables["rules"][0]["rules"]]
        system = self.symbols(tables, job)["numsys"]
        formats = cldr_dimension.compact_money_formats(self.release, locale, system)
        reader = EarlierTypes(self.release, locale, formats, cldr_dimension.SHORT, rules)
        tables["currency_compact"] = [{"locale": job.locale, "patterns": reader.table()}]
        return self.again(tables, difference)


def group_of(job: Job) -> str:
    """Which row of the printed table a job belongs to."""
    kind, *rest = job.style.split()
    if kind == "percent":
        return "percents"
    if kind == "unit":
        return f"units, {rest[1]}"
    names = {"name": "money with names", "compact": "compact money"}
    return "money in accounts" if len(rest) > 2 else names.get(rest[1], f"money, {rest[1]} symbols")


def print_tables(
    versions: Sequence[str],
    locales: int,
    systems: int,
    counts: Mapping[str, Sequence[int]],
    found: Mapping[str, Sequence[Difference]],
) -> None:
    """Prints what was compared, and the kinds of difference."""
    print(f"\nICU {versions[0]} with the data of CLDR {versions[1]}: {locales} locales, {systems} numbering systems in them.")
    print("\n| texts | compared | equal |\n|---|---|---|")
    for name, (compared, equal) in counts.items():
        print(f"| {name} | {compared:,} | {equal:,} |")
    print(f"| together | {sum(it[0] for it in counts.values()):,} | {sum(it[1] for it in counts.values()):,} |")
    print("\n| difference | lines | locales | example |\n|---|---|---|---|")
    for name, differences in found.items():
        example = min(map(shown, differences), key=lambda text: (sum(it > "~" for it in text), len(text)), default="")
        print(f"| {name} | {len(differences)} | {len({it.job.locale for it in differences})} | {example} |")
    print()


def compare(peer: str, locnum: Locnum, release: Release, versions: Sequence[str]) -> tuple[int, int]:
    """Compares all, and answers how many formatters had a difference of no known kind, of how many."""
    for numbers, file in FILES.items():
        (locnum.folder / file).write_text(numbers.replace(" ", "\n") + "\n", encoding="utf-8")
    places = [(it["locale"], it.get("system", "-")) for it in locnum.tables["symbols"]]
    jobs_of = [[Job(*place, kind) for kind in kinds()] for place in places]

    def both(jobs: Sequence[Job]) -> tuple[list[Texts], list[list[str]]]:
        path = locnum.write(f"{jobs[0].locale}.{jobs[0].system}.json", locnum.tables_of(jobs[0].locale))
        return locnum.texts(path, jobs), icu_texts(peer, jobs)

    known = Kinds(locnum, release)
    found: dict[str, list[Difference]] = {name: [] for name in [*known.known, OTHER]}
    counts: collections.defaultdict[str, list[int]] = collections.defaultdict(lambda: [0, 0])
    with ThreadPoolExecutor(len(os.sched_getaffinity(0))) as runs:
        for jobs, (ours, theirs) in zip(jobs_of, runs.map(both, jobs_of)):
            for job, mine, other in zip(jobs, ours, theirs):
                counts[group_of(job)][0] += len(mine)
                counts[group_of(job)][1] += sum(left == right for left, right in zip(mine, other))
                for difference in differences_of([job], lines_of(job), [mine], [other]):
                    found[known.kind_of(difference) or OTHER].append(difference)
    for difference in {(it.job.locale, group_of(it.job)): it for it in found[OTHER]}.values():
        print(f"icu_money: {shown(difference)}")
    print_tables(versions, len({locale for locale, _ in places}), len(places), counts, found)
    return len({difference.job for difference in found[OTHER]}), sum(map(len, jobs_of))


def main(peer: str, name: str, program: str, *names: str) -> int:
    """Compares, if release and ICU have the same data, and answers the exit status."""
    release = cldr.open_release(name, Reports(io.StringIO()), (MONEY, PERCENTS, UNITS))
    asked = [*shlex.split(peer), "--version"]
    versions = subprocess.run(asked, stdout=subprocess.PIPE, encoding="utf-8", check=True).stdout.split()
    if not same_version(versions[1], release.version()):
        print(f"icu_money: skipped: ICU {versions[0]} has the data of CLDR {versions[1]}, the release is {release.version()}")
        return 0
    wanted = cldr.Wanted(currencies=CODES, percents=True, units=UNIT_NAMES)
    tables = json.loads(cldr.written(cldr.make_tables(release, cldr.chosen(release, names), wanted)))
    with tempfile.TemporaryDirectory() as folder:
        locnum = Locnum(pathlib.Path(program).resolve(), tables, folder)
        failed, count = compare(peer, locnum, release, versions)
    print(f"{count - failed} passed, {failed} failed")
    return 1 if failed else 0


if __name__ == "__main__":
    sys.exit(main(*usage.words_of(__doc__, 3, 1000)))
