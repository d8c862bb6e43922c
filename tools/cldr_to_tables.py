#!/usr/bin/env python3
"""Makes decfmt's tables, in the format of docs/FORMATS.md, out of a CLDR release.

The release is read as the LDML XML of core.zip (the archive, its folder or its folder common/), or as a folder with
the JSON packages cldr-core and cldr-numbers-full, and cldr-units-full for units. What the format of tables can't
express is left out, with one line on standard error for each kind; with --verbose one for each: locale, key and reason.

The tables have what numbers need; --currencies, --percents and --units add the keys of money, percents and units,
--ordinals the rules of ordinal numbers, and --ranges the keys of ranges.
--systems adds what locales have in further numbering systems beside their default one, their native one and latn.

Beside the release's locales the tables have the names by which these are known elsewhere, such as zh-TW, no-NO and iw.
With --which the program tells what a name means, and makes no tables.

Exit status: 0 done, 1 the output couldn't be written, 2 wrong words, 3 not a CLDR release, 4 a name that means no
locale of the release.
"""
from __future__ import annotations

import argparse
import contextlib
import difflib
import functools
import json
import os
import pathlib
import re
import sys
import zipfile
from typing import Callable, Collection, Dict, Iterable, Iterator, Mapping, NamedTuple, NoReturn, Optional, Sequence, TypeVar

import cldr_names
from cldr_dimension import (
    Names,
    codes_of,
    compact_money_entry,
    currency_digits,
    currency_texts,
    money_entry,
    money_names,
    money_symbols,
    names_of_units,
    percent_entry,
    unit_entries,
)
from cldr_json import JsonRelease
from cldr_ldml import LdmlRelease
from cldr_numbers import LATIN, CompactReader, Symbols, formats_of, named, symbols_entry, systems_of
from cldr_patterns import Rules, conditions
from cldr_ranges import plural_ranges, range_entry
from cldr_release import LEVELS, MONEY, PERCENTS, RANGES, STYLES, UNITS, Folder, Release, Scope
from cldr_reports import (
    ENTRY,
    MONEY_ENTRY,
    NAMES,
    RANGE,
    SYSTEM,
    UNREADABLE,
    Inexpressible,
    NotARelease,
    Reports,
    UnknownLocale,
    UnknownWord,
)

Something = TypeVar("Something")
# An entry of tables, as its JSON is made of it.
Entry = Dict[str, object]
# What makes the entry of a numbering system, without `locale` and `system`, or nothing.
MakeEntry = Callable[[str], Optional[Mapping[str, object]]]


class NoOutput(Exception):
    """The output couldn't be written."""


class Wanted(NamedTuple):
    """What tables have beside numbers in the usual numbering systems: codes of currencies, percents or not, names of
    units, further numbering systems, ordinal rules or not, and ranges or not. `all` may stand for a list, and a list may be
    empty."""

    currencies: Names = ()
    percents: bool = False
    units: Names = ()
    systems: Names = ()
    ordinals: bool = False
    ranges: bool = False


NUMBERS_ALONE = Wanted()


def usable_digits(release: Release) -> dict[str, str]:
    """The digits of the numeric systems whose names and digits the format takes."""
    usable = {}
    for system, digits in sorted(release.digits().items()):
        if re.fullmatch("[a-z0-9]{3,8}", system) and len(digits) == 10:
            usable[system] = digits
        else:
            reason = "its name isn't 3 to 8 small letters and digits, or its digits aren't ten"
            release.reports.left_out(SYSTEM, "root", f"numbering system {system}", reason)
    return usable


def by_system(systems: Sequence[str], entries: Mapping[str, Mapping[str, object]]) -> list[Entry]:
    """The entries of systems in their order; that of the first, the locale's default one, without its name."""
    found = [system for system in systems if system in entries]
    return [{**({} if system == systems[0] else {"system": system}), **entries[system]} for system in found]


class TablesMaker:
    """Gathers the entries of the tables, locale by locale."""

    def __init__(self, release: Release, wanted: Wanted = NUMBERS_ALONE) -> None:
        self.release = release
        self.wanted = wanted
        self.digits = usable_digits(release)
        self.further = sorted(self.digits) if wanted.systems == "all" else wanted.systems
        self.tables = self.without_locales()

    def without_locales(self) -> dict[str, list[object]]:
        """Tables that have no locale yet."""
        tables: dict[str, list[object]] = {"symbols": [], "digits": [], "rules": [], "short": [], "long": []}
        tables["digits"].extend(sorted(self.digits.items()))
        if self.wanted.ordinals:
            tables["ordinals"] = []
        if self.wanted.ranges:
            tables.update(ranges=[], plural_ranges=[])
        if self.wanted.currencies:
            tables.update(currencies=[], currency_decimals=[], currency_symbols=[], currency_compact=[])
            tables["currency_digits"] = [*currency_digits(self.release, self.wanted.currencies)]
        if self.wanted.percents:
            tables["percents"] = []
        if self.wanted.units or self.wanted.percents:
            tables["units"] = []
        return tables

    def tables_of(self, pairs: Iterable[tuple[str, str]]) -> dict[str, object]:
        """The tables of locales under their names."""
        self.tables = self.without_locales()
        for tag, locale in pairs:
            self.add(tag, locale)
        return {"cldr": self.release.version() or "unknown", **self.tables}

    def add(self, tag: str, locale: str) -> None:
        """Adds all entries of a locale under a name."""
        ruled = locale if tag == named(locale) else self.release.names.ruled(tag) or locale
        head: Entry = {"locale": tag}
        for key, entries in self.entries(locale, ruled).items():
            self.tables[key].extend({**head, **entry} for entry in entries)

    @functools.lru_cache(maxsize=None)
    def entries(self, locale: str, ruled: str) -> dict[str, list[Entry]]:
        """The entries of a locale with the plural rules of another by their keys, without `locale`: they are read once,
        and stand under every name."""
        rules = conditions(self.release, ruled, self.release.cardinals)
        usual = systems_of(self.release, locale, self.digits)
        systems = usual + self.further_systems(locale, usual)
        symbols = self.symbols(locale, systems, symbols_entry, "symbols")
        amounts: dict[str, Symbols] = {}
        entries: dict[str, list[Entry]] = {"rules": [{"rules": rules}]}
        entries.update((style, self.compact(locale, systems, style, rules)) for style in STYLES)
        if self.wanted.ordinals:
            entries["ordinals"] = [{"rules": conditions(self.release, ruled, self.release.ordinals)}]
        if self.wanted.ranges:
            entries["ranges"] = self.ranges(locale, systems)
            triples = plural_ranges(self.release, ruled, rules)
            entries["plural_ranges"] = [{"ranges": triples}] if triples else []
        if self.wanted.currencies:
            entries["currencies"] = self.money(locale, systems, rules)
            amounts = self.symbols(locale, systems, money_symbols, "symbols of money")
            codes = codes_of(self.release, locale, self.wanted.currencies)
            texts = [currency_texts(self.release, locale, code, rules) for code in codes]
            entries["currency_symbols"] = [{"symbols": texts}]
            entries["currency_compact"] = self.compact_money(locale, systems, rules)
        if self.wanted.percents:
            entries["percents"] = self.percents(locale, systems)
        if self.wanted.units or self.wanted.percents:
            entries["units"] = unit_entries(self.release, locale, self.wanted.units, self.wanted.percents, rules)
        new = [system for system in systems if system in usual or self.is_new(systems[0], system, symbols, amounts)]
        entries["symbols"] = by_system(new, symbols)
        if self.wanted.currencies:
            entries["currency_decimals"] = by_system(new, amounts)
        return entries

    def further_systems(self, locale: str, usual: list[str]) -> list[str]:
        """The further systems that are asked for and may be written otherwise than the locale's default one."""
        default = usual[0] if usual else None
        own = self.release.systems(locale) if self.further else set()
        further = [system for system in self.further if default and system not in usual]
        return [system for system in further if system in own or default != LATIN]

    @staticmethod
    def is_new(default: str, system: str, *kinds: Mapping[str, Symbols]) -> bool:
        """Whether a system has other symbols of one of these kinds than the default one, whose symbols stand for those
        that aren't in tables; the name of the system aside."""

        def named_alike(entries: Mapping[str, Symbols], name: str) -> Symbols | None:
            if name not in entries:
                return None
            entry = entries[name].copy()
            entry["numsys"] = system
            return entry

        return any(named_alike(entries, system) != named_alike(entries, default) for entries in kinds)

    def try_entry(
        self, locale: str, key: str, make: Callable[[], Something], kind: str = ENTRY
    ) -> Something | None:
        """What `make` answers, or None with a line where it can't be expressed."""
        try:
            return make()
        except Inexpressible as refused:
            self.release.reports.left_out(kind, locale, key, refused)
            return None

    def where_new(self, systems: Sequence[str], make: MakeEntry) -> list[Entry]:
        """What `make` answers for the default system, and for the others where it is other than for this one."""
        entries = {system: make(system) for system in systems}
        default = entries.get(systems[0]) if systems else None
        new = {system: it for system, it in entries.items() if it is not None and (it is default or it != default)}
        return by_system(systems, new)

    def money(self, locale: str, systems: Sequence[str], rules: Rules) -> list[Entry]:
        """The patterns of money. Those of amounts with names go with the default system's, where they are looked up."""

        def make(system: str) -> Mapping[str, object] | None:
            key = f"currencyFormats[{system}]"
            entry = functools.partial(money_entry, self.release, locale, system)
            return self.try_entry(locale, key, entry, MONEY_ENTRY)

        entries = self.where_new(systems, make)
        if entries and "system" not in entries[0]:
            key = f"currencyFormats[{systems[0]}]/unitPattern"
            make_names = functools.partial(money_names, self.release, locale, systems[0], rules)
            names = self.try_entry(locale, key, make_names, NAMES)
            entries[0].update({} if names is None else {"names": names})
        return entries

    def compact_money(self, locale: str, systems: Sequence[str], rules: Rules) -> list[Entry]:
        """The compact patterns of money."""

        def make(system: str) -> Mapping[str, object] | None:
            key = f"currencyFormats[{system}]/short"
            entry = functools.partial(compact_money_entry, self.release, locale, system, rules)
            return self.try_entry(locale, key, entry, MONEY_ENTRY)

        return self.where_new(systems, make)

    def percents(self, locale: str, systems: Sequence[str]) -> list[Entry]:
        """The patterns of percents."""

        def make(system: str) -> Mapping[str, object] | None:
            key = f"percentFormats[{system}]"
            entry = functools.partial(percent_entry, self.release, locale, system)
            return self.try_entry(locale, key, entry, MONEY_ENTRY)

        return self.where_new(systems, make)

    def ranges(self, locale: str, systems: Sequence[str]) -> list[Entry]:
        """The range patterns."""

        def make(system: str) -> Mapping[str, object] | None:
            entry = functools.partial(range_entry, self.release, locale, system)
            return self.try_entry(locale, f"miscPatterns[{system}]/range", entry, RANGE)

        return self.where_new(systems, make)

    def symbols(
        self,
        locale: str,
        systems: Sequence[str],
        make: Callable[[Release, str, str], Symbols | None],
        key: str,
    ) -> dict[str, Symbols]:
        """The symbols of systems that have some, by their names, as `make` answers them."""
        entries = {}
        for system in systems:
            entry = self.try_entry(locale, f"{key}[{system}]", lambda: make(self.release, locale, system))
            if entry:
                entries[system] = entry
        return entries

    def compact(self, locale: str, systems: Sequence[str], style: str, rules: Rules) -> list[Entry]:
        """The compact patterns of the default system, and of the others where they differ from these."""

        def make(system: str) -> Mapping[str, object] | None:
            formats = formats_of(self.release, locale, system)
            reader = CompactReader(self.release, locale, formats, style, rules)
            patterns = self.try_entry(locale, f"decimalFormats[{system}]/{style}", reader.table)
            return None if patterns is None else {"patterns": patterns}

        return self.where_new(systems, make)


def open_release(name: str, reports: Reports, scopes: Sequence[Scope] = ()) -> Release:
    """The release in a folder or an archive, of which so much is read beside numbers."""
    folder: Folder = zipfile.Path(name) if zipfile.is_zipfile(name) else pathlib.Path(name)
    for place in (folder, folder / "common"):
        for form in (LdmlRelease, JsonRelease):
            if form.is_at(place):
                return form(place, reports, scopes)
    raise NotARelease(f"{name}: neither main/root.xml nor cldr-core/availableLocales.json is there")


# What a name means, in words.


def told(release: Release, name: str) -> tuple[bool, str]:
    """Whether a name means a locale of the release, and a line that says which, and what decfmt takes for it."""
    question = cldr_names.asked(name)
    locale = release.names.meant(question.name)
    if locale is None:
        near = release.names.near(question.name)
        told_near = f"the nearest: {', '.join(map(named, near))}" if near else "none is near"
        return False, f"{name}: no locale of the release; {told_near}"
    if question.system and question.system not in release.digits():
        return False, f"{name}: the release has no digits of a numbering system {question.system}"
    level = release.level(locale)
    coverage = level if level is not None and level in LEVELS else "all"
    words = f"{written_for(release, question.name, locale, coverage)} {question.system or '-'}"
    where = "" if coverage == LEVELS[0] else f", in tables with --coverage {coverage}"
    return True, f"{name}: the locale {named(locale)}; write {words} (LOCALE and NU of decfmt){where}"


def written_for(release: Release, name: str, locale: str, coverage: str) -> str:
    """The name as tables of a coverage have it, in its usual letters, or else that of its locale."""
    tag = named(cldr_names.in_usual_letters(name))
    return tag if tag in map(named, release.names.added(release.covered(coverage))) else named(locale)


# The program.


def chosen(
    release: Release, words: Sequence[str], coverage: str = "modern", names: str = "none"
) -> list[tuple[str, str]]:
    """What the tables are made of, as names with the locale of each: those that are asked for; else the locales of a
    coverage, and their usual names, all or none."""
    if words:
        return asked_for(release, words)
    locales = release.covered(coverage)
    added = release.names.added(locales, names == "all") if names != "none" else {}
    return [(named(locale), locale) for locale in locales] + [(named(name), added[name]) for name in sorted(added)]


def asked_for(release: Release, words: Sequence[str]) -> list[tuple[str, str]]:
    """The names of the command, each with its locale."""
    found: dict[str, str] = {}
    unknown: list[str] = []
    for word in words:
        question = cldr_names.asked(word)
        locale = release.names.meant(question.name) if question.is_tag else None
        if locale is None:
            unknown.append(f"error: {word}: the release has no such locale\n{told(release, word)[1]}")
        else:
            is_own = named(question.name).lower() == named(locale).lower()
            tag = named(locale) if is_own else named(cldr_names.in_usual_letters(question.name))
            found[tag] = locale
    if unknown:
        raise UnknownLocale("\n".join(unknown))
    return sorted(found.items(), key=lambda pair: (pair[1], pair[0]))


def refuse_unknown(release: Release, locales: Collection[str], wanted: Wanted) -> None:
    """Refuses currencies, units and numbering systems that the release doesn't know."""
    known: dict[str, tuple[Names, Callable[[], Collection[str]]]] = {
        "currencies": (wanted.currencies, lambda: release.currency_codes(locales)),
        "units": (wanted.units, lambda: names_of_units(release, locales)),
        "systems": (wanted.systems, lambda: usable_digits(release)),
    }
    for word, (names, known_names) in known.items():
        if not names or names == "all":
            continue
        there = known_names()
        unknown = [name for name in names if name not in there]
        if unknown:
            near = difflib.get_close_matches(unknown[0], there, cldr_names.MOST_NEAR)
            told_near = f"the nearest: {', '.join(near)}" if near else "none is near"
            raise UnknownWord(f"--{word}: {unknown[0]}: not in the release; {told_near}")


def make_tables(
    release: Release, pairs: Collection[tuple[str, str]], wanted: Wanted = NUMBERS_ALONE
) -> dict[str, object]:
    """The tables of locales under their names."""
    tables = TablesMaker(release, wanted).tables_of(reported(release, pairs))
    release.reports.clear()
    return tables


def reported(release: Release, pairs: Collection[tuple[str, str]]) -> Iterator[tuple[str, str]]:
    """The names with their locales, each reported as progress."""
    for index, (tag, locale) in enumerate(pairs):
        release.reports.progress(index, len(pairs), tag)
        yield tag, locale


def write_folder(release: Release, options: argparse.Namespace) -> None:
    """Writes a file of tables for each name, which has the locale under this name alone, so that it is read fast."""
    pairs, wanted = asked(release, options)
    folder = pathlib.Path(options.output)
    with writing():
        folder.mkdir(parents=True, exist_ok=True)
    maker = TablesMaker(release, wanted)
    for tag, locale in reported(release, pairs):
        replace(folder / f"{tag}.json", written(maker.tables_of([(tag, locale)])))
    release.reports.clear()
    release.reports.sum_up()


def replace(file: pathlib.Path, text: str) -> None:
    """Puts a text in the place of a file, which is never there in part."""
    new = file.with_name(f".{file.name}.new")
    with writing():
        new.write_bytes(text.encode())
        os.replace(new, file)


@contextlib.contextmanager
def writing() -> Iterator[None]:
    """Reports an error of what is written inside as `NoOutput`."""
    try:
        yield
    except OSError as error:
        raise NoOutput(error) from error


def written(tables: Mapping[str, object]) -> str:
    """The tables as JSON, one entry a line."""
    parts = []
    for key, value in tables.items():
        if isinstance(value, list):
            entries = ",\n".join(json.dumps(entry, ensure_ascii=False, separators=(",", ":")) for entry in value)
            parts.append(f"{json.dumps(key)}:[\n{entries}\n]")
        else:
            parts.append(f"{json.dumps(key)}:{json.dumps(value)}")
    return "{" + ",\n".join(parts) + "}\n"


class Parser(argparse.ArgumentParser):
    """Reports wrong arguments in one line."""

    def error(self, message: str) -> NoReturn:
        self.exit(2, f"{self.prog}: error: {message}\n")


class TellVersion(argparse.Action):
    """Tells the version of the project, and ends."""

    def __call__(self, parser: argparse.ArgumentParser, *_: object) -> None:
        version = pathlib.Path(__file__).resolve().parent.parent / "VERSION"
        print(parser.prog, version.read_text().strip())
        parser.exit()


def listed(word: str) -> Names:
    """The names of a list with commas; `all`; none for `none`."""
    return "all" if word == "all" else () if word == "none" else tuple(dict.fromkeys(word.split(",")))


def scopes_of(options: argparse.Namespace) -> list[Scope]:
    """What is read beside numbers."""
    asked = (
        (options.currencies, MONEY),
        (options.percents, PERCENTS),
        (options.units, UNITS),
        (options.ranges, RANGES),
    )
    return [scope for is_asked, scope in asked if is_asked]


def words_parser() -> argparse.ArgumentParser:
    """What reads the words of the command."""
    parser = Parser(description=__doc__, formatter_class=argparse.RawDescriptionHelpFormatter)
    parser.add_argument("release", metavar="RELEASE", help="core.zip, or the folder of a release")
    parser.add_argument("locales", metavar="LOCALE", nargs="*", help="as de, pt-AO or zh-TW: these alone")
    parser.add_argument("-o", "--output", metavar="FILE", help="where the tables go; FOLDER/ for a file of each locale")
    parser.add_argument("--coverage", choices=(*LEVELS, "all"), help="the locales covered so well, or all; else modern")
    parser.add_argument("--names", choices=("none", "usual", "all"), help="which further names; else the usual ones")
    parser.add_argument("--currencies", metavar="CODES", type=listed, default=(), help="with money in EUR,USD, or all")
    parser.add_argument("--percents", action="store_true", help="with percents")
    parser.add_argument("--units", metavar="UNITS", type=listed, default=(), help="with kilometer,day, or all")
    parser.add_argument("--systems", metavar="SYSTEMS", type=listed, default=(), help="also in arab,deva, or all")
    parser.add_argument("--ordinals", action="store_true", help="with rules of ordinal numbers, as of 1st and 2nd")
    parser.add_argument("--ranges", action="store_true", help="with range patterns and categories of ranges, as of 3–5")
    parser.add_argument("--which", metavar="NAME", action="append", help="tells which locale NAME means; no tables")
    parser.add_argument("--verbose", action="store_true", help="names each thing that isn't in the tables as in CLDR")
    parser.add_argument("--version", action=TellVersion, nargs=0, help="tells the version of this program, and ends")
    return parser


def read_words(parser: argparse.ArgumentParser, words: Sequence[str]) -> argparse.Namespace:
    """The words of the command."""
    options = parser.parse_intermixed_args(words)
    if options.locales and (options.coverage or options.names):
        parser.error("--coverage and --names are for tables without a LOCALE")
    if options.currencies != "all" and not all(re.fullmatch("[A-Z]{3}", code) for code in options.currencies):
        parser.error("--currencies: a code is three capitals")
    places = options.locales, options.coverage, options.names, options.output
    if options.which and any((*places, options.systems, options.ordinals, scopes_of(options))):
        parser.error("--which stands alone")
    return options


def tell_which(release: Release, names: Iterable[str]) -> int:
    """Tells what names mean, and answers the exit status."""
    answers = [told(release, name) for name in names]
    for _, line in answers:
        print(line)
    return 0 if all(is_known for is_known, _ in answers) else 4


def asked(release: Release, options: argparse.Namespace) -> tuple[list[tuple[str, str]], Wanted]:
    """The names that tables are asked for, each with its locale, and what the tables have beside numbers."""
    pairs = chosen(release, options.locales, options.coverage or "modern", options.names or "usual")
    wanted = Wanted(
        options.currencies, options.percents, options.units, options.systems, options.ordinals, options.ranges
    )
    refuse_unknown(release, {locale for _, locale in pairs}, wanted)
    return pairs, wanted


def made(release: Release, options: argparse.Namespace) -> str:
    """The text of the tables that are asked for."""
    text = written(make_tables(release, *asked(release, options)))
    release.reports.sum_up()
    return text


def is_folder(output: str | None) -> bool:
    """Whether tables go to a folder: its name ends with a slash, or there is such a folder."""
    return output is not None and (output.endswith("/") or os.path.isdir(output))


def write_file(release: Release, options: argparse.Namespace) -> None:
    """Writes the tables to the file, or to standard output."""
    text = made(release, options)
    with writing(), open(options.output, "wb") if options.output else open(1, "wb", closefd=False) as file:
        file.write(text.encode())


def main(words: Sequence[str]) -> int:
    """Makes tables, or tells what names mean, and answers the exit status."""
    parser = words_parser()
    options = read_words(parser, words)
    try:
        release = open_release(options.release, Reports(sys.stderr, options.verbose), scopes_of(options))
        if options.which:
            return tell_which(release, options.which)
        write = write_folder if is_folder(options.output) else write_file
        write(release, options)
    except UnknownWord as refused:
        parser.error(str(refused))
    except UnknownLocale as refused:
        print(refused, file=sys.stderr)
        return 4
    except NoOutput as error:
        print(f"error: no output: {error}", file=sys.stderr)
        return 1
    except UNREADABLE as refused:
        print(f"error: not a CLDR release: {refused}", file=sys.stderr)
        return 3
    return 0


if __name__ == "__main__":
    sys.exit(main(sys.argv[1:]))
