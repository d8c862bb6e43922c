#!/usr/bin/env python3
"""Compares what decfmt writes for names of locales with what ICU writes for these very names, in all styles, and prints
the tables of docs/TESTING.md: the names of likely subtags and of the aliases of languages of a CLDR release, each
language with each region of ICU's locales, and all other names that tables have.

Which locale a name means, ICU tells too, by its own canonical form of the name with likely subtags: each name that
means a modern locale by that has to be in the usual tables. Names without a language have to be root's for ICU; tables
don't have them. A difference is of a known kind, or it is printed, and fails:

- ICU looks data up by the name as it is written; by its canonical form with likely subtags it writes what decfmt does;
- the locale that the name means differs just so: tests/icu_compare.py tells of what kind that is. If ICU has the data
  of another version it is reported as one of the data, and is judged by this alone: ICU writes the same for the canonical
  form and for the locale, and in the tables both have the same entries.

usage: tests/icu_names.py PEER RELEASE PROGRAM, where PEER runs tests/icu_peer.cpp
"""
import collections
import io
import json
import subprocess
import sys
import tempfile
from collections.abc import Container, Iterable, Mapping, Sequence
from typing import NamedTuple, TypeAlias

import icu_compare
import usage
from icu_compare import STYLES, Difference, Formatters, Job, Json

# icu_compare has put the folder of the tools into the path
import cldr_names
import cldr_to_tables as cldr
from cldr_numbers import named
from cldr_release import Release
from cldr_reports import Reports

# The entries of tables by the names of locales, each with its key.
Entries: TypeAlias = dict[str, list[tuple[str, Json]]]

LOOKED_UP = "ICU looks the name up as it is, not its canonical form with likely subtags"
DATA = "the locale itself differs: ICU has the data of another version"
OTHER = "any other"
LIKELY = "likely subtags"
ALIASES = "aliases of languages"
PAIRS = "languages and regions of ICU's locales"
FURTHER = "other names that tables have, with `--names all`"
NO_LANGUAGE = "no language, such as `und-TW`"
STEP = 6


def lines_of(command: Sequence[str], asked: str = "") -> list[str]:
    """The lines of a command's output."""
    run = subprocess.run(command, input=asked, stdout=subprocess.PIPE, encoding="utf-8", check=True)
    return run.stdout.splitlines()


def asked_names(release: Release, peer: Sequence[str], added: Iterable[str]) -> dict[str, str]:
    """The names that are asked for, by where they come from; each but once."""
    facts = release.names.facts
    pairs = set()
    for locale in lines_of([*peer, "--available"]):
        fields = cldr_names.fields_of(locale)
        if fields.region:
            pairs.add(cldr_names.joined(fields.language, fields.region))
    sources: dict[str, Iterable[str]] = {LIKELY: facts.likely, ALIASES: facts.languages, PAIRS: pairs, FURTHER: added}
    found: dict[str, str] = {}
    for source, names in sources.items():
        for name in names:
            found.setdefault(named(name), NO_LANGUAGE if name.startswith("und") else source)
    return found


class Meanings:
    """What names mean by ICU: its canonical form with likely subtags."""

    def __init__(self, release: Release, peer: Sequence[str], names: Iterable[str], covered: Sequence[str]) -> None:
        self.release = release
        self.peer = peer
        tags = [*names, *map(named, covered)]
        self.full = dict(zip(tags, self.likely(tags)))
        bare = sorted({full[0] for full in self.full.values()} - {""})
        self.script = {language: full[1] for language, full in zip(bare, self.likely(bare))}
        self.covered = {self.full[named(locale)] for locale in covered}
        self.in_script = {full[:2] for full in self.covered}

    def likely(self, tags: Iterable[str]) -> list[cldr_names.Triple]:
        """Language, script and region of each tag."""
        answers = lines_of([*self.peer, "--likely"], "".join(f"{tag}\n" for tag in tags))
        return [cldr_names.fields_of(answer)[:3] for answer in answers]

    def form(self, tag: str) -> str:
        """The canonical form, with a script where it isn't that of the language, as ICU's data is named."""
        language, script, region = self.full[tag]
        return "-".join(word for word in (language, script if script != self.script[language] else "", region) if word)

    def is_covered(self, tag: str) -> bool:
        """Tells whether a name means a modern locale by ICU: one with this full form, or a language in this script."""
        full = self.full[tag]
        return not tag.startswith("und") and (full in self.covered or full[:2] in self.in_script)


def meant(release: Release, name: str) -> str:
    """The tag of the locale that a name in the tables means."""
    locale = release.names.meant(name)
    if locale is None:
        raise LookupError(name)
    return named(locale)


class Found(NamedTuple):
    """A difference, with what ICU writes by the name's canonical form and by the locale that it means."""

    difference: Difference
    by_form: str
    by_locale: str


def compare(
    formatters: Formatters,
    tables: Json,
    meanings: Meanings,
    release: Release,
    names: Iterable[str],
    lines: Sequence[str],
) -> list[Found]:
    """All differences of the names in the tables from ICU."""
    jobs = [Job(name, "-", style) for name in names for style in STYLES]
    by_form = [job._replace(locale=meanings.form(job.locale)) for job in jobs]
    by_locale = [job._replace(locale=meant(release, job.locale)) for job in jobs]
    found = []
    for job, *theirs in zip(jobs, *(formatters.icu_all(asked, lines) for asked in (jobs, by_form, by_locale))):
        path = formatters.write("one.json", icu_compare.of_locale(tables, job.locale))
        ours = formatters.decfmt(path, job, lines)
        for number, text, own, form, locale in zip(lines, ours, *theirs):
            if text != own:
                found.append(Found(Difference(job, number, text, own), form, locale))
    return found


def unlike_root(formatters: Formatters, names: Sequence[str], lines: Sequence[str]) -> list[str]:
    """Those of the names that ICU doesn't write as root."""
    jobs = [Job(name, "-", style) for name in ("und", *names) for style in STYLES]
    answers = formatters.icu_all(jobs, lines)
    root = answers[: len(STYLES)]
    return [name for index, name in enumerate(names, 1) if answers[len(STYLES) * index :][: len(STYLES)] != root]


def kind_of(found: Found, is_same_data: bool, kinds: icu_compare.Kinds, entries: Entries) -> str:
    """The kind of a difference."""
    difference, by_form, by_locale = found
    job, number, ours, theirs = difference
    locale = meant(kinds.release, job.locale)
    if by_form == ours:
        return LOOKED_UP
    if by_form == by_locale and not is_same_data and entries[job.locale] == entries[locale]:
        return DATA if theirs == by_form else f"{LOOKED_UP}; {DATA}"
    return kinds.kind_of(Difference(job, number, ours, by_form)) or OTHER


def entries_by_name(tables: Json) -> Entries:
    """The entries of each name, without it."""
    found: Entries = collections.defaultdict(list)
    for key in ("symbols", "rules", *STYLES[1:]):
        for entry in tables[key]:
            found[entry["locale"]].append((key, {**entry, "locale": ""}))
    return found


def print_names(names: Mapping[str, str], meanings: Meanings, usual: Container[str]) -> list[str]:
    """Prints how many names are in the tables, and answers those that are missing."""
    print("\n| names | asked for | of a modern locale | in the usual tables | missing |\n|---|---|---|---|---|")
    missing: list[str] = []
    for source in dict.fromkeys(names.values()):
        of_source = [name for name in names if names[name] == source]
        covered = [name for name in of_source if meanings.is_covered(name)]
        absent = [name for name in covered if name not in usual and source != FURTHER]
        missing += absent
        in_usual = sum(name in usual for name in covered)
        print(f"| {source} | {len(of_source)} | {len(covered)} | {in_usual} | {len(absent)} |")
    return missing


def print_kinds(compared: int, kinds: Mapping[str, Sequence[Difference]]) -> None:
    """Prints how many lines differ, by kinds."""
    print(f"\n| compared | equal | \n|---|---|\n| {compared:,} | {compared - sum(map(len, kinds.values())):,} |")
    print("\n| difference | lines | names | example |\n|---|---|---|---|")
    for kind, found in kinds.items():
        example = min((icu_compare.shown(difference) for difference in found), key=len, default="")
        print(f"| {kind} | {len(found)} | {len({it.job.locale for it in found})} | {example} |")
    print()


def judge(
    formatters: Formatters, release: Release, versions: Sequence[str], meanings: Meanings, names: Mapping[str, str]
) -> tuple[int, set[str]]:
    """Compares the names that tables have, prints what differs, and answers how many names were compared and those with
    a difference of no known kind."""
    pairs = cldr.chosen(release, (), names="all")
    tables = json.loads(cldr.written(cldr.make_tables(release, pairs)))
    asked = sorted(set(names).intersection(dict(pairs)))
    lines = icu_compare.numbers()[::STEP]
    kinds = icu_compare.Kinds(formatters, release, tables)
    kinds.names.update(pairs)
    is_same_data = icu_compare.same_version(versions[1], release.version())
    by_kind: collections.defaultdict[str, list[Difference]] = collections.defaultdict(list)
    entries = entries_by_name(tables)
    for found in compare(formatters, tables, meanings, release, asked, lines):
        by_kind[kind_of(found, is_same_data, kinds, entries)].append(found.difference)
    for difference in by_kind[OTHER][:50]:
        print(f"icu_names: {icu_compare.shown(difference)}")
    print_kinds(len(asked) * len(STYLES) * len(lines), by_kind)
    no_language = [name for name in names if names[name] == NO_LANGUAGE]
    unlike = unlike_root(formatters, no_language, lines)
    for name in unlike:
        print(f"icu_names: {name}: not written as root by ICU")
    return len(asked) + len(no_language), {*unlike, *(difference.job.locale for difference in by_kind[OTHER])}


def main(peer: str, name: str, program: str) -> int:
    """Compares, and answers the exit status."""
    release = cldr.open_release(name, Reports(io.StringIO()))
    usual = dict(cldr.chosen(release, (), names="usual"))
    covered = release.covered("modern")
    with tempfile.TemporaryDirectory() as folder:
        formatters = icu_compare.Formatters(peer, program, folder)
        versions = lines_of([*formatters.peer, "--version"])[0].split()
        print(f"icu_names: ICU {versions[0]} with the data of CLDR {versions[1]}, the release is {release.version()}")
        names = asked_names(release, formatters.peer, release.names.added(covered, with_all=True))
        meanings = Meanings(release, formatters.peer, names, covered)
        missing = print_names(names, meanings, usual)
        for absent in missing:
            print(f"icu_names: {absent}: no data")
        count, unknown = judge(formatters, release, versions, meanings, names)
    count += len(missing)
    failed = len(unknown) + len(missing)
    print(f"{count - failed} passed, {failed} failed")
    return 1 if failed else 0


if __name__ == "__main__":
    sys.exit(main(*usage.words_of(__doc__, 3, 3)))
