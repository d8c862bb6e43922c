"""Reads a release as JSON packages."""
from __future__ import annotations

import functools
import json
import re
from typing import Any, Callable, Dict, Mapping, Sequence

import cldr_names
from cldr_paths import (
    UNIT_WIDTHS,
    Step,
    compact_money_path,
    compact_path,
    currency_path,
    money_names_path,
    money_path,
    percent_path,
    plain_path,
    range_path,
    step,
    symbols_path,
    unit_path,
)
from cldr_release import STYLES, Folder, LocaleRanges, LocaleRules, Release, Scope, Tree, below
from cldr_reports import Reports

# An object of JSON, whose members are what the packages have them to be.
JsonObject = Dict[str, Any]


def attributed(key: str) -> Step:
    """The tag and the attributes that a key of the packages stands for, such as `symbol-alt-narrow`."""
    tag, *words = key.split("-")
    return step(tag, dict(zip(words[::2], words[1::2])))


def add_decimals(tree: Tree, system: str, formats: JsonObject) -> None:
    """Adds the plain and the compact patterns of a numbering system."""
    if "standard" in formats:
        tree.values[plain_path(system)] = formats["standard"]
    for style in STYLES:
        for key, text in formats.get(style, {}).get("decimalFormat", {}).items():
            power, _, count = key.partition("-count-")
            tree.values[compact_path(system, style, power, count)] = text


def add_money(tree: Tree, system: str, formats: JsonObject) -> None:
    """Adds the patterns of money of a numbering system."""
    for key, value in formats.items():
        if isinstance(value, str):
            kind, *other = key.split("-")
            if kind == "unitPattern":
                tree.values[money_names_path(system, key.rpartition("-")[2])] = value
            elif not other:
                tree.values[money_path(system, kind)] = value
    for style in STYLES:
        for key, text in formats.get(style, {}).get("standard", {}).items():
            power, _, count = key.partition("-count-")
            if "-alt-" not in count:
                tree.values[compact_money_path(system, style, power, count)] = text


def add_percents(tree: Tree, system: str, formats: JsonObject) -> None:
    """Adds the pattern of percents of a numbering system."""
    tree.values[percent_path(system)] = formats["standard"]


def add_misc(tree: Tree, system: str, formats: JsonObject) -> None:
    """Adds the range pattern of a numbering system."""
    if "range" in formats:
        tree.values[range_path(system)] = formats["range"]


def add_currencies(tree: Tree, currencies: Mapping[str, Mapping[str, str]]) -> None:
    """Adds symbols and names of currencies."""
    for code, texts in currencies.items():
        for key, text in texts.items():
            tree.values[(*currency_path(code), attributed(key))] = text


def add_units(tree: Tree, widths: Mapping[str, Mapping[str, Mapping[str, str]]]) -> None:
    """Adds the patterns of units, in the cases of which nothing is said."""
    for width in UNIT_WIDTHS:
        for unit, texts in widths.get(width, {}).items():
            for key, text in texts.items():
                if re.fullmatch("unitPattern-count-[a-z]+", key):
                    tree.values[unit_path(width, unit, key.rpartition("-")[2])] = text


ADDERS: dict[str, Callable[[Tree, str, JsonObject], None]] = {
    "decimalFormats": add_decimals,
    "currencyFormats": add_money,
    "percentFormats": add_percents,
    "miscPatterns": add_misc,
}


class JsonRelease(Release):
    """The JSON packages cldr-core and cldr-numbers-full, side by side in a folder. In them all is inherited already."""

    @staticmethod
    def is_at(folder: Folder) -> bool:
        """Tells whether such a release is in this folder."""
        return (folder / "cldr-core" / "availableLocales.json").exists()

    def __init__(self, folder: Folder, reports: Reports, scopes: Sequence[Scope] = ()) -> None:
        super().__init__(folder, reports, scopes)
        self.main = folder / "cldr-numbers-full" / "main"
        self.locales = sorted(self.internal(file.name) for file in self.main.iterdir())
        self.cardinals = self.read_rules("plurals.json", "cardinal")

    def read_rules(self, name: str, kind: str) -> LocaleRules:
        """The plural rules of a kind of each locale that is named with some, in a file of the release."""
        plurals = self.load("cldr-core", "supplemental", name)["supplemental"][f"plurals-type-{kind}"]
        return {
            self.internal(locale): [(key.rpartition("-")[2], text) for key, text in rules.items()]
            for locale, rules in plurals.items()
        }

    def read_ordinals(self) -> LocaleRules:
        """The ordinal rules of each locale that is named with some."""
        return self.read_rules("ordinals.json", "ordinal")

    def read_ranges(self) -> LocaleRanges:
        """The plural categories of ranges of each locale that is named with some."""
        plurals = self.load("cldr-core", "supplemental", "pluralRanges.json")["supplemental"]["plurals"]
        named: LocaleRanges = {}
        for locale, ranges in plurals.items():
            words = [(key.split("-"), result) for key, result in ranges.items()]
            named[self.internal(locale)] = [(start, end, result) for (_, _, start, _, end), result in words]
        return named

    @staticmethod
    def internal(name: str) -> str:
        """A locale as LDML files are named."""
        return "root" if name == "und" else name.replace("-", "_")

    def has_units(self) -> bool:
        """Tells whether the package of units is read, which percents alone do without."""
        return not self.may_lack_units or (self.folder / "cldr-units-full").exists()

    def load(self, *names: str) -> JsonObject:
        """A file of the release."""
        content: JsonObject = json.loads(below(self.folder, *names).read_bytes())
        return content

    def read_tree(self, locale: str) -> Tree:
        """Reads a locale's files into the paths that LDML has."""
        name = "und" if locale == "root" else locale.replace("_", "-")
        tree = Tree({}, {}, {})
        for key, value in self.part("cldr-numbers-full", name, "numbers.json")["numbers"].items():
            tag, _, system = key.partition("-numberSystem-")
            if tag not in self.scope.elements:
                continue
            if tag == "symbols":
                tree.values.update({(*symbols_path(system), step(name, {})): text for name, text in value.items()})
            elif tag == "otherNumberingSystems":
                tree.values.update({(step(tag, {}), step(name, {})): text for name, text in value.items()})
            elif isinstance(value, str):
                tree.values[(step(tag, {}),)] = value
            else:
                ADDERS[tag](tree, system, value)
        if "currencies" in self.scope.elements:
            add_currencies(tree, self.part("cldr-numbers-full", name, "currencies.json")["numbers"]["currencies"])
        if "unitLength" in self.scope.elements and self.has_units():
            add_units(tree, self.part("cldr-units-full", name, "units.json")["units"])
        return tree

    def part(self, package: str, name: str, file: str) -> JsonObject:
        """What a file of a package says of a locale."""
        said: JsonObject = self.load(package, "main", name, file)["main"][name]
        return said

    def chain(self, locale: str) -> tuple[str, ...]:
        """The locale alone."""
        return (locale,)

    def currency_data(self, name: str) -> JsonObject:
        """A part of what the packages say of currencies beside locales."""
        data: JsonObject = self.load("cldr-core", "supplemental", "currencyData.json")["supplemental"]["currencyData"]
        part: JsonObject = data.get(name, {})
        return part

    def dated_currencies(self) -> set[str]:
        """The codes of all currencies that were or are in use somewhere."""
        return {code for entries in self.currency_data("region").values() for entry in entries for code in entry}

    def fractions(self) -> dict[str, dict[str, str]]:
        """What is said of the fraction digits of each currency."""
        data = self.currency_data("fractions")
        return {code: {name.lstrip("_"): text for name, text in info.items()} for code, info in data.items()}

    def digits(self) -> dict[str, str]:
        """The ten digits of each numeric numbering system."""
        systems = self.load("cldr-core", "supplemental", "numberingSystems.json")["supplemental"]["numberingSystems"]
        return {name: system["_digits"] for name, system in systems.items() if system["_type"] == "numeric"}

    @functools.cached_property
    def levels(self) -> dict[str, str]:
        """The levels of coverage: modern as the packages list such locales, others if they have a file of levels."""
        levels = {}
        if below(self.folder, "cldr-core", "coverageLevels.json").exists():
            levels = self.load("cldr-core", "coverageLevels.json").get("effectiveCoverageLevels", {})
        modern = self.load("cldr-core", "availableLocales.json")["availableLocales"]["modern"]
        return {self.internal(name): level for name, level in {**levels, **dict.fromkeys(modern, "modern")}.items()}

    def level(self, locale: str) -> str | None:
        """The level of coverage of a locale."""
        return self.levels.get(locale) if locale != "root" else None

    def facts(self) -> cldr_names.Facts:
        """What the packages say of names."""
        likely = self.load("cldr-core", "supplemental", "likelySubtags.json")["supplemental"]["likelySubtags"]
        parents = self.load("cldr-core", "supplemental", "parentLocales.json")["supplemental"]["parentLocales"]
        parents = parents["parentLocale"]
        aliases = self.load("cldr-core", "supplemental", "aliases.json")["supplemental"]["metadata"]["alias"]
        languages, scripts, regions = (
            {name.replace("-", "_"): alias["_replacement"] for name, alias in aliases[f"{kind}Alias"].items()}
            for kind in ("language", "script", "territory")
        )
        likely = {name.replace("-", "_"): full.replace("-", "_") for name, full in likely.items()}
        parents = {self.internal(name): self.internal(parent) for name, parent in parents.items()}
        return cldr_names.Facts(likely, languages, scripts, regions, parents, self.spoken())

    def spoken(self) -> set[tuple[str, str]]:
        """Each language with each territory of which the packages say that it is spoken there."""
        pairs: set[tuple[str, str]] = set()
        territories = self.load("cldr-core", "supplemental", "territoryInfo.json")["supplemental"]["territoryInfo"]
        for region, info in territories.items():
            pairs.update((self.internal(language), region) for language in info.get("languagePopulation", ()))
        data = self.load("cldr-core", "supplemental", "languageData.json")["supplemental"]["languageData"]
        for language, info in data.items():
            pairs.update((language.partition("-alt-")[0], region) for region in info.get("_territories", ()))
        return pairs

    def version(self) -> str | None:
        """The version of the package."""
        version: str | None = self.load("cldr-core", "package.json").get("version")
        return version
