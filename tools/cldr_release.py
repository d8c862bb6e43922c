"""A CLDR release: what every locale says, with inheritance and aliases resolved."""
from __future__ import annotations

import abc
import functools
import itertools
import pathlib
import re
import zipfile
from typing import Callable, Container, Dict, Iterable, Iterator, List, NamedTuple, Sequence, Tuple, Union

import cldr_names
from cldr_paths import ElementPath, follow, shown, system_of, without_count
from cldr_reports import COMPACT, DRAFT, Inexpressible, Reports

STYLES = ("short", "long")
LEVELS = ("modern", "moderate", "basic")

# Where a release is.
Folder = Union[pathlib.Path, zipfile.Path]
# Where a text stands, by what tells apart the texts of a kind, as a plural category.
PathOf = Callable[[str], ElementPath]
# Plural rules by locale: pairs of a category and a text with samples.
LocaleRules = Dict[str, List[Tuple[str, str]]]
# Plural categories of ranges by locale: those of the start, of the end and of the range.
LocaleRanges = Dict[str, List[Tuple[str, str, str]]]


class Scope(NamedTuple):
    """What is read of a locale's file: elements of `numbers` and `units`, and of these `symbols` some. `shares` stands for
    the units of percents, if the release has units."""

    elements: set[str]
    symbols: set[str]


NUMBERS = Scope(
    {"defaultNumberingSystem", "otherNumberingSystems", "minimumGroupingDigits", "symbols", "decimalFormats"},
    {"decimal", "group", "minusSign", "plusSign"},
)
MONEY = Scope({"currencyFormats", "currencies"}, {"currencyDecimal", "currencyGroup"})
PERCENTS = Scope({"percentFormats", "shares"}, {"percentSign", "perMille"})
UNITS = Scope({"unitLength"}, set())
RANGES = Scope({"miscPatterns"}, {"approximatelySign"})


class Tree(NamedTuple):
    """What one file says of numbers by path: texts, aliases as source and path, and how uncertain drafts are, whose texts
    aren't taken."""

    values: dict[ElementPath, str]
    aliases: dict[ElementPath, tuple[str, str]]
    drafts: dict[ElementPath, str]


class Release(abc.ABC):
    """A CLDR release: what every locale says, with inheritance and aliases resolved. How it is read stands in the classes
    of its two forms, which set `locales` and `cardinals` too, the rules of locales that have some."""

    locales: list[str]
    cardinals: LocaleRules

    def __init__(self, folder: Folder, reports: Reports, scopes: Sequence[Scope] = ()) -> None:
        self.folder = folder
        self.reports = reports
        elements, symbols = (set().union(*parts) for parts in zip(NUMBERS, *scopes))
        # percents alone do without a package of units
        self.may_lack_units = "unitLength" not in elements
        if "shares" in elements:
            elements.add("unitLength")
        self.scope = Scope(elements, symbols)
        self.trees: dict[str, Tree] = {}
        self.plural_parents: dict[str, str] = {}

    @staticmethod
    @abc.abstractmethod
    def is_at(folder: Folder) -> bool:
        """Tells whether such a release is in this folder."""

    @abc.abstractmethod
    def read_tree(self, locale: str) -> Tree:
        """Reads what a locale's own files say."""

    @abc.abstractmethod
    def chain(self, locale: str) -> tuple[str, ...]:
        """The locale and those from which it inherits, in their order."""

    @abc.abstractmethod
    def digits(self) -> dict[str, str]:
        """The ten digits of each numeric numbering system."""

    @abc.abstractmethod
    def fractions(self) -> dict[str, dict[str, str]]:
        """What is said of the fraction digits of each currency."""

    @abc.abstractmethod
    def dated_currencies(self) -> set[str]:
        """The codes of all currencies that were or are in use somewhere."""

    @abc.abstractmethod
    def level(self, locale: str) -> str | None:
        """The level of coverage of a locale."""

    @abc.abstractmethod
    def facts(self) -> cldr_names.Facts:
        """What the release says of names."""

    @abc.abstractmethod
    def version(self) -> str | None:
        """The release's version, if it tells it."""

    def tree(self, locale: str) -> Tree:
        """What this locale's own file says of numbers."""
        if locale not in self.trees:
            self.trees[locale] = self.read_tree(locale)
        return self.trees[locale]

    def text(self, locale: str, path: ElementPath, seen: tuple[tuple[str, ElementPath], ...] = ()) -> str | None:
        """The text at a path in the locale or else its parents, or None. Drafts that are passed over are reported.

        An alias with the source `locale` begins anew at the locale that was asked for (UTS 35 Part 1, Alias Elements).
        """
        if (locale, path) in seen:
            raise Inexpressible("its aliases lead back to it")
        for ancestor in self.chain(locale):
            tree = self.tree(ancestor)
            if path in tree.values:
                return tree.values[path]
            if path in tree.drafts:
                reason = f"a draft, {tree.drafts[path]}: what is inherited stands"
                self.reports.left_out(DRAFT, ancestor, shown(path), reason)
            for length in range(len(path), 0, -1):
                if path[:length] in tree.aliases:
                    source, relative = tree.aliases[path[:length]]
                    target = follow(path[:length], relative) + path[length:]
                    begin = locale if source == "locale" else source
                    return self.text(begin, target, seen + ((locale, path),))
        return None

    def counted_texts(self, locale: str, counts: Iterable[str], path_of: PathOf) -> dict[str, str]:
        """The texts of those of the counts that the locale or a parent has, at the paths that `path_of` gives, `other`
        first; without it none.

        Each count is looked for in all parents before `other` stands for it, and `other` before what has no count
        (UTS 35 Part 1, Lateral Inheritance, in the order of ICU).
        """
        texts = {count: self.text(locale, path_of(count)) for count in ("other", *counts)}
        if texts["other"] is None:
            texts["other"] = self.text(locale, without_count(path_of("other")))
        return {} if texts["other"] is None else {count: text for count, text in texts.items() if text is not None}

    def paths(self, locale: str) -> Iterator[ElementPath]:
        """The paths at which this locale's own file has a text, drafts among them."""
        tree = self.tree(locale)
        return itertools.chain(tree.values, tree.drafts)

    def powers(self, locale: str, formats: str = "decimalFormats") -> list[int]:
        """The powers of ten for which the locale or a parent of it has a compact pattern."""
        types = set()
        for ancestor in self.chain(locale):
            for path in self.paths(ancestor):
                if path[0].tag == formats and path[-1].tag == "pattern":
                    types.add(dict(path[-1].attributes).get("type", "1"))
        for name in sorted(types):
            if not re.fullmatch("10*", name):
                self.reports.left_out(COMPACT, locale, f"{formats}/pattern[{name}]", "its type is no power of ten")
        return sorted(len(name) - 1 for name in types if re.fullmatch("10+", name))

    def named(self, locales: Iterable[str], element: str, tag: str) -> list[str]:
        """The types that elements of a tag have within an element, in one of the locales or a parent of it."""
        ancestors = {ancestor for locale in locales for ancestor in self.chain(locale)}
        paths = (path for ancestor in ancestors for path in self.paths(ancestor))
        inside = (path[1] for path in paths if path[0].tag == element)
        return sorted({dict(attributes)["type"] for name, attributes in inside if name == tag})

    @functools.lru_cache(maxsize=None)
    def systems(self, locale: str) -> set[str | None]:
        """The numbering systems for which the locale or a parent has texts, or an alias to another one than latn; all
        others are written as latn is, by root's aliases or for want of texts (UTS 35 Part 3, Numbering Systems)."""
        found: set[str | None] = set()
        for ancestor in self.chain(locale):
            aliases = self.tree(ancestor).aliases.items()
            targets = {path: follow(path, relative) for path, (_, relative) in aliases}
            found.update(system_of(path) for path in self.paths(ancestor))
            found.update(system_of(path) for path, target in targets.items() if system_of(target) != "latn")
        return found

    def currency_codes(self, locales: Iterable[str]) -> set[str]:
        """The codes of currencies of which the release or one of the locales says something."""
        named = self.named(locales, "currencies", "currency")
        return self.dated_currencies().union(self.fractions(), named) - {"DEFAULT"}

    def covered(self, level: str) -> list[str]:
        """The locales of a level of coverage or a better one, or `all`."""
        if level == "all":
            return self.locales
        taken = LEVELS[: LEVELS.index(level) + 1]
        return [locale for locale in self.locales if self.level(locale) in taken]

    @functools.cached_property
    def names(self) -> cldr_names.Names:
        """What names mean by this release."""
        return cldr_names.Names(self.locales, self.facts())

    @abc.abstractmethod
    def read_ordinals(self) -> LocaleRules:
        """Reads the ordinal rules of locales that have some."""

    @functools.cached_property
    def ordinals(self) -> LocaleRules:
        """The ordinal rules of locales that have some."""
        return self.read_ordinals()

    @abc.abstractmethod
    def read_ranges(self) -> LocaleRanges:
        """Reads the plural categories of ranges of locales that have some."""

    @functools.cached_property
    def ranges(self) -> LocaleRanges:
        """The plural categories of ranges of locales that have some."""
        return self.read_ranges()

    def ruled(self, locale: str, named: Container[str]) -> str:
        """The locale, or what is left when subtags are taken off its end, unless a parent is named for plural rules: the
        first of these that is named (UTS 35 Part 3, Language Plural Rules)."""
        while locale not in named and locale != "root":
            locale = self.plural_parents.get(locale, truncated(locale))
        return locale

    def rules_of(self, locale: str, named: LocaleRules) -> list[tuple[str, str]]:
        """The plural rules of the locale: pairs of a category and a text with samples."""
        return named.get(self.ruled(locale, named), [])

    def ranges_of(self, locale: str) -> list[tuple[str, str, str]]:
        """The plural categories of the locale's ranges (UTS 35 Part 3, Plural Ranges)."""
        return self.ranges.get(self.ruled(locale, self.ranges), [])


def below(folder: Folder, *names: str) -> Folder:
    """The file or folder of these names in turn, in a folder or an archive."""
    for name in names:
        folder = folder / name
    return folder


def truncated(locale: str) -> str:
    """The locale without its last subtag; `root` after the first one."""
    return locale.rpartition("_")[0] or "root"
