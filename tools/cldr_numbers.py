"""The entries of numbers: symbols and compact patterns."""
from __future__ import annotations

import re
from typing import Container, Dict, List, Mapping, NamedTuple, Tuple, TypedDict

from cldr_paths import ElementPath, compact_path, plain_path, shown, step, symbols_path
from cldr_patterns import (
    CATEGORIES,
    PLACE,
    Piece,
    Rules,
    around_number,
    category_of,
    compact_text,
    grouping,
    literal,
    subpatterns,
)
from cldr_release import PathOf, Release
from cldr_reports import COMPACT, NEGATIVE, PLAIN, SYSTEM, Inexpressible

LATIN = "latn"
EXPLICIT = {"0": "explicit_zero", "1": "explicit_one"}
SYMBOLS_BYTES = 255
LARGEST_GROUP = 255
PATTERNS_BYTES = 65535
MOST_ZEROS = 16

# The patterns of a row of a compact table, by their names in tables.
Elements = Dict[str, str]
# A compact table: of each row the power of its lowest type, its exponent and its patterns.
CompactTable = List[Tuple[int, int, Elements]]


class Row(NamedTuple):
    """A row of a compact table: the types that it stands for, the lowest first, their exponent and patterns."""

    powers: list[int]
    exponent: int
    elements: Elements


class Symbols(TypedDict):
    """The symbols of a numbering system, without `locale` and `system`. A sign is what stands before and after a number;
    sizes are those of the first group and of the further ones, and the least digits before the first separator."""

    minus: list[str]
    plus: list[str]
    decimal: str
    group: str
    numsys: str
    sizes: list[int]


def named(locale: str) -> str:
    """A locale as a BCP 47 tag: subtags with hyphens, variants in small letters."""
    if locale == "root":
        return "und"
    tag = re.sub("(?<!-va)[-_]POSIX$", "-u-va-posix", locale, flags=re.I)
    return "-".join(word.lower() if len(word) > 4 else word for word in tag.replace("_", "-").split("-"))


def systems_of(release: Release, locale: str, digits: Container[str]) -> list[str]:
    """The default numbering system, the native one and latn: those of them whose digits are in tables."""
    default = release.text(locale, (step("defaultNumberingSystem", {}),))
    native = release.text(locale, (step("otherNumberingSystems", {}), step("native", {})))
    systems: list[str] = []
    for kind, system in (("default", default), ("native", native), ("", LATIN)):
        if system is None:
            continue
        if system not in digits:
            key = f"{kind} numbering system {system}"
            release.reports.left_out(SYSTEM, locale, key, "its digits aren't in tables")
        elif system not in systems:
            systems.append(system)
    return systems


def symbol(release: Release, locale: str, system: str, name: str) -> str:
    """A symbol of a numbering system; that of latn where the system has none (UTS 35 Part 3, Number Symbols)."""
    text = release.text(locale, symbols_path(system) + (step(name, {}),))
    if text is None:
        text = release.text(locale, symbols_path(LATIN) + (step(name, {}),))
    if text is None:
        raise Inexpressible(f"no {name}")
    return text


def formats_of(release: Release, locale: str, system: str, path_of: PathOf = plain_path) -> str:
    """The numbering system whose patterns are those of a system: latn where it has none."""
    return system if release.text(locale, path_of(system)) is not None else LATIN


def affixes(negative: list[Piece] | None, minus: str, plus: str) -> tuple[list[str], list[str]]:
    """What stands before and after a number with minus and with plus, by the negative subpattern (UTS 35 Part 3,
    Explicit Plus Signs)."""
    if negative is None:
        return [minus, ""], [plus, ""]
    before, _, after = around_number(negative)
    with_minus = [literal(part, {"-": minus}) for part in (before, after)]
    if ("special", "-") not in before + after:
        return with_minus, [plus, ""]
    return with_minus, [literal(part, {"-": plus}) for part in (before, after)]


def signs_of(
    release: Release, locale: str, system: str, pattern: str
) -> tuple[list[int], list[str], list[str]]:
    """The sizes of groups and the affixes of minus and plus, by the plain pattern."""
    minus, plus = (symbol(release, locale, system, name) for name in ("minusSign", "plusSign"))
    positive, negative = subpatterns(pattern)
    before, number, after = around_number(positive)
    if before or after:
        text = "text around a plain number is left out"
        release.reports.left_out(PLAIN, locale, shown(plain_path(system)), f"{pattern!r}: {text}")
        negative = None
    try:
        return grouping(number or ""), *affixes(negative, minus, plus)
    except Inexpressible as refused:
        if negative is None:
            raise
        reason = f"{pattern!r}: {refused}; the sign stands before numbers"
        release.reports.left_out(PLAIN, locale, shown(plain_path(system)), reason)
        return grouping(number or ""), *affixes(None, minus, plus)


def symbols_entry(release: Release, locale: str, system: str) -> Symbols:
    """The symbols of a numbering system, without `locale` and `system`."""
    pattern = release.text(locale, plain_path(formats_of(release, locale, system)))
    if pattern is None:
        raise Inexpressible("no plain pattern")
    sizes, minus, plus = signs_of(release, locale, system, pattern)
    least = release.text(locale, (step("minimumGroupingDigits", {}),)) or "1"
    decimal, group = (symbol(release, locale, system, name) for name in ("decimal", "group"))
    return fitting({
        "minus": minus,
        "plus": plus,
        "decimal": decimal,
        "group": group,
        "numsys": system,
        "sizes": [*sizes, int(least)],
    })


def fitting(symbols: Symbols) -> Symbols:
    """Symbols that tables can hold."""
    texts = *symbols["minus"], *symbols["plus"], symbols["decimal"], symbols["group"], symbols["numsys"]
    if sum(len(text.encode()) for text in texts) > SYMBOLS_BYTES:
        raise Inexpressible(f"its symbols are more than {SYMBOLS_BYTES} bytes")
    if max(symbols["sizes"]) > LARGEST_GROUP:
        raise Inexpressible(f"a group of more than {LARGEST_GROUP} digits")
    return symbols


class CompactReader:
    """Reads the compact patterns of a locale in one numbering system and style."""

    element = "decimalFormats"

    def __init__(self, release: Release, locale: str, system: str, style: str, rules: Rules) -> None:
        self.release = release
        self.locale = locale
        self.system = system
        self.style = style
        self.rules = rules

    def left_out(self, power: int, count: str, reason: str, kind: str = COMPACT) -> None:
        """Tells what isn't in the tables."""
        key = f"{self.element}[{self.system}]/{self.style}/1{'0' * power}" + (f"-{count}" if count else "")
        self.release.reports.left_out(kind, self.locale, key, reason)

    def path(self, power: int, count: str) -> ElementPath:
        """Where the pattern of a power and a count stands."""
        return compact_path(self.system, self.style, "1" + "0" * power, count)

    def spelled(self, pattern: str) -> tuple[int, str]:
        """A pattern as its number of zeros and its text in tables."""
        return compact_text(subpatterns(pattern)[0])

    def tell_negative(self, power: int, count: str, pattern: str) -> None:
        """Tells that a pattern has a negative subpattern, which tables of numbers don't have."""
        if subpatterns(pattern)[1] is not None:
            reason = f"{pattern!r}: a negative subpattern; the sign stands before the positive one"
            self.left_out(power, count, reason, NEGATIVE)

    def unfit(self, power: int, exponent: int, before: int, elements: Elements) -> str | None:
        """Why a type can't stand in the table after one with the exponent `before`, or None."""
        return unfit(power, exponent, before)

    def patterns(self, power: int) -> dict[str, str]:
        """The patterns of a type by their names in tables, `other` first."""
        counts = [*(category for category, _ in self.rules), *EXPLICIT]
        found = self.release.counted_texts(self.locale, counts, lambda count: self.path(power, count))
        return {EXPLICIT.get(count, count): pattern for count, pattern in found.items()}

    def read(self, power: int, count: str, pattern: str) -> tuple[int | None, str] | None:
        """A pattern as its exponent, None where it has no zeros, and its text; None where it can't be expressed."""
        try:
            zeros, text = self.spelled(pattern)
            if zeros > power + 1:
                raise Inexpressible(f"{zeros} zeros are more than the digits of the type")
        except Inexpressible as refused:
            self.left_out(power, count, f"{pattern!r}: {refused}")
            return None
        self.tell_negative(power, count, pattern)
        # `0` alone: such numbers aren't shortened
        exponent = 0 if (zeros, text) == (1, PLACE) else power + 1 - zeros
        return (exponent if zeros else None), text

    def elements(self, power: int) -> tuple[int, Elements] | None:
        """The exponent and the elements of a type, or None."""
        patterns = self.patterns(power)
        read = {name: self.read(power, name, pattern) for name, pattern in patterns.items()}
        if read.get("other") is None:
            return None
        exponents = [pair[0] for pair in read.values() if pair and pair[0] is not None]
        if not exponents:
            self.left_out(power, "", "no pattern has a zero")
            return None
        elements = {}
        for name, pair in read.items():
            if pair and pair[0] not in (None, exponents[0]):
                reason = "it counts by another power of ten than the type's first pattern"
                self.left_out(power, name, f"{patterns[name]!r}: {reason}")
            elif pair:
                elements[name] = pair[1]
        return (exponents[0], without_repeats(elements, self.rules)) if "other" in elements else None

    def table(self) -> CompactTable:
        """The list of types that say something new, each with its exponent and elements."""
        kept: list[Row] = []
        for power in self.release.powers(self.locale, self.element):
            found = self.elements(power)
            if found is None or not kept and found == (0, {"other": PLACE}):
                continue
            exponent, elements = found
            reason = self.unfit(power, exponent, kept[-1].exponent if kept else 0, elements)
            if reason:
                self.left_out(power, "", reason)
            else:
                self.keep(kept, power, exponent, elements)
        if sum(len(text.encode()) for row in kept for text in row.elements.values()) > PATTERNS_BYTES:
            raise Inexpressible(f"its patterns are more than {PATTERNS_BYTES} bytes")
        return [(row.powers[0], row.exponent, row.elements) for row in kept]

    def keep(self, kept: list[Row], power: int, exponent: int, elements: Elements) -> None:
        """Puts a type behind those that are kept: into the row whose patterns it repeats, or as a row of its own. Rows
        with its patterns and another exponent go, since tables can't have both."""
        while kept and elements == without_explicit_one(kept[-1].elements):
            if kept[-1].exponent == exponent:
                kept[-1].powers.append(power)
                return
            for earlier in kept.pop().powers:
                self.left_out(earlier, "", f"the patterns of the type 1{'0' * power}, with another exponent")
        kept.append(Row([power], exponent, elements))


def without_repeats(elements: Mapping[str, str], rules: Rules) -> Elements:
    """Elements without those that mean what stands below them: a category's like `other`, an explicit one's like that
    of its category."""
    other = elements["other"]
    kept = {name: text for name, text in elements.items() if name not in CATEGORIES or text != other}
    kept["other"] = other
    for number, name in EXPLICIT.items():
        if kept.get(name) == kept.get(category_of(rules, int(number)), other):
            kept.pop(name, None)
    order = (*EXPLICIT.values(), *CATEGORIES)
    return {name: kept[name] for name in order if name in kept}


def without_explicit_one(elements: Elements) -> Elements:
    """Elements without the pattern for exactly one."""
    return {name: text for name, text in elements.items() if name != "explicit_one"}


def unfit(power: int, exponent: int, before: int) -> str | None:
    """Why a type can't stand in a compact table after one with the exponent `before`, or None."""
    if exponent < before:
        return "its exponent is below that of the type before it"
    if power - exponent >= MOST_ZEROS:
        return f"more than {MOST_ZEROS} zeros"
    return None
