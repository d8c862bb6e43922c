"""What decfmt answers to lines by tables: docs/FORMATS.md, tables, compact tables, compact numbers."""
from collections.abc import Mapping, Sequence
from dataclasses import dataclass, field
from typing import Any, NotRequired, TypedDict, TypeVar

from hostile_models.decfmt_plurals import Rule, operands_of, rule_of, slot_of
from hostile_models.numbers import (LIMIT, OVERFLOW, Notation, Numeral, Sizes, magnitude_of, numeral_of, rounded_half_even,
                                    unsigned_text)

Elements = dict[str, str]
# A type, its exponent and its patterns; of JSON a list.
Row = tuple[int, int, Elements]


class SymbolsEntry(TypedDict):
    """The symbols of a locale, as tables have them."""

    locale: str
    system: NotRequired[str]
    minus: list[str]
    plus: list[str]
    decimal: str
    group: str
    numsys: str
    sizes: list[int]


class RulesEntry(TypedDict):
    """The plural rules of a locale, each a category and its condition."""

    locale: str
    rules: list[list[str]]


class PatternsEntry(TypedDict):
    """The compact patterns of a locale; `zero` are those of numbers that aren't shortened."""

    locale: str
    system: NotRequired[str]
    patterns: list[Row]
    zero: NotRequired[Elements]


Entry = TypeVar("Entry", SymbolsEntry, PatternsEntry)


@dataclass(frozen=True)
class Tables:
    """What tables have under the keys that decfmt reads, None where a key isn't there; and other keys."""

    symbols: list[SymbolsEntry]
    digits: list[list[str]]
    rules: list[RulesEntry] | None = None
    short: list[PatternsEntry] | None = None
    long: list[PatternsEntry] | None = None
    more: Mapping[str, object] = field(default_factory=dict)

    def document(self) -> dict[str, object]:
        """The tables as an object of JSON, in the order of their fields."""
        keys = {"symbols": self.symbols, "digits": self.digits, "rules": self.rules, "short": self.short, "long": self.long}
        return {key: value for key, value in keys.items() if value is not None} | dict(self.more)


def tables_of(document: Mapping[str, Any]) -> Tables:
    """The tables of an object of JSON that is valid."""
    return Tables(document["symbols"], document["digits"], document.get("rules"), document.get("short"), document.get("long"))


@dataclass(frozen=True)
class Compact:
    """What shows the numbers from a magnitude on: the exponent of the significand, and the patterns."""

    magnitude: int
    exponent: int
    elements: Elements


@dataclass(frozen=True)
class Formatter:
    """How numbers are written: of compact ones the rules and the table too, which else is None."""

    notation: Notation
    affixes: Mapping[str, Sequence[str]]
    strategy: str
    rules: Sequence[Rule] = ()
    table: Sequence[Compact] | None = None


# Below the first type: the exponent is 0, and the pattern the place alone.
NO_ENTRY = Compact(0, 0, {"other": "{0}"})


def first_entry(entries: Sequence[Entry], locale: str, system: str | None) -> Entry | None:
    """The first entry of this locale and system."""
    return next((each for each in entries if each["locale"] == locale and each.get("system") == system), None)


def entry_asked(entries: Sequence[Entry] | None, locale: str, system: str | None) -> Entry | None:
    """The entry by the system, where one is asked for, or else by the locale."""
    by_system = first_entry(entries or [], locale, system) if system else None
    return by_system or first_entry(entries or [], locale, None)


def kept_rows(entry: PatternsEntry) -> list[Compact]:
    """The rows of a compact table that are kept: first without those of numbers that aren't shortened, then all changes."""
    rows: list[Compact] = [Compact(*row) for row in entry["patterns"]]
    while rows and rows[0].elements == entry.get("zero"):
        rows = rows[1:]
    kept = rows[:1]
    for before, row in zip(rows, rows[1:]):
        if row.elements != {key: text for key, text in before.elements.items() if key != "explicit_one"}:
            kept.append(row)
    return kept


def notation_of(tables: Tables, symbols: SymbolsEntry, system: str | None) -> Notation | None:
    """The notation of symbols with the digits of the system that is asked for, or else of their own, if there are any."""
    systems = {pair[0]: pair[1] for pair in reversed(tables.digits)}
    digits = systems.get(system or "", systems.get(symbols["numsys"]))
    return None if digits is None else Notation(symbols["decimal"], symbols["group"], Sizes(*symbols["sizes"]), digits)


def formatter_of(tables: Tables, words: Sequence[str]) -> Formatter | None:
    """What these words ask for, or None where something is missing; compact numbers have `min2` by default."""
    locale, system, style = words[0], None if words[1] == "-" else words[1], words[2]
    strategy = words[3] if len(words) > 3 else "auto" if style == "plain" else "min2"
    symbols = entry_asked(tables.symbols, locale, system)
    notation = notation_of(tables, symbols, system) if symbols else None
    if symbols is None or notation is None:
        return None
    affixes = {"-": symbols["minus"], "+": symbols["plus"], "": ["", ""]}
    if style == "plain":
        return Formatter(notation, affixes, strategy)
    rules = next((each["rules"] for each in tables.rules or [] if each["locale"] == locale), None)
    patterns = entry_asked(tables.short if style == "short" else tables.long, locale, system)
    if rules is None or patterns is None:
        return None
    return Formatter(notation, affixes, strategy, [rule_of(*rule) for rule in rules], kept_rows(patterns))


def entry_at(table: Sequence[Compact], magnitude: int) -> Compact:
    """The last entry whose type isn't above the magnitude."""
    return next((each for each in reversed(table) if each.magnitude <= magnitude), NO_ENTRY)


def significand_of(numeral: Numeral, table: Sequence[Compact]) -> tuple[Compact, Numeral] | None:
    """The entry that shows a number, and its significand; None on overflow."""
    number, scale = int(numeral.whole + numeral.fraction), len(numeral.fraction)
    magnitude = magnitude_of(number, scale)
    entry = entry_at(table, magnitude)
    power = entry.exponent if magnitude > entry.exponent else magnitude - 1
    if power > -scale:
        number = rounded_half_even(number, power + scale)
    reached = magnitude_of(number, scale)
    if reached >= LIMIT:
        return None
    shown = entry_at(table, reached)
    upper = max(len(numeral.whole) - 1, reached) if shown is entry else reached
    figures = str(number).rjust(max(upper, shown.exponent) + 1 + scale, "0")
    cut = len(figures) - scale - shown.exponent
    return shown, Numeral(numeral.sign, figures[:cut], figures[cut:].rstrip("0"))


def answer_of(line: bytes, formatter: Formatter, picked: list[str]) -> str:
    """What a line gives; which slot its pattern has is noted."""
    numeral = numeral_of(line)
    if isinstance(numeral, str):
        return f"error: {numeral}"
    pattern = "{0}"
    if formatter.table is not None:
        found = significand_of(numeral, formatter.table)
        if found is None:
            return f"error: {OVERFLOW}"
        entry, numeral = found
        slot = slot_of(entry.elements, formatter.rules, operands_of(numeral.whole, numeral.fraction))
        pattern = entry.elements[slot]
        picked.append("no entry" if entry is NO_ENTRY else slot)
    before, place, behind = pattern.partition("{0}")
    text = unsigned_text(numeral.whole, numeral.fraction, formatter.notation, formatter.strategy) if place else ""
    affixes = formatter.affixes[numeral.sign]
    return affixes[0] + before + text + behind + affixes[1]
