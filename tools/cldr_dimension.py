"""The entries of money, percents and units."""
from __future__ import annotations

from typing import Iterable, Iterator, Literal, Mapping, Sequence, Tuple, Union

from cldr_numbers import (
    LATIN,
    CompactReader,
    CompactTable,
    Elements,
    Symbols,
    fitting,
    formats_of,
    symbol,
    symbols_entry,
    unfit,
    without_repeats,
)
from cldr_paths import (
    UNIT_WIDTHS,
    ElementPath,
    compact_money_path,
    currency_path,
    money_names_path,
    money_path,
    percent_path,
    plain_path,
    shown,
    step,
    symbols_path,
    unit_path,
)
from cldr_patterns import (
    PLACE,
    Rules,
    compact_text,
    refuse_unreadable,
    sizes_of,
    subpatterns,
    with_one_zero,
    with_quoted_exponents,
)
from cldr_release import PathOf, Release
from cldr_reports import CASH, GROUPS, OWN_PATTERN, UNIT, Inexpressible

NAME = "{1}"
SYMBOL = "¤"
PERCENT = "%"
MOST_DIGITS = 15
MOST_STEP = 250
STEPS = (1, 2, 5, 25)
DEFAULT = "DEFAULT"
SHORT = "short"
OWN = ("pattern", "decimal", "group")

# The names that are asked for of currencies, units or numbering systems, or all of them.
Names = Union[Literal["all"], Sequence[str]]
# A currency's code, its symbol, its narrow one and its names by plural categories.
CurrencyTexts = Tuple[str, str, str, Elements]
# A currency's code and its fraction digits, in general and in cash, and its step of cash unless that is 1.
CurrencyDigits = Union[Tuple[str, int, int], Tuple[str, int, int, int]]


# Patterns with places.


def with_places(text: str, *places: str) -> str:
    """The text, in which each of the places has to stand once."""
    for place in places:
        if text.count(place) != 1:
            raise Inexpressible(f"{place} stands {text.count(place)} times in {text!r}, not once")
    return text


def by_category(release: Release, locale: str, rules: Rules, path_of: PathOf) -> Elements | None:
    """The texts at the paths that `path_of` gives for plural categories, `other` among them, or None."""
    elements = release.counted_texts(locale, [category for category, _ in rules], path_of)
    return without_repeats(elements, rules) if elements else None


# Money and percents.


def sign(release: Release, locale: str, system: str, name: str) -> str:
    """The text of a sign, which isn't empty in tables of money and percents."""
    text = symbol(release, locale, system, name)
    if not text:
        raise Inexpressible(f"{name} is empty")
    return text


def signs_of(release: Release, locale: str, system: str) -> dict[str, str]:
    """The texts of the minus and the plus sign by their names in tables."""
    return {name: sign(release, locale, system, f"{name}Sign") for name in ("minus", "plus")}


def permille_sign(release: Release, locale: str, system: str) -> dict[str, str]:
    """The text of the per mille sign by its name in tables; nothing where there is none, or where it is empty."""
    try:
        return {"permille": sign(release, locale, system, "perMille")}
    except Inexpressible:
        return {}


def plain_pattern(release: Release, locale: str, system: str) -> str | None:
    """The pattern of plain numbers of a numbering system, or None."""
    return release.text(locale, plain_path(formats_of(release, locale, system)))


def tell_groups(release: Release, locale: str, path: ElementPath, pattern: str | None, others: str | None) -> None:
    """Tells where CLDR groups the numbers of a path by a pattern that groups otherwise than the one of the tables."""
    if pattern is not None and others is not None and sizes_of(pattern) != sizes_of(others):
        reason = f"{pattern!r}: its groups aren't those of {others!r}, which stand"
        release.reports.left_out(GROUPS, locale, shown(path), reason)


def percent_entry(release: Release, locale: str, system: str) -> dict[str, str]:
    """The pattern of percents and the texts of the signs in it (UTS 35 Part 3, Number Patterns), with the per mille sign, if
    the locale has one."""
    path = percent_path(formats_of(release, locale, system, percent_path))
    pattern = release.text(locale, path)
    if pattern is None:
        raise Inexpressible("no pattern of percents")
    refuse_unreadable(pattern, "", once=PERCENT)
    tell_groups(release, locale, path, pattern, plain_pattern(release, locale, system))
    percent = sign(release, locale, system, "percentSign")
    permille = permille_sign(release, locale, system)
    return {"pattern": pattern, **signs_of(release, locale, system), "percent": percent, **permille}


class CompactMoneyReader(CompactReader):
    """Reads the short compact patterns of money, which stand as CLDR has them, but with one zero, since the exponent
    stands beside them. `0` alone: such amounts aren't shortened."""

    element = "currencyFormats"

    def path(self, power: int, count: str) -> ElementPath:
        """Where the pattern of a power and a count stands."""
        return compact_money_path(self.system, self.style, "1" + "0" * power, count)

    def spelled(self, pattern: str) -> tuple[int, str]:
        """The number of zeros of a pattern, and the pattern with one, in which the symbol stands; or `0` alone."""
        pattern = with_quoted_exponents(pattern)
        zeros, text = compact_text(subpatterns(pattern)[0], {special: special for special in "-+" + SYMBOL})
        if (zeros, text) == (1, PLACE):
            return zeros, text
        refuse_unreadable(pattern, "", once=SYMBOL)
        return zeros, with_one_zero(pattern)

    def tell_negative(self, *_: object) -> None:
        """Tells nothing: the patterns have their negative subpatterns."""

    def unfit(self, power: int, exponent: int, before: int, elements: Elements) -> str | None:
        """Why a type can't stand in the table after one with the exponent `before`, or None."""
        return unfit(power, exponent, before) or ("no symbol" if PLACE in elements.values() else None)


def compact_money_formats(release: Release, locale: str, system: str) -> str:
    """The numbering system whose compact patterns of money are those of a system, which may have other patterns alone."""
    types = ["1" + "0" * power for power in release.powers(locale, CompactMoneyReader.element)]
    texts = (release.text(locale, compact_money_path(system, SHORT, name, "other")) for name in types)
    return system if any(text is not None for text in texts) else LATIN


def compact_money_entry(release: Release, locale: str, system: str, rules: Rules) -> dict[str, CompactTable]:
    """The short compact patterns of money."""
    formats = compact_money_formats(release, locale, system)
    return {"patterns": CompactMoneyReader(release, locale, formats, SHORT, rules).table()}


def money_names(release: Release, locale: str, system: str, rules: Rules) -> Elements:
    """The patterns of an amount and the name of its currency of a numbering system, or of latn where it has none."""
    for formats in (system, LATIN):
        names = by_category(release, locale, rules, lambda count: money_names_path(formats, count))
        if names:
            return {category: with_places(text, PLACE, NAME) for category, text in names.items()}
    raise Inexpressible("no pattern of an amount with a name")


def money_formats(release: Release, locale: str, system: str) -> str:
    """The numbering system whose patterns of money are those of a system."""
    return formats_of(release, locale, system, lambda name: money_path(name, "standard"))


def money_patterns(release: Release, locale: str, formats: str) -> dict[str, str]:
    """The patterns of money, standard and accounting, as CLDR has them."""
    texts = {kind: release.text(locale, money_path(formats, kind)) for kind in ("standard", "accounting")}
    patterns = {}
    for kind, pattern in texts.items():
        if pattern is None:
            raise Inexpressible(f"no {kind} pattern of money")
        refuse_unreadable(pattern, "", once=SYMBOL)
        patterns[kind] = pattern
    return patterns


def money_separators(release: Release, locale: str, system: str) -> Iterator[tuple[str, str]]:
    """The separators that money has for itself."""
    for field, name in (("decimal", "currencyDecimal"), ("group", "currencyGroup")):
        text = release.text(locale, symbols_path(system) + (step(name, {}),))
        if text is not None:
            yield field, text


def money_symbols(release: Release, locale: str, system: str) -> Symbols | None:
    """The symbols of amounts, by the separators that money has for itself and the groups of its standard pattern; None
    where they are those of numbers, or where these or the patterns can't be expressed, which is told of them."""
    try:
        numbers = symbols_entry(release, locale, system)
        patterns = money_patterns(release, locale, money_formats(release, locale, system))
    except Inexpressible:
        return None
    own = dict(money_separators(release, locale, system))
    entry = numbers.copy()
    entry["decimal"] = own.get("decimal", numbers["decimal"])
    entry["group"] = own.get("group", numbers["group"])
    entry["sizes"] = [*sizes_of(patterns["standard"]), numbers["sizes"][-1]]
    return None if entry == numbers else fitting(entry)


def money_entry(release: Release, locale: str, system: str) -> dict[str, str]:
    """The patterns of money and the texts of the signs in them."""
    formats = money_formats(release, locale, system)
    entry = money_patterns(release, locale, formats)
    grouped = {
        money_path(formats, "accounting"): entry["accounting"],
        money_names_path(formats, "other"): plain_pattern(release, locale, system),
    }
    for path, pattern in grouped.items():
        tell_groups(release, locale, path, pattern, entry["standard"])
    return {**entry, **signs_of(release, locale, system)}


# Currencies.


def currency_texts(release: Release, locale: str, code: str, rules: Rules) -> CurrencyTexts:
    """A currency's symbol, its narrow one and its names; the code stands for what isn't there (UTS 35 Part 3,
    Currencies)."""
    path = currency_path(code)
    short = release.text(locale, (*path, step("symbol", {}))) or code
    narrow = release.text(locale, (*path, step("symbol", {"alt": "narrow"}))) or short
    names = by_category(release, locale, rules, lambda count: (*path, step("displayName", {"count": count})))
    for name in OWN:
        if release.text(locale, (*path, step(name, {}))) is not None:
            key = shown((*path, step(name, {})))
            release.reports.left_out(OWN_PATTERN, locale, key, "money is written in the locale's own way")
    return code, short, narrow, names or {"other": code}


def codes_of(release: Release, locale: str, wanted: Names) -> Sequence[str]:
    """The codes of currencies that are asked for, or all of which the locale or a parent says something."""
    return release.named([locale], "currencies", "currency") if wanted == "all" else wanted


def has_step(number: int) -> bool:
    """Whether tables have this step of cash: 1, 2, 5 or 25 with zeros behind it or none, at most 250."""
    return 0 < number <= MOST_STEP and int(str(number).rstrip("0")) in STEPS


def cash_step(release: Release, key: str, info: Mapping[str, str]) -> int:
    """The step of cash, in the last digit of cash (UTS 35 Part 3, Supplemental Currency Data), or 1 where tables don't have
    it. Steps and roundings that tables don't have are reported."""
    roundings = {name: int(info.get(name) or 0) for name in ("rounding", "cashRounding")}
    step = roundings["cashRounding"] if has_step(roundings["cashRounding"]) else 1
    for name, number in roundings.items():
        if number > 1 and (name, number) != ("cashRounding", step):
            release.reports.left_out(CASH, "root", key, f"{name} by {number}: amounts are rounded to digits alone")
    return step


def digits_of(release: Release, code: str, info: Mapping[str, str]) -> list[CurrencyDigits]:
    """The fraction digits of a currency, in general and in cash, and its step of cash unless that is 1; none where there
    are too many digits."""
    digits = int(info.get("digits", 2))
    cash = int(info.get("cashDigits", digits))
    key = f"currency {code}"
    step = cash_step(release, key, info)
    if max(digits, cash) > MOST_DIGITS:
        release.reports.left_out(CASH, "root", key, f"more than {MOST_DIGITS} digits")
        return []
    return [(code, digits, cash) if step == 1 else (code, digits, cash, step)]


def currency_digits(release: Release, wanted: Names) -> list[CurrencyDigits]:
    """The fraction digits and steps of cash of all other currencies and of those that are asked for."""
    fractions = release.fractions()
    codes = sorted(fractions) if wanted == "all" else [code for code in wanted if code in fractions]
    codes = [DEFAULT, *(code for code in codes if code != DEFAULT)]
    return [entry for code in codes for entry in digits_of(release, code, fractions.get(code, {}))]


# Units.


# The units that percents and permilles in compact form, or with their names, are written with.
SHARES = ("percent", "permille")


def unit_types(release: Release, locale: str, wanted: Names, has_percents: bool) -> list[str]:
    """The units that are asked for, as the release names them, with their kind before them; and those of percents, where
    percents are asked for and the release has these units."""
    types = release.named([locale], "unitLength", "unit")
    if wanted == "all":
        return types
    asked = asked_types(release, locale, wanted, types)
    shares = [name for name in types if has_percents and core(name) in SHARES and name not in asked]
    return asked + shares


def asked_types(release: Release, locale: str, wanted: Sequence[str], types: Sequence[str]) -> list[str]:
    """The units that are asked for by their names."""
    found = {unit: next((name for name in types if unit in (name, core(name))), None) for unit in wanted}
    for unit in (unit for unit, name in found.items() if name is None):
        release.reports.left_out(UNIT, locale, f"unit {unit}", "the locale has no such unit")
    return [name for name in found.values() if name]


def core(unit: str) -> str:
    """A unit without its kind: `kilometer` of `length-kilometer` (UTS 35 Part 2, Unit Identifiers)."""
    return unit.partition("-")[2]


def names_of_units(release: Release, locales: Iterable[str]) -> list[str]:
    """The names by which units of locales may be asked for: theirs alone, and those with their kind before them."""
    types = release.named(locales, "unitLength", "unit")
    return sorted({*map(core, types), *types})


def unit_entries(
    release: Release, locale: str, wanted: Names, has_percents: bool, rules: Rules
) -> list[dict[str, object]]:
    """The patterns of units in each width."""
    types = unit_types(release, locale, wanted, has_percents)
    each = (unit_entry(release, locale, width, unit, rules) for width in UNIT_WIDTHS for unit in types)
    return [entry for entries in each for entry in entries]


def unit_entry(release: Release, locale: str, width: str, unit: str, rules: Rules) -> list[dict[str, object]]:
    """The entry of a unit in a width, or none."""
    patterns = by_category(release, locale, rules, lambda count: unit_path(width, unit, count))
    key = shown(unit_path(width, unit, "other"))
    if patterns is None:
        release.reports.left_out(UNIT, locale, key, "no pattern for other numbers")
        return []
    bad = [text for text in patterns.values() if text.count(PLACE) > 1]
    if bad:
        release.reports.left_out(UNIT, locale, key, f"{bad[0]!r}: more than one place")
        return []
    return [{"width": width, "unit": core(unit), "patterns": patterns}]
