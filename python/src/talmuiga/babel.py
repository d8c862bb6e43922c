"""Numbers, money, percents and units by Babel's names, over one file of tables.

    from talmuiga import babel

    babel.use_tables("tables/six_locales.json")
    babel.format_currency(1234.5, "EUR", locale="de_DE")  # '1.234,50\\xa0€'

The functions have the names and the arguments of `babel.numbers` and `babel.units`, and the same defaults; the texts are those of the
tables, and the library rounds, half to even. Without `use_tables` the tables are those of the file that the environment variable
TALMUIGA_TABLES names. A locale is spelled as `de_DE` or `de-DE`, or is an object of Babel; where the tables don't have it, that without
its last part is taken. Without a locale it is that of the environment.

Digits are the locale's, as `১২` in Bengali, where Babel 2.10 writes those of `latn`.

What Babel takes and these functions don't: a pattern of one's own (`format`), which is a `ValueError`. A number that isn't one raises
`NotFormatted`, a locale, currency or unit that the tables lack `NoData`, and tables that can't be read `OSError` or `TablesRefused`.
"""
from __future__ import annotations

import functools
import os
import re
from pathlib import Path
from typing import Optional, Tuple, Union

from . import Formatter, NoData, Number
from .options import MINOR_UNITS, fraction_stem

__all__ = ["format_compact_currency", "format_compact_decimal", "format_currency", "format_decimal", "format_number", "format_percent",
           "format_unit", "use_tables"]

#: How many formatters are kept.
MOST_FORMATTERS = 512

#: The stems of the widths of units.
LENGTHS = {"long": "unit-width-full-name", "short": "", "narrow": "unit-width-narrow"}

#: The stems of the forms of amounts.
FORMS = {"standard": "", "accounting": "sign-accounting", "name": "unit-width-full-name"}

#: The stems of compact notation.
NOTATIONS = {"short": "compact-short", "long": "compact-long"}


class Tables:
    """The tables that are used, read at first use."""

    current: Optional[bytes] = None


def use_tables(tables: Union[str, "os.PathLike[str]", bytes]) -> None:
    """Takes tables from now on: the bytes of a file, or its name."""
    Tables.current = tables if isinstance(tables, bytes) else Path(tables).read_bytes()
    formatter_of.cache_clear()


def tables_in_use() -> bytes:
    """The tables; those that the environment names where none were chosen."""
    if Tables.current is None:
        name = os.environ.get("TALMUIGA_TABLES")
        if not name:
            raise NoData("no tables: call use_tables, or set TALMUIGA_TABLES")
        Tables.current = Path(name).read_bytes()
    return Tables.current


def default_locale() -> str:
    """The locale of the environment for numbers, and English without one."""
    for variable in ("LC_ALL", "LC_NUMERIC", "LANG"):
        name = re.split(r"[.@]", os.environ.get(variable, ""))[0]
        if name:
            return "en" if name in ("C", "POSIX") else name
    return "en"


def names_of(locale: object) -> Tuple[str, ...]:
    """The locale by the tables' names, and then each shorter one."""
    parts = str(locale if locale is not None else default_locale()).replace("_", "-").split("-")
    return tuple("-".join(parts[:count]) for count in range(len(parts), 0, -1))


@functools.lru_cache(maxsize=MOST_FORMATTERS)
def formatter_of(locales: Tuple[str, ...], skeleton: str) -> Formatter:
    """The formatter of a skeleton in the first of some locales that has the data."""
    tables, missing = tables_in_use(), NoData("no locale")
    for locale in locales:
        try:
            return Formatter(tables, locale, skeleton=skeleton)
        except NoData as error:
            missing = error
    raise missing


def formatted(number: Number, locale: object, pattern: object, *tokens: str) -> str:
    """The text of a number by the tokens of a skeleton."""
    if pattern is not None:
        raise ValueError("a pattern of one's own isn't taken: a number skeleton says what a pattern would")
    return formatter_of(names_of(locale), " ".join(filter(None, tokens))).format(number)


def chosen(name: str, word: str, stems: "dict[str, str]") -> str:
    """The stem of a word; a `ValueError` where it is none."""
    if word not in stems:
        raise ValueError(f"{name} is one of {', '.join(stems)}, not {word!r}")
    return stems[word]


def groups(group_separator: bool) -> str:
    """The stem of groups, or nothing for those of the locale."""
    return "" if group_separator else "group-off"


def at_most(digits: int, decimal_quantization: bool = True) -> str:
    """The stem of a most count of fraction digits, or of none that is the most."""
    return fraction_stem((0, digits)) if decimal_quantization else "precision-unlimited"


def format_decimal(number: Number, format: Optional[str] = None, locale: object = None, decimal_quantization: bool = True,
                   group_separator: bool = True) -> str:
    """The text of a number, with three fraction digits at most, or, without `decimal_quantization`, with all of them."""
    return formatted(number, locale, format, at_most(3, decimal_quantization), groups(group_separator))


def format_number(number: Number, locale: object = None) -> str:
    """The text of a number, as `format_decimal` writes it."""
    return format_decimal(number, locale=locale)


def format_currency(number: Number, currency: str, format: Optional[str] = None, locale: object = None, currency_digits: bool = True,
                    format_type: str = "standard", decimal_quantization: bool = True, group_separator: bool = True) -> str:
    """The text of an amount of a currency, by its code, with the currency's fraction digits, or two without `currency_digits`.

    `format_type` is standard, accounting or name. Without `decimal_quantization` the amount has all its fraction digits, and at least as
    many as ISO 4217 says.
    """
    digits = MINOR_UNITS.get(currency.upper(), 2) if currency_digits else 2
    if not decimal_quantization:
        precision = f".{'0' * digits}*" if digits else "precision-unlimited"
    else:
        precision = "" if currency_digits else fraction_stem((2, 2))
    return formatted(number, locale, format, f"currency/{currency}", precision, chosen("format_type", format_type, FORMS),
                     groups(group_separator))


def format_percent(number: Number, format: Optional[str] = None, locale: object = None, decimal_quantization: bool = True,
                   group_separator: bool = True) -> str:
    """The text of a number in percents, of 0.5 as 50%, without fraction digits, or, without `decimal_quantization`, with all of them."""
    return formatted(number, locale, format, "percent scale/100", at_most(0, decimal_quantization), groups(group_separator))


def format_compact_decimal(number: Number, *, format_type: str = "short", locale: object = None, fraction_digits: int = 0) -> str:
    """The text of a number in compact form, short or long, with so many fraction digits at most."""
    return formatted(number, locale, None, chosen("format_type", format_type, NOTATIONS), at_most(fraction_digits))


def format_compact_currency(number: Number, currency: str, *, format_type: str = "short", locale: object = None,
                            fraction_digits: int = 0) -> str:
    """The text of an amount in compact form, short or long, with so many fraction digits at most."""
    return formatted(number, locale, None, chosen("format_type", format_type, NOTATIONS), f"currency/{currency}",
                     at_most(fraction_digits))


def format_unit(value: Number, measurement_unit: str, length: str = "long", format: Optional[str] = None, locale: object = None) -> str:
    """The text of a number with a unit, long, short or narrow, with three fraction digits at most.

    The unit is named as the tables name it, as kilometer, or with its kind, as length-kilometer.
    """
    width = chosen("length", length, LENGTHS)
    try:
        return formatted(value, locale, format, f"unit/{measurement_unit}", at_most(3), width)
    except NoData:
        _, dash, name = measurement_unit.partition("-")
        if not dash:
            raise
        return formatted(value, locale, format, f"unit/{name}", at_most(3), width)
