"""Number skeletons from the options of ECMA-402's `Intl.NumberFormat`, in snake case.

    >>> skeleton_of(style="currency", currency="EUR", notation="compact")
    'compact-short currency/EUR rounding-mode-half-up'
    >>> skeleton_of(style="percent")
    'percent precision-integer rounding-mode-half-up scale/100'

What a caller leaves out has ECMA-402's default, and a skeleton says it where a skeleton's own default is another one: numbers are
rounded half up, to three fraction digits at most.
"""
from __future__ import annotations

import re
from typing import List, Literal, NamedTuple, Optional, Tuple, Union

#: The fraction digits of currencies that have other than two, by ISO 4217.
MINOR_UNITS = {code: digits for digits, codes in (
    (0, "BIF CLP DJF GNF ISK JPY KMF KRW PYG RWF UGX UYI VND VUV XAF XOF XPF"), (3, "BHD IQD JOD KWD LYD OMR TND"), (4, "CLF UYW"),
) for code in codes.split()}

#: The stems of rounding modes; half to even is a skeleton's default.
MODES = {"ceil": "ceiling", "floor": "floor", "expand": "up", "trunc": "down", "halfCeil": "half-ceiling", "halfFloor": "half-floor",
         "halfExpand": "half-up", "halfTrunc": "half-down", "halfEven": ""}

#: The ends of the stems of signs.
SIGNS = {"auto": "", "always": "always", "never": "never", "exceptZero": "except-zero", "negative": "negative"}

#: The stems of widths; the short one is a skeleton's default.
DISPLAYS = {"symbol": "", "narrowSymbol": "unit-width-narrow", "code": "unit-width-iso-code", "name": "unit-width-full-name"}
UNIT_DISPLAYS = {"short": "", "narrow": "unit-width-narrow", "long": "unit-width-full-name"}

#: The stems of notations.
NOTATIONS = {("standard", "short"): "", ("standard", "long"): "", ("compact", "short"): "compact-short",
             ("compact", "long"): "compact-long", ("scientific", "short"): "scientific", ("scientific", "long"): "scientific",
             ("engineering", "short"): "engineering", ("engineering", "long"): "engineering"}

#: The stems of groups; true is "always".
GROUPINGS = {"auto": "group-auto", "always": "group-on-aligned", "min2": "group-min2", "off": "group-off"}

#: The numbers of which a rounded number is a multiple, in units of its last digit.
INCREMENTS = (1, 2, 5, 10, 20, 25, 50, 100, 200, 250, 500, 1000, 2000, 2500, 5000)

#: What each word of an option may be.
WORDS = {
    "style": ("decimal", "percent", "currency", "unit"), "currency_display": tuple(DISPLAYS),
    "currency_sign": ("standard", "accounting"), "unit_display": tuple(UNIT_DISPLAYS),
    "notation": ("standard", "compact", "scientific", "engineering"), "compact_display": ("short", "long"),
    "sign_display": tuple(SIGNS), "rounding_mode": tuple(MODES), "rounding_priority": ("auto", "morePrecision", "lessPrecision"),
    "trailing_zero_display": ("auto", "stripIfInteger"),
}


class Digits(NamedTuple):
    """Counts of digits as they are asked for: least and most, each or none."""

    least: Optional[int]
    most: Optional[int]

    def given(self) -> bool:
        """Whether one is asked for."""
        return self.least is not None or self.most is not None

    def judged(self, name: str, least: int, most: int) -> None:
        """A `ValueError` where a count isn't between two others."""
        for word, count in (("minimum", self.least), ("maximum", self.most)):
            if count is not None and (isinstance(count, bool) or not isinstance(count, int) or not least <= count <= most):
                raise ValueError(f"{word}_{name} is a whole number from {least} to {most}, not {count!r}")


def fraction_counts(digits: Digits, defaults: Tuple[int, int]) -> Tuple[int, int]:
    """How many fraction digits are shown at least and at most."""
    least, most = digits
    if least is None and most is None:
        return defaults
    if least is None:
        assert most is not None
        return min(defaults[0], most), most
    if most is None:
        return least, max(defaults[1], least)
    if least > most:
        raise ValueError(f"minimum_fraction_digits is {least}, and maximum_fraction_digits only {most}")
    return least, most


def significant_counts(digits: Digits) -> Tuple[int, int]:
    """How many significant digits are shown at least and at most."""
    least = 1 if digits.least is None else digits.least
    most = 21 if digits.most is None else digits.most
    if least > most:
        raise ValueError(f"minimum_significant_digits is {least}, and maximum_significant_digits only {most}")
    return least, most


def fraction_stem(counts: Tuple[int, int]) -> str:
    """The stem of fraction digits."""
    least, most = counts
    return "." + "0" * least + "#" * (most - least) if most else "precision-integer"


def significant_stem(counts: Tuple[int, int]) -> str:
    """The stem of significant digits."""
    least, most = counts
    return "@" * least + "#" * (most - least)


def increment_stem(increment: int, counts: Tuple[int, int]) -> str:
    """The stem of an increment in units of the last digit."""
    least, most = counts
    if least != most:
        raise ValueError(f"with rounding_increment fraction digits are {least} at least and at most, not {most}")
    digits = str(increment).rjust(least + 1, "0")
    return "precision-increment/" + (f"{digits[:-least]}.{digits[-least:]}" if least else digits)


def default_fraction(style: str, currency: str, is_compact: bool) -> Tuple[int, int]:
    """The fraction digits where none are asked for."""
    if style == "currency" and not is_compact:
        digits = MINOR_UNITS.get(currency, 2)
        return digits, digits
    return 0, 0 if style == "percent" else 3


def precision_of(style: str, currency: str, is_compact: bool, fraction: Digits, significant: Digits, priority: str,
                 increment: int) -> str:
    """The stem of the precision, or nothing where it is a skeleton's own default."""
    defaults = default_fraction(style, currency, is_compact)
    if increment != 1:
        if significant.given() or priority != "auto" or (is_compact and not fraction.given()):
            raise TypeError("rounding_increment is one of fraction digits")
        return increment_stem(increment, fraction_counts(fraction, (defaults[0], defaults[0])))
    if priority != "auto":
        counts = fraction_counts(fraction, defaults)
        letter = "r" if priority == "morePrecision" else "s"
        return f"{fraction_stem(counts)}/{significant_stem(significant_counts(significant))}{letter}"
    if significant.given():
        return significant_stem(significant_counts(significant))
    if not fraction.given() and (is_compact or style == "currency"):
        return ""
    return fraction_stem(fraction_counts(fraction, defaults))


def with_zeros_hidden(precision: str, style: str, is_compact: bool) -> str:
    """The precision whose zeros behind a whole number aren't shown."""
    if not precision:
        precision = "precision-integer/@@*" if is_compact else "precision-currency-standard"
    return precision + "/w"


def unit_of(style: str, currency: Optional[str], unit: Optional[str]) -> str:
    """The stem of what is counted."""
    if style == "currency":
        if currency is None:
            raise TypeError("the style currency has an option currency")
        return f"currency/{currency.upper()}"
    if style == "unit":
        if unit is None:
            raise TypeError("the style unit has an option unit")
        return f"unit/{unit}"
    return "percent" if style == "percent" else ""


def sign_of(display: str, is_accounting: bool) -> str:
    """The stem of signs."""
    if is_accounting and display != "never":
        return "-".join(filter(None, ("sign-accounting", SIGNS[display])))
    return f"sign-{SIGNS[display]}" if display != "auto" else ""


def grouping_of(use_grouping: Union[bool, str, None], is_compact: bool) -> str:
    """The stem of groups, or nothing where they are a skeleton's own default."""
    default = "min2" if is_compact else "auto"
    if use_grouping is None or use_grouping in ("true", "false"):
        use_grouping = default
    if isinstance(use_grouping, bool):
        use_grouping = "always" if use_grouping else "off"
    if use_grouping not in ("auto", "always", "min2", "off"):
        raise ValueError(f"use_grouping is True, False, 'auto', 'always' or 'min2', not {use_grouping!r}")
    return "" if use_grouping == default else GROUPINGS[use_grouping]


def judge_names(currency: Optional[str], unit: Optional[str], system: Optional[str]) -> None:
    """A `ValueError` where a name can be none."""
    for name, value, form in (("currency", currency, "[A-Za-z]{3}"), ("unit", unit, "[a-z0-9]+(-[a-z0-9]+)*"),
                              ("numbering_system", system, "[A-Za-z0-9]{3,8}")):
        if value is not None and not re.fullmatch(form, value):
            raise ValueError(f"{name} is no such name: {value!r}")


def skeleton_of(
    *,
    style: Literal["decimal", "percent", "currency", "unit"] = "decimal",
    currency: Optional[str] = None,
    currency_display: Literal["symbol", "narrowSymbol", "code", "name"] = "symbol",
    currency_sign: Literal["standard", "accounting"] = "standard",
    unit: Optional[str] = None,
    unit_display: Literal["short", "narrow", "long"] = "short",
    notation: Literal["standard", "compact", "scientific", "engineering"] = "standard",
    compact_display: Literal["short", "long"] = "short",
    sign_display: Literal["auto", "always", "never", "exceptZero", "negative"] = "auto",
    use_grouping: Union[bool, Literal["auto", "always", "min2"], None] = None,
    numbering_system: Optional[str] = None,
    minimum_integer_digits: int = 1,
    minimum_fraction_digits: Optional[int] = None,
    maximum_fraction_digits: Optional[int] = None,
    minimum_significant_digits: Optional[int] = None,
    maximum_significant_digits: Optional[int] = None,
    rounding_mode: Literal["ceil", "floor", "expand", "trunc", "halfCeil", "halfFloor", "halfExpand", "halfTrunc",
                           "halfEven"] = "halfExpand",
    rounding_increment: int = 1,
    rounding_priority: Literal["auto", "morePrecision", "lessPrecision"] = "auto",
    trailing_zero_display: Literal["auto", "stripIfInteger"] = "auto",
) -> str:
    """The number skeleton of options of ECMA-402's `Intl.NumberFormat`, in its canonical form.

    Names, values, limits and defaults are ECMA-402's, the names in snake case. Counts of integer and significant digits are from 1 to
    21, those of fraction digits from 0 to 100. A number of the style percent is multiplied by a hundred. `unit` is the name that the
    tables have. Where one option alone determines the digits of a currency, its other digits are ISO 4217's.

    A value that isn't one of an option's is a `ValueError`, as ECMA-402's RangeError. A `TypeError` is raised where the currency or the
    unit of a style is missing, and for a rounding increment beside significant digits or a rounding priority.
    """
    given = locals()
    for name, words in WORDS.items():
        if given[name] not in words:
            raise ValueError(f"{name} is one of {', '.join(words)}, not {given[name]!r}")
    judge_names(currency, unit, numbering_system)
    fraction = Digits(minimum_fraction_digits, maximum_fraction_digits)
    significant = Digits(minimum_significant_digits, maximum_significant_digits)
    Digits(minimum_integer_digits, None).judged("integer_digits", 1, 21)
    fraction.judged("fraction_digits", 0, 100)
    significant.judged("significant_digits", 1, 21)
    if isinstance(rounding_increment, bool) or rounding_increment not in INCREMENTS:
        raise ValueError(f"rounding_increment is one of {', '.join(map(str, INCREMENTS))}, not {rounding_increment!r}")
    is_compact = notation == "compact"
    counted = unit_of(style, currency, unit)
    precision = precision_of(style, (currency or "").upper(), is_compact, fraction, significant, rounding_priority, rounding_increment)
    if trailing_zero_display == "stripIfInteger":
        precision = with_zeros_hidden(precision, style, is_compact)
    tokens: List[str] = [
        NOTATIONS[notation, compact_display],
        counted,
        precision,
        MODES[rounding_mode] and f"rounding-mode-{MODES[rounding_mode]}",
        grouping_of(use_grouping, is_compact),
        f"integer-width/*{'0' * minimum_integer_digits}" if minimum_integer_digits > 1 else "",
        system_of(numbering_system),
        DISPLAYS[currency_display] if style == "currency" else UNIT_DISPLAYS[unit_display] if style == "unit" else "",
        sign_of(sign_display, style == "currency" and currency_sign == "accounting"),
        "scale/100" if style == "percent" else "",
    ]
    return " ".join(filter(None, tokens))


def system_of(name: Optional[str]) -> str:
    """The stem of a numbering system."""
    if name is None:
        return ""
    return "latin" if name.lower() == "latn" else f"numbering-system/{name.lower()}"
