"""Numbers, money, percents and units in the form of a locale, in full and in compact form.

    >>> import talmuiga
    >>> talmuiga.Formatter.english().format(1000007)
    '1,000,007'
    >>> talmuiga.canonical_skeleton("K currency/eur")
    'compact-short currency/EUR'
    >>> talmuiga.skeleton_of(style="unit", unit="kilometer", unit_display="long")
    'unit/kilometer .### rounding-mode-half-up unit-width-full-name'
    >>> talmuiga.Formatter.english(skeleton="currency/USD", ranges=True).format_range(3, 5)
    '$3.00 – $5.00'
    >>> talmuiga.Formatter.english().read("1,234.50")
    Decimal('1234.50')
    >>> talmuiga.Message.english("{n, plural, one{# file} other{# files}}")(n=1234)
    '1,234 files'

A `Formatter` reads its tables once, when it is made, and threads may share it; so does a `Message`. `talmuiga.babel` has functions with Babel's names, and
`python -m talmuiga` is a command.
"""
from __future__ import annotations

import operator
import re
from decimal import Decimal
from typing import Any, Iterable, List, Literal, Optional, Sequence, SupportsFloat, SupportsIndex, Tuple, Union, cast

from . import _library
from .options import skeleton_of

__all__ = ["ArgumentRefused", "Descending", "Formatter", "Message", "MessageRefused", "NoData", "NoPattern", "NoReading",
           "NotFormatted", "NotRead", "Number", "Refused", "SkeletonRefused", "TablesRefused", "WordsRefused", "canonical_skeleton",
           "names_in", "skeleton_of", "tables_fault"]
__version__ = "0.2.0"

#: What is formatted: a whole number, a decimal, a text that spells one, or a float by its shortest text. Numbers of other types, as
#: those of numpy, are taken as the whole number or the float that they convert to.
Number = Union[int, Decimal, str, float, SupportsIndex, SupportsFloat]

#: Statuses of the library for C.
OUT_OF_MEMORY, WORDS_REFUSED, TABLES_REFUSED, NO_DATA = 1, 2, 3, 4

#: Why a number isn't formatted, by its status.
REASONS = {6: "not a decimal", 7: "too many digits", 8: "overflow"}

#: Statuses of ranges in the library for C.
NO_PATTERN, DESCENDING = 10, 11

#: Why the end of a range isn't formatted, by its status.
END_REASONS = {12: "not a decimal", 13: "too many digits", 14: "overflow"}

#: Statuses of reading in the library for C.
NOT_READ, NO_READING = 22, 23

#: The names of parts, by their numbers in the library for C.
PARTS = {1: "minusSign", 2: "plusSign", 3: "integer", 4: "fraction", 5: "group", 6: "decimal", 7: "currency",
         8: "percentSign", 9: "perMilleSign", 10: "unit", 11: "compact"}

#: The kinds of faults of skeletons, by their numbers in the library for C.
KINDS = {1: "notUtf8", 2: "unknownStem", 3: "leftOut", 4: "repeated", 5: "tooManyDigits", 6: "noOptionHere", 7: "straySlash",
         8: "emptyOption", 9: "badOption", 10: "optionMissing", 11: "incrementOfCompact", 12: "unsupported"}

#: What tables can be asked for, by the numbers in the library for C.
LISTED = {"locales": 1, "systems": 2, "currencies": 3, "units": 4}

#: The stems of groups by the words of `grouping`: always and auto write the same.
GROUPINGS = {"auto": "group-auto", "always": "group-auto", "never": "group-off", "min2": "group-min2"}

#: The stems of styles.
STYLES = {"plain": "", "short": "compact-short", "long": "compact-long"}

#: The most fraction digits.
MOST_DIGITS = 999

#: The letters of `struct` whose numbers are read from a buffer as they lie.
LETTERS = frozenset("bBhHiIlLqQfd")


class Refused(ValueError):
    """There is no such formatter."""


class WordsRefused(Refused):
    """The locale, the system, the style or the grouping isn't such a word."""


class SkeletonRefused(Refused):
    """The skeleton has a fault: its byte in the skeleton's UTF-8, its kind, as unknownStem, and words for people.

    A skeleton that no formatter of this version has is of the kind unsupported, and its byte is 0.
    """

    def __init__(self, byte: int, kind: str, words: str):
        super().__init__(f"the skeleton is refused: {words}, byte {byte}" if kind != "unsupported" else f"the skeleton is {words}")
        self.byte = byte
        self.kind = kind
        self.words = words


class TablesRefused(Refused):
    """The tables aren't UTF-8, or their text is refused."""


class NoData(Refused):
    """The tables don't say what a formatter of the locale needs."""


class NoPattern(Refused):
    """The tables have no range pattern for the locale, or the formatter was made without ranges."""


class NoReading(Refused):
    """The formatter reads no texts: it writes compact numbers, money, percents or units, or its texts don't tell their numbers."""


class NotRead(ValueError):
    """A text isn't a number's: the text, and the byte of its UTF-8 at which it differs from the texts of numbers."""

    def __init__(self, text: str, byte: int):
        super().__init__(f"the text isn't a number's: byte {byte} of {text!r}")
        self.text = text
        self.byte = byte


class Descending(ValueError):
    """The start of a range is above its end."""


class NotFormatted(ValueError):
    """A number isn't formatted: its place among the numbers, its text, and why."""

    def __init__(self, index: int, text: str, reason: str):
        super().__init__(f"number {index} isn't formatted: {reason}: {text!r}")
        self.index = index
        self.text = text
        self.reason = reason


def text_of(number: Number) -> str:
    """The text of a number: of a float the shortest that is read as it, without an exponent; else a `TypeError`."""
    if isinstance(number, str):
        return number
    if isinstance(number, float):
        number = Decimal(float.__repr__(number))
    if not isinstance(number, Decimal):
        try:
            # a decimal, since Python refuses to spell whole numbers of more than 4300 digits itself
            number = Decimal(operator.index(cast(SupportsIndex, number)))
        except TypeError:
            number = Decimal(float.__repr__(float(cast(SupportsFloat, number))))
    return format(number, "f")


def utf8(text: str) -> bytes:
    """The text in UTF-8; half of a pair stays, and isn't UTF-8."""
    return text.encode("utf-8", "surrogatepass")


def canonical_skeleton(skeleton: str) -> str:
    """The canonical text of a number skeleton: of all skeletons with its settings the same; else `SkeletonRefused`."""
    answer = _library.canonical(utf8(skeleton))
    if isinstance(answer, tuple):
        raise skeleton_refusal(answer)
    return answer


def skeleton_refusal(fault: Tuple[int, int, str]) -> SkeletonRefused:
    """The exception of a skeleton with a fault."""
    byte, kind, words = fault
    return SkeletonRefused(byte, KINDS.get(kind, "other"), words)


def tables_fault(tables: bytes) -> Optional[str]:
    """Why tables are refused, in words for people; none where they are accepted."""
    return _library.fault(bytes(tables)) or None


def names_in(tables: bytes, kind: Literal["locales", "systems", "currencies", "units"]) -> List[str]:
    """The names of a kind that tables have, each once, in the order in which they stand first.

    A `ValueError` where the kind is none, and `TablesRefused` where the tables aren't JSON in UTF-8.
    """
    if kind not in LISTED:
        raise ValueError(f"kind is one of {', '.join(LISTED)}, not {kind!r}")
    tables = bytes(tables)
    lines = _library.list(tables, LISTED[kind])
    if isinstance(lines, int):
        raise refusal(lines, [], tables)
    return lines.split("\n")[:-1]


def refusal(status: int, words: List[str], tables: bytes = b"") -> Exception:
    """The exception of a formatter that isn't opened."""
    if status == WORDS_REFUSED:
        return WordsRefused(f"no such locale, system, style or grouping: {' '.join(filter(None, words))}")
    if status == TABLES_REFUSED:
        return TablesRefused(f"the tables are refused: {_library.fault(tables) or 'a fault outside of their numbers'}")
    if status == NO_DATA:
        return NoData(f"the tables don't say what a formatter of {words[0]} needs")
    if status == NO_PATTERN:
        return NoPattern(f"the tables have no range pattern for {words[0]}")
    return MemoryError("the library had no memory for a formatter")


def not_formatted(index: int, text: str, status: int) -> Exception:
    """The exception of a number that isn't formatted."""
    if status == OUT_OF_MEMORY:
        return MemoryError("the library had no memory for a number")
    return NotFormatted(index, text, REASONS[status])


def range_refusal(status: int, start: str, end: str) -> Exception:
    """The exception of a range that isn't formatted."""
    if status == NO_PATTERN:
        return NoPattern("the formatter was made without ranges")
    if status == DESCENDING:
        return Descending(f"the start is above the end: {start!r}, {end!r}")
    if status in END_REASONS:
        return NotFormatted(1, end, END_REASONS[status])
    return not_formatted(0, start, status)


def reading_refusal(status: int, byte: int, text: str) -> Exception:
    """The exception of a text that isn't read."""
    if status == NO_READING:
        return NoReading("the formatter reads no texts")
    if status == NOT_READ:
        return NotRead(text, byte)
    return MemoryError("the library had no memory for a number")


def rounding_skeleton(style: Optional[str], system: Optional[str], grouping: Optional[str], fraction: int) -> str:
    """The skeleton of the words of a formatter that rounds; `WordsRefused` where a word is none, and `ValueError` where the count is none."""
    if isinstance(fraction, bool) or not isinstance(fraction, int) or not 0 <= fraction <= MOST_DIGITS:
        raise ValueError(f"fraction is a whole number from 0 to {MOST_DIGITS}, not {fraction!r}")
    is_system = not system or system == "-" or re.fullmatch("[A-Za-z0-9]{3,8}", system)
    if not is_system or (style or "plain") not in STYLES or (grouping or "auto") not in GROUPINGS:
        raise refusal(WORDS_REFUSED, ["-", system or "-", style or "plain", grouping or ""])
    tokens = [
        STYLES[style or "plain"],
        "." + "0" * fraction if fraction else "precision-integer",
        GROUPINGS[grouping] if grouping else "",
        f"numbering-system/{system.lower()}" if system and system != "-" else "",
    ]
    return " ".join(filter(None, tokens))


def raw_numbers(numbers: object) -> Optional[Tuple[bytes, str, int]]:
    """The bytes of a buffer of numbers, the letter of one and how many bytes it has; none for anything else."""
    try:
        view = memoryview(cast(Any, numbers))
    except (TypeError, ValueError):
        return None
    letter = view.format.lstrip("@")
    if view.ndim != 1 or letter not in LETTERS:
        return None
    return view.tobytes(), letter, view.itemsize


class Formatter:
    """Formats numbers by tables (docs/FORMATS.md), in a locale.

    `system` is the numbering system that is preferred, `style` is plain, short or long, plain by default, and `grouping`
    auto, never, always or min2; without it the style decides. `fraction` rounds half to even to so many digits behind the point,
    in a compact number behind that of its significand. In the place of these four `skeleton` is a number skeleton, as
    `currency/EUR` or `%x100 .0`; `skeleton_of` makes one of options. The library rounds, and Python computes nothing. With `ranges` a
    formatter by a skeleton or a fraction has `format_range` too, by the locale's range pattern and categories of ranges in the tables.

    What can't be is refused here, by `WordsRefused`, `SkeletonRefused` (with byte and kind), `TablesRefused`, `NoData` or `NoPattern`,
    and if memory runs out, by `MemoryError`.
    """

    def __init__(
        self,
        tables: bytes,
        locale: str,
        *,
        skeleton: Optional[str] = None,
        system: Optional[str] = None,
        style: Optional[str] = None,
        grouping: Optional[str] = None,
        fraction: Optional[int] = None,
        ranges: bool = False,
    ):
        if skeleton is not None and any(word is not None for word in (system, style, grouping, fraction)):
            raise TypeError("a formatter by a skeleton has no system, style, grouping or fraction")
        if fraction is not None:
            skeleton = rounding_skeleton(style, system, grouping, fraction)
        if ranges and skeleton is None:
            raise TypeError("a formatter of ranges has a skeleton or a fraction")
        words = [locale] if skeleton is not None else [locale, system or "-", style or "plain", grouping or ""]
        tables = bytes(tables)
        opened: Union[_library.Capsule, int, Tuple[int, int, str]]
        try:
            if skeleton is None:
                opened = _library.open(tables, *words)
            elif ranges:
                opened = _library.open_ranges(tables, locale, utf8(skeleton))
            else:
                opened = _library.open_skeleton(tables, locale, utf8(skeleton))
        except ValueError:  # a NUL, or half of a pair
            raise refusal(WORDS_REFUSED, words) from None
        if isinstance(opened, tuple):
            raise skeleton_refusal(opened)
        if isinstance(opened, int):
            raise refusal(opened, words, tables)
        self._opened = opened

    @classmethod
    def english(cls, *, skeleton: Optional[str] = None, fraction: Optional[int] = None, ranges: bool = False) -> "Formatter":
        """A formatter in plain English, as 1,234.5, or by a skeleton in English, without tables.

        English knows numbers in full and in compact form, percents, and dollars, euros, pounds and yen; what else a skeleton asks for
        is `NoData`. `fraction` rounds half to even to so many digits behind the point. With `ranges` a formatter by a skeleton or a
        fraction has `format_range` too.
        """
        if skeleton is not None and fraction is not None:
            raise TypeError("a formatter by a skeleton has no fraction")
        if fraction is not None:
            skeleton = rounding_skeleton(None, None, None, fraction)
        if ranges and skeleton is None:
            raise TypeError("a formatter of ranges has a skeleton or a fraction")
        opened: Union[_library.Capsule, int, Tuple[int, int, str]]
        if skeleton is None:
            opened = _library.open_english()
        elif ranges:
            opened = _library.open_english_ranges(utf8(skeleton))
        else:
            opened = _library.open_english_skeleton(utf8(skeleton))
        if isinstance(opened, tuple):
            raise skeleton_refusal(opened)
        if isinstance(opened, int):
            raise refusal(opened, ["en"])
        formatter = cls.__new__(cls)
        formatter._opened = opened
        return formatter

    def format(self, number: Number) -> str:
        """The text of one number; `NotFormatted` where it has none."""
        shown = _library.one(self._opened, number, text_of)
        if isinstance(shown, int):
            raise not_formatted(0, text_of(number), shown)
        return shown

    def __call__(self, number: Number) -> str:
        """The same as `format`."""
        return self.format(number)

    def parts(self, number: Number) -> Tuple[str, List[Tuple[int, int, str]]]:
        """The text of one number, and of each of its parts where it begins, where it ends, and its name.

        The places are those of characters in the text, so that `text[begin:end]` is the part. The names are minusSign,
        plusSign, integer, fraction, group, decimal, currency, percentSign and unit; the integer holds the separators of its
        groups, and in a compact number the sign alone has a part. `NotFormatted` where the number has no text.
        """
        given = text_of(number)
        shown = _library.parts(self._opened, given)
        if isinstance(shown, int):
            raise not_formatted(0, given, shown)
        text, spans = shown
        return text, [(begin, end, PARTS.get(part, "other")) for begin, end, part in spans]

    def format_range(self, start: Number, end: Number) -> str:
        """The text of the range of two numbers, as '3–5' or '0–1 kilometers', by a formatter with ranges; of equal texts one, as '~3'.

        `NotFormatted` where a number has no text, with index 0 for the start and 1 for the end; `Descending` where the start is above
        the end; `NoPattern` where the formatter was made without ranges.
        """
        first, last = text_of(start), text_of(end)
        shown = _library.range(self._opened, first, last)
        if isinstance(shown, int):
            raise range_refusal(shown, first, last)
        return shown

    def read(self, text: str) -> Decimal:
        """The decimal that a number's text shows, in the digits, signs and separators of the locale, with its groups or with none.

        What is read is the number as it is shown: where the formatter scales or rounds, or shows no sign, this isn't taken back.
        Zeros at the end of a fraction are kept. `NotRead` where the text is no number's; `NoReading` where the formatter writes
        compact numbers, money, percents or units.
        """
        number = _library.read(self._opened, utf8(text))
        if isinstance(number, tuple):
            raise reading_refusal(*number, text)
        return Decimal(number)

    def format_many(self, numbers: Iterable[Number], *, mark: Optional[str] = None) -> List[str]:
        """The texts of numbers, in their order, by one call of the library, without the interpreter's lock.

        The numbers are those of any iterable. A buffer of numbers, as an `array.array` or a column of numpy, is read as it lies. Where
        a number isn't formatted, `NotFormatted` has its index, its text and the reason; with `mark` that text stands in its place, and
        the rest is formatted.
        """
        buffer = raw_numbers(numbers)
        if buffer is None:
            # a list of our own, since nobody may change it meanwhile
            own = list(numbers)
            given: Sequence[Number] = own
            answers, has_refused = _library.many(self._opened, own, text_of)
        else:
            given = cast(Sequence[Number], numbers)
            answers, has_refused = _library.raw(self._opened, *buffer)
        if has_refused:
            replace_refused(answers, given, mark)
        # no status is left among them
        return cast(List[str], answers)


def replace_refused(answers: List[Union[str, int]], given: Sequence[Number], mark: Optional[str]) -> None:
    """Puts a mark in the place of each status, or raises the exception of the first."""
    for index, answer in enumerate(answers):
        if isinstance(answer, int):
            if mark is None or answer == OUT_OF_MEMORY:
                raise not_formatted(index, text_of(given[index]), answer)
            answers[index] = mark


# messages stand on what is above
from .messages import ArgumentRefused, Message, MessageRefused  # noqa: E402
