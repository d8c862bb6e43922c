"""The rules of crates/icu_ranges/README.md, restated over the texts of both ends, for tests/icu_ranges.py."""
import re
import unicodedata
from collections.abc import Callable
from typing import NamedTuple, TypeAlias

# Whether nothing stands around a number in its text.
Bare: TypeAlias = Callable[[str], bool]

# Pattern_White_Space
WHITE = "\t\n\v\f\r \u0085\u200e\u200f\u2028\u2029"

MINUSES = "-\u2212"

# The sign at the end of a text, with the mark of directions that it has in some locales; nothing, if there is none.
SIGN_AT_END = re.compile(r"(?:[\u061c\u200e\u200f]?[-+\u2212])?\Z")


class Ends(NamedTuple):
    """The texts of both ends alone, and the separator."""

    start: str
    end: str
    separator: str


class Parts(NamedTuple):
    """A text from its first to its last digit, with what stands around it."""

    before: str
    number: str
    after: str


def is_decimal_digit(letter: str) -> bool:
    """Whether a letter is of the general category Nd."""
    return unicodedata.category(letter) == "Nd"


def is_digit(letter: str) -> bool:
    """Whether a letter is a digit of a numbering system: those of hanidec aren't of the category Nd."""
    return unicodedata.numeric(letter, -1.0) in range(10)


def is_bare(text: str, is_end: Callable[[str], bool] = is_decimal_digit) -> bool:
    """Whether a text begins and ends with a digit."""
    return text != "" and is_end(text[0]) and is_end(text[-1])


def is_number(text: str) -> bool:
    """Whether nothing stands around a number."""
    return is_bare(text, is_digit)


def is_zero(text: str) -> bool:
    """Whether a text has digits, and none but zeros."""
    return {unicodedata.numeric(letter) for letter in text if is_digit(letter)} == {0.0}


def parts_of(text: str) -> Parts:
    """A text, cut at its first and its last digit; all of it stands before the number if it has no digit."""
    places = [place for place, letter in enumerate(text) if is_digit(letter)]
    if not places:
        return Parts(text, "", "")
    return Parts(text[: places[0]], text[places[0] : places[-1] + 1], text[places[-1] + 1 :])


def visible(text: str) -> str:
    """A text without spaces and without marks of directions, which the patterns of an amount with and without a sign may differ in."""
    return "".join(letter for letter in text if unicodedata.category(letter) not in ("Zs", "Cf"))


def but_for_spaces(text: str, other: str) -> str:
    """A text, if it is the other but for spaces and marks of directions; else the other."""
    return text if visible(text) == visible(other) else other


def is_approximate(text: str, of_number: str, sign: str) -> bool:
    """Whether a text is that of a number with the approximately sign in it."""
    return sign in text and visible(text.replace(sign, "", 1)) == visible(of_number)


def with_sign_within(of_number: str, sign: str, space: str = "") -> str:
    """The text of a number with the approximately sign in front of its digits and of the sign that stands beside them, in the place of
    some space."""
    before, number, after = parts_of(of_number)
    around = SIGN_AT_END.sub("", before)
    return around.removesuffix(space) + sign + before[len(around) :] + number + after


def spaced(separator: str) -> str:
    """The separator with white space on both sides."""
    return " " * (separator[0] not in WHITE) + separator + " " * (separator[-1] not in WHITE)


def joined(ends: Ends, bare: Bare = is_bare) -> str:
    """Both texts whole, with the separator between them."""
    between = ends.separator if bare(ends.start) and bare(ends.end) else spaced(ends.separator)
    return ends.start + between + ends.end


def written_once(ends: Ends, bare: Bare = is_number) -> str | None:
    """Both numbers with what stands around them once, if this is equal and more than a character."""
    start, end = parts_of(ends.start), parts_of(ends.end)
    if (start.before, start.after) != (end.before, end.after) or len(start.before + start.after) < 2:
        return None
    return start.before + joined(ends._replace(start=start.number, end=end.number), bare) + start.after
