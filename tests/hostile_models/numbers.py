"""Decimals as text: which texts are decimals, digits in groups, rounding, magnitudes; docs/FORMATS.md, decimals as text."""
import re
import sys
from dataclasses import dataclass

# Texts near the limit are read as whole numbers.
sys.set_int_max_str_digits(0)

LIMIT = 32768
NO_DECIMAL, TOO_LONG, OVERFLOW = "not a decimal", "too many digits", "overflow"
STRATEGIES = ["auto", "never", "always", "min2"]


@dataclass(frozen=True)
class Numeral:
    """A sign or nothing, the digits before the point, of which there is one at least, and those behind it."""

    sign: str
    whole: str
    fraction: str


@dataclass(frozen=True)
class Sizes:
    """The digits of the first group and of the others, and the fewest in front of a separator."""

    primary: int
    secondary: int
    least: int


@dataclass(frozen=True)
class Notation:
    """How digits are written."""

    decimal: str
    group: str
    sizes: Sizes
    digits: str


ENGLISH = Notation(".", ",", Sizes(3, 3, 1), "0123456789")


def numeral_of(text: bytes) -> Numeral | str:
    """What a decimal consists of, or why the text is none."""
    match = re.fullmatch(rb"([+-]?)(?:([0-9]+)(?:\.([0-9]+))?|\.([0-9]+))", text)
    if not match:
        return NO_DECIMAL
    numeral = Numeral(match[1].decode(), (match[2] or b"0").decode(), (match[3] or match[4] or b"").decode())
    return TOO_LONG if max(len(numeral.whole), len(numeral.fraction)) > LIMIT else numeral


def is_group_end(upper: int, power: int, strategy: str, sizes: Sizes) -> bool:
    """Whether a separator follows the digit at this power, where the first digit is at the power `upper`."""
    least = max(2 if strategy == "min2" else 1, sizes.least)
    if sizes.primary == 0 or power < sizes.primary or strategy == "never" or upper < sizes.primary + least - 1:
        return False
    return (power - sizes.primary) % (sizes.secondary or sizes.primary) == 0


def unsigned_text(whole: str, fraction: str, notation: Notation, strategy: str) -> str:
    """The digits in groups, and the fraction behind its separator."""
    upper, text = len(whole) - 1, []
    for place, digit in enumerate(whole):
        text.append(notation.digits[int(digit)])
        if is_group_end(upper, upper - place, strategy, notation.sizes):
            text.append(notation.group)
    if fraction:
        text.append(notation.decimal)
        text.extend(notation.digits[int(digit)] for digit in fraction)
    return "".join(text)


def rounded_half_even(number: int, power: int) -> int:
    """The multiple of ten to the power nearest to the number."""
    step: int = 10**power
    quotient, rest = divmod(number, step)
    return (quotient + (2 * rest > step or 2 * rest == step and quotient % 2 == 1)) * step


def magnitude_of(number: int, scale: int) -> int:
    """The power of the first digit that isn't zero of a number with that many fraction digits; 0 for zero."""
    return len(str(number)) - 1 - scale if number else 0
