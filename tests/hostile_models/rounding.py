"""Numbers as they are rounded: to fraction digits, significant digits or multiples of an increment, by nine modes; the page of
locnum_options. All is computed by whole numbers."""
import re
from dataclasses import dataclass

from hostile_models.numbers import LIMIT, OVERFLOW, Numeral, magnitude_of

HALF_EVEN = "half-even"
MODES = [HALF_EVEN, "half-up", "half-down", "half-ceiling", "half-floor", "up", "down", "ceiling", "floor"]
# What says how fine numbers are.
FRACTION, SIGNIFICANT, INCREMENT = "fraction", "significant", "increment"
MOST = 999
# A greatest count of fraction digits that cuts none off.
UNLIMITED = 2 * LIMIT


@dataclass(frozen=True)
class Precision:
    """By which option numbers are rounded; its counts of digits, the greatest of an increment being none; and for an increment
    its digits and the power of ten of the last of them."""

    option: str
    least: int
    most: int
    digits: int = 1
    power: int = 0


def increment_named(text: str) -> Precision | None:
    """The increment of a text: 1, 2, 5 or 25 times a power of ten, with the digits behind its point as the least count."""
    match = re.fullmatch(r"([0-9]+)(?:\.([0-9]+))?|\.([0-9]+)", text, re.ASCII)
    if not match:
        return None
    fraction = match[2] or match[3] or ""
    figures = ((match[1] or "") + fraction).lstrip("0")
    digits = figures.rstrip("0")
    power = len(figures) - len(digits) - len(fraction)
    if digits not in ("1", "2", "5", "25") or len(fraction) > MOST or abs(power) > MOST:
        return None
    return Precision(INCREMENT, len(fraction), 0, int(digits), power)


def is_more(mode: str, is_negative: bool, step: int, kept: int, rest: int) -> bool:
    """Whether of a number between two multiples of a step the one that is farther from zero is taken."""
    toward = {"ceiling": "down" if is_negative else "up", "floor": "up" if is_negative else "down"}
    half, named = mode.startswith("half-"), mode.removeprefix("half-")
    named = toward.get(named, named)
    if half and 2 * rest != step:
        return 2 * rest > step
    return rest > 0 and (kept % 2 == 1 if named == "even" else named == "up")


def step_of(precision: Precision, magnitude: int) -> tuple[int, int]:
    """The digits of the step at a magnitude, and the power of ten of the last of them."""
    if precision.option == INCREMENT:
        return precision.digits, precision.power
    return 1, -precision.most if precision.option == FRACTION else magnitude - precision.most + 1


def scaled(numeral: Numeral, power: int) -> Numeral | str:
    """A number whose digits each stand that many powers of ten higher, or why it has too many digits."""
    if power >= 0:
        whole, fraction = numeral.whole + numeral.fraction[:power].ljust(power, "0"), numeral.fraction[power:]
    else:
        digits = numeral.whole.rjust(-power, "0")
        whole, fraction = digits[:power], digits[power:] + numeral.fraction
    whole = whole.lstrip("0") or "0"
    return OVERFLOW if max(len(whole), len(fraction)) > LIMIT else Numeral(numeral.sign, whole, fraction)


def rounded(numeral: Numeral, precision: Precision, mode: str, integer_digits: int) -> Numeral | str:
    """The number that is shown of another one, with that many digits before its fraction at least, or why it has too many
    digits."""
    number, scale = int(numeral.whole + numeral.fraction), len(numeral.fraction)
    digits, power = (1, -scale) if precision.most == UNLIMITED else step_of(precision, magnitude_of(number, scale))
    below = max(scale, -power)
    step: int = digits * 10**(power + below)
    kept, rest = divmod(number * 10**(below - scale), step)
    size = (kept + is_more(mode, numeral.sign == "-", step, kept, rest)) * step
    figures = str(size).rjust(below + 1, "0")
    whole, fraction = figures[:len(figures) - below], figures[len(figures) - below:].rstrip("0")
    least = precision.least - 1 - magnitude_of(size, below) if precision.option == SIGNIFICANT else precision.least
    whole, fraction = whole.rjust(integer_digits, "0"), fraction.ljust(least, "0")
    return OVERFLOW if max(len(whole), len(fraction)) > LIMIT else Numeral(numeral.sign, whole, fraction)


def is_changed(numeral: Numeral, shown: Numeral) -> bool:
    """Whether a number isn't the one that is shown."""
    scale = max(len(numeral.fraction), len(shown.fraction))
    return int(numeral.whole + numeral.fraction.ljust(scale, "0")) != int(shown.whole + shown.fraction.ljust(scale, "0"))
