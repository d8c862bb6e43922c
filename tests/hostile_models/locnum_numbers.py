"""What locnum writes for a number: plain English, money, percents and permilles; the texts of notes, by the page of number_forms, and
explanations, by that of locnum_explain."""
import re
from collections.abc import Iterator
from dataclasses import dataclass, replace

from hostile_models.locnum_settings import CURRENCIES, MONEY, PERCENT, PERMILLE, PLAIN, Settings
from hostile_models.numbers import ENGLISH, Numeral, magnitude_of, numeral_of, unsigned_text
from hostile_models.rounding import is_changed, rounded, scaled

# White space of ASCII, which the text of a line that is explained has not at its ends; and the columns of an explanation.
WHITE, WIDTH = b" \t\n\f\r", 80
HIDDEN = "[\x00-\x1f\x7f-\x9f\u061c\u200e\u200f\u2028-\u202e\u2066-\u2069]"


def shown_sign(sign: str, display: str, is_zero: bool) -> str:
    """The sign that is written."""
    if display == "never" or is_zero and display in ("except-zero", "negative"):
        return ""
    return "-" if sign == "-" else "+" if display in ("always", "except-zero") else ""


def multiplied(numeral: Numeral, settings: Settings) -> Numeral | str:
    """The number that is rounded, or why it has too many digits."""
    return scaled(numeral, settings.scale) if settings.scale else numeral


def shown(numeral: Numeral, settings: Settings) -> Numeral | str:
    """The number that is written, or why it has too many digits."""
    number = multiplied(numeral, settings)
    if isinstance(number, str) or not settings.precision:
        return number
    return rounded(number, settings.precision, settings.rounding_mode, settings.integer_digits)


def written(text: bytes, settings: Settings) -> bytes | str:
    """What is written for the text of a number, or why the text is invalid."""
    numeral = numeral_of(text)
    number = numeral if isinstance(numeral, str) else shown(numeral, settings)
    if isinstance(number, str):
        return number
    sign = shown_sign(number.sign, settings.sign, not (number.whole + number.fraction).strip("0"))
    return in_pattern(sign, unsigned_text(number.whole, number.fraction, ENGLISH, settings.grouping), settings).encode()


def in_pattern(sign: str, number: str, settings: Settings) -> str:
    """A number between what its kind writes around it."""
    if settings.kind == PERCENT:
        return sign + number + "%"
    if settings.kind == PERMILLE:
        return sign + number + "‰"
    amount = CURRENCIES[settings.currency].symbol + number if settings.kind == MONEY and settings.currency else number
    return "(" + amount + ")" if settings.accounting and sign == "-" else sign + amount


def reported(text: bytes) -> bytes:
    """A text as notes show it."""
    if not text.strip(WHITE):
        return b"(empty)"
    try:
        characters = text.decode()
    except UnicodeDecodeError:
        characters = "".join(chr(byte) if byte < 128 else "?" for byte in text)
    characters = re.sub(HIDDEN, "?", characters)
    if len(characters) > 60:
        characters = f"{characters[:28]}..{characters[-28:]} ({len(characters)} characters)"
    return characters.encode()


@dataclass(frozen=True)
class Part:
    """A part of a number as it is written: where it starts and ends, and its name."""

    start: int
    end: int
    name: bytes


def parts_of(number: bytes) -> Iterator[Part]:
    """The parts of a plain English number, in the order of opening."""
    start = 1 if number[:1] in (b"-", b"+") else 0
    point = number.find(b".")
    end = len(number) if point < 0 else point
    if start:
        yield Part(0, 1, b"minusSign" if number[:1] == b"-" else b"plusSign")
    yield Part(start, end, b"integer")
    yield from (Part(at, at + 1, b"group") for at in range(start, end) if number[at:at + 1] == b",")
    if point >= 0:
        yield from [Part(end, end + 1, b"decimal"), Part(end + 1, len(number), b"fraction")]


def part_lines(number: bytes) -> list[bytes]:
    """The lines of its parts: marks under it, or the parts themselves where one of these lines has no room."""
    parts, count = list(parts_of(number)), len(number)
    if any(count + len(part.name) + 4 > WIDTH for part in parts):
        return [b"  " + part.name.ljust(11) + number[part.start:part.end] for part in parts]
    return [b"  " + (b" " * part.start + b"^" * (part.end - part.start)).ljust(count) + b"  " + part.name for part in parts]


def magnitude_line(number: bytes) -> bytes:
    """The line that says the power of ten of the first digit that isn't 0."""
    whole, _, fraction = number.lstrip(b"+-").replace(b",", b"").partition(b".")
    return b"  magnitude  %d" % magnitude_of(int(whole + fraction), len(fraction))


def rounding_lines(text: bytes, settings: Settings) -> list[bytes]:
    """The line that says from what to what a number was rounded, and by what; or nothing."""
    plain, numeral = written(text, replace(settings, grouping="never")), numeral_of(text)
    numeral = numeral if isinstance(numeral, str) else multiplied(numeral, settings)
    number = numeral if isinstance(numeral, str) else shown(numeral, replace(settings, scale=0))
    if isinstance(plain, str) or isinstance(numeral, str) or isinstance(number, str) or not is_changed(numeral, number):
        return []
    read = numeral.sign + numeral.whole + ("." + numeral.fraction if numeral.fraction else "")
    return [f"  rounded    {read} to {plain.decode()}: {settings.rounded_by}".encode()]


def explained(text: bytes, settings: Settings) -> tuple[bytes, str | None]:
    """The explanation of a text, and why it is invalid, or None."""
    number = written(text, settings)
    if isinstance(number, str):
        return b"\n".join([reported(text), b"  " + number.encode(), b""]), number
    lines = [b"  " + number]
    if settings.kind == PLAIN:
        lines += [*part_lines(number), *rounding_lines(text, settings), magnitude_line(number)]
    return b"\n".join([text, *lines, b""]), None
