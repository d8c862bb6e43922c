"""Arguments and inputs for locnum, as they are drawn."""
import random
import re
from collections.abc import Sequence
from dataclasses import dataclass

from hostile_models.locnum_arguments import FLAGS, LETTERS, PERHAPS, TEXTS
from hostile_models.locnum_settings import MODES, NO_SKELETON, OF_NUMBERS, SIGNS, SKELETONS, delimiter_named
from hostile_models.numbers import LIMIT, STRATEGIES
from hostile_models.rounding import MODES as ROUNDING_MODES
from hostile_models.running import Word

LISTS = ["1", "2", "2-", "1-3", "-2", "-", "1,3", "4-,1", "3,3", "18446744073709551615", "2-9999999999", "007"]
# Texts of options, those first that are accepted. Tables are of a file that isn't there.
GOOD: dict[str, list[str]] = {
    "tables": [], "locale": ["en", "en", "EN", "en_us.UTF-8", "env", "de", "x" * 63, "x" * 63], "system": ["latn", "latn", "arab"],
    "style": ["plain", "short", "long"], "grouping": STRATEGIES, "fraction": ["0", "0", "2", "999", "0..3", "1..1", "007"],
    "significant": ["1", "2", "3", "999", "1..3", "2..2", "007", "1..999"], "round": ROUNDING_MODES,
    "increment": ["0.05", "0.50", ".5", "2.5", "25", "1", "0002", "1000", "50.0", "0.25", "1" + "0" * 999, "." + "0" * 998 + "2"],
    "integer": ["1", "2", "3", "5", "007", "40", "999"], "skeleton": [*SKELETONS],
    "scale": ["100", "1000", "0.001", ".1", "1", "0010", "1.0", "1" + "0" * 999, "0." + "0" * 998 + "1"],
    "sign": SIGNS, "currency": ["USD", "EUR", "JPY", "CHF"], "width": ["short", "narrow", "long", "name"],
    "unit": ["kilometer", "", "é"], "delimiter": [";", ",", " ", "\t", "tab", "\\t", "-", "=", "\x7f", "5"],
    "field": LISTS, "invalid": MODES,
    "padding": ["1", "-1", "12", "-12", "007", "300", "-65535", "65535"],
    "header": ["1", "1", "5", "18446744073709551615", "0002"],
}
BAD: dict[str, list[str]] = {
    "locale": ["", "a b", "é", "x" * 64, ".UTF-8"], "system": ["", "la", "Latn", "x" * 5000],
    "style": ["", "Plain", "shorts", "PLAIN"], "grouping": ["", "min3", "yes"],
    "fraction": ["", "1000", "3..2", "1.2", "1...2", "-1", "+1", "..", "1..", "9" * 30, "1..1000"],
    "significant": ["", "0", "00", "0..3", "1000", "3..2", "1.2", "-1", "+1", "1..", "9" * 30, "1..1000"],
    "increment": ["", "0", "0.0", "3", "15", "5.", ".", "1..5", "-5", "+5", "1e3", "5 percent", "5/w", "\u0665", "250.5",
                  "1" + "0" * 1000, "0." + "0" * 999 + "1", "5." + "0" * 1000],
    "integer": ["", "0", "000", "1000", "-1", "+1", "1.0", "1..2", "9" * 30, "\u0665"],
    "scale": ["", "0", "2", "11", "100.", ".", "-1", "+10", "1e2", "1,000", "1/2", "1 percent", "1" + "0" * 1000],
    "skeleton": [*NO_SKELETON],
    "round": ["", "Up", "half", "half-", "even", "half-odd", "unnecessary", "half-half-up"],
    "sign": ["", "plus", "except_zero"], "currency": ["", "usd", "US", "USDD", "ÜSD"], "width": ["", "wide"],
    "unit": [], "delimiter": ["", "ab", "é", ";;", ";" * 5000],
    "field": ["", "0", "a", "2-1", "1,", ",1", "1--2", "1 2", "-0", "18446744073709551616", "1," * 3000, "--", "+1"],
    "padding": ["", "0", "-0", "-", "--1", "+1", "65536", "x", "9" * 5000, "1-"],
    "invalid": ["", "Abort", "stop"], "list": ["", "colours"],
    "header": ["", "0", "x", "-1", "1.5", "18446744073709551616", "9" * 5000],
    "tables": ["", "none.json", "/", "x" * 5000],
}
# Texts of fields, most of them invalid.
UNUSUAL = [b"", b".", b"-", b"+-5", b"5.", b"1e3", b"1,000", b"0x10", "\u0665".encode(), b"5\xff", b"\xc3", b"5\x00", b"--5",
           b"\r", b"5\r\r", b"\x1b[0m", b"5 5", b"-0", b"+0.0"]
LONG = [b"9" * LIMIT, b"." + b"5" * LIMIT, *[b"9" * LIMIT + b".5"] * 4, b"9" * (LIMIT + 1), b"." + b"1" * (LIMIT + 1),
        b"x" * 70000, b"0" * 40000]
# Words that are put among the others, most of them faults of the command line.
PUT_IN: list[list[Word]] = [
    ["--unknown"], ["-q"], ["-zq"], ["---cash"], ["--cash=1"], ["--Cash"], ["--head"], ["-" + "x" * 5000],
    ["--" + "x" * 5000], ["-.5"], ["--help"], ["-h"], ["--version"], ["-V"], ["-zV"], ["-5x"],
    ["--currency=USD", "--accounting", "--width=name"], ["--accounting", "--currency=EUR", "--width=name"],
    ["--currency=EUR", "--style=long"], ["--style=short", "--currency=USD", "--cash"],
    ["--width=narrow", "--currency=EUR", "--style=short"], ["--currency=USD", "--style=short"],
    ["--percent", "--percent"], ["--percent", "--permille"], ["--permille", "--scale=1"], ["-z", "--zero-terminated"],
    ["--fraction=2", "--significant=2"], ["--increment=0.05", "--currency=EUR", "--cash"], ["--cash", "--fraction=1"],
    ["--style=short", "--significant=3"], ["--increment", "5", "--style=long"], ["--increment=25", "--style=short"],
    ["--locale", "x" * 63], ["--round=up"], ["--percent", "--round=floor"],
    ["--currency=USD", "--round=half-up"], ["--style=short", "--currency=USD", "--round", "down"], ["--si=auto"], ["--in=5"],
    ["--skeleton", "K"], ["--skeleton=%x100", "--percent"], ["--skeleton=.00", "--system=latn"], ["--skeleton=.00", "--explain"],
    ["--percent", "--scale=1"], ["--integer=4", "--currency=USD"], ["--style=long", "--integer=2"], ["--integer=3", "--round=up"],
    ["--header=1", "--field=net", "5"], ["--csv", "-z"], ["--explain", "--padding=9"], ["--explain", "-z"], ["--explain"], ["--csv", "-d", '"'],
    ["--csv", "--delimiter=\n"], ["-d\r", "--csv"],
    ["--sign", "auto", "--sign=auto"], [b"\xff"],
    [b"--field=\xc3"], ["--locale", b"e\x80n"], ["--="], [b"\xc3\xa9\xe9"]]
# What stands behind `--`.
BEHIND = [["-z"], ["--help", "5"], ["-x", "-5", "--"], ["x" * 9000], ["\u0665", "+5"], ["", "5"]]
# Names of columns, which stand in headers and are asked for.
NAMES = ["net", "gross", "tax", "a b", "n", "net", "\u00e9t\u00e9", "x" * 70]
# Options that plain numbers may have, and their lines, besides how they are rounded.
OF_PLAIN = ["grouping", "sign", "delimiter", "field", "padding", "invalid", "header"]
# Options of what isn't a plain number, each with its text.
# Skeletons of numbers that the model writes, in the digits of English.
MODELLED_SKELETONS = [
    text for text, meaning in SKELETONS.items()
    if not {"system", "style", "unit"} & set(meaning.options) and meaning.options.get("width") != "name"
]
OTHER_KINDS = [{"percent": ""}, {"permille": ""}, {"currency": "USD"}, {"currency": "JPY"}, {"currency": "EUR", "accounting": ""}]


def a_number(rng: random.Random) -> str:
    """A decimal: few digits, digits near a tie or a carry, or zeros around."""
    digits = rng.choice([
        str(rng.randint(0, 1300)) + "0" * rng.randint(0, 9),
        "9" * rng.randint(1, 7) + rng.choice(["", "4", "5", "49", "50", "51"]),
        str(rng.randrange(10**24))[:rng.randint(1, 24)],
    ])
    place = rng.randint(0, len(digits))
    text = rng.choice([digits, digits[:place] + "." + digits[place:], "0." + "0" * rng.randint(0, 4) + digits])
    return rng.choice(["", "", "", "-", "+"]) + (text[:-1] if text.endswith(".") else text)


def a_text(rng: random.Random) -> bytes:
    """What may stand in a field: mostly a number; else any bytes, or what is nearly a number."""
    roll = rng.random()
    if roll < 0.7:
        return a_number(rng).encode()
    if roll < 0.85:
        return bytes(rng.randrange(256) for _ in range(rng.randint(0, 8)))
    return rng.choice(LONG if roll > 0.995 else UNUSUAL)


def a_line(rng: random.Random, delimiter: bytes | None) -> bytes:
    """A line of an input."""
    line = rng.choice(LONG) if rng.random() < 0.05 else b""
    for place in range(rng.choice([1, 1, 2, 3, 8, 40, 300 if rng.random() < 0.1 else 1])):
        blanks = b"".join(rng.choice([b" ", b" ", b"\t"]) for _ in range(rng.choice([0, 0, 0, 1, 2, 5])))
        separator = (delimiter or rng.choice([b" ", b" ", b"\t"])) if place or line else b""
        line += separator + blanks + (a_text(rng) if rng.random() < 0.5 else a_number(rng).encode())
    return line + rng.choice([b"", b"", b"", b" ", b"\r"])


def some_lines(rng: random.Random, delimiter: bytes | None, end: bytes) -> bytes:
    """The bytes of an input."""
    roll = rng.random()
    if roll < 0.1:
        likely = b" \t\r\n\x00;-.5"
        return bytes(rng.choice(likely) if rng.random() < 0.7 else rng.randrange(256) for _ in range(rng.randint(0, 3000)))
    if roll < 0.15:
        return (delimiter or b" ") * rng.choice([1, 1000, 70000]) + rng.choice([b"", b"5", b"x"])
    lines = [a_line(rng, delimiter) for _ in range(rng.choice([0, 1, 2, 5, 20]))]
    return end.join(lines) + rng.choice([b"", end, end, end])


def a_spelling(rng: random.Random, name: str, text: str) -> list[str]:
    """An option as one or two words."""
    letter = next((letter for letter, each in LETTERS.items() if each == name), None)
    if name in FLAGS:
        return [f"-{letter}" if letter and rng.random() < 0.5 else f"--{name}"]
    if name in PERHAPS:
        return [f"--{name}={text}"] if text != PERHAPS[name] or rng.random() < 0.5 else [f"--{name}"]
    if letter and rng.random() < 0.5:
        behind = [[f"-{letter}{text}"]] if text and not text.startswith("=") else []
        return rng.choice([[f"-{letter}", text], [f"-{letter}={text}"], *behind])
    return rng.choice([[f"--{name}", text], [f"--{name}={text}"]])


def some_options(rng: random.Random) -> list[Word]:
    """Options in any order, mostly with one fault at most."""
    names = rng.sample([*TEXTS, *PERHAPS, *FLAGS], rng.choice([0, 1, 1, 2, 2, 3, 5]))
    names = [name for name in names if GOOD.get(name, ["those of a flag"])]
    fault = rng.choice([*TEXTS, *PERHAPS, None, None, None, None, None, None])
    words: list[list[Word]] = []
    for name in names + ([fault] if fault and fault not in names else []):
        pool = BAD[name] if name == fault and BAD[name] else GOOD.get(name) or BAD.get(name)
        words.append([*a_spelling(rng, name, rng.choice(pool) if pool else "")])
    rng.shuffle(words)
    if rng.random() < 0.3:
        words.insert(rng.randint(0, len(words)), rng.choice(PUT_IN))
    if rng.random() < 0.1:
        words.append([rng.choice(["--field", "-d", "-t", "--style", "--invalid"])])
    return [word for group in words for word in group]


def some_words(rng: random.Random) -> list[Word]:
    """A list of words: options, and perhaps numbers."""
    words = some_options(rng)
    if rng.random() < 0.4:
        numbers = [a_number(rng) for _ in range(rng.randint(1, 4))]
        words += [number for number in numbers if re.fullmatch(r"-?[0-9]+|[0-9].*", number)]
        if rng.random() < 0.3:
            words += ["--", *rng.choice(BEHIND)]
    return words


def quoted(rng: random.Random, text: bytes) -> bytes:
    """A field of CSV for this text, mostly in quotes, at times with faults."""
    roll = rng.random()
    if roll < 0.3:
        return text
    if roll < 0.32:
        return rng.choice([b'"' + text, text + b'"', b'"' + text + b'"' + text, b'""' + text, b'"' + text + b'" '])
    return b'"' + text.replace(b'"', b'""') + b'"'


def an_unusual_text(rng: random.Random, delimiter: bytes) -> bytes:
    """What a field of CSV may hold beside numbers."""
    return rng.choice([b"a\nb", b"", b'"', b" ", delimiter, b"\r\n", a_text(rng)])


def some_records(rng: random.Random, delimiter: bytes) -> bytes:
    """The bytes of an input of CSV."""
    records = []
    for _ in range(rng.choice([0, 1, 2, 5, 20])):
        texts = [a_number(rng).encode() if rng.random() < 0.7 else an_unusual_text(rng, delimiter)
                 for _ in range(rng.choice([1, 2, 3, 8]))]
        records.append(delimiter.join(quoted(rng, text) for text in texts) + rng.choice([b"", b"", b"\r"]))
    return b"\n".join(records) + rng.choice([b"", b"\n", b"\n"])


@dataclass(frozen=True)
class Cut:
    """Words that are accepted, what cuts fields and lines by them, and whether columns are asked for by name."""

    words: Sequence[str]
    delimiter: bytes | None
    end: bytes
    has_names: bool


def a_header(rng: random.Random, cut: Cut) -> bytes:
    """A line with names of columns, most of those that are asked for."""
    comma = cut.delimiter or (b"," if "--csv" in cut.words else b" ")
    names = [name.encode() for name in rng.sample(NAMES, rng.choice([1, 3, 6, len(NAMES)]))]
    if "--csv" in cut.words:
        names = [quoted(rng, name) if rng.random() < 0.5 else name for name in names]
    return comma.join(names) + cut.end


def some_rounding(rng: random.Random, is_money: bool) -> dict[str, str]:
    """Options of how numbers are rounded: at most one of how fine they are, a mode at times if they are rounded, and at times
    integer digits and a scale."""
    names: list[str] = rng.choice([[], [], ["fraction"], ["fraction"], ["significant"], ["increment"]])
    if (names or is_money) and rng.random() < 0.5:
        names = [*names, "round"]
    names = [*names, *[name for name in ("integer", "scale") if rng.random() < 0.15]]
    return {name: rng.choice(GOOD[name]) for name in names}


def some_settings(rng: random.Random, explains: bool = False) -> Cut:
    """Words that are accepted, for plain numbers, money and percents; also those that explain fields."""
    names = [name for name in OF_PLAIN if rng.random() < 0.5 and not (explains and name == "padding")]
    given = {name: rng.choice(GOOD[name]) for name in names}
    if rng.random() < 0.25:
        given["csv"] = ""
    elif rng.random() < 0.2:
        given["zero-terminated"] = ""
    if rng.random() < 0.15:
        given = {name: text for name, text in given.items() if name not in OF_NUMBERS}
        given["skeleton"] = rng.choice(MODELLED_SKELETONS)
    else:
        if rng.random() < 0.3:
            given.update(rng.choice(OTHER_KINDS))
        given.update(some_rounding(rng, "currency" in given))
    has_names = rng.random() < 0.15
    if has_names:
        given.update({"header": "1", "field": ",".join(rng.sample(NAMES, rng.choice([1, 1, 2])))})
    words = [word for name, text in given.items() for word in a_spelling(rng, name, text)]
    if explains:
        words.insert(rng.choice([0, len(words)]), "--explain")
    delimiter = delimiter_named(given)
    return Cut(words, delimiter.encode() if delimiter else None, b"\0" if "zero-terminated" in given else b"\n",
               has_names)


def some_explained(rng: random.Random) -> list[str]:
    """Words that are accepted beside --explain, for plain numbers."""
    given = {name: rng.choice(GOOD[name]) for name in ("grouping", "sign", "invalid") if rng.random() < 0.5}
    given.update(some_rounding(rng, False))
    words = [word for name, text in given.items() for word in a_spelling(rng, name, text)]
    words.insert(rng.choice([0, len(words)]), "--explain")
    return words


def some_explained_lines(rng: random.Random) -> bytes:
    """An input that is explained: mostly a number a line."""
    if rng.random() < 0.3:
        return some_lines(rng, None, b"\n")
    return b"\n".join(rng.choice([b"", b"", b" ", b"\t"]) + a_text(rng) + rng.choice([b"", b"", b"\r", b" "])
                      for _ in range(rng.choice([0, 1, 3, 9])))
