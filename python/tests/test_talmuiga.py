"""Cases of the Python package, by the tables of the three words. The last line says how many there were.

Texts are those of ICU 72 and of ECMA-402's `Intl.NumberFormat`, by the tables of the words; Babel's are those of its documentation.
"""
import array
import importlib
import importlib.util
import json
import os
import random
import subprocess
import sys
import time
import threading
from collections.abc import Callable, Iterable
from decimal import Decimal
from fractions import Fraction
from typing import Any

import talmuiga
import talmuiga.babel
from talmuiga import (ArgumentRefused, Descending, Formatter, Message, MessageRefused, NoData, NoPattern, NoReading, NotFormatted, NotRead, Number,
                      SkeletonRefused, TablesRefused, WordsRefused)

SAMPLE = open(sys.argv[1], "rb").read()
SIX = open(sys.argv[2], "rb").read()
NINE = open(sys.argv[3], "rb").read()
ENGLISH = Formatter.english()
CASES = FAILED = 0


def judge(name: str, wanted: object, call: Callable[[], object]) -> None:
    """Compares what a call answers, or its exception, with what is wanted."""
    global CASES, FAILED
    CASES += 1
    given: object
    try:
        given = call()
    except Exception as error:
        given = type(error)
        if isinstance(error, NotFormatted):
            given = (type(error), error.index, error.text, error.reason)
        elif isinstance(error, NotRead):
            given = (type(error), error.text, error.byte)
        elif isinstance(error, TablesRefused):
            given = (type(error), str(error))
        elif isinstance(error, SkeletonRefused):
            given = (type(error), error.byte, error.kind, error.words)
        elif isinstance(error, MessageRefused):
            given = (type(error), error.byte, error.kind)
        elif isinstance(error, ArgumentRefused):
            given = (type(error), error.name, error.reason)
    if given != wanted:
        FAILED += 1
        print(f"FAILED {name}: wanted {wanted!r}, given {given!r}")


def call_error(call: Callable[[], object]) -> Exception | None:
    """The exception of a call, if it has one."""
    try:
        call()
    except Exception as error:
        return error
    return None


def pieces(text: str, parts: Iterable[tuple[int, int, str]]) -> tuple[str, list[str]]:
    """A text and the texts of its parts."""
    return text, [text[begin:end] for begin, end, _ in parts]


def tables(**texts: str) -> bytes:
    """English tables with other texts: a separator of groups, a short pattern of thousands."""
    symbols: dict[str, object] = {"locale": "en", "minus": ["-", ""], "plus": ["+", ""], "decimal": ".", "group": ",", "numsys": "latn",
               "sizes": [3, 3, 1]}
    symbols.update(group=texts.get("group", ","))
    return json.dumps({
        "symbols": [symbols],
        "digits": [["latn", "0123456789"]],
        "rules": [{"locale": "en", "rules": []}],
        "short": [{"locale": "en", "patterns": [[3, 3, {"other": texts.get("short", "{0}K")}]]}],
    }).encode()


ENGLISH_TEXTS: list[tuple[Number, str]] = [
    (1000007, "1,000,007"), ("-987654.321", "-987,654.321"), (Decimal("1E+6"), "1,000,000"), (Decimal("1.50"), "1.50"),
    (0.1, "0.1"), (1e22, "10,000,000,000,000,000,000,000"), (1e-7, "0.0000001"), (True, "1"), ("+5", "+5"),
    ("9" * 30000, "9" * 3 + ",999" * 9999), (10**40, "10" + ",000" * 13),
]
for number, text in ENGLISH_TEXTS:
    judge(f"English of {str(number)[:20]}", text, lambda: ENGLISH.format(number))
for text, reason in [("1e3", "not a decimal"), ("", "not a decimal"), ("5\n", "not a decimal"), ("5\r", "not a decimal"),
                     ("\ud800", "not a decimal"), ("5\0", "not a decimal"), ("9" * 70000, "too many digits")]:
    judge(f"refused {text[:5]!r}", (NotFormatted, 0, text, reason), lambda: ENGLISH.format(text))
judge("infinity", (NotFormatted, 0, "Infinity", "not a decimal"), lambda: ENGLISH.format(float("inf")))
NOTHING: Any = None
judge("another type", TypeError, lambda: ENGLISH.format(NOTHING))
judge("parts", ("-1,234.5", [(0, 1, "minusSign"), (1, 6, "integer"), (2, 3, "group"), (6, 7, "decimal"), (7, 8, "fraction")]),
      lambda: ENGLISH.parts("-1234.5"))
judge("parts of Bengali", ("-১,২৩৪.৫", ["-", "১,২৩৪", ",", ".", "৫"]),
      lambda: pieces(*Formatter(SAMPLE, "bn").parts(Decimal("-1234.5"))))
judge("parts of a compact number", ("-1.6K", [(0, 1, "minusSign")]), lambda: Formatter(SAMPLE, "en", style="short").parts(-1650))
judge("many parts", ("9" * 3 + ",999" * 999, ["9" * 3 + ",999" * 999] + [","] * 999), lambda: pieces(*ENGLISH.parts("9" * 3000)))
judge("parts of a rounded number", ("-2.34", ["-", "2", ".", "34"]), lambda: pieces(*Formatter.english(fraction=2).parts("-2.345")))
for text, reason in [("1e3", "not a decimal"), ("\ud800", "not a decimal"), ("9" * 70000, "too many digits")]:
    judge(f"parts of refused {text[:5]!r}", (NotFormatted, 0, text, reason), lambda: ENGLISH.parts(text))
judge("no number", [], lambda: ENGLISH.format_many([]))
MIXED: list[Number] = ["5", 1000, 0.5]
judge("many", ["5", "1,000", "0.5"], lambda: ENGLISH.format_many(iter(MIXED)))
judge("the first that isn't", (NotFormatted, 1, "x", "not a decimal"), lambda: ENGLISH.format_many(["5", "x", "y"]))
judge("marked", ["5", "?", "6", "?"], lambda: ENGLISH.format_many(["5", "x", "6", "7\n8"], mark="?"))
judge("short", ["1.6K", "1M"], lambda: Formatter(SAMPLE, "en", style="short").format_many(["1650", 1000000]))
judge("overflow", (NotFormatted, 0, "9" * 32768, "overflow"), lambda: Formatter(SAMPLE, "en", style="short").format("9" * 32768))
judge("a system", "1234567", lambda: Formatter(SAMPLE, "ar-EG", system="latn", grouping="never").format(1234567))
judge("Bengali", "১০,০০,০০৭", lambda: Formatter(SAMPLE, "bn").format(1000007))
judge("a line feed between groups", ["1\n000", "5"], lambda: Formatter(tables(group="\n"), "en").format_many([1000, 5]))
judge("a text as an error line", ["error: overflow"],
      lambda: Formatter(tables(short="error: overflow"), "en", style="short").format_many([1000]))
judge("half to even", ["2.34", "2.36", "1,000.00", "-0.00"],
      lambda: Formatter.english(fraction=2).format_many(["2.345", 2.355, 1000, "-0.001"]))
judge("another locale", NoData, lambda: Formatter(SAMPLE, "xx"))
judge("another style", WordsRefused, lambda: Formatter(SAMPLE, "en", style="tall"))
judge("a NUL in a word", WordsRefused, lambda: Formatter(SAMPLE, "en\0"))
judge("half of a pair in a word", WordsRefused, lambda: Formatter(SAMPLE, "\ud800"))
judge("no tables", (TablesRefused, "the tables are refused: not JSON"), lambda: Formatter(b"{", "en"))
PRICES = Formatter(SIX, "de", skeleton="currency/EUR")
judge("a price", "1.234.567,50\u00a0€", lambda: PRICES.format(1234567.5))
judge("prices", ["-3,00\u00a0€", "0,10\u00a0€"], lambda: PRICES.format_many([-3, 0.1]))
judge("parts of a price", ("-3,50\u00a0€", [(0, 1, "minusSign"), (1, 2, "integer"), (2, 3, "decimal"), (3, 5, "fraction"),
                                          (6, 7, "currency")]), lambda: PRICES.parts("-3.5"))
judge("no price", (NotFormatted, 0, "x", "not a decimal"), lambda: PRICES.format("x"))
judge("a share", "12,3\u00a0%", lambda: Formatter(SIX, "de", skeleton="%x100 .0").format(0.12345))
judge("parts of a share", ("12\u00a0%", ["12", "%"]), lambda: pieces(*Formatter(SIX, "de", skeleton="%").parts(12)))
judge("groups of three digits", "1.234.567", lambda: Formatter(SIX, "de", skeleton="group-thousands").format(1234567))
judge("the skeleton that sets nothing", "1.234,5", lambda: Formatter(SIX, "de", skeleton="").format(1234.5))
for skeleton, fault in [("percent foo", (8, "unknownStem", "unknown stem")), ("scientific", (0, "leftOut", "left out: scientific")),
                        ("% \ud800", (2, "notUtf8", "not UTF-8")), ("%\0", (0, "unknownStem", "unknown stem"))]:
    judge(f"refused {skeleton!r}", (SkeletonRefused, *fault), lambda: Formatter(b"{", "de", skeleton=skeleton))
judge("a skeleton and a style", TypeError, lambda: Formatter(SIX, "de", skeleton="%", style="short"))
judge("a skeleton and no fraction", TypeError, lambda: Formatter(SIX, "de", skeleton="%", fraction=0))
judge("a skeleton in another locale", NoData, lambda: Formatter(SIX, "xx", skeleton="%"))
judge("a skeleton, and no locale", WordsRefused, lambda: Formatter(SIX, "d\0e", skeleton="foo"))
judge("a skeleton, and no tables", (TablesRefused, "the tables are refused: not JSON"), lambda: Formatter(b"{", "en", skeleton="%"))
judge("canonical", "percent .00 scale/100", lambda: talmuiga.canonical_skeleton("%x100 .00"))
judge("canonical and long", "unit/" + "a" * 3000, lambda: talmuiga.canonical_skeleton("unit/" + "a" * 3000))
judge("not canonical", (SkeletonRefused, 9, "badOption", "unknown option"), lambda: talmuiga.canonical_skeleton("currency/EURO"))
judge("the sample is no fault", None, lambda: talmuiga.tables_fault(SAMPLE))
judge("tables that are no JSON", "not JSON", lambda: talmuiga.tables_fault(b"{"))
judge("tables that are no text", "not UTF-8", lambda: talmuiga.tables_fault(b"\xff"))
judge("an entry that is refused", "entry 0 of `rules`: rule 0 isn't a condition, by its byte 0", lambda: talmuiga.tables_fault(
    b'{"symbols":[],"digits":[],"rules":[{"locale":"en","rules":[["one","x = 1"]]}]}'))
judge("exceptions of values", True, lambda: issubclass(NoData, ValueError) and issubclass(NotFormatted, ValueError))
judge("the version", "0.2.0", lambda: talmuiga.__version__)

# Numbers that are refused by name, and numbers of other types.
NO_NUMBERS: list[tuple[Number, str]] = [
    (float("nan"), "NaN"), (float("-inf"), "-Infinity"), (Decimal("sNaN"), "sNaN"), (Decimal("Infinity"), "Infinity")]
for number, text in NO_NUMBERS:
    judge(f"refused {text}", (NotFormatted, 0, text, "not a decimal"), lambda: ENGLISH.format(number))
    judge(f"refused {text} among many", (NotFormatted, 1, text, "not a decimal"), lambda: ENGLISH.format_many([1, number]))
judge("marked NaN", ["0.5", "-"], lambda: ENGLISH.format_many([0.5, float("nan")], mark="-"))
judge("whole numbers longer than Python spells", "9" * 3 + ",999" * 3332, lambda: ENGLISH.format(10**9999 - 1))
judge("the same among many", ["1", "9" * 3 + ",999" * 3332], lambda: ENGLISH.format_many([1, 10**9999 - 1]))
judge("whole numbers of 64 bits and more", ["9,223,372,036,854,775,807", "-9,223,372,036,854,775,808", "9,223,372,036,854,775,808"],
      lambda: ENGLISH.format_many([2**63 - 1, -2**63, 2**63]))
judge("a fraction", "0.25", lambda: ENGLISH.format(Fraction(1, 4)))
judge("numbers of each type", ["1", "1", "0.5", "0.00", "-0.0", "7"],
      lambda: ENGLISH.format_many([1, True, 0.5, Decimal("0.00"), -0.0, "7"]))
judge("no number among many", TypeError, lambda: ENGLISH.format_many([1, NOTHING]))
judge("half of a pair among many", (NotFormatted, 1, "\ud800", "not a decimal"), lambda: ENGLISH.format_many(["1", "\ud800"]))
judge("a NUL among many", (NotFormatted, 0, "5\0", "not a decimal"), lambda: ENGLISH.format_many(["5\0"]))
judge("a long text among short ones", ["1", "9" * 3 + ",999" * 9999, "2"], lambda: ENGLISH.format_many(["1", "9" * 30000, "2"]))
judge("a formatter as a function", ["1,000", "2"], lambda: list(map(ENGLISH, [1000, 2])))

# Floats: the shortest text that is read as them, without an exponent, as Python's own decimal has it.
CHANCE = random.Random(74)
FLOATS = [CHANCE.uniform(-1, 1) * 10.0 ** CHANCE.randint(-320, 308) for _ in range(2000)] + [2.0**n for n in range(-1074, 1024)]
FLOATS += [0.1, 1e16, 1e22, 1e23, 123456789012345680.0, 5e-324, 1.7976931348623157e308, 1e-5, 0.0001, 1e15, 123456789.125]
SPELLED = [format(Decimal(repr(value)), "f") for value in FLOATS]
PLAIN = [ENGLISH.format(text) for text in SPELLED]
judge("floats by their texts", PLAIN, lambda: ENGLISH.format_many(FLOATS))
judge("floats of a buffer", PLAIN, lambda: ENGLISH.format_many(array.array("d", FLOATS)))
judge("a part of a buffer", PLAIN[::3], lambda: ENGLISH.format_many(memoryview(array.array("d", FLOATS))[::3]))
for letter, bits in [("b", 8), ("h", 16), ("i", 32), ("l", 64), ("q", 64)]:
    ENDS = [-2 ** (bits - 1), -1, 0, 1, 1000 % 2 ** (bits - 1), 2 ** (bits - 1) - 1]
    judge(f"a buffer of {letter}", [f"{value:,}" for value in ENDS], lambda: ENGLISH.format_many(array.array(letter, ENDS)))
    UNSIGNED = [0, 1, 2**bits - 1]
    judge(f"a buffer of {letter.upper()}", [f"{value:,}" for value in UNSIGNED],
          lambda: ENGLISH.format_many(array.array(letter.upper(), UNSIGNED)))
judge("a buffer of floats of four bytes", ["0.5", "16,777,216.0"], lambda: ENGLISH.format_many(array.array("f", [0.5, 2.0**24])))
judge("bytes are whole numbers", ["49", "0", "255"], lambda: ENGLISH.format_many(b"1\0\xff"))
judge("NaN of a buffer", (NotFormatted, 1, "NaN", "not a decimal"), lambda: ENGLISH.format_many(array.array("d", [1, float("nan")])))
judge("infinity of a buffer, marked", ["1.0", "?"], lambda: ENGLISH.format_many(array.array("d", [1, float("inf")]), mark="?"))
judge("an empty buffer", [], lambda: ENGLISH.format_many(array.array("d")))
judge("more numbers than are read at once", [f"{value:,}" for value in range(5000)], lambda: ENGLISH.format_many(range(5000)))
judge("as many as are read at once", [f"{value:,}" for value in range(1024)], lambda: ENGLISH.format_many(array.array("q", range(1024))))
numpy: Any = importlib.import_module("numpy") if importlib.util.find_spec("numpy") else None
if numpy is not None:
    for kind in ("int8", "uint16", "int32", "int64", "uint64", "float64"):
        COLUMN = numpy.array([0, 1, 100], dtype=kind)
        judge(f"numpy's {kind}", ["0", "1", "100"], lambda: Formatter(SIX, "en", skeleton="").format_many(COLUMN))
        judge(f"one of numpy's {kind}", "100", lambda: Formatter(SIX, "en", skeleton="").format(COLUMN[2]))
    judge("numpy's float64 of a list", ["0.1", "0.5"], lambda: ENGLISH.format_many([numpy.float64(0.1), numpy.float64(0.5)]))
    judge("numpy's float32", ["0.5", "2.0"], lambda: ENGLISH.format_many(numpy.array([0.5, 2], dtype="float32")))
    judge("one of numpy's float32", "0.5", lambda: ENGLISH.format(numpy.float32(0.5)))
    judge("a column of a matrix", ["1", "3"], lambda: ENGLISH.format_many(numpy.array([[1, 2], [3, 4]])[:, 0]))
    judge("numbers of another order", ["1", "2"], lambda: ENGLISH.format_many(numpy.array([1, 2], dtype=">i8")))

# `fraction` is a skeleton: plain numbers have the texts that Python's decimal gave them, and compact ones the digits asked for.
ROUNDED = [f"{CHANCE.randrange(-10**12, 10**12)}e-{CHANCE.randrange(0, 12)}" for _ in range(500)]
for count in (0, 1, 2, 5):
    QUANTUM = Decimal((0, (1,), -count))
    EXACT = [Decimal(text) for text in ROUNDED]
    judge(f"{count} fraction digits as Python's decimal rounds", [f"{value.quantize(QUANTUM):,f}" for value in EXACT],
          lambda: Formatter(SIX, "en", fraction=count).format_many(EXACT))
    judge(f"{count} fraction digits in plain English", [f"{value.quantize(QUANTUM):,f}" for value in EXACT],
          lambda: Formatter.english(fraction=count).format_many(EXACT))
judge("fraction digits of a compact number", ["1.65K", "1.00M"],
      lambda: Formatter(SIX, "en", style="short", fraction=2).format_many([1650, 999999]))
judge("fraction, system and grouping", "১২৩৪৫.৫০", lambda: Formatter(SIX, "bn", system="beng", grouping="never", fraction=2).format("12345.5"))
judge("fraction and always", "1,234.5", lambda: Formatter(SIX, "en", grouping="always", fraction=1).format("1234.5"))
judge("fraction and another style", WordsRefused, lambda: Formatter(SIX, "en", style="tall", fraction=1))
judge("fraction and another grouping", WordsRefused, lambda: Formatter(SIX, "en", grouping="some", fraction=1))
judge("fraction and another system", WordsRefused, lambda: Formatter(SIX, "en", system="no system", fraction=1))
WRONG: list[Any] = [-1, 1000, True, 0.5]
for wrong in WRONG:
    judge(f"fraction {wrong}", ValueError, lambda: Formatter(SIX, "en", fraction=wrong))
judge("a text that can't be rounded", (NotFormatted, 0, "1e3", "not a decimal"), lambda: Formatter.english(fraction=2).format("1e3"))

# Texts of numbers that are read back, with each digit. The texts are those of the first part of this file and of ICU 72.
for number, text in ENGLISH_TEXTS:
    judge(f"English read of {text[:20]}", str(Decimal(talmuiga.text_of(number))), lambda: str(ENGLISH.read(text)))
READ_TEXTS: list[tuple[bytes, str, str, str]] = [
    (SIX, "de", "1.234.567,89", "1234567.89"), (SIX, "de", "-0,50", "-0.50"), (SIX, "de", "1234567,8", "1234567.8"),
    (SIX, "fr", "-98\u202f765", "-98765"), (SIX, "ja", "1,234", "1234"), (SIX, "bn", "১২,৩৪,৫৬৭.৮৯", "1234567.89"),
    (SIX, "ar-EG", "-٩٨٬٧٦٥", "-98765"), (SIX, "ar-EG", "١٬٢٣٤٫٥", "1234.5")]
for data, locale, text, decimal in READ_TEXTS:
    judge(f"{locale} read of {text}", decimal, lambda: str(Formatter(data, locale).read(text)))
for text, byte in [("12,34", 2), ("1,234x", 5), ("1 234", 1), (".5", 0), ("", 0), ("1e3", 1), ("5\0", 1), ("1,23\ud800", 4), ("\ud800", 0)]:
    judge(f"not read {text!r}", (NotRead, text, byte), lambda: ENGLISH.read(text))
judge("not read in German", (NotRead, "1,234.50", 1), lambda: Formatter(SIX, "de").read("1,234.50"))
judge("not read in Bengali, by bytes", (NotRead, "১২৩,৪", 9), lambda: Formatter(SIX, "bn").read("১২৩,৪"))
judge("why it isn't read", "the text isn't a number's: byte 2 of '12,34'", lambda: str(call_error(lambda: ENGLISH.read("12,34"))))
judge("a rounded number is read as it is shown", ["2.34", "2.34"],
      lambda: [str(by.read(by.format("2.345"))) for by in (Formatter.english(fraction=2), Formatter(SIX, "en", fraction=2))])
judge("read by a formatter of ranges", "1234", lambda: str(Formatter.english(skeleton="", ranges=True).read("1,234")))
for none in (Formatter(SAMPLE, "en", style="short"), PRICES, Formatter.english(skeleton="%"), Formatter.english(skeleton="K .0")):
    judge("a formatter that reads no texts", NoReading, lambda: none.read("1"))
judge("exceptions of reading", True, lambda: issubclass(NoReading, talmuiga.Refused) and issubclass(NotRead, ValueError))
judge("a text of another type", AttributeError, lambda: ENGLISH.read(NOTHING))
DECIMALS = [Decimal(f"{CHANCE.randrange(-10**15, 10**15)}e-{CHANCE.randrange(0, 15)}") for _ in range(2000)]
for locale in ("en", "de", "fr", "ja", "bn", "ar-EG"):
    PLAINLY = Formatter(SIX, locale)
    judge(f"read back in {locale}", list(map(str, map(talmuiga.text_of, DECIMALS))),
          lambda: [format(PLAINLY.read(text), "f") for text in PLAINLY.format_many(DECIMALS)])

# English by a skeleton, without tables.
judge("dollars", "$1,234.50", lambda: Formatter.english(skeleton="currency/USD").format(1234.5))
judge("compact yen", "¥1.2M", lambda: Formatter.english(skeleton="K currency/JPY").format(1234567))
judge("percents", "12.3%", lambda: Formatter.english(skeleton="%x100 .0").format(0.1234))
judge("Swiss francs", NoData, lambda: Formatter.english(skeleton="currency/CHF"))
judge("a fault in English", (SkeletonRefused, 8, "unknownStem", "unknown stem"), lambda: Formatter.english(skeleton="percent foo"))
judge("a skeleton and a fraction in English", TypeError, lambda: Formatter.english(skeleton="%", fraction=1))

# Ranges, by texts of ICU 72; a compact end is written whole here, where ICU has 900–2K.
RANGES = json.dumps({**json.loads(SIX), "ranges": [{"locale": locale, "pattern": pattern} for locale, pattern in (
    ("en", "{0}–{1}"), ("de", "{0}–{1}"), ("fr", "{0}–{1}"), ("ja", "{0}～{1}"))],
    "plural_ranges": [{"locale": "fr", "ranges": [["one", "one", "one"]]}]}).encode()
RANGE_TEXTS: list[tuple[str, str, Number, Number, str]] = [
    ("en", "", 3, "5", "3–5"), ("en", "", -3, 5.0, "-3 – 5"), ("de", "", Decimal("1234.5"), 9999, "1.234,5–9.999"),
    ("ja", "", 1000, 2000, "1,000～2,000"), ("de", "currency/EUR", 3, 5, "3,00–5,00\u00a0€"), ("en", "K", 900, 2000, "900 – 2K"),
    ("de", "currency/EUR", -5, 3, "-5,00\u00a0€ – 3,00\u00a0€"), ("de", "%x100", "0.03", "0.05", "3–5\u00a0%"),
    ("en", "", 3, "3.0", "~3"), ("en", "precision-integer", "2.6", "3.4", "~3"), ("en", "", -3, -3, "~-3"),
    ("de", "currency/EUR unit-width-full-name", 1, 2, "1,00–2,00 Euro"), ("fr", "currency/EUR unit-width-full-name", 0, 1, "0,00–1,00 euro"),
    ("fr", "currency/EUR unit-width-full-name", 0, 2, "0,00–2,00 euros")]
for locale, skeleton, start, end, text in RANGE_TEXTS:
    judge(f"the range {text}", text, lambda: Formatter(RANGES, locale, skeleton=skeleton, ranges=True).format_range(start, end))
AS_RANGES = Formatter.english(skeleton="currency/USD", ranges=True)
judge("a range in English", "$3.00 – $5.00", lambda: AS_RANGES.format_range(3, 5))
judge("a number by a formatter of ranges", ("$3.00", ["$5.00"]), lambda: (AS_RANGES.format(3), AS_RANGES.format_many([5])))
judge("a range with a fraction", "1.0–2.5", lambda: Formatter.english(fraction=1, ranges=True).format_range(1, 2.5))
judge("a range longer than the first room", ("9" * 3 + ",999" * 999) + "–1" + ",000" * 1000,
      lambda: Formatter.english(skeleton="", ranges=True).format_range("9" * 3000, 10**3000))
judge("a descending range", Descending, lambda: AS_RANGES.format_range(5, 3))
judge("a start that is no decimal", (NotFormatted, 0, "x", "not a decimal"), lambda: AS_RANGES.format_range("x", "y"))
judge("an end that is no decimal", (NotFormatted, 1, "NaN", "not a decimal"), lambda: AS_RANGES.format_range(3, float("nan")))
judge("a start with half of a pair", (NotFormatted, 0, "\ud800", "not a decimal"), lambda: AS_RANGES.format_range("\ud800", 3))
judge("an end with half of a pair", (NotFormatted, 1, "\ud800", "not a decimal"), lambda: AS_RANGES.format_range(3, "\ud800"))
judge("a start of too many digits", (NotFormatted, 0, "9" * 70000, "too many digits"), lambda: AS_RANGES.format_range("9" * 70000, 3))
judge("an end of too many digits", (NotFormatted, 1, "9" * 70000, "too many digits"), lambda: AS_RANGES.format_range(3, "9" * 70000))
judge("an end that overflows", (NotFormatted, 1, "9" * 32768, "overflow"),
      lambda: Formatter.english(skeleton="K", ranges=True).format_range(3, "9" * 32768))
judge("a range with a name in English", "1.00–2.00 US dollars",
      lambda: Formatter.english(skeleton="currency/USD unit-width-full-name", ranges=True).format_range(1, 2))
judge("a range of compact names", "1K – 2K US dollars",
      lambda: Formatter.english(skeleton="K currency/USD unit-width-full-name", ranges=True).format_range(1000, 2000))
judge("no pattern of a locale", NoPattern, lambda: Formatter(RANGES, "bn", skeleton="", ranges=True))
judge("no patterns in the tables", NoPattern, lambda: Formatter(SIX, "de", skeleton="", ranges=True))
judge("another locale for ranges", NoData, lambda: Formatter(RANGES, "xx", skeleton="", ranges=True))
judge("a formatter without ranges", NoPattern, lambda: PRICES.format_range(3, 5))
judge("plain English without ranges", NoPattern, lambda: ENGLISH.format_range(3, 5))
judge("a fault in the ranges", (TablesRefused, "the tables are refused: a fault outside of their numbers"),
      lambda: Formatter(json.dumps({**json.loads(SIX), "ranges": 0}).encode(), "de", skeleton="", ranges=True))
judge("a fault of a skeleton for ranges", (SkeletonRefused, 8, "unknownStem", "unknown stem"),
      lambda: Formatter(RANGES, "de", skeleton="percent foo", ranges=True))
judge("a fault in English for ranges", (SkeletonRefused, 0, "unknownStem", "unknown stem"),
      lambda: Formatter.english(skeleton="foo", ranges=True))
judge("ranges without a skeleton", TypeError, lambda: Formatter(RANGES, "de", ranges=True))
judge("English ranges without a skeleton", TypeError, lambda: Formatter.english(ranges=True))
judge("exceptions of ranges", True, lambda: issubclass(NoPattern, talmuiga.Refused) and issubclass(Descending, ValueError))

# Messages, by texts of ICU 72, and as the program locnum writes them.
FILES_RU = "{n, plural, one{# файл} few{# файла} many{# файлов} other{# файла}}"
FILES_PL = "{n, plural, one{# plik} few{# pliki} many{# plików} other{# pliku}}"
FILES = "{n, plural, =0{no files} one{# file} other{# files}}"
MESSAGES: list[tuple[bytes, str, str, dict[str, Any], str]] = [
    (NINE, "en", FILES, {"n": 0}, "no files"), (NINE, "en", FILES, {"n": 1}, "1 file"), (NINE, "en", FILES, {"n": 1234567}, "1,234,567 files"),
    (NINE, "en", FILES, {"n": Decimal("1.5")}, "1.5 files"), (NINE, "en", FILES, {"n": 1.0}, "1 file"), (NINE, "en", FILES, {"n": "1"}, "1 file"),
    (NINE, "en", FILES, {"n": "1.00"}, "1 file"), (NINE, "en", FILES, {"n": -1}, "-1 file"),
    (NINE, "ru", FILES_RU, {"n": 21}, "21 файл"), (NINE, "ru", FILES_RU, {"n": 12}, "12 файлов"), (NINE, "ru", FILES_RU, {"n": 1.5}, "1,5 файла"),
    (NINE, "pl", FILES_PL, {"n": 22}, "22 pliki"), (NINE, "pl", FILES_PL, {"n": 5}, "5 plików"),
    (NINE, "ar-EG", "{n, plural, few{# ملفات} many{# ملفًا} other{# ملف}}", {"n": 11}, "١١ ملفًا"),
    (NINE, "lv", "{n, plural, zero{# failu} one{# fails} other{# faili}}", {"n": 10}, "10 failu"),
    (NINE, "en", "{who, select, female{her} male{his} other{their}} {n, plural, one{file} other{files}}", {"who": "female", "n": 2}, "her files"),
    (NINE, "de", "{0} von {1}", {"0": 3, "1": 1000}, "3 von 1.000"), (NINE, "en", "{who}", {"who": "{n} # '"}, "{n} # '"),
    # a text that spells a number is a text where the message takes either
    (NINE, "en", "{n} {n, plural, other{#}}", {"n": "1000"}, "1,000 1,000"), (NINE, "en", "{n}", {"n": "1000"}, "1000"),
    (NINE, "en", "{n}", {"n": 1000}, "1,000"), (NINE, "xx", "{who}", {"who": "Ana"}, "Ana"), (NINE, "en", "", {"n": 1}, ""),
    (SIX, "de", "{n, plural, one{# Datei} other{# Dateien}} {n, number, ::.00}", {"n": 1234.5}, "1.234,5 Dateien 1.234,50"),
    (SIX, "de", "{n, number, ::currency/EUR} {m, number, ::currency/EUR}, {n, number, ::K}", {"n": 1000, "m": "2"},
     "1.000,00\u00a0€ 2,00\u00a0€, 1000"),
    (NINE, "en", "a" * 3000, {}, "a" * 3000)]
OTHER: Any = object()
for given_tables, locale, text, values, wanted in MESSAGES:
    judge(f"the message {text[:30]} of {values}", wanted, lambda: Message(given_tables, locale, text)(values))
ORDINAL = Message.english("{n, selectordinal, one{#st} two{#nd} few{#rd} other{#th}}")
judge("ordinals in English", ["1st", "22nd", "3rd", "112th"], lambda: [ORDINAL(n=n) for n in (1, 22, 3, 112)])
PLACES = Message.english("{n, number, ::.00} ({n, number, ::compact-short}), {n}, {who}")
judge("places in English", "1,234,567.00 (1.2M), 1,234,567, Ana", lambda: PLACES(n=1234567, who="Ana"))
judge("names with what is asked of them", {"n": "number", "who": "any"}, lambda: PLACES.names)
judge("values by a mapping and by names", "1.00 (1), 1, Ben", lambda: PLACES.format({"n": 1, "who": "Ana"}, who="Ben"))
judge("a value that no name asks for", "Ana", lambda: Message.english("{who}")(who="Ana", n=OTHER))
judge("a missing argument", (ArgumentRefused, "who", "missing"), lambda: PLACES(n=1))
judge("a missing argument in another arm", (ArgumentRefused, "m", "missing"),
      lambda: Message.english("{n, plural, one{a} other{{m}}}")(n=1))
judge("a text for a number", (ArgumentRefused, "n", "not a decimal"), lambda: PLACES(n="x", who="Ana"))
judge("a number for a text", (ArgumentRefused, "n", "not a text"), lambda: Message.english("{n, select, a{b} other{c}}")(n=1))
judge("a float that is no number", (ArgumentRefused, "n", "not a decimal"), lambda: Message.english("{n}")(n=float("nan")))
judge("too many digits", (ArgumentRefused, "n", "too many digits"), lambda: PLACES(n="9" * 70000, who="Ana"))
judge("an overflow in a place", (ArgumentRefused, "n", "overflow"), lambda: Message.english("{n, number, ::K}")(n="9" * 32768))
judge("half of a pair as a value", (ArgumentRefused, "n", "not UTF-8"), lambda: Message.english("{n}")(n="\ud800"))
judge("neither a number nor a text", TypeError, lambda: Message.english("{n}")(n=OTHER))
judge("a long text of a message", "9" * 3 + ",999" * 999, lambda: Message.english("{n}")(n=10**3000 - 1))
for text, byte, kind in [("{n, plural, one", 15, "end"), ("{n}}", 3, "unopened"), ("'{a", 0, "openQuote"), ("{01}", 1, "name"),
                         ("{n, date}", 4, "kind"), ("{n, number, integer}", 12, "style"), ("{n, number, ::scientific}", 14, "skeleton"),
                         ("{n,plural,other{}}{n,select,other{}}", 21, "twoKinds"), ("{n, plural, offset:1 other{}}", 12, "offset"),
                         ("{n, plural, uno{x} other{}}", 12, "key"), ("{n, plural, one{x} one{y} other{}}", 19, "repeated"),
                         ("{n, plural, one{x}}", 18, "noOther"), ("{n plural}", 3, "unexpected"), ("é{", 3, "end"), ("a\ud800", 1, "notUtf8"),
                         ("a" * 65536, 65535, "tooLong"), ("{a,select,other{" * 9, 128, "tooDeep")]:
    judge(f"no message: {text[:40]!r}", (MessageRefused, byte, kind), lambda: Message.english(text))
    judge(f"no message by tables: {text[:40]!r}", (MessageRefused, byte, kind), lambda: Message(NINE, "en", text))
judge("no such locale", WordsRefused, lambda: Message(NINE, "e_n", "{n}}"))
judge("a NUL in a locale", WordsRefused, lambda: Message(NINE, "en\0", "{n}"))
judge("half of a pair in a locale", WordsRefused, lambda: Message(NINE, "\ud800", "{n}"))
judge("tables that are none", (TablesRefused, "the tables are refused: not JSON"), lambda: Message(b"{", "en", "{n}"))
judge("no plural rules", NoData, lambda: Message(NINE, "xx", FILES))
judge("no ordinal rules", NoData, lambda: Message(NINE, "en", "{n, selectordinal, other{#}}"))
judge("no currency for a place", NoData, lambda: Message(SIX, "de", "{n, number, ::currency/CHF}"))
judge("no numbers of a locale", NoData, lambda: Message(SIX, "xx", "{n}")(n=1))
judge("exceptions of messages", True, lambda: issubclass(MessageRefused, talmuiga.Refused) and issubclass(ArgumentRefused, ValueError))

# Skeletons of ECMA-402's options.
SKELETONS: list[tuple[dict[str, Any], str]] = [
    ({}, ".### rounding-mode-half-up"),
    ({"style": "percent"}, "percent precision-integer rounding-mode-half-up scale/100"),
    ({"style": "percent", "minimum_fraction_digits": 1}, "percent .0 rounding-mode-half-up scale/100"),
    ({"style": "currency", "currency": "eur"}, "currency/EUR rounding-mode-half-up"),
    ({"style": "currency", "currency": "USD", "currency_display": "narrowSymbol", "currency_sign": "accounting",
      "rounding_mode": "halfEven"}, "currency/USD unit-width-narrow sign-accounting"),
    ({"style": "currency", "currency": "USD", "currency_display": "code"}, "currency/USD rounding-mode-half-up unit-width-iso-code"),
    ({"style": "currency", "currency": "USD", "currency_display": "name"}, "currency/USD rounding-mode-half-up unit-width-full-name"),
    ({"style": "currency", "currency": "USD", "maximum_fraction_digits": 0}, "currency/USD precision-integer rounding-mode-half-up"),
    ({"style": "currency", "currency": "USD", "maximum_fraction_digits": 4}, "currency/USD .00## rounding-mode-half-up"),
    ({"style": "currency", "currency": "JPY", "maximum_fraction_digits": 4}, "currency/JPY .#### rounding-mode-half-up"),
    ({"style": "currency", "currency": "KWD", "minimum_fraction_digits": 1}, "currency/KWD .0## rounding-mode-half-up"),
    ({"style": "currency", "currency": "USD", "trailing_zero_display": "stripIfInteger"},
     "currency/USD precision-currency-standard/w rounding-mode-half-up"),
    ({"style": "currency", "currency": "USD", "notation": "compact"}, "compact-short currency/USD rounding-mode-half-up"),
    ({"style": "unit", "unit": "kilometer-per-hour"}, "unit/kilometer-per-hour .### rounding-mode-half-up"),
    ({"style": "unit", "unit": "liter", "unit_display": "long"}, "unit/liter .### rounding-mode-half-up unit-width-full-name"),
    ({"style": "unit", "unit": "liter", "unit_display": "narrow"}, "unit/liter .### rounding-mode-half-up unit-width-narrow"),
    ({"notation": "compact"}, "compact-short rounding-mode-half-up"),
    ({"notation": "compact", "compact_display": "long", "rounding_mode": "halfEven"}, "compact-long"),
    ({"notation": "compact", "maximum_fraction_digits": 1}, "compact-short .# rounding-mode-half-up"),
    ({"notation": "compact", "minimum_fraction_digits": 1}, "compact-short .0## rounding-mode-half-up"),
    ({"notation": "compact", "use_grouping": "auto"}, "compact-short rounding-mode-half-up group-auto"),
    ({"notation": "compact", "use_grouping": "min2"}, "compact-short rounding-mode-half-up"),
    ({"notation": "compact", "trailing_zero_display": "stripIfInteger"}, "compact-short precision-integer/@@*/w rounding-mode-half-up"),
    ({"use_grouping": False}, ".### rounding-mode-half-up group-off"),
    ({"use_grouping": True}, ".### rounding-mode-half-up group-on-aligned"),
    ({"use_grouping": "auto"}, ".### rounding-mode-half-up"),
    ({"use_grouping": "min2"}, ".### rounding-mode-half-up group-min2"),
    ({"numbering_system": "latn"}, ".### rounding-mode-half-up latin"),
    ({"numbering_system": "arab"}, ".### rounding-mode-half-up numbering-system/arab"),
    ({"minimum_integer_digits": 3}, ".### rounding-mode-half-up integer-width/*000"),
    ({"minimum_fraction_digits": 5}, ".00000 rounding-mode-half-up"),
    ({"minimum_fraction_digits": 1, "maximum_fraction_digits": 2}, ".0# rounding-mode-half-up"),
    ({"maximum_fraction_digits": 0}, "precision-integer rounding-mode-half-up"),
    ({"minimum_significant_digits": 2, "maximum_significant_digits": 4}, "@@## rounding-mode-half-up"),
    ({"maximum_significant_digits": 3}, "@## rounding-mode-half-up"),
    ({"minimum_significant_digits": 3}, "@@@" + "#" * 18 + " rounding-mode-half-up"),
    ({"minimum_fraction_digits": 1, "maximum_significant_digits": 3}, "@## rounding-mode-half-up"),
    ({"maximum_fraction_digits": 2, "maximum_significant_digits": 3, "rounding_priority": "morePrecision"},
     ".##/@##r rounding-mode-half-up"),
    ({"maximum_fraction_digits": 0, "minimum_significant_digits": 2, "maximum_significant_digits": 3, "rounding_priority": "lessPrecision"},
     "precision-integer/@@#s rounding-mode-half-up"),
    ({"rounding_increment": 5, "minimum_fraction_digits": 2, "maximum_fraction_digits": 2}, "precision-increment/0.05 rounding-mode-half-up"),
    ({"rounding_increment": 50, "minimum_fraction_digits": 2, "maximum_fraction_digits": 2}, "precision-increment/0.50 rounding-mode-half-up"),
    ({"rounding_increment": 2500, "minimum_fraction_digits": 2, "maximum_fraction_digits": 2},
     "precision-increment/25.00 rounding-mode-half-up"),
    ({"rounding_increment": 25}, "precision-increment/25 rounding-mode-half-up"),
    ({"rounding_increment": 5, "style": "currency", "currency": "CHF"}, "currency/CHF precision-increment/0.05 rounding-mode-half-up"),
    ({"sign_display": "always"}, ".### rounding-mode-half-up sign-always"),
    ({"sign_display": "exceptZero", "style": "currency", "currency": "USD", "currency_sign": "accounting"},
     "currency/USD rounding-mode-half-up sign-accounting-except-zero"),
    ({"sign_display": "never", "style": "currency", "currency": "USD", "currency_sign": "accounting"},
     "currency/USD rounding-mode-half-up sign-never"),
    ({"sign_display": "negative", "currency_sign": "accounting"}, ".### rounding-mode-half-up sign-negative"),
    ({"rounding_mode": "ceil"}, ".### rounding-mode-ceiling"),
    ({"rounding_mode": "expand"}, ".### rounding-mode-up"),
    ({"rounding_mode": "trunc"}, ".### rounding-mode-down"),
    ({"rounding_mode": "halfTrunc"}, ".### rounding-mode-half-down"),
]
for options, skeleton in SKELETONS:
    judge(f"the skeleton of {options}", skeleton, lambda: talmuiga.skeleton_of(**options))
    judge(f"it is canonical: {options}", skeleton, lambda: talmuiga.canonical_skeleton(skeleton))
judge("a skeleton that is left out", "scientific", lambda: talmuiga.skeleton_of(notation="scientific").split()[0])
REFUSED: list[tuple[dict[str, Any], type[Exception]]] = [
    ({"style": "money"}, ValueError), ({"style": "currency"}, TypeError), ({"style": "unit"}, TypeError), ({"currency": "EURO"}, ValueError),
    ({"currency": "EU/"}, ValueError), ({"unit": "a b"}, ValueError), ({"numbering_system": "a"}, ValueError), ({"tall": 1}, TypeError),
    ({"minimum_integer_digits": 0}, ValueError), ({"minimum_integer_digits": 22}, ValueError), ({"minimum_integer_digits": True}, ValueError),
    ({"minimum_fraction_digits": -1}, ValueError), ({"maximum_fraction_digits": 101}, ValueError),
    ({"minimum_fraction_digits": 3, "maximum_fraction_digits": 2}, ValueError),
    ({"minimum_significant_digits": 3, "maximum_significant_digits": 2}, ValueError), ({"maximum_significant_digits": 22}, ValueError),
    ({"rounding_increment": 3}, ValueError), ({"rounding_increment": True}, ValueError),
    ({"rounding_increment": 5, "maximum_significant_digits": 2}, TypeError), ({"rounding_increment": 5, "notation": "compact"}, TypeError),
    ({"rounding_increment": 5, "minimum_fraction_digits": 1, "maximum_fraction_digits": 2}, ValueError),
    ({"use_grouping": "some"}, ValueError), ({"rounding_mode": "half"}, ValueError),
]
for options, exception in REFUSED:
    judge(f"no skeleton of {options}", exception, lambda: talmuiga.skeleton_of(**options))
judge("options in a locale", "1.234.567,13\u00a0€",
      lambda: Formatter(SIX, "de", skeleton=talmuiga.skeleton_of(style="currency", currency="EUR")).format("1234567.125"))

# Babel's names.
BABEL = talmuiga.babel
BABEL.use_tables(SIX)
judge("Babel: a number", "1.236,123", lambda: BABEL.format_decimal(1236.1234, locale="de"))
judge("Babel: without groups", "1236,123", lambda: BABEL.format_decimal(1236.1234, locale="de_DE", group_separator=False))
judge("Babel: all digits", "1,236.12345678", lambda: BABEL.format_decimal("1236.12345678", locale="en_US", decimal_quantization=False))
judge("Babel: half to even", ["1.234", "1.236"], lambda: [BABEL.format_number(text, "en") for text in ("1.2345", "1.2355")])
judge("Babel: an amount", "1.099,98\u00a0€", lambda: BABEL.format_currency(1099.98, "EUR", locale="de_DE"))
judge("Babel: all digits of an amount", "€1,099.9876", lambda: BABEL.format_currency("1099.9876", "EUR", locale="en", decimal_quantization=False))
judge("Babel: at least the digits of an amount", "€1,099.00", lambda: BABEL.format_currency(1099, "EUR", locale="en", decimal_quantization=False))
judge("Babel: two digits", "€1.00", lambda: BABEL.format_currency(1, "EUR", locale="en", currency_digits=False))
judge("Babel: in accounting", "(€1.50)", lambda: BABEL.format_currency(-1.5, "EUR", locale="en", format_type="accounting"))
judge("Babel: without groups of an amount", "€1099.98", lambda: BABEL.format_currency(1099.98, "EUR", locale="en", group_separator=False))
judge("Babel: percents", "34%", lambda: BABEL.format_percent(0.34, locale="en_US"))
judge("Babel: percents in groups", "2,512%", lambda: BABEL.format_percent(25.1234, locale="en_US"))
judge("Babel: all digits of percents", "2,512.34%", lambda: BABEL.format_percent(25.1234, locale="en_US", decimal_quantization=False))
judge("Babel: compact", ["12K", "12 thousand", "12.34K", "1.23M"], lambda: [
    BABEL.format_compact_decimal(12345, locale="en_US"), BABEL.format_compact_decimal(12345, format_type="long", locale="en_US"),
    BABEL.format_compact_decimal(12345, locale="en_US", fraction_digits=2), BABEL.format_compact_decimal(1234567, locale="en", fraction_digits=2)])
judge("Babel: a pattern", ValueError, lambda: BABEL.format_decimal(1, "#,##0", locale="en"))
judge("Babel: another form", ValueError, lambda: BABEL.format_currency(1, "EUR", locale="en", format_type="tall"))
judge("Babel: another length", ValueError, lambda: BABEL.format_unit(1, "meter", "tall", locale="en"))
judge("Babel: another locale", NoData, lambda: BABEL.format_decimal(1, locale="tlh"))
judge("Babel: another currency", NoData, lambda: BABEL.format_currency(1, "XTS", locale="en"))
judge("Babel: no such unit", NoData, lambda: BABEL.format_unit(1, "length-parsec", locale="en"))
judge("Babel: no number", (NotFormatted, 0, "x", "not a decimal"), lambda: BABEL.format_decimal("x", locale="en"))
theirs: Any = importlib.import_module("babel.numbers") if importlib.util.find_spec("babel") else None
if theirs is not None:
    for locale in ("en", "de", "fr", "ja"):
        NUMBERS = [Decimal(CHANCE.randrange(-10**9, 10**9)).scaleb(-CHANCE.randrange(0, 7)) for _ in range(100)]
        for arguments in ({}, {"group_separator": False}, {"decimal_quantization": False}):
            for name, words in (("format_decimal", []), ("format_percent", []), ("format_currency", ["EUR"])):
                judge(f"{name} as Babel in {locale}, {arguments}",
                      [getattr(theirs, name)(number, *words, locale=locale, **arguments) for number in NUMBERS],
                      lambda: [getattr(BABEL, name)(number, *words, locale=locale, **arguments) for number in NUMBERS])
        judge(f"accounting as Babel in {locale}",
              [theirs.format_currency(number, "EUR", locale=locale, format_type="accounting") for number in NUMBERS],
              lambda: [BABEL.format_currency(number, "EUR", locale=locale, format_type="accounting") for number in NUMBERS])
os.environ.update(LC_ALL="de_DE.UTF-8")
judge("Babel: the locale of the environment", "1,5", lambda: BABEL.format_decimal(1.5))
os.environ.update(LC_ALL="C")
judge("Babel: no locale", "1.5", lambda: BABEL.format_decimal(1.5))
os.environ.update(LC_ALL="", LC_NUMERIC="fr_FR", LANG="de")
judge("Babel: the locale for numbers", "1,5", lambda: BABEL.format_decimal(1.5))
UNITS = json.loads(SIX)
UNITS["units"] = [{"locale": "en", "width": width, "unit": "kilometer", "patterns": patterns} for width, patterns in (
    ("long", {"one": "{0} kilometer", "other": "{0} kilometers"}), ("short", {"other": "{0} km"}), ("narrow", {"other": "{0}km"}))]
BABEL.use_tables(json.dumps(UNITS).encode())
judge("Babel: units", ["12 kilometers", "1 kilometer", "1,234.5 km"], lambda: [
    BABEL.format_unit(12, "length-kilometer", locale="en"), BABEL.format_unit(1, "kilometer", locale="en_GB"),
    BABEL.format_unit("1234.5", "length-kilometer", length="short", locale="en")])


def command(*words: str, given: str = "") -> tuple[int, str, str]:
    """The status, output and messages of `python -m talmuiga`."""
    ran = subprocess.run([sys.executable, "-m", "talmuiga", *words], input=given, capture_output=True, text=True, check=False)
    return ran.returncode, ran.stdout, ran.stderr


SIX_NAME = sys.argv[2]
judge("command: English", (0, "1,234.5\n-5\n", ""), lambda: command("1234.5", "--", "-5"))
judge("command: a skeleton", (0, "1.234,50\u00a0€\n", ""), lambda: command("-t", SIX_NAME, "-l", "de", "-s", "currency/EUR", "1234.5"))
judge("command: lines", (0, "1,000\n2\n", ""), lambda: command(given="1000\r\n2"))
judge("command: parts", (0, "$1.50\n  0..1 currency $\n  1..2 integer 1\n  2..3 decimal .\n  3..5 fraction 50\n", ""),
      lambda: command("-s", "currency/USD", "--parts", "1.5"))
judge("command: no number", (2, "1\n2\n", "talmuiga: number 2: 'x': not a decimal\n"), lambda: command("1", "x", "2"))
judge("command: a fault", (1, "", "talmuiga: the skeleton is refused: unknown stem, byte 8\n"), lambda: command("-s", "percent foo", "1"))
judge("command: a canonical text", (0, "compact-short currency/EUR\n", ""), lambda: command("--canonical", "currency/eur K"))
judge("command: tables", (0, f"{SIX_NAME}: accepted\n", ""), lambda: command("--judge", SIX_NAME))
judge("command: no tables", (1, "", "talmuiga: /none: No such file or directory\n"), lambda: command("-t", "/none", "1"))
judge("command: another locale", (1, "", "talmuiga: de: without tables the locale is en\n"), lambda: command("-l", "de", "1"))
judge("command: another option", 2, lambda: command("--tall")[0])
judge("command: no data", 1, lambda: command("-t", SIX_NAME, "-l", "xx", "1")[0])

# What tables hold.
judge("locales", ["en", "de", "fr", "ja", "bn", "ar-EG"], lambda: talmuiga.names_in(SIX, "locales"))
judge("systems", {"latn", "beng", "arab"}, lambda: set(talmuiga.names_in(SIX, "systems")))
judge("currencies", ["EUR"], lambda: talmuiga.names_in(SIX, "currencies"))
judge("no units", [], lambda: talmuiga.names_in(SIX, "units"))
judge("units", ["kilometer"], lambda: talmuiga.names_in(json.dumps(UNITS).encode(), "units"))
judge("tables without lists", [], lambda: talmuiga.names_in(b"{}", "locales"))
judge("names in no tables", (TablesRefused, "the tables are refused: not JSON"), lambda: talmuiga.names_in(b"{", "units"))
ANYTHING: Any = "words"
judge("names of another kind", ValueError, lambda: talmuiga.names_in(SIX, ANYTHING))
MANY_NAMES = [f"x{number:07}" for number in range(1000)]
judge("many names", MANY_NAMES, lambda: talmuiga.names_in(
    json.dumps({"units": [{"unit": name} for name in MANY_NAMES + MANY_NAMES[::-1]]}).encode(), "units"))
judge("command: names", (0, "EUR\n", ""), lambda: command("-t", SIX_NAME, "--list", "currencies"))
judge("command: names without tables", 2, lambda: command("--list", "currencies")[0])

# Bad input: long skeletons, skeletons and tables that threads open and close, tables of another version.
MEGABYTE = 1 << 20
judge("a skeleton of a megabyte of digits", (SkeletonRefused, 0, "tooManyDigits", "more than 999 digits"),
      lambda: Formatter(SIX, "de", skeleton="0" * MEGABYTE))
judge("a skeleton of a megabyte of blanks", "1", lambda: Formatter(SIX, "de", skeleton=" " * MEGABYTE).format(1))
judge("a unit of a megabyte", NoData, lambda: Formatter(SIX, "de", skeleton="unit/" + "a" * MEGABYTE))
judge("tables with keys of another version", "1,0", lambda: Formatter(json.dumps({**json.loads(SIX), "exponents": [7]}).encode(), "de").format("1.0"))
judge("tables of an older version", NoData, lambda: Formatter(SAMPLE, "de", skeleton="currency/EUR"))
judge("tables cut short", TablesRefused, lambda: type(call_error(lambda: Formatter(SIX[:-40], "de"))))
for size in (0, 1, 100, len(SIX) - 2):
    judge(f"the first {size} bytes of tables", TablesRefused, lambda: type(call_error(lambda: Formatter(SIX[:size], "de"))))

WANTED = [f"{n:,}" for n in range(20000)]
GIVEN: list[list[str]] = []
THREADS = [threading.Thread(target=lambda: GIVEN.append(ENGLISH.format_many(range(20000)))) for _ in range(8)]
for thread in THREADS:
    thread.start()
for thread in THREADS:
    thread.join()
judge("eight threads", [WANTED] * 8, lambda: GIVEN)


def opens_and_closes(seconds: float, seen: list[object]) -> None:
    """Opens formatters of its own and closes them, and formats with one that others use."""
    until = time.monotonic() + seconds
    while time.monotonic() < until:
        seen.append(PRICES.format("1234.5"))
        seen.append(Formatter(SIX, "de", skeleton="currency/EUR").format("1234.5"))
        seen.append(ENGLISH.format_many(array.array("d", [1234.5]))[0].replace(",", "."))


SEEN: list[object] = []
THREADS = [threading.Thread(target=opens_and_closes, args=(0.5, SEEN)) for _ in range(8)]
for thread in THREADS:
    thread.start()
for thread in THREADS:
    thread.join()
judge("eight threads that open and close", {"1.234,50\u00a0€", "1.234.5"}, lambda: set(SEEN))
print(f"{CASES - FAILED} passed, {FAILED} failed")
