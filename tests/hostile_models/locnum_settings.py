"""The settings that locnum's options ask for, or the first fault in them: the page of locnum_options."""
import re
from collections.abc import Callable, Sequence
from dataclasses import dataclass

from hostile_models.locnum_arguments import COMMAND, HELP, VERSION, Ended, Given
from hostile_models.numbers import STRATEGIES
from hostile_models.rounding import FRACTION, HALF_EVEN, INCREMENT, MODES as ROUNDING_MODES, MOST, SIGNIFICANT, UNLIMITED, Precision, increment_named

SIGNS = ["auto", "always", "never", "except-zero", "negative"]
MODES = ["abort", "fail", "warn", "ignore"]
# What cuts lines: beside --explain the chosen fields are explained.
OF_LINES = ["csv", "delimiter", "field", "header", "zero-terminated"]
TABS = {"tab": "\t", "\\t": "\t"}
PLAIN, MONEY, PERCENT, PERMILLE, OTHER = "plain", "money", "percents", "permilles", "another kind"


@dataclass(frozen=True)
class Money:
    """The symbol of a currency, and the fraction digits of its amounts."""

    symbol: str
    digits: int


CURRENCIES = {"USD": Money("$", 2), "EUR": Money("€", 2), "GBP": Money("£", 2), "JPY": Money("¥", 0)}
FAULTS = {
    "locale": "--locale: not a locale",
    "list": "--list: locales, systems, currencies or units",
    "system": "--system: not the name of a numbering system",
    "grouping": "--grouping: neither auto, never, always nor min2",
    "fraction": "--fraction: neither N nor MIN..MAX, each at most 999",
    "significant": "--significant: neither N nor MIN..MAX, each from 1 to 999",
    "increment": "--increment: not 1, 2, 5 or 25 times a power of ten, in digits",
    "integer": "--integer: not a number of digits, from 1 to 999",
    "scale": "--scale: not a power of ten in digits, such as 100 or 0.01",
    "skeleton": "skeleton: FAULT, byte N",
    "beside skeleton": "--skeleton: not with --OPTION",
    "precisions": "--fraction, --significant, --increment and --cash: not together",
    "round": "--round: neither up, down, ceiling nor floor, with or without half-, nor half-even",
    "sign": "--sign: neither auto, always, never, except-zero nor negative",
    "together": "--currency, --percent, --permille and --unit: not together",
    "alone": "--accounting and --cash want --currency, and --width wants --currency or --unit",
    "currency": "--currency: not three capital letters",
    "accounting": "--accounting: not with --width name",
    "compact cash": "--cash: not with --style short or long",
    "width": "--width: short, narrow, code, hidden or name for money; long, short or narrow for units",
    "style": "--style: neither plain, short nor long",
    "compact increment": "--increment: not with --style short or long, unless 1 is a multiple of it",
    "nothing rounded": "--round wants --fraction, --significant, --increment or --currency",
    "explained": "--explain: not with --padding",
    "delimiter": "--delimiter: neither a single byte nor tab",
    "csv with zero": "--csv: not with --zero-terminated",
    "csv with a mark": "--csv: --delimiter is neither a quote, a line feed nor a carriage return",
    "field": "--field: neither a list of N, N-, N-M, -M or -, from 1 on, nor one of names",
    "names": "--field: names are those of a header, which --header asks for",
    "names of arguments": "--field: names are those of a header, and arguments have none",
    "header": "--header: not a count of lines, from 1 on",
    "padding": "--padding: neither N nor -N, from 1 to 65535",
    "invalid": "--invalid: neither abort, fail, warn nor ignore",
    "locale without data": "no locale de without a file of tables (-t); the program has en-US, en\n"
                           "locnum: to make one: tools/cldr_to_tables.py core.zip de -o de.json",
    "long locale without data": f"no locale {'x' * 28}..{'x' * 28} (63 characters) without a file of tables (-t); "
                                "the program has en, en-US\n"
                                f"locnum: to make one: tools/cldr_to_tables.py core.zip {'x' * 63} -o {'x' * 63}.json",
    "system without data": "en has no numbering system arab; the tables have latn",
    "currency without data": "en has no currency CHF; the tables have EUR, GBP, JPY, USD\n"
                             "locnum: to make one: tools/cldr_to_tables.py core.zip en --currencies CHF -o en.json",
}


@dataclass(frozen=True)
class Meaning:
    """What a skeleton means: its canonical text, and options that mean the same."""

    canonical: str
    options: Given


# Skeletons, each with what it means by the page of number_forms. Numbers in full have at most six fraction digits.
SIX = {"fraction": "0..6"}
SKELETONS = {
    "": Meaning("''", SIX),
    ".00": Meaning(".00", {"fraction": "2"}),
    "@@": Meaning("@@", {"significant": "2"}),
    "\u200e.0#\n\trounding-mode-floor": Meaning(".0# rounding-mode-floor", {"fraction": "1..2", "round": "floor"}),
    "rounding-mode-half-up precision-increment/.5": Meaning("precision-increment/0.5 rounding-mode-half-up", {"increment": ".5", "round": "half-up"}),
    "+! ,_": Meaning("group-off sign-always", {"grouping": "never", "sign": "always", **SIX}),
    "group-min2": Meaning("group-min2", {"grouping": "min2", **SIX}),
    "group-on-aligned": Meaning("group-on-aligned", {"grouping": "always", **SIX}),
    "group-thousands": Meaning("group-thousands", {"grouping": "always", **SIX}),
    "scale/100 000": Meaning("integer-width/*000 scale/100", {"integer": "3", "scale": "100", **SIX}),
    "precision-unlimited": Meaning("precision-unlimited", {"integer": "1"}),
    "%x100": Meaning("percent scale/100", {"percent": "", **SIX}),
    "percent": Meaning("percent", {"percent": "", "scale": "1", **SIX}),
    "scale/1000 unit/permille": Meaning("permille scale/1000", {"permille": "", **SIX}),
    "permille": Meaning("permille", {"permille": "", "scale": "1", **SIX}),
    "currency/eur": Meaning("currency/EUR", {"currency": "EUR"}),
    "() currency/USD": Meaning("currency/USD sign-accounting", {"currency": "USD", "accounting": ""}),
    "currency/CHF": Meaning("currency/CHF", {"currency": "CHF"}),
    "unit-width-full-name currency/USD": Meaning("currency/USD unit-width-full-name", {"currency": "USD", "width": "name"}),
    "K": Meaning("compact-short", {"style": "short"}),
    "KK scale/1000": Meaning("compact-long scale/1000", {"style": "long", "scale": "1000"}),
    "K currency/JPY": Meaning("compact-short currency/JPY", {"style": "short", "currency": "JPY"}),
    "K .00 currency/USD": Meaning("compact-short currency/USD .00", {"style": "short", "currency": "USD", "fraction": "2"}),
    "currency/EUR unit-width-hidden": Meaning("currency/EUR unit-width-hidden", {"currency": "EUR", "width": "hidden"}),
    "K %": Meaning("compact-short percent", {"style": "short", "percent": "", "scale": "1"}),
    "latin": Meaning("latin", {"system": "latn", **SIX}),
    "numbering-system/arab": Meaning("numbering-system/arab", {"system": "arab", **SIX}),
}
NO_SKELETON = {
    "percent scientific": "left out: scientific, byte 8", ".00 @@": "set twice: precision, byte 4", "percents": "unknown stem, byte 0",
    "currency": "option missing, byte 8", "currency/": "empty option, byte 9", "currency/EURO": "unknown option, byte 9",
    "K precision-increment/25": "increment of which 1 is no multiple, in compact notation, byte 2",
    "0" * 1000: "more than 999 digits, byte 0", "//": "slash without a stem, byte 0", "latin/latn": "no option is taken here, byte 5",
    "\u0665": "unknown stem, byte 0", "percent\u00a0": "unknown stem, byte 0",
}
# The options that say of numbers what a skeleton says, in the order in which they are looked for.
OF_NUMBERS = ["style", "currency", "percent", "permille", "unit", "width", "accounting", "cash", "fraction", "significant", "increment",
              "round", "integer", "scale", "grouping", "sign", "system"]
# Faults of whose note the beginning is known.
FILE, UNIT = "a file that can't be read", "a unit without data"
NO_TEXT = "words that aren't text"
ENDINGS = [*FAULTS, FILE, UNIT, COMMAND, HELP, VERSION, NO_TEXT, "status 0", "status 2"]


@dataclass(frozen=True)
class Range:
    """A range of numbers, both ends in it."""

    first: int
    last: int


@dataclass(frozen=True)
class Settings:
    """What is asked for: of numbers, of lines, and of what becomes of invalid texts."""

    kind: str
    currency: str | None
    accounting: bool
    grouping: str
    precision: Precision | None
    rounding_mode: str
    rounded_by: str
    integer_digits: int
    scale: int
    sign: str
    delimiter: bytes | None
    fields: Sequence[Range]
    names: Sequence[bytes]
    header: int
    end: bytes
    mode: str
    columns: int | None
    csv: bool
    explain: bool
    explains_fields: bool
    heading: bytes

    @property
    def comma(self) -> bytes:
        """What stands between the fields of CSV."""
        return self.delimiter or b","


def number_named(text: str) -> int | None:
    """A number of digits alone, below 2 to the power 64."""
    return int(text) if re.fullmatch("[0-9]+", text) and int(text) < 2**64 else None


def range_of(first: int | None, last: int | None, lowest: int, highest: int) -> Range | None:
    """The range between two numbers in order and within these bounds, or None."""
    if first is None or last is None or not lowest <= first <= last <= highest:
        return None
    return Range(first, last)


def counts_named(option: str, lowest: int, text: str) -> Precision | None:
    """The least and the greatest count of digits, or None."""
    first, dots, last = text.partition("..")
    counts = range_of(number_named(first), number_named(last if dots else first), lowest, MOST)
    return Precision(option, counts.first, counts.last) if counts else None


def fraction_named(text: str) -> Precision | None:
    """The counts of fraction digits, or None."""
    return counts_named(FRACTION, 0, text)


def significant_named(text: str) -> Precision | None:
    """The counts of significant digits, or None."""
    return counts_named(SIGNIFICANT, 1, text)


# The options that say how fine numbers are, each with what reads its text.
PRECISIONS = {FRACTION: fraction_named, SIGNIFICANT: significant_named, INCREMENT: increment_named}


def integer_named(text: str) -> int | None:
    """A count of integer digits, or None."""
    count = number_named(text)
    return count if count and count <= MOST else None


def scale_named(text: str) -> int | None:
    """The power of ten of a text, or None."""
    increment = increment_named(text)
    return increment.power if increment and increment.digits == 1 else None


def scale_of(given: Given) -> int:
    """The power of ten by which numbers are multiplied: percents are hundredths, permilles are thousandths."""
    if "scale" in given:
        return scale_named(given["scale"]) or 0
    return 2 if "percent" in given else 3 if "permille" in given else 0


def fields_named(text: str) -> Range | None:
    """The first and the last field of a range, or None."""
    first, dash, last = text.partition("-")
    begin = number_named(first) if first or not dash else 1
    end = number_named(last) if last else 2**64 - 1 if dash else number_named(first)
    return range_of(begin, end, 1, 2**64 - 1)


def columns_named(text: str) -> int | None:
    """The columns of a text, below 0 where the number stands before its spaces, or None."""
    count = number_named(text.removeprefix("-"))
    return (-count if text.startswith("-") else count) if count and count <= 65535 else None


def delimiter_named(given: Given) -> str | None:
    """The delimiter that is asked for: a comma by default for CSV."""
    text = given.get("delimiter", "," if "csv" in given else None)
    return TABS.get(text, text) if text else text


def locale_named(text: str) -> str:
    """A locale in the form of BCP 47; that of an environment without variables is English."""
    if text == "env":
        return "en"
    tags = re.split("[-_]", re.split("[.@]", text)[0])
    cased = [tags[0].lower()]
    for tag in tags[1:]:
        length = 0 if any(len(each) == 1 for each in cased) else len(tag)
        cased.append(tag.upper() if length == 2 else tag.title() if length == 4 else tag.lower())
    return "-".join(cased)


def kind_of_money(given: Given, style: str) -> str:
    """The kind where a currency is asked for."""
    if not re.fullmatch("[A-Z]{3}", given["currency"]):
        raise Ended("currency")
    width = given.get("width", "short")
    if "accounting" in given and width == "name":
        raise Ended("accounting")
    if width not in ("short", "narrow", "code", "hidden", "name"):
        raise Ended("width")
    if "cash" in given and style != "plain":
        raise Ended("compact cash")
    return MONEY if style == "plain" and width in ("short", "narrow") else OTHER


def kind_of(given: Given) -> str:
    """Which kind of numbers is asked for."""
    if sum(name in given for name in ("currency", "percent", "permille", "unit")) > 1:
        raise Ended("together")
    if "currency" not in given and ("accounting" in given or "cash" in given or "width" in given and "unit" not in given):
        raise Ended("alone")
    style = given.get("style", "plain")
    if style not in ("plain", "short", "long"):
        raise Ended("style")
    if "currency" in given:
        return kind_of_money(given, style)
    if given.get("width", "short") not in ("short", "narrow", "long"):
        raise Ended("width")
    if "unit" in given or style != "plain":
        return OTHER
    return PERCENT if "percent" in given else PERMILLE if "permille" in given else PLAIN


def precision_of(given: Given) -> Precision | None:
    """How fine numbers are asked for, or as the currency has them."""
    for name, named in PRECISIONS.items():
        if name in given:
            return named(given[name])
    if "currency" not in given:
        return Precision(FRACTION, 0, UNLIMITED) if "integer" in given else None
    digits = CURRENCIES[given["currency"]].digits
    return Precision(FRACTION, digits, digits)


def rounded_by(given: Given) -> str:
    """The options by which plain numbers are rounded, as explanations have them."""
    if "skeleton" in given:
        return f"--skeleton {SKELETONS[given['skeleton']].canonical}"
    return ", ".join(f"--{name} {given[name]}" for name in [*PRECISIONS, "round"] if name in given)


def judge_rounding(given: Given, is_compact: bool) -> None:
    """Whether numbers of the kind are rounded as it is asked."""
    increment = increment_named(given["increment"]) if is_compact and "increment" in given else None
    if increment and 10**(MOST + 2) % (increment.digits * 10**(increment.power + MOST + 2)):
        raise Ended("compact increment")
    if "round" in given and not (is_compact or "currency" in given or any(name in given for name in PRECISIONS)):
        raise Ended("nothing rounded")


def meant(given: Given) -> Given:
    """The options that mean the same, where there is a skeleton: it stays among them."""
    meaning = SKELETONS.get(given.get("skeleton", "none"))
    return {**given, **meaning.options} if meaning else given


def judge_skeleton(given: Given) -> None:
    """Whether a skeleton stands alone and is one."""
    if "skeleton" not in given:
        return
    beside = next((name for name in OF_NUMBERS if name in given), None)
    if beside:
        raise Ended("beside skeleton", f"--skeleton: not with --{beside}")
    text = given["skeleton"]
    if text in NO_SKELETON:
        raise Ended("skeleton", f"skeleton: {NO_SKELETON[text]}")


def data_of(given: Given) -> str:
    """The options that ask tools/cldr_to_tables.py for the data of what is wanted."""
    currency = f" --currencies {given['currency']}" if "currency" in given else ""
    unit = f" --units {given['unit'] or '(empty)'}" if "unit" in given else ""
    return currency or unit or (" --percents" if "percent" in given or "permille" in given else "")


def judge_data(given: Given) -> None:
    """Whether the program has the data without a file of tables."""
    if "tables" in given:
        raise Ended(FILE)
    if "list" in given:
        raise Ended("list")
    locale = locale_named(given.get("locale", "en"))
    if locale not in ("en", "en-US"):
        raise Ended("locale without data" if locale == "de" else "long locale without data")
    if "unit" in given:
        raise Ended(UNIT)
    if given.get("currency", "USD") not in CURRENCIES:
        raise Ended("currency without data")
    if given.get("system", "latn") != "latn":
        raise Ended("system without data")


def wanted(given: Given, name: str, is_good: Callable[[str], object]) -> None:
    """An option that is given has a text that is good."""
    if name in given and not is_good(given[name]):
        raise Ended(name)


def names_of(given: Given) -> list[str]:
    """The names of the columns that are asked for; none where fields are chosen by number."""
    parts = given.get("field", "1").split(",")
    return [] if any(re.fullmatch("[0-9-]*", part) for part in parts) else parts


def judge_lines(given: Given) -> None:
    """Whether the options that have to do with lines and their fields are in order."""
    if "explain" in given and "padding" in given:
        raise Ended("explained")
    wanted(given, "delimiter", lambda text: len(text.encode()) == 1 or text in TABS)
    if "csv" in given and "zero-terminated" in given:
        raise Ended("csv with zero")
    if "csv" in given and given.get("delimiter", ",") in ('"', "\n", "\r"):
        raise Ended("csv with a mark")
    names = names_of(given)
    wanted(given, "field", lambda text: names or all(fields_named(part) for part in text.split(",")))
    if names and "header" not in given:
        raise Ended("names")
    wanted(given, "header", number_named)
    wanted(given, "padding", columns_named)
    wanted(given, "invalid", lambda text: text in MODES)


def heading_of(given: Given) -> bytes:
    """The lines in front of explanations: what they go by."""
    style = given.get("style", "plain")
    key = style.replace("plain", "symbols")
    if "percent" in given or "permille" in given:
        key = "percents" if style == "plain" else "units"
    if "currency" in given:
        key = "currencies" if style == "plain" or given.get("width") == "name" else "currency_compact"
    skeleton = f"skeleton: {SKELETONS[given['skeleton']].canonical}\n" if "skeleton" in given else ""
    return f"{skeleton}the tables in the program: locale {locale_named(given.get('locale', 'en'))}, {key}\n".encode()


def settings_of(given: Given, has_numbers: bool) -> Settings:
    """The settings, beside numbers among the arguments or not, or the first fault in the order of the definition."""
    wanted(given, "locale", lambda text: re.fullmatch("[A-Za-z0-9-]{1,63}", locale_named(text)))
    judge_skeleton(given)
    given = meant(given)
    wanted(given, "system", lambda text: re.fullmatch("[a-z0-9]{3,8}", text))
    wanted(given, "grouping", lambda text: text in STRATEGIES)
    for name, named in PRECISIONS.items():
        wanted(given, name, named)
    if sum(name in given for name in [*PRECISIONS, "cash"]) > 1:
        raise Ended("precisions")
    wanted(given, "round", lambda text: text in ROUNDING_MODES)
    wanted(given, "integer", integer_named)
    wanted(given, "scale", lambda text: scale_named(text) is not None)
    wanted(given, "sign", lambda text: text in SIGNS)
    kind = kind_of(given)
    judge_rounding(given, given.get("style", "plain") != "plain")
    judge_lines(given)
    if names_of(given) and has_numbers:
        raise Ended("names of arguments")
    judge_data(given)
    delimiter = delimiter_named(given)
    fields = [fields_named(part) for part in given.get("field", "1").split(",")]
    return Settings(
        kind, given.get("currency"), "accounting" in given, given.get("grouping", "auto"), precision_of(given),
        given.get("round", HALF_EVEN), rounded_by(given), int(given.get("integer", "1")), scale_of(given), given.get("sign", "auto"), delimiter.encode() if delimiter else None,
        [each for each in fields if each], [name.encode() for name in names_of(given)], int(given.get("header", "0")), b"\0" if "zero-terminated" in given else b"\n",
        given.get("invalid", "abort"), columns_named(given.get("padding", "")), "csv" in given, "explain" in given,
        any(name in given for name in OF_LINES), heading_of(given))
