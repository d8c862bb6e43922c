"""Valid tables for decfmt, the arguments beside them, and numbers, as they are drawn."""
import json
import random
from collections.abc import Mapping

from hostile_models.decfmt_lines import Elements, Entry, PatternsEntry, Row, RulesEntry, SymbolsEntry, Tables, formatter_of
from hostile_models.numbers import STRATEGIES

LOCALES = ["en", "en", "en", "fr", "A1-", "z" * 63]
SYSTEMS = ["latn", "abc", "00000000"]
LETTERS = list("aZ0 .,{}'\"\\/\u00e9\u202f\u0966\u4e07\U0001d7d8\x00\x1f\x7f\ufeff")
STYLES = ["plain", "short", "long"]
GROUPINGS: list[list[str]] = [[], *([strategy] for strategy in STRATEGIES)]
CATEGORIES = ["zero", "one", "two", "few", "many", "other"]
ELEMENTS = ["explicit_zero", "explicit_one", "zero", "one", "two", "few", "many"]
# Values under a key that nothing reads.
OTHERS: list[object] = [None, True, [], {"": -1}, 2**64 - 1, -(2**63)]
# The highest value of a list by the modulus of its relation, and by its operand where there is none.
HIGHEST_REST = {10: 9, 7: 6, 1000000: 1}
HIGHEST = {"v": 2, "w": 2, "c": 6, "e": 6}


def a_text(rng: random.Random, longest: int = 3) -> str:
    """A short text, of whatever characters."""
    return "".join(rng.choice(LETTERS) for _ in range(rng.randint(0, longest)))


def a_pattern(rng: random.Random) -> str:
    """A text with at most one place; other braces are literal."""
    text = a_text(rng) + (a_text(rng) if rng.random() < 0.1 else "{0}" + a_text(rng))
    return text if text.count("{0}") < 2 else "{0}"


def a_relation(rng: random.Random) -> list[str]:
    """The tokens of a relation as languages have them: small values, and the last digits of a number."""
    operand = rng.choice("nnniiiiivvwffttce")
    modulus = rng.choice([None, None, None, 10, 10, 100, 100, 1000, 1000000, 7]) if operand in "nift" else None
    highest = HIGHEST.get(operand, HIGHEST_REST.get(modulus or 0, 20))
    items: list[str] = []
    for _ in range(rng.choice([1, 1, 1, 2, 3])):
        low = rng.randint(0, highest)
        items += [",", str(low)] if rng.random() < 0.6 else [",", str(low), "..", str(rng.randint(max(0, low - 1), highest))]
    return [operand, *(["%", str(modulus)] if modulus else []), rng.choice(["=", "=", "!="]), *items[1:]]


def a_likely_condition(rng: random.Random) -> str:
    """A condition that some numbers meet and others don't; between its tokens spaces, tabs or nothing."""
    tokens = a_relation(rng)
    for _ in range(rng.choice([0, 0, 1, 1, 2])):
        tokens += [rng.choice([" and ", " and ", " or "]), *a_relation(rng)]
    return rng.choice([" ", " ", "", "\t"]).join(tokens) + rng.choice(["", "", " @integer 1, 21", "@x"])


def a_condition(rng: random.Random) -> str:
    """A condition of a plural rule."""
    if rng.random() < 0.8:
        return a_likely_condition(rng)
    relations: list[str] = []
    for _ in range(rng.randint(1, 4)):
        modulus = f" % {rng.randint(1, 10 ** rng.randint(1, 17))}" if rng.random() < 0.4 else ""
        items = [str(rng.randint(0, 20)) + (f"..{rng.randint(0, 9)}" if rng.random() < 0.3 else "") for _ in range(3)]
        relations.append(f"{rng.choice('nivwftce')}{modulus} {rng.choice(['=', '!='])} {','.join(items)}")
        relations.append(rng.choice([" and ", " or "]))
    return rng.choice(["", "\t"]) + "".join(relations[:-1]) + rng.choice(["", " @integer 1"]) if rng.random() < 0.9 else ""


def with_system(rng: random.Random, entry: Entry) -> Entry:
    """The entry, at times with a numbering system."""
    if rng.random() < 0.3:
        entry["system"] = rng.choice(SYSTEMS)
    return entry


def some_symbols(rng: random.Random) -> SymbolsEntry:
    """Symbols of a locale."""
    return with_system(rng, SymbolsEntry(
        locale=rng.choice(LOCALES), minus=[a_text(rng), a_text(rng)], plus=[a_text(rng), a_text(rng)],
        decimal=a_text(rng), group=a_text(rng), numsys=rng.choice(SYSTEMS),
        sizes=[rng.choice([0, 1, 2, 3, 255]) for _ in range(3)],
    ))


def some_elements(rng: random.Random) -> Elements:
    """One pattern for each of some categories."""
    keys = ["other"] + [key for key in ELEMENTS if rng.random() < 0.5]
    return {key: a_pattern(rng) for key in keys}


def some_types(rng: random.Random) -> list[tuple[int, int]]:
    """Types and their exponents: in thousands, in ten thousands, as lakhs and crores, or any that rise and don't fall."""
    shape = rng.randrange(4)
    if shape < 3:
        exponents = [0, 0, 0] + [
            [power // 3 * 3 for power in range(3, 15)],
            [0] + [power // 4 * 4 for power in range(4, 16)],
            [3, 3, 5, 5] + [7] * 8,
        ][shape]
        return [(row, exponent) for row, exponent in enumerate(exponents) if row >= 3 and rng.random() < 0.8]
    types: list[tuple[int, int]] = []
    exponent = 0
    for row in sorted(rng.sample(range(30), rng.randint(0, 6)) + [0] * rng.randint(0, 1)):
        exponent = rng.randint(max(exponent, row - 15), row)
        types.append((row, exponent))
    return sorted(dict(types).items())


def some_patterns(rng: random.Random) -> PatternsEntry:
    """Compact patterns of a locale. Types have patterns of their own, or mostly those of the type before."""
    rows: list[Row] = []
    are_own = rng.random() < 0.6
    for row, exponent in some_types(rng):
        elements = some_elements(rng)
        if rows and not are_own and (rows[-1][1] == exponent or rng.random() < 0.1):
            elements = {key: text for key, text in rows[-1][2].items() if key != "explicit_one" or rng.random() < 0.2}
        rows.append((row, exponent, elements))
    entry = with_system(rng, PatternsEntry(locale=rng.choice(LOCALES), patterns=rows))
    if rng.random() < 0.3:
        entry["zero"] = dict(rows[0][2]) if rows and rng.random() < 0.7 else some_elements(rng)
    return entry


def some_rules(rng: random.Random) -> RulesEntry:
    """Plural rules of a locale."""
    count = rng.randint(0, 4)
    return {"locale": rng.choice(LOCALES), "rules": [[rng.choice(CATEGORIES), a_condition(rng)] for _ in range(count)]}


def a_count(rng: random.Random) -> int:
    """How many entries stand under a key that may be missing: 0 where it is."""
    return rng.choice([1, 4, 6, 8]) if rng.random() < 0.95 else 0


def valid_tables(rng: random.Random) -> Tables:
    """Tables that aren't rejected."""
    symbols = [some_symbols(rng) for _ in range(rng.choice([1, 3, 5, 7]))]
    digits = [[rng.choice(SYSTEMS), "".join(rng.choice(LETTERS) for _ in range(10))] for _ in range(5)]
    rules = [some_rules(rng) for _ in range(a_count(rng))]
    short = [some_patterns(rng) for _ in range(a_count(rng))]
    long = [some_patterns(rng) for _ in range(a_count(rng))]
    more: dict[str, object] = {}
    if rng.random() < 0.3:
        value = rng.choice(OTHERS)
        more[a_text(rng) + "?"] = value
    return Tables(symbols, digits, rules or None, short or None, long or None, more)


def written(rng: random.Random, document: Mapping[str, object]) -> bytes:
    """The bytes of these tables, their keys in any order."""
    keys = list(document)
    rng.shuffle(keys)
    ordered = {key: document[key] for key in keys}
    return json.dumps(ordered, ensure_ascii=rng.random() < 0.5, indent=rng.choice([None, 1])).encode()


def some_words(rng: random.Random, tables: Tables, number: int) -> list[str]:
    """The words behind the path: style and grouping in turn, mostly a locale and a system for which the tables have data."""
    style, grouping = STYLES[number % 3], GROUPINGS[number // 3 % 5]
    words = [[locale, system, style, *grouping] for locale in LOCALES for system in ["-", *SYSTEMS]]
    served = [each for each in words if formatter_of(tables, each)]
    return rng.choice(served if served and rng.random() < 0.9 else words)


def a_number(rng: random.Random) -> str:
    """A decimal: few digits and zeros, digits near a carry or a tie, or many; its point anywhere, or none."""
    digits = rng.choice([
        str(rng.randint(0, 130)) + "0" * rng.randint(0, 16),
        "9" * rng.randint(1, 6) + rng.choice(["4", "5", "6", "49", "50", "51", "4999", "5001"]) + "0" * rng.randint(0, 12),
        str(rng.randint(1, 999)) + "5" + "0" * rng.randint(0, 12),
        "".join(rng.choice("0123456789") for _ in range(rng.randint(1, 24))),
    ])
    place = rng.randint(0, len(digits))
    number = rng.choice([digits, digits, digits[:place] + "." + digits[place:], "0." + "0" * rng.randint(0, 20) + digits])
    padding = "0" * rng.randint(1, 7) if rng.random() < 0.15 else ""
    return rng.choice(["", "", "", "-", "+"]) + padding + number + ("0" if number.endswith(".") else "")
