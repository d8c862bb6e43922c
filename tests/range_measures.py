"""The rules of crates/icu_unit_ranges/README.md, restated over the texts of single numbers, for tests/icu_ranges.py: numbers with a unit
or with the name of a currency."""
import unicodedata
from collections.abc import Callable, Iterable, Sequence
from decimal import ROUND_HALF_EVEN, Context, Decimal
from typing import NamedTuple, TypeAlias

from icu_compare import Job, Json

# icu_compare has put the folder of the tools into the path
import cldr_patterns
from range_texts import Ends, parts_of

# The plural rules of a locale: categories with their conditions.
Rules: TypeAlias = Sequence[Sequence[str]]

# The operands of plural rules for a number as it is shown.
Operands: TypeAlias = dict[str, Decimal]

# A range of two numbers, as `3..5`.
BETWEEN = ".."


class Program(NamedTuple):
    """What a program writes for texts, by a job and by which signs are shown; which plural categories numbers and ranges have for it, as
    a job shows them; its separator and its approximately sign."""

    writes: Callable[[Job, str, Sequence[str]], list[str]]
    categories: Callable[[Job, Sequence[str]], list[str]]
    separator: str
    sign: str


# More digits than the numbers have.
EXACT = Context(prec=99, rounding=ROUND_HALF_EVEN)

# Unsigned numbers whose texts show the pattern of each plural category.
PROBES = (
    "0 1 2 3 4 5 6 7 8 9 10 11 12 13 14 19 20 21 22 23 24 25 31 60 100 101 102 103 104 111 1000000 0.04 0.1 0.21 0.2 0.4 0.5 1.1 1.2 1.4 1.5 2.1"
).split()


class Around(NamedTuple):
    """What stands around a number in a pattern."""

    before: str
    after: str


class Measure(NamedTuple):
    """The texts of two numbers alone in the pattern of their range."""

    numbers: Ends
    pattern: Around

    def symbol_behind(self) -> str:
        """What stands behind a number up to the last symbol of a currency, if there is one."""
        places = [place for place, letter in enumerate(self.pattern.after) if unicodedata.category(letter) == "Sc"]
        return self.pattern.after[: places[-1] + 1] if places else ""

    def holding(self, numbers: str | None) -> str | None:
        """The pattern around a text of both numbers."""
        return None if numbers is None else self.pattern.before + numbers + self.pattern.after


class Answer(NamedTuple):
    """The text of a range, and those that it is made of: of both ends, the approximately sign, and with a unit or a name the texts of
    both numbers, with the pattern of the range's category."""

    text: str
    ends: Ends
    sign: str
    measure: Measure | None = None

    def has_equal_ends(self) -> bool:
        """Whether the texts of both ends are equal, so that one is written, with the approximately sign."""
        return self.ends.start == self.ends.end

    def sources(self) -> tuple[Ends, str, Measure | None]:
        """What the text is made of."""
        return self.ends, self.sign if self.has_equal_ends() else "", self.measure

    def shown(self) -> str:
        """What the text is made of, in a line."""
        measure = () if self.measure is None else (*self.measure.numbers[:2], *self.measure.pattern)
        return str((*self.ends, self.sign, *measure))

    def numbers(self) -> Ends:
        """What is joined: the numbers alone, where they stand in one pattern."""
        return self.ends if self.measure is None else self.measure.numbers

    def holding(self, joined_numbers: str | None) -> str | None:
        """The text of the range by what was joined."""
        return joined_numbers if self.measure is None else self.measure.holding(joined_numbers)

    def approximate(self) -> str:
        """The text of equal ends with the approximately sign in front of the number and its sign: in front of all but what a unit or a
        name has there, and nowhere in the pattern of one that has no place for a number."""
        before, number, after = self.ends.start.partition(self.numbers().start)
        return before + self.sign * bool(number) + number + after


def operands_of(number: Decimal) -> Operands:
    """The operands of a number (UTS 35 Part 3, Operands)."""
    size = number.copy_abs()
    whole, _, visible = format(size, "f").partition(".")
    trimmed = visible.rstrip("0")
    numbers = {"n": size, "i": Decimal(whole), "f": Decimal(visible or 0), "t": Decimal(trimmed or 0)}
    return {**numbers, "v": Decimal(len(visible)), "w": Decimal(len(trimmed)), "c": Decimal(0), "e": Decimal(0)}


def holds(relation: cldr_patterns.Relation, operands: Operands) -> bool:
    """Whether a relation holds of these operands: of a value that isn't whole none with `=` does."""
    operand, modulus, sign, items = relation.groups()
    value = EXACT.remainder(operands[operand], Decimal(modulus)) if modulus else operands[operand]
    ranges = [[int(end) for end in item.split("..")] for item in items.split(",")]
    return (value == value.to_integral_value() and any(ends[0] <= value <= ends[-1] for ends in ranges)) == (sign == "=")


def category_of(rules: Rules, operands: Operands) -> str:
    """The plural category of a number with these operands."""
    for category, condition in rules:
        if any(all(holds(relation, operands) for relation in relations) for relations in cldr_patterns.alternatives(condition)):
            return category
    return "other"


def patterns_of(shown: Iterable[tuple[str, str]]) -> dict[str, Around | None]:
    """The patterns of categories, by texts of unsigned numbers of each: the first one counts."""
    patterns: dict[str, Around | None] = {}
    for category, text in shown:
        parts = parts_of(text)
        patterns.setdefault(category, Around(parts.before, parts.after) if parts.number else None)
    return patterns


def places_of_numbers(job: Job) -> int:
    """How many fraction digits numbers with a unit or a name have: dollars and euros have two."""
    kind, *words = job.style.split()
    return 2 if kind == "money" else int(words[2])


def shown_of(job: Job, number: str) -> Decimal:
    """A number as it is shown with a unit or a name."""
    return EXACT.quantize(Decimal(number), Decimal(1).scaleb(-places_of_numbers(job)))


def probed_jobs(job: Job) -> list[Job]:
    """The jobs whose texts show the patterns of a job: where no whole number has the category `other`, those with a fraction do."""
    kind, *words = job.style.split()
    return [job] if kind == "money" else [job, job._replace(style=f"unit {words[0]} {words[1]} 1")]


class TableCategories:
    """The plural categories of numbers and ranges, by the rules and the categories of ranges that tables have for a locale."""

    def __init__(self, tables: Json) -> None:
        self.rules = tables["rules"][0]["rules"]
        self.ranges = {(start, end): result for it in tables["plural_ranges"] for start, end, result in it["ranges"]}

    def category(self, job: Job, text: str) -> str:
        """That of a number or of a range as a job shows it; of a range `other`, if the tables have none for its ends."""
        numbers = [category_of(self.rules, operands_of(shown_of(job, number))) for number in text.split(BETWEEN)]
        return numbers[0] if len(numbers) == 1 else self.ranges.get((numbers[0], numbers[1]), "other")

    def categories(self, job: Job, asked: Sequence[str]) -> list[str]:
        """Those of texts."""
        return [self.category(job, text) for text in asked]


class Measures:
    """The patterns in which a program writes numbers with a unit or a name, as its texts of unsigned numbers show them."""

    def __init__(self, program: Program, job: Job) -> None:
        self.patterns = patterns_of(
            shown for probed in probed_jobs(job)
            for shown in zip(program.categories(probed, PROBES), program.writes(probed, "auto", PROBES)))

    def measure(self, categories: tuple[str, str, str], ends: Ends, alone: tuple[str, str]) -> Measure | None:
        """Two numbers in the pattern of their range, by the categories of the range and of its ends, by the texts of both ends, and by
        those that the numbers have alone."""
        both, start, end = categories
        numbers = Ends(self.number(start, ends.start, alone[0]), self.number(end, ends.end, alone[1]), ends.separator)
        # the pattern of all other numbers, where that of the category has no place for a number
        pattern = self.patterns.get(both) or self.patterns.get("other")
        return None if pattern is None else Measure(numbers, pattern)

    def number(self, category: str, text: str, alone: str) -> str:
        """The number in a text by the pattern of a category; as it is alone, where this has no place for it."""
        pattern = self.patterns.get(category)
        if pattern is None or not (text.startswith(pattern.before) and text.endswith(pattern.after)):
            return alone
        return text[len(pattern.before) : len(text) - len(pattern.after)]
