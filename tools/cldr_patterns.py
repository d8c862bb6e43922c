"""Number patterns and plural rules, as CLDR spells them."""
from __future__ import annotations

import re
from typing import Match, Mapping, Sequence, Tuple

from cldr_release import LocaleRules, Release
from cldr_reports import RULE, Inexpressible

CATEGORIES = ("zero", "one", "two", "few", "many", "other")
PLACE = "{0}"

# A part of a pattern: its kind, `literal`, `number` or `special`, and its text.
Piece = Tuple[str, str]
# Plural rules: pairs of a category and a condition.
Rules = Sequence[Tuple[str, str]]
# A relation of a condition, as RELATION finds it.
Relation = Match[str]

# Number patterns (UTS 35 Part 3, Number Format Patterns).

PIECE = re.compile(
    r"(?P<quote>'')|'(?P<quoted>(?:[^']|'')*)'|(?P<number>[#0-9@,.]+E?)|(?P<special>[-+%‰¤*;'])|(?P<plain>.)",
    re.DOTALL,
)


def pieces_of(pattern: str) -> list[Piece]:
    """A pattern as a list of kinds and texts, quotes resolved: `literal`, `number` and `special`."""
    pieces: list[Piece] = []
    for match in PIECE.finditer(pattern):
        kind = str(match.lastgroup)
        text = match[kind]
        if kind in ("quote", "quoted", "plain"):
            text = "'" if kind == "quote" else text.replace("''", "'")
            if pieces and pieces[-1][0] == "literal":
                text = pieces.pop()[1] + text
            kind = "literal"
        elif text == "'":
            raise Inexpressible(f"a quote in {pattern!r} isn't closed")
        pieces.append((kind, text))
    return pieces


def subpatterns(pattern: str) -> tuple[list[Piece], list[Piece] | None]:
    """The pieces of the positive and the negative subpattern; None where there is no negative one, or only that which
    a pattern without one has (UTS 35 Part 3, Number Patterns)."""
    positive: list[Piece] = []
    negative: list[Piece] | None = None
    for piece in pieces_of(pattern):
        if piece != ("special", ";"):
            (positive if negative is None else negative).append(piece)
        elif negative is None:
            negative = []
        else:
            raise Inexpressible(f"{pattern!r} has three subpatterns")
    return positive, None if negative == [("special", "-")] + positive else negative


def around_number(pieces: list[Piece]) -> tuple[list[Piece], str | None, list[Piece]]:
    """The pieces before the number, the number or None, and the pieces after it."""
    numbers = [index for index, (kind, _) in enumerate(pieces) if kind == "number"]
    if len(numbers) > 1:
        raise Inexpressible("a pattern has two numbers")
    if not numbers:
        return pieces, None, []
    return pieces[: numbers[0]], pieces[numbers[0]][1], pieces[numbers[0] + 1 :]


def literal(pieces: list[Piece], signs: Mapping[str, str] | None = None) -> str:
    """The text of pieces; `signs` says what stands for special characters."""
    text = ""
    for kind, part in pieces:
        if kind == "special" and signs is not None and part in signs:
            part = signs[part]
        elif kind == "special":
            raise Inexpressible(f"{'the sign' if part in '-+' else 'the special character'} {part} within a pattern")
        text += part
    return text


def compact_text(pieces: list[Piece], texts: Mapping[str, str] | None = None) -> tuple[int, str]:
    """A compact subpattern as its number of zeros and the text in tables (UTS 35 Part 3, Compact Number Formats);
    `texts` says what stands for special characters."""
    before, number, after = around_number(pieces)
    prefix, suffix = literal(before, texts), literal(after, texts)
    if number is not None and set(number) != {"0"}:
        raise Inexpressible(f"the number {number} isn't zeros alone")
    text = prefix if number is None else prefix + PLACE + suffix
    places = [match.start() for match in re.finditer(r"(?=\{0\})", text)]
    if places != ([] if number is None else [len(prefix)]):
        raise Inexpressible(f"{PLACE} in a literal")
    return len(number or ""), text


def with_one_zero(pattern: str) -> str:
    """A pattern whose numbers are one zero each."""
    return "".join("0" if match["number"] else match[0] for match in PIECE.finditer(pattern))


def with_quoted_exponents(pattern: str) -> str:
    """A pattern in which each `E` outside of its number stands in quotes, as it has to in tables; CLDR needs none there. One
    beside a quote stays as it is."""
    text = ""
    for match in PIECE.finditer(pattern):
        is_alone = "'" not in (text[-1:], pattern[match.end() : match.end() + 1])
        text += "'E'" if match["plain"] == "E" and is_alone else match[0]
    return text


def grouping(number: str) -> list[int]:
    """The sizes of the first group and of the further ones (UTS 35 Part 3, Number Patterns)."""
    if not re.fullmatch(r"[#,]*[0,]*(\.0*#*)?", number) or not re.match("[#0]", number):
        raise Inexpressible(f"the number {number} has more than #, 0, a group and a point")
    groups = number.partition(".")[0].split(",")
    if len(groups) == 1:
        return [0, 0]
    return [len(groups[-1]), len(groups[-2] if len(groups) > 2 else groups[-1])]


def sizes_of(pattern: str) -> list[int]:
    """The sizes of groups of a pattern."""
    number = around_number(subpatterns(pattern)[0])[1]
    if number is None:
        raise Inexpressible(f"{pattern!r} has no number")
    return grouping(number)


def refuse_unreadable(pattern: str, specials: str, once: str = "") -> None:
    """Refuses a pattern of money or percents that tables can't have (docs/FORMATS.md, Money, percents and units as
    JSON). Its special characters may be signs, `specials`, and those of `once`, which each subpattern has once."""
    if any(match["plain"] == "E" for match in PIECE.finditer(pattern)):
        raise Inexpressible("the special character E within a pattern")
    positive, negative = subpatterns(pattern)
    for pieces in (positive, positive if negative is None else negative):
        before, number, after = around_number(pieces)
        if number is None:
            raise Inexpressible(f"a subpattern of {pattern!r} has no number")
        grouping(number)
        literal(before + after, dict.fromkeys("-+" + specials + once, ""))
        for special in once:
            count = pieces.count(("special", special))
            if count != 1:
                raise Inexpressible(f"{special} stands {count} times in a subpattern of {pattern!r}, not once")


# Plural rules (UTS 35 Part 3, Language Plural Rules).

VALUE = r"[0-9]{1,18}"
ITEM = rf"{VALUE}(?:\s*\.\.\s*{VALUE})?"
RELATION = re.compile(rf"\s*([nivwftce])\s*(?:%\s*({VALUE})\s*)?(!?=)\s*({ITEM}(?:\s*,\s*{ITEM})*)\s*")


def alternatives(condition: str) -> list[list[Relation]]:
    """A condition as lists of relations, of which all of one list have to hold."""
    if not condition.strip():
        return [[]]
    words = [re.split(r"\band\b", alternative) for alternative in re.split(r"\bor\b", condition)]
    return [[relation_of(word, condition) for word in relations] for relations in words]


def relation_of(word: str, condition: str) -> Relation:
    """The relation that a word of a condition is."""
    relation = RELATION.fullmatch(word)
    if relation is None or not int(relation[2] or 1):
        raise Inexpressible(f"the condition {condition!r} isn't in the grammar")
    return relation


def holds(relation: Relation, number: int) -> bool:
    """Tells whether a relation holds of a whole number that is written without fraction or exponent."""
    operand, modulus, sign, items = relation.groups()
    value = number if operand in "ni" else 0
    value = value % int(modulus) if modulus else value
    ranges = [[int(end) for end in item.split("..")] for item in items.split(",")]
    return any(ends[0] <= value <= ends[-1] for ends in ranges) == (sign == "=")


def category_of(rules: Rules, number: int) -> str:
    """The category of a small whole number."""
    for category, condition in rules:
        if any(all(holds(relation, number) for relation in relations) for relations in alternatives(condition)):
            return category
    return "other"


def conditions(release: Release, locale: str, named: LocaleRules) -> list[tuple[str, str]]:
    """The rules of a locale that can be expressed, without samples and without that of `other`."""
    rules = []
    for category, text in release.rules_of(locale, named):
        condition = text.partition("@")[0].strip()
        try:
            alternatives(condition)
            if category not in CATEGORIES:
                raise Inexpressible("no such category")
        except Inexpressible as refused:
            release.reports.left_out(RULE, locale, f"plural rule {category}", refused)
            continue
        if category != "other":
            rules.append((category, condition))
    return rules
