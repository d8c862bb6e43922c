"""Plural rules: docs/FORMATS.md, conditions of plural rules, what a condition means, operands of a number."""
import re
from collections.abc import Container, Sequence
from dataclasses import dataclass


@dataclass(frozen=True)
class Relation:
    """An operand, perhaps by a modulus, and the ranges that hold it, or don't where the relation is denied."""

    operand: str
    modulus: int | None
    is_denied: bool
    ranges: Sequence[range]


@dataclass(frozen=True)
class Rule:
    """A category and its condition: alternatives, each of relations."""

    category: str
    alternatives: Sequence[Sequence[Relation]]


def range_of(item: str) -> range:
    """The values of an item of a list: one, or from one to another."""
    ends = item.split("..")
    return range(int(ends[0]), int(ends[-1]) + 1)


def relation_of(text: str) -> Relation:
    """The relation of a text with one space between its tokens."""
    match = re.fullmatch(r"([nivwftce]) (?:% ([0-9]+) )?(!?=) (.+)", text)
    assert match, text
    ranges = [range_of(item) for item in match[4].replace(" ", "").split(",")]
    return Relation(match[1], int(match[2]) if match[2] else None, match[3] == "!=", ranges)


def rule_of(category: str, text: str) -> Rule:
    """The rule of a category and a condition, of which what stands behind the first `@` isn't read."""
    tokens = " ".join(re.findall(r"[a-z]+|[0-9]+|!=|\.\.|[%=,]", text.split("@")[0]))
    parts = tokens.split(" or ") if tokens else []
    return Rule(category, [[relation_of(each) for each in part.split(" and ")] for part in parts])


def operands_of(whole: str, fraction: str) -> dict[str, int]:
    """The operands of these digits, of which the first eighteen of the fraction are seen; the integer is kept whole."""
    seen = fraction[:18]
    bare = seen.rstrip("0")
    return {"i": int(whole), "v": len(seen), "w": len(bare), "f": int(seen or "0"), "t": int(bare or "0"), "c": 0, "e": 0}


def relation_holds(relation: Relation, operands: dict[str, int]) -> bool:
    """Whether a relation holds of operands."""
    number = operands["i" if relation.operand == "n" else relation.operand]
    if relation.operand == "n" and operands["t"] != 0:
        return relation.is_denied
    if relation.operand in "ni" and not relation.modulus and number >= 10**18:
        return relation.is_denied
    if relation.modulus:
        number = (number % 10**18 if relation.operand in "ni" else number) % relation.modulus
    return any(number in each for each in relation.ranges) != relation.is_denied


def category_of(rules: Sequence[Rule], operands: dict[str, int]) -> str:
    """The category of the first rule that holds."""
    for rule in rules:
        parts = rule.alternatives
        if not parts or any(all(relation_holds(each, operands) for each in part) for part in parts):
            return rule.category
    return "other"


def slot_of(elements: Container[str], rules: Sequence[Rule], operands: dict[str, int]) -> str:
    """Which pattern a number picks: the one for exactly this number, that of its category, or that for all others."""
    is_exact = operands["i"] < 2 and operands["v"] == 0
    exact = ["explicit_zero", "explicit_one"][operands["i"]] if is_exact else ""
    category = category_of(rules, operands)
    return exact if exact in elements else category if category in elements else "other"
