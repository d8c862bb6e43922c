"""Paths of a locale's file, and where things stand in it."""
from __future__ import annotations

import re
from typing import Mapping, NamedTuple, Tuple

DISTINGUISHING = ("numberSystem", "type", "count", "alt")
UNIT_WIDTHS = ("long", "short", "narrow")


class Step(NamedTuple):
    """One step of a path: a tag with the names and values of the attributes that tell elements apart."""

    tag: str
    attributes: tuple[tuple[str, str], ...]


# The way from the child of an LDML file's root to an element.
ElementPath = Tuple[Step, ...]


def step(tag: str, attributes: Mapping[str, str]) -> Step:
    """The step to an element with these attributes (UTS 35 Part 1, Attribute Definitions)."""
    return Step(tag, tuple((name, attributes[name]) for name in DISTINGUISHING if name in attributes))


def shown(path: ElementPath) -> str:
    """A path as people read it: symbols[latn]/decimal."""
    return "/".join(tag + "".join(f"[{value}]" for _, value in attributes) for tag, attributes in path)


def follow(path: ElementPath, relative: str) -> ElementPath:
    """The path that an alias in the element at `path` names (UTS 35 Part 1, Alias Elements)."""
    for word in relative.split("/"):
        if word == "..":
            path = path[:-1]
        elif word != ".":
            attributes = dict(re.findall(r"\[@(\w+)=['\"]([^'\"]*)['\"]\]", word))
            path += (step(word.split("[")[0], attributes),)
    return path


def system_of(path: ElementPath) -> str | None:
    """The numbering system for which a path is, or None."""
    return dict(path[0].attributes).get("numberSystem") if path else None


def symbols_path(system: str) -> ElementPath:
    """The element of a numbering system's symbols."""
    return (step("symbols", {"numberSystem": system}),)


def number_path(kind: str, system: str) -> ElementPath:
    """The pattern of a kind of numbers that has neither a length nor a type of its own."""
    return (
        step(f"{kind}Formats", {"numberSystem": system}),
        step(f"{kind}FormatLength", {}),
        step(f"{kind}Format", {}),
        step("pattern", {}),
    )


def plain_path(system: str) -> ElementPath:
    """The pattern of plain decimals."""
    return number_path("decimal", system)


def compact_path(system: str, style: str, power: str, count: str) -> ElementPath:
    """The compact pattern of a type and a count."""
    return (
        step("decimalFormats", {"numberSystem": system}),
        step("decimalFormatLength", {"type": style}),
        step("decimalFormat", {}),
        step("pattern", {"type": power, "count": count}),
    )


def money_path(system: str, kind: str) -> ElementPath:
    """The pattern of money of a kind, standard or accounting."""
    return (
        step("currencyFormats", {"numberSystem": system}),
        step("currencyFormatLength", {}),
        step("currencyFormat", {"type": kind}),
        step("pattern", {}),
    )


def compact_money_path(system: str, style: str, power: str, count: str) -> ElementPath:
    """The compact pattern of money of a type and a count."""
    return (
        step("currencyFormats", {"numberSystem": system}),
        step("currencyFormatLength", {"type": style}),
        step("currencyFormat", {"type": "standard"}),
        step("pattern", {"type": power, "count": count}),
    )


def money_names_path(system: str, count: str) -> ElementPath:
    """The pattern that puts an amount and the name of its currency together."""
    return (step("currencyFormats", {"numberSystem": system}), step("unitPattern", {"count": count}))


def currency_path(code: str) -> ElementPath:
    """The element of a currency's symbols and names."""
    return (step("currencies", {}), step("currency", {"type": code}))


def percent_path(system: str) -> ElementPath:
    """The pattern of percents."""
    return number_path("percent", system)


def range_path(system: str) -> ElementPath:
    """The pattern of ranges."""
    return (step("miscPatterns", {"numberSystem": system}), step("pattern", {"type": "range"}))


def unit_path(width: str, unit: str, count: str) -> ElementPath:
    """The pattern of a unit in a width."""
    return (
        step("unitLength", {"type": width}),
        step("unit", {"type": unit}),
        step("unitPattern", {"count": count}),
    )


def without_count(path: ElementPath) -> ElementPath:
    """The path without the count at its end."""
    *above, (tag, attributes) = path
    return (*above, Step(tag, tuple(pair for pair in attributes if pair[0] != "count")))
