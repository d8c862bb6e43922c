"""The entries of ranges: range patterns, and the plural categories of ranges."""
from __future__ import annotations

import re
from typing import List

from cldr_numbers import LATIN, formats_of
from cldr_paths import range_path, step, symbols_path
from cldr_patterns import Rules
from cldr_release import Release
from cldr_reports import RANGE, Inexpressible

# The categories of a start, of an end and of the range.
Triple = List[str]


def range_entry(release: Release, locale: str, system: str) -> dict[str, str]:
    """The range pattern and the sign for approximately, if there is one (UTS 35 Part 3, Miscellaneous Patterns)."""
    pattern = release.text(locale, range_path(formats_of(release, locale, system, range_path)))
    if pattern is None:
        raise Inexpressible("no range pattern")
    if not re.fullmatch(r"\{0\}[^{}]+\{1\}", pattern):
        raise Inexpressible(f"the range pattern {pattern!r} isn't some text between {{0}} and {{1}}")
    sign = approximately_sign(release, locale, system)
    return {"pattern": pattern, **({"approximately": sign} if sign else {})}


def approximately_sign(release: Release, locale: str, system: str) -> str | None:
    """The sign for approximately of a numbering system, or that of latn, or None (UTS 35 Part 3, Number Symbols)."""
    paths = [symbols_path(it) + (step("approximatelySign", {}),) for it in (system, LATIN)]
    return next(filter(None, (release.text(locale, path) for path in paths)), None)


def plural_ranges(release: Release, locale: str, rules: Rules) -> list[Triple]:
    """The plural categories of the locale's ranges (UTS 35 Part 3, Plural Ranges), without those whose result is `other`,
    which stands for all that aren't named, and without those of categories that the locale's rules lack."""
    known = {"other", *(category for category, _ in rules)}
    triples = []
    for triple in release.ranges_of(locale):
        lacking = sorted(set(triple) - known)
        if lacking:
            start, end, result = triple
            reason = f"the locale's rules lack {', '.join(lacking)}"
            release.reports.left_out(RANGE, locale, f"range {start}-{end} {result}", reason)
        elif triple[2] != "other":
            triples.append([*triple])
    return triples
