"""What goes wrong with a release, and what is told of what tables leave out."""
from __future__ import annotations

import collections
import zipfile
from typing import TextIO
from xml.etree import ElementTree

# kinds of what isn't in the tables as CLDR has it
DRAFT = "drafts below contributed, for which what is inherited stands"
NEGATIVE = "compact patterns with a negative subpattern, for which the sign stands before the positive one"
COMPACT = "compact patterns left out"
PLAIN = "plain patterns with a text or a sign left out"
RULE = "plural rules left out"
SYSTEM = "numbering systems left out"
ENTRY = "symbols or compact patterns left out as a whole"
MONEY_ENTRY = "patterns of money or percents left out as a whole"
NAMES = "patterns of amounts with names left out"
GROUPS = "groups of accounts, names and percents left out, for which those of other amounts or numbers stand"
OWN_PATTERN = "patterns and separators of single currencies left out"
CASH = "digits and roundings of currencies left out"
UNIT = "units left out"
RANGE = "range patterns or categories of ranges left out"


class NotARelease(Exception):
    """The folder or archive has no CLDR release in a form that is known here."""


class UnknownLocale(Exception):
    """The release has no such locale; the text says of each name what it means."""


class UnknownWord(Exception):
    """The release has no such currency, unit or numbering system; the text is for the command line."""


class Inexpressible(Exception):
    """The format of tables has nothing for this; the text says why."""


UNREADABLE = (NotARelease, Inexpressible, OSError, ElementTree.ParseError, zipfile.BadZipFile, ValueError, KeyError)


class Reports:
    """What goes to standard error: what was left out, each once or counted by kinds; on a terminal progress too."""

    def __init__(self, stream: TextIO, is_verbose: bool = False) -> None:
        self.stream = stream
        self.is_verbose = is_verbose
        self.said: dict[str, tuple[str, str]] = {}

    def left_out(self, kind: str, locale: str, key: str, reason: str | Inexpressible) -> None:
        """Tells that a key of a locale isn't in the tables as CLDR has it; at once, or counted at the end."""
        line = f"{locale}: {key}: {reason}"
        if line not in self.said:
            self.said[line] = (kind, locale)
            if self.is_verbose:
                self.clear()
                print(line, file=self.stream)

    def sum_up(self) -> None:
        """Tells how many of each kind were left out, if they weren't told one by one."""
        counts = collections.Counter(kind for kind, _ in self.said.values())
        for kind, count in counts.items() if not self.is_verbose else ():
            locales = len({locale for other, locale in self.said.values() if other == kind})
            text = f"{count} in {locales} locale{'s' * (locales > 1)}: {kind} (--verbose names each)"
            print(text, file=self.stream)

    def progress(self, done: int, count: int, locale: str) -> None:
        """Shows on a terminal alone how far the work is."""
        if self.stream.isatty():
            print(f"\r\033[K{done}/{count} {locale}", end="", file=self.stream, flush=True)

    def clear(self) -> None:
        """Takes the progress away."""
        if self.stream.isatty():
            print("\r\033[K", end="", file=self.stream)
