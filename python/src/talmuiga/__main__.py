"""Writes numbers in the form of a locale, one a line.

The numbers are the arguments, or, without any, the lines of standard input. What is wrong is written on standard error in words. The
status is 0; 1 where a formatter, its tables or a file is refused; 2 where a number isn't written, or an argument isn't taken.
"""
from __future__ import annotations

import argparse
import sys
from typing import Iterable, List, Optional

from . import LISTED, Formatter, NotFormatted, Refused, __version__, canonical_skeleton, names_in, tables_fault


def fail(words: object) -> None:
    """Writes words on standard error."""
    print(f"talmuiga: {words}", file=sys.stderr)


def made(arguments: argparse.Namespace) -> Formatter:
    """The formatter that the arguments ask for."""
    if arguments.tables is None:
        return Formatter.english(skeleton=arguments.skeleton)
    with open(arguments.tables, "rb") as file:
        return Formatter(file.read(), arguments.locale, skeleton=arguments.skeleton or "")


def write(formatter: Formatter, numbers: Iterable[str], has_parts: bool) -> int:
    """Writes the text of each number, and perhaps its parts; the status."""
    status = 0
    for index, number in enumerate(numbers, 1):
        try:
            text, parts = formatter.parts(number)
        except NotFormatted as error:
            fail(f"number {index}: {error.text!r}: {error.reason}")
            status = 2
            continue
        print(text)
        for begin, end, name in parts if has_parts else ():
            print(f"  {begin}..{end} {name} {text[begin:end]}")
    return status


def judge(name: str) -> int:
    """Says whether the tables of a file are accepted; the status."""
    with open(name, "rb") as file:
        fault = tables_fault(file.read())
    print(f"{name}: accepted" if fault is None else f"{name}: refused: {fault}")
    return 0 if fault is None else 1


def run(arguments: argparse.Namespace) -> int:
    """Does what the arguments ask for; the status."""
    if arguments.judge is not None:
        return judge(arguments.judge)
    if arguments.list is not None:
        with open(arguments.tables, "rb") as file:
            print("".join(f"{name}\n" for name in names_in(file.read(), arguments.list)), end="")
        return 0
    if arguments.canonical is not None:
        print(canonical_skeleton(arguments.canonical))
        return 0
    numbers = arguments.numbers or (line.rstrip("\r\n") for line in sys.stdin)
    return write(made(arguments), numbers, arguments.parts)


def main(words: Optional[List[str]] = None) -> int:
    """Reads the arguments and runs; the status."""
    parser = argparse.ArgumentParser(prog="python -m talmuiga", description=(__doc__ or "").splitlines()[0])
    parser.add_argument("-t", "--tables", metavar="FILE", help="tables of locales; else English")
    parser.add_argument("-l", "--locale", default="en", help="the locale, as de or ar-EG; en by default")
    parser.add_argument("-s", "--skeleton", help="a number skeleton, as 'currency/EUR' or '%%x100 .0'")
    parser.add_argument("--parts", action="store_true", help="write the parts of each text, too")
    parser.add_argument("--canonical", metavar="SKELETON", help="write the canonical text of a skeleton, and end")
    parser.add_argument("--judge", metavar="FILE", help="say whether the tables of a file are accepted, and end")
    parser.add_argument("--list", choices=tuple(LISTED), help="write the names of a kind that the tables have, and end")
    parser.add_argument("--version", action="version", version=f"talmuiga {__version__}")
    parser.add_argument("numbers", nargs="*", metavar="NUMBER", help="a decimal; behind -- it may begin with a minus")
    arguments = parser.parse_args(words)
    if arguments.list is not None and arguments.tables is None:
        parser.error("--list wants --tables")
    if arguments.tables is None and arguments.locale not in ("en", "en-US"):
        fail(f"{arguments.locale}: without tables the locale is en")
        return 1
    try:
        return run(arguments)
    except OSError as error:
        fail(f"{error.filename}: {error.strerror}")
    except Refused as error:
        fail(error)
    return 1


if __name__ == "__main__":
    sys.exit(main())
