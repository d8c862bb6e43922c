#!/usr/bin/env python3
"""Compares, from Python, the library with format(n, ',') and with PyICU, where that is there, over a list of whole numbers.

usage: bench/python_lists.py [RUNS], where the package is installed, or PYTHONPATH names its folder

Each is given a million numbers as texts, as a report has them, and answers a list of texts. The table has the processor time of
one number, the best of the runs.
"""
import os
import random
import sys

sys.path.insert(0, os.path.join(os.path.dirname(os.path.abspath(__file__)), "../tests"))
import usage  # noqa: E402
from python_ways import COUNT, Way, print_table  # noqa: E402


def with_icu() -> Way | None:
    """The same by PyICU, or nothing where it isn't there."""
    try:
        import icu
    except ImportError:
        return None
    format_one = icu.NumberFormat.createInstance(icu.Locale("en")).format
    return lambda texts: [format_one(int(text)) for text in texts]


def by_python(texts: list[str]) -> list[str]:
    """The same by Python's own grouping."""
    return [format(int(text), ",") for text in texts]


def main() -> None:
    words = usage.words_of(__doc__, 0, 1)
    # only now, so that --help needs no package
    import talmuiga
    source = random.Random(1)
    texts = [str(source.randrange(-10 ** source.randrange(1, 16), 10 ** source.randrange(1, 16))) for _ in range(COUNT)]
    english = talmuiga.Formatter.english()
    ways: dict[str, Way | None] = {
        "the library, in one call": english.format_many,
        "the library, one by one": lambda texts: [english.format(text) for text in texts],
        "format(int(text), ',')": by_python,
        "PyICU": with_icu(),
    }
    print_table("numbers", ways, texts, by_python(texts), int(words[0]) if words else 5)


if __name__ == "__main__":
    main()
