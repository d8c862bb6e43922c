#!/usr/bin/env python3
"""Compares, from Python, the library with PyICU and Babel, where these are there, over a list of prices.

usage: bench/python_prices.py [RUNS], where the package is installed, or PYTHONPATH names its folder

Each is given prices in dollars as texts, as a report has them, and answers a list of texts. The table has the processor time of
one price, the best of the runs. Babel gets a hundredth of the million prices.
"""
import os
import random
import sys
from decimal import Decimal

sys.path.insert(0, os.path.join(os.path.dirname(os.path.abspath(__file__)), "../tests"))
import usage  # noqa: E402
from python_ways import COUNT, Way, print_table  # noqa: E402


def with_icu() -> Way | None:
    """The same by PyICU, of floats, or nothing where it isn't there."""
    try:
        import icu
    except ImportError:
        return None
    format_one = icu.NumberFormat.createCurrencyInstance(icu.Locale("en_US")).format
    return lambda texts: [format_one(float(text)) for text in texts]


def with_babel() -> Way | None:
    """The same by Babel, of a hundredth of the prices, or nothing where it isn't there."""
    try:
        from babel.numbers import format_currency
    except ImportError:
        return None
    return lambda texts: [format_currency(Decimal(text), "USD", locale="en") for text in texts[::100]]


def main() -> None:
    words = usage.words_of(__doc__, 0, 1)
    # only now, so that --help needs no package
    import talmuiga
    source = random.Random(1)
    texts = [f"{source.randrange(10 ** source.randrange(1, 8))}.{source.randrange(100):02}" for _ in range(COUNT)]
    dollars = talmuiga.Formatter.english(skeleton="currency/USD")
    ways: dict[str, Way | None] = {
        "the library, in one call": dollars.format_many,
        "the library, one by one": lambda texts: [dollars.format(text) for text in texts],
        "PyICU": with_icu(),
        "Babel": with_babel(),
    }
    print_table("prices", ways, texts, dollars.format_many(texts), int(words[0]) if words else 5)


if __name__ == "__main__":
    main()
