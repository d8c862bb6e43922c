#!/usr/bin/env python3
"""Formats a column of CSV files on a cluster of Dask: each file is a piece of work, each worker reads the tables once.

The form of the numbers is a locale's, by a number skeleton: `currency/EUR` writes prices, an empty one plain numbers.

The files are read and written by Python's csv, line by line, with a header each; fields that aren't in the column are
kept. What spells no decimal stays as it is. An output file is written beside its place and then moved there, so it is
whole or not there, whichever worker dies.

usage: format_column.py SCHEDULER TABLES LOCALE SKELETON COLUMN OUTPUT_FOLDER FILE..
"""
import argparse
import csv
import functools
import importlib
import os
import re
import tempfile

from dask.distributed import Client, as_completed

# How many rows are formatted by one call of the library.
ROWS_AT_ONCE = 10_000


# How a decimal is spelled.
SPELLED = re.compile(r"[+-]?[0-9]*\.?[0-9]+", re.ASCII)


@functools.lru_cache(maxsize=None)
def formatter_of(tables, locale, skeleton):
    """The formatter of a worker's process, which is made when it is first asked for, and kept from one file to the next."""
    from talmuiga import Formatter

    with open(tables, "rb") as file:
        return Formatter(file.read(), locale, skeleton=skeleton)


def in_blocks(rows):
    """The rows in lists of so many at most."""
    block = []
    for row in rows:
        block.append(row)
        if len(block) == ROWS_AT_ONCE:
            yield block
            block = []
    yield block


def format_rows(formatter, place, rows):
    """Puts the text of each row's number in its place, in one call."""
    numbers = [row for row in rows if SPELLED.fullmatch(row[place])]
    for row, text in zip(numbers, formatter.format_many([row[place] for row in numbers])):
        row[place] = text
    return rows


def format_file(name, output, tables, locale, skeleton, column):
    """Writes the file with its column formatted, and answers how many rows it has."""
    formatter = formatter_of(tables, locale, skeleton)
    count = 0
    with open(name, newline="") as source, tempfile.NamedTemporaryFile(
        "w", newline="", dir=os.path.dirname(output), prefix=".", delete=False
    ) as target:
        reader, writer = csv.reader(source), csv.writer(target, lineterminator="\n")
        header = next(reader)
        writer.writerow(header)
        place = header.index(column)
        for rows in in_blocks(reader):
            writer.writerows(format_rows(formatter, place, rows))
            count += len(rows)
    os.replace(target.name, output)
    return count


def main():
    parser = argparse.ArgumentParser(description=__doc__.splitlines()[0])
    for word in ("scheduler", "tables", "locale", "skeleton", "column", "folder"):
        parser.add_argument(word)
    parser.add_argument("files", nargs="+")
    words = parser.parse_args()
    os.makedirs(words.folder, exist_ok=True)
    tables = os.path.abspath(words.tables)
    with Client(words.scheduler) as client:
        # workers import this file as a module, so that what it caches is kept from one piece to the next
        client.upload_file(os.path.abspath(__file__))
        work = importlib.import_module("format_column").format_file
        tasks = [
            client.submit(
                work,
                os.path.abspath(name),
                os.path.abspath(os.path.join(words.folder, os.path.basename(name))),
                tables,
                words.locale,
                words.skeleton,
                words.column,
                retries=3,
            )
            for name in words.files
        ]
        rows = sum(task.result() for task in as_completed(tasks))
    print(f"{len(words.files)} files, {rows} rows")


if __name__ == "__main__":
    main()
