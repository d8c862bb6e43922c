#!/usr/bin/env python3
"""Adds a column of texts to a frame of pandas, or to one of Dask, whose partitions are frames of pandas: prices as a locale has them.

A formatter is made once in each process, by tables, a locale and a number skeleton, and takes the numbers of a column as they lie in
memory, in one call without the interpreter's lock. A number that is missing stays missing.

usage: format_frame.py TABLES LOCALE SKELETON COLUMN FILE.csv..; it writes the frame of the files as CSV
"""
import argparse
import functools
import sys

import pandas


@functools.lru_cache(maxsize=None)
def formatter_of(tables, locale, skeleton):
    """The formatter of a process, which is made when it is first asked for."""
    from talmuiga import Formatter

    with open(tables, "rb") as file:
        return Formatter(file.read(), locale, skeleton=skeleton)


def texts_of(numbers, tables, locale, skeleton):
    """The texts of a series of numbers, with the same index; what is missing stays so."""
    given = numbers.dropna()
    column = given.to_numpy() if given.dtype.kind in "iuf" else given
    texts = formatter_of(tables, locale, skeleton).format_many(column)
    return pandas.Series(texts, index=given.index, dtype=object, name=numbers.name).reindex(numbers.index)


def with_texts(frame, column, tables, locale, skeleton):
    """A frame of pandas with a column more: the texts of another column."""
    return frame.assign(**{f"{column}_text": texts_of(frame[column], tables, locale, skeleton)})


def with_texts_of_parts(frame, column, tables, locale, skeleton):
    """The same of a frame of Dask: each worker keeps its formatter from one partition to the next."""
    like = frame._meta.assign(**{f"{column}_text": pandas.Series(dtype=object)})
    return frame.map_partitions(with_texts, column, tables, locale, skeleton, meta=like)


def main():
    parser = argparse.ArgumentParser(description=__doc__.splitlines()[0])
    for word in ("tables", "locale", "skeleton", "column"):
        parser.add_argument(word)
    parser.add_argument("files", nargs="+")
    words = parser.parse_args()
    frame = pandas.concat(map(pandas.read_csv, words.files), ignore_index=True)
    with_texts(frame, words.column, words.tables, words.locale, words.skeleton).to_csv(sys.stdout, index=False)


if __name__ == "__main__":
    main()
