#!/usr/bin/env python3
"""Random arguments and lines for the built program locnum, each answer judged by a model of its own.

usage: tests/hostile_locnum.py [WORDS [INPUTS [SEED [PROGRAM]]]], by default 1500 lists of arguments and 1500 inputs by seed 1; a
third as many inputs are explained, and the fields of as many others

The model of arguments has the command line (what isn't an option, is given twice or has no text) and the options, with each of
their faults. The model of lines has fields, headers, byte order marks, the width of fields, what becomes of texts that are
invalid, where the notes say that they stand and how they show them, and plain English numbers, money, percents and permilles: groups of
three, rounding to fraction digits, significant digits and increments by each mode, signs, symbols; that of CSV has quotes, what stands between them, and quotes without an end; that of
explanations has the parts of plain English numbers and their magnitudes. Standard output and standard error are compared whole,
but for a fault of the command line or a file, of whose text the beginning is known, for compact numbers, units and amounts with
names, of which lines are counted, and for explanations of all but plain numbers, of which the texts are compared.

The same arguments give the same cases. The last line is 'N passed, M failed', one for each kind of input and for what has to be
met in it. The models stand in tests/hostile_models/.
"""
import functools
import random
import sys
import tempfile
from collections.abc import Iterator, Sequence

from hostile_models import locnum_drawn
from hostile_models.counting import Case, Tally, ended_all, tally_of
from hostile_models.locnum_runs import MARK, answer_of, fits
from hostile_models.locnum_settings import ENDINGS
from hostile_models.numbers import LIMIT, NO_DECIMAL, OVERFLOW, TOO_LONG
from hostile_models.running import Program, Word, asked_of

ANY_INPUT = [NO_DECIMAL, TOO_LONG, OVERFLOW, "no end", "an end", "bytes that aren't UTF-8", "a long line", "status 0", "status 2"]
OF_LINES = [*ANY_INPUT, "a header longer than the input", "quotes without an end", "a byte order mark",
            "a field that no record has", "a number that holds the delimiter", "a name of no column", "status 1"]
OF_FIELDS = [kind for kind in ANY_INPUT if kind != OVERFLOW]
# From how many cases of a kind on all of its endings and kinds have to be met.
MANY = 400


def features_of(words: Sequence[str], given: bytes, end: bytes) -> Iterator[str]:
    """What an input has that is to be met."""
    lines = given.split(end)
    yield "no end" if lines[-1] else "an end"
    header = next((int(word.partition("=")[2]) for word in words if word.startswith("--header=")), 0)
    if header >= len(lines) > 1:
        yield "a header longer than the input"
    try:
        given.decode()
    except UnicodeDecodeError:
        yield "bytes that aren't UTF-8"
    if max(map(len, lines)) > 65536:
        yield "a long line"


def case_of(program: Program, words: Sequence[Word], given: bytes, features: Sequence[str] = ()) -> Case:
    """Whether the program's answer is that of the model."""
    met = [*features]
    settings, wanted = answer_of(words, given, met)
    answer = program.run(words, given)
    return Case(fits(answer, wanted, settings, met), words, given, answer, wanted, set(met))


def words_hold(program: Program, rng: random.Random, _: int) -> Case:
    """A list of words, and what it reads."""
    words, given = locnum_drawn.some_words(rng), rng.choice([b"", b"5\n", b"1234 x\n5", b"x\n"])
    return case_of(program, words, given)


def cut_holds(program: Program, rng: random.Random, cut: locnum_drawn.Cut) -> Case:
    """An input under words that cut it."""
    if "--csv" in cut.words and rng.random() < 0.9:
        given = locnum_drawn.some_records(rng, cut.delimiter or b",")
    else:
        given = locnum_drawn.some_lines(rng, cut.delimiter, cut.end)
    if cut.has_names and rng.random() < 0.9:
        given = locnum_drawn.a_header(rng, cut) + given
    given = (MARK if rng.random() < 0.1 else b"") + given
    return case_of(program, cut.words, given, [*features_of(cut.words, given, cut.end)])


def lines_hold(program: Program, rng: random.Random, _: int) -> Case:
    """An input under words that are accepted."""
    return cut_holds(program, rng, locnum_drawn.some_settings(rng))


def fields_hold(program: Program, rng: random.Random, _: int) -> Case:
    """An input whose chosen fields are explained."""
    return cut_holds(program, rng, locnum_drawn.some_settings(rng, explains=True))


def explained_hold(program: Program, rng: random.Random, _: int) -> Case:
    """An input that is explained."""
    words, given = locnum_drawn.some_explained(rng), locnum_drawn.some_explained_lines(rng)
    if rng.random() < 0.03:
        # rounded to more digits than there may be
        words, given = ["--explain", "--fraction=0"], b"9" * LIMIT + b".5"
    given += rng.choice([b"", b"\n"])
    return case_of(program, words, given, [*features_of(words, given, b"\n")])


def all_hold(tally: Tally, kinds: Sequence[str]) -> list[bool]:
    """Whether all cases of a kind hold, and whether all that is to be met is, which few cases needn't show."""
    print(f"{tally.runs()}; met {tally.met_of(kinds, ' endings and kinds')}", flush=True)
    return [tally.missed == 0, not tally.unmet(kinds) or tally.count < MANY]


def main() -> int:
    asked = asked_of(__doc__ or "", 1500, 1500, "locnum")
    with tempfile.TemporaryDirectory() as folder:
        program = Program(asked.path, folder)
        kinds = [("words", words_hold, asked.first, ENDINGS), ("lines", lines_hold, asked.second, OF_LINES),
                 ("explained", explained_hold, asked.second // 3, ANY_INPUT),
                 ("fields, explained", fields_hold, asked.second // 3, OF_FIELDS)]
        results = []
        for name, holds, count, wanted in kinds:
            results += all_hold(tally_of(name, functools.partial(holds, program), count, asked.seed, "locnum: "), wanted)
    return ended_all(results)


if __name__ == "__main__":
    sys.exit(main())
