#!/usr/bin/env python3
"""Random and damaged tables, arguments and lines for the built program decfmt, each answer judged by a model of its own.

usage: tests/hostile.py [TABLES [LINES [SEED [PROGRAM]]]], by default 600 tables and 6000 lines by seed 1

Tables are valid (the status and the lines are known, in each style), valid but for one fault that has a name (status 3),
and damaged in some bytes (status 0, 3 or 4, and 3 where Python doesn't read them as JSON). Named faults come in turn, so
that each is drawn; so do the arguments beside valid tables, and those beside the sample tables. Every run has to end
by itself, with a status, standard output and standard error that belong together. The last part takes inputs of one shape
in four sizes, and compares their processor times. The same arguments give the same cases. The last line is
'N passed, M failed', one for each kind of input. The models stand in tests/hostile_models/.
"""
import functools
import json
import os
import random
import re
import sys
import tempfile
from collections.abc import Sequence

from hostile_models import decfmt_drawn, decfmt_faults, decfmt_shapes
from hostile_models.counting import Case, Tally, ended_all, tally_of
from hostile_models.decfmt_drawn import GROUPINGS, a_number
from hostile_models.decfmt_faults import NAMED_FAULTS, damaged
from hostile_models.decfmt_lines import Tables, answer_of, formatter_of, tables_of
from hostile_models.numbers import LIMIT
from hostile_models.running import ROOT, Answer, Program, Word, asked_of

SAMPLE = os.path.join(ROOT, "tables/sample.json")
USAGE = "usage: decfmt TABLES LOCALE NU|- plain|short|long [auto|never|always|min2]\n"
ERRORS = {0: "", 2: USAGE, 3: "error: tables refused\n", 4: "error: no data\n"}
NUMBERS = ["5", "-1234567.25", "+0012", "-0", ".5", "1e3", "999999"]
CARRIES = ["999500", "999499", "9949", "9950", "99950", "-99949", "1650", "+1750", "0.0995", "0.00994", ".0945", "9.95",
           "0999500", "00099.5", "-999999.5", "0", "1", "1.0", "+1.50", "1000", "0001000", "1000000", "-2000000",
           "1" + 18 * "0"]
SLOTS = [*decfmt_drawn.ELEMENTS, "other", "no entry"]
FAULTS = [f"fault {number}" for number in range(NAMED_FAULTS)]
PLAIN = ["bn - plain", "ar-EG - plain", "ar-EG latn plain", "es-MX - plain", "es-MX beng plain", "th - plain",
         "ja thai plain", "fr - plain"]
COMPACT = ["en - short", "en beng short", "en - long", "fr - long", "bn - long", "ja - long", "fr arab long"]
FORMS: list[list[str]] = [[], *(form.split() + grouping for grouping in GROUPINGS for form in ["en - plain", *COMPACT])]
FORMS += [form.split() + GROUPINGS[place % 5] for place, form in enumerate(PLAIN)]
# How many lines are given at once, beside a long one, and from how many valid tables on each slot has to be met.
BATCH, MANY = 160, 200


def run_tables(program: Program, number: int, text: bytes, words: Sequence[str], lines: Sequence[str] = NUMBERS) -> Answer:
    """What the program answers by these bytes as tables, on these lines."""
    path = os.path.join(program.folder, f"{number}.json")
    with open(path, "wb") as file:
        file.write(text)
    answer = program.run([path, *words], "".join(f"{line}\n" for line in lines).encode())
    os.unlink(path)
    return answer


def belongs_together(answer: Answer, statuses: Sequence[int], count: int) -> bool:
    """Whether the status is one of these, and output and error are those of the status: that many lines, or none."""
    if answer.status is None or answer.status not in statuses or answer.error != ERRORS[answer.status].encode():
        return False
    output = answer.output
    return output.count(b"\n") >= count and output.endswith(b"\n") if answer.status == 0 else not output


def holds_valid(program: Program, rng: random.Random, number: int) -> Case:
    """Valid tables: 4, or 0 and the lines."""
    tables = decfmt_drawn.valid_tables(rng)
    words, text = decfmt_drawn.some_words(rng, tables, number), decfmt_drawn.written(rng, tables.document())
    lines = NUMBERS + CARRIES + [a_number(rng) for _ in range(40)]
    formatter = formatter_of(tables, words)
    answer = run_tables(program, number, text, words, lines)
    if formatter is None:
        return Case(belongs_together(answer, [4], 0), words, text, answer)
    picked: list[str] = []
    output = "".join(f"{answer_of(line.encode(), formatter, picked)}\n" for line in lines)
    wanted = Answer(0, output.encode(), b"")
    return Case(answer == wanted, words, text, answer, wanted, picked)


def holds_faulty(program: Program, rng: random.Random, number: int) -> Case:
    """Tables with one fault, each in its turn: 3."""
    fault = number % NAMED_FAULTS
    tables = decfmt_drawn.valid_tables(rng)
    words, text = decfmt_drawn.some_words(rng, tables, number), decfmt_faults.faulty(rng, tables, fault)
    answer = run_tables(program, number, text, words)
    return Case(belongs_together(answer, [3], 0), words, text, answer, met=[FAULTS[fault]])


def holds_damaged(program: Program, rng: random.Random, number: int) -> Case:
    """Tables with damaged bytes: 0, 3 or 4, and 3 where they are no JSON."""
    tables = decfmt_drawn.valid_tables(rng)
    words = decfmt_drawn.some_words(rng, tables, number)
    text = damaged(rng, decfmt_drawn.written(rng, tables.document()))
    answer = run_tables(program, number, text, words)
    statuses = [0, 3, 4] if decfmt_faults.is_read_by_python(text) else [3]
    return Case(belongs_together(answer, statuses, len(NUMBERS)), words, text, answer)


def some_wrong_words(rng: random.Random) -> list[bytes]:
    """Words, all at random or right ones with a few at random."""
    pools = [[SAMPLE.encode()], [b"en", b"", b"e_n", b"x" * 64, b"\xff", b"fr"], [b"-", b"latn", b"la", b"Latn", b"\xc3"]]
    pools += [[b"plain", b"short", b"Plain", b""], [b"auto", b"min3", b"\xff\xfe"]]
    share = rng.choice([0.3, 1])
    words = [rng.choice(pool) if rng.random() < share else pool[0] for pool in pools][: rng.choice([5, 5, 4, 4, 3, 2, 1])]
    return words + [b"auto"] * rng.choice([0, 0, 0, 1])


def are_right_words(words: Sequence[bytes]) -> bool:
    """Whether the words are such as the usage line says."""
    forms = [rb"(?s).*", rb"[A-Za-z0-9-]{1,63}", rb"-|[a-z0-9]{3,8}", rb"plain|short|long", rb"auto|never|always|min2"]
    return len(words) in (4, 5) and all(re.fullmatch(form, word) for form, word in zip(forms, words))


def holds_words(program: Program, rng: random.Random, _: int) -> Case:
    """Words: 2 where they are wrong, and else 0 or 4."""
    words = some_wrong_words(rng)
    answer = program.run(words, b"5\n")
    return Case(belongs_together(answer, [0, 4] if are_right_words(words) else [2], 1), words, b"", answer)


def a_line(rng: random.Random) -> bytes:
    """A line without its end: a decimal, nearly one, or bytes."""
    if rng.random() < 0.4:
        return a_number(rng).encode()
    digits = "".join(rng.choice("0123456789099") for _ in range(rng.choice([1, 2, 3, 4, 6, 7, 8, 13, 20, 40])))
    place = rng.randint(0, len(digits))
    line = rng.choice(["", "", "-", "+"]) + rng.choice([digits, digits[:place] + "." + digits[place:]])
    chance = rng.random()
    if chance < 0.7:
        return line.encode()
    if chance < 0.9:
        return damaged(rng, line.encode()).replace(b"\n", b"")
    return bytes(rng.randrange(256) for _ in range(rng.randint(0, 12))).replace(b"\n", b"")


def a_long_line(rng: random.Random) -> bytes:
    """A line near the limit of digits."""
    digits = rng.choice("0159") * rng.randint(LIMIT - 2, LIMIT + 2)
    return (rng.choice(["", "-"]) + rng.choice(["", ".", "5."]) + digits + rng.choice(["", "", "", "x"])).encode()


def holds_lines(program: Program, sample: Tables, rng: random.Random, number: int) -> Case:
    """A batch of lines at once by the sample tables: each has its answer."""
    form = FORMS[number % len(FORMS)]
    formatter = formatter_of(sample, form or ["en", "-", "plain"])
    assert formatter, form
    lines = [a_line(rng) for _ in range(BATCH)] + [a_long_line(rng)]
    rng.shuffle(lines)
    ended = [line + rng.choice([b"", b"", b"", b"\r"]) for line in lines]
    given = b"\n".join(ended) + rng.choice([b"", b"\n"])
    texts = [answer_of(line[:-1] if line.endswith(b"\r") else line, formatter, []) for line in ended]
    if not ended[-1] and not given.endswith(b"\n"):
        texts.pop()
    if given.endswith(b"\n") and not ended[-1]:
        texts = texts[: given.count(b"\n")]
    words: list[Word] = [SAMPLE, *form] if form else []
    answer, wanted = program.run(words, given), Answer(0, "".join(f"{line}\n" for line in texts).encode(), b"")
    return Case(answer == wanted, words, given, answer, wanted)


def holds_all(tally: Tally) -> bool:
    """Whether all cases of a kind hold, which its line shows."""
    counts = ", ".join(f"status {status}: {tally.statuses[status]}" for status in sorted(tally.statuses, key=str))
    print(f"{tally.runs()} ({counts})", flush=True)
    return tally.missed == 0


def are_all_met(name: str, tally: Tally, kinds: Sequence[str], are_many: bool = True) -> bool:
    """Whether each of these kinds was met, which few cases needn't show."""
    print(f"hostile: {name}: {tally.met_of(kinds)}", flush=True)
    return not tally.unmet(kinds) or not are_many


def main() -> int:
    asked = asked_of(__doc__ or "", 600, 6000, "decfmt")
    with open(SAMPLE, encoding="utf-8") as file:
        sample = tables_of(json.load(file))
    with tempfile.TemporaryDirectory() as folder:
        program, third = Program(asked.path, folder), (asked.first + 2) // 3
        valid = tally_of("valid tables", functools.partial(holds_valid, program), third, asked.seed)
        results = [holds_all(valid), are_all_met("slots picked, and no entry", valid, SLOTS, third >= MANY)]
        faulty = functools.partial(holds_faulty, program)
        faults = tally_of("tables with one fault", faulty, max(third, NAMED_FAULTS), asked.seed)
        results += [holds_all(faults), are_all_met("named faults drawn", faults, FAULTS)]
        results += [
            holds_all(tally_of("damaged tables", functools.partial(holds_damaged, program), third, asked.seed)),
            holds_all(tally_of("words", functools.partial(holds_words, program), (asked.first + 9) // 10, asked.seed)),
            holds_all(tally_of(f"{BATCH + 1} lines at a time", functools.partial(holds_lines, program, sample),
                               max((asked.second + BATCH - 1) // BATCH, len(FORMS)), asked.seed)),
        ]
        for inputs in zip(*(decfmt_shapes.shapes(size) for size in decfmt_shapes.SIZES)):
            results.append(decfmt_shapes.is_linear(program, inputs))
    return ended_all(results)


if __name__ == "__main__":
    sys.exit(main())
