"""Inputs of one shape in several sizes, and the processor time that decfmt takes for them."""
import json
import math
import os
import resource
import subprocess
from collections.abc import Iterator, Sequence
from dataclasses import dataclass

from hostile_models.numbers import LIMIT
from hostile_models.running import Program

ENTRY = {"locale": "a", "minus": ["-", ""], "plus": ["+", ""], "decimal": ".", "group": ",", "numsys": "latn", "sizes": [3, 3, 1]}
LAST = ENTRY | {"locale": "en"}
DIGITS = [["latn", "0123456789"]]
SIZES = [2**18, 2**20, 2**22, 2**24]
FEW, PLAIN, SHORT = b"5\n", ["en", "-", "plain"], ["en", "-", "short"]


@dataclass(frozen=True)
class Shape:
    """An input of a shape: the status that is wanted, the tables, without which the program has no words, words and lines."""

    name: str
    status: int
    tables: bytes | None
    words: Sequence[str]
    given: bytes

    def length(self) -> int:
        """The bytes of the tables and of the lines."""
        return len(self.tables or b"") + len(self.given)


def tables_by(**more: object) -> bytes:
    """Tables with symbols of `en`, and more."""
    return json.dumps({"symbols": [LAST], "digits": DIGITS} | more).encode()


def shapes(size: int) -> Iterator[Shape]:
    """Shapes of about that many bytes, one after another."""
    no_rules, rule = [{"locale": "en", "rules": []}], ["one", "i = 1"]
    table = [{"locale": "en", "patterns": [[3, 3, {"other": "{0}K"}]]}]
    other = {"locale": "a", "patterns": [[3, 3, {"other": "{0}K"}]]}
    longest = b"9" * LIMIT + b"\n"
    yield Shape("digits in one line", 0, None, [], b"9" * size)
    yield Shape("line feeds", 0, None, [], b"\n" * size)
    yield Shape("longest numbers", 0, None, [], longest * (size // LIMIT))
    short_tables = tables_by(rules=no_rules, short=table)
    yield Shape("longest short numbers", 0, short_tables, SHORT, longest.replace(b"9", b"1") * (size // LIMIT))
    yield Shape("entries", 0, json.dumps({"symbols": [ENTRY] * (size // 110) + [LAST], "digits": DIGITS}).encode(), PLAIN, FEW)
    yield Shape("unknown keys", 0, tables_by(**{str(key): key for key in range(size // 15)}), PLAIN, FEW)
    yield Shape("one key again and again", 0, b"{" + b'"x":1,' * (size // 6) + tables_by()[1:], PLAIN, FEW)
    yield Shape("a long text", 0, tables_by(x="\u00e9" * (size // 6)), PLAIN, FEW)
    yield Shape("open brackets", 3, b"[" * size, PLAIN, FEW)
    yield Shape("a long number", 3, b'{"x":' + b"9" * size + b"}", PLAIN, FEW)
    conditions = [["one", " and ".join(["i = 1"] * (size // 10))]]
    yield Shape("a long condition", 0, tables_by(rules=[{"locale": "en", "rules": conditions}], short=table), SHORT, FEW)
    yield Shape("many rules", 0, tables_by(rules=[{"locale": "en", "rules": [rule] * (size // 16)}], short=table), SHORT, FEW)
    yield Shape("many compact tables", 0, tables_by(rules=no_rules, short=[other] * (size // 60) + table), SHORT, FEW)


def seconds_of(program: Program, shape: Shape) -> float:
    """The processor seconds of a run whose lines come from a file, in whole blocks; infinite where it doesn't end well."""
    paths = [os.path.join(program.folder, name) for name in ["shape.json", "shape.txt"]]
    for path, content in zip(paths, [shape.tables, shape.given]):
        with open(path, "wb") as file:
            file.write(content or b"")
    before = resource.getrusage(resource.RUSAGE_CHILDREN)
    with open(paths[1], "rb") as lines:
        command = [program.path, *([] if shape.tables is None else [paths[0], *shape.words])]
        try:
            ended = subprocess.run(command, stdin=lines, stdout=subprocess.DEVNULL, stderr=subprocess.DEVNULL, timeout=30)
        except subprocess.TimeoutExpired:
            return math.inf
    after = resource.getrusage(resource.RUSAGE_CHILDREN)
    seconds = after.ru_utime + after.ru_stime - before.ru_utime - before.ru_stime
    return seconds if ended.returncode == shape.status else math.inf


def is_linear(program: Program, inputs: Sequence[Shape]) -> bool:
    """Whether inputs take no more than three times as much processor time as they are longer than the first."""
    seconds = [min(seconds_of(program, each) for _ in range(times)) for each, times in zip(inputs, [3, 2, 2, 2])]
    lengths = [each.length() for each in inputs]
    most = [3 * length / lengths[0] * seconds[0] + 0.05 for length in lengths]
    holds = all(took <= bound for took, bound in zip(seconds, most))
    shown = ", ".join(f"{length / 2**20:.2f} MiB {took:.3f} s" for length, took in zip(lengths, seconds))
    print(f"hostile: {inputs[0].name}: {shown}{'' if holds else ': NOT LINEAR'}", flush=True)
    return holds
