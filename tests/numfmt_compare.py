#!/usr/bin/env python3
"""Compares locnum with numfmt of coreutils on the options that both have, over generated words and lines, and prints the
tables of docs/TESTING.md. Differences of a known kind are counted by its name; any other one is printed, and fails.

Looks don't make a kind. Each has a reason, which changes the input or the output of locnum in a known way; locnum then has
to write just what numfmt wrote, with the same status, and to reject the same texts. A case counts for a kind only
where the other kinds together don't make it equal.

Both run in the C locale, where numfmt has no separators (locnum has `--grouping=never`), and in a locale with English ones.
numfmt has `--round=nearest`: by itself it rounds away from zero what its long doubles hold, so that 1.20 becomes 1.21.
Numbers have 15 digits at most, which long doubles hold.

usage: tests/numfmt_compare.py PROGRAM CASES SEED LOCALE.., where LOCALE is C or the name of an English locale; that
many cases for each
"""
import collections
import functools
import os
import random
import re
import subprocess
import sys
from collections.abc import Callable, Collection, Sequence
from concurrent.futures import ThreadPoolExecutor
from typing import NamedTuple, TypeAlias

import usage

# A byte that no input has; locnum refuses a text with it, and it is taken out of what is written and told.
MARK = b"~"
NUMBER = re.compile(rb"-?(?:[0-9]+(?:\.[0-9]+)?|\.[0-9]+)")
# What numfmt tells of a text: it isn't a number, or has something behind its number.
TOLD = re.compile(
    rb"numfmt: (?:invalid number|invalid suffix in input|rejecting suffix in input): (.*?)(?: \(consider using --from\))?")
NOTE = re.compile(rb"locnum: (?:(?:line [0-9]+, field [0-9]+(?: \(.*?\))?|word [0-9]+): )?(.*): not a decimal", re.S)
# What locnum reports besides, where numfmt is silent.
ASIDE = re.compile(rb"locnum: (?:no record has field [0-9]+|.* holds the delimiter; --csv quotes it|to read a file: < .*|"
                   rb"standard input is read where no number is given)", re.S)
REFUSED = b"x abc 5x 1e3 1K 0x10 --5 5. . 1.2.3 1,000 nan - 5-5 $5 1_0".split()
UNUSUAL = b"0 -0 0.00 -0.0 000 0012 00.50 -007 +5 .5 -.5".split()
LISTS = "1 2 3 2- 1-2 -2 - 1,3 2,3- 1,1 3,1 4-5,1 7 02".split()
DELIMITERS = [None, None, None, b";", b",", b":", b"|", b" ", b"\t"]

# A word of a command.
Word: TypeAlias = str | bytes


class Field(NamedTuple):
    """A field: blanks in front of it, its text, what is behind it, and the byte that ends it."""

    before: bytes
    text: bytes
    behind: bytes
    separator: bytes


class Case(NamedTuple):
    """Words of both programs with what they mean, and lines or further words, and whether the last line has an end."""

    words: list[Word]
    locale: str
    mode: str
    delimiter: bytes | None
    fields: str | None
    header: int
    end: bytes
    is_words: bool
    lines: list[list[Field]]
    is_ended: bool


class Result(NamedTuple):
    """What a program gives: its status, its output, and the texts that it rejects, or else all that it says of them."""

    status: int
    output: bytes
    refused: list[bytes] | bytes


# What a kind of difference changes of a field.
Change: TypeAlias = Callable[[Case, Field], Field]


# What is asked.


def a_number(rng: random.Random, is_odd: bool) -> bytes:
    """A decimal of at most 15 digits; an odd one may have zeros in front."""
    digits = "".join(rng.choice("0123456789") for _ in range(rng.choice([1, 2, 3, 4, 4, 5, 6, 7, 9, 12, 15])))
    place = rng.choice([0, 0, 0, 1, 2, 2, 3])
    text = digits[:-place] + "." + digits[-place:] if 0 < place < len(digits) else digits
    if not is_odd or rng.random() < 0.9:
        text = re.sub(r"^0+(?=[0-9])", "", text)
    sign = "-" if rng.random() < 0.25 and text.strip("0.") else ""
    return (sign + text).encode()


def a_text(rng: random.Random, delimiter: bytes | None, is_odd: bool) -> bytes:
    """A number, or a text that is none; odd ones are written in other ways than numfmt's."""
    roll = rng.random()
    if roll < 0.75:
        return a_number(rng, is_odd)
    if roll < 0.8 and is_odd:
        return rng.choice(UNUSUAL)
    texts = [b"name", b"name", b"a-b", "é".encode(), *REFUSED, *([b"", b""] if delimiter else [])]
    return rng.choice([text for text in texts if not delimiter or delimiter not in text])


def some_blanks(rng: random.Random, delimiter: bytes | None, lengths: Sequence[int]) -> bytes:
    """Blanks that aren't the delimiter."""
    blanks = [blank for blank in (b" ", b" ", b"\t") if blank != delimiter]
    return b"".join(rng.choice(blanks) for _ in range(rng.choice(lengths)))


def a_line(rng: random.Random, delimiter: bytes | None, is_odd: bool) -> list[Field]:
    """The fields of a line; odd ones have blanks around their texts, tabs and carriage returns."""
    fields = []
    for _ in range(rng.choice([1, 1, 2, 3, 4, 6])):
        text = a_text(rng, delimiter, is_odd)
        before = some_blanks(rng, delimiter, [0, 0, 0, 1, 3, 9]) if is_odd else b""
        behind = some_blanks(rng, delimiter, [0, 0, 0, 0, 1, 2]) if is_odd and delimiter and text else b""
        separator = rng.choice([b" ", b" ", b" ", b"\t"]) if is_odd else b" "
        fields.append(Field(before, text, behind, delimiter or separator))
    if not delimiter and rng.random() < 0.1:
        fields.append(Field(some_blanks(rng, None, [0, 0, 1, 2]), b"", b"", b""))
    last = fields.pop()
    end = b"\r" if is_odd and rng.random() < 0.1 else b""
    return [*fields, last._replace(behind=last.behind + end, separator=b"")]


def a_case(number: int, seed: str, locale: str) -> Case:
    """Words, and lines of input or further words."""
    rng = random.Random(f"{seed} {locale} {number}")
    mode = rng.choice(["abort", "fail", "warn", "ignore", None])
    delimiter, fields = rng.choice(DELIMITERS), rng.choice([None, *LISTS])
    header, end = rng.choice([0, 0, 0, 0, 1, 2, 9]), rng.choice([b"\n", b"\n", b"\n", b"\0"])
    words: list[Word] = [*([f"--invalid={mode}"] if mode else [])]
    if delimiter:
        words += rng.choice([["-d", delimiter], ["--delimiter", delimiter]])
    if fields:
        words += rng.choice([["--field", fields], [f"--field={fields}"]])
    if header:
        words += [f"--header={header}" if header > 1 else rng.choice(["--header", "--header=1"])]
    if end == b"\0":
        words += [rng.choice(["-z", "--zero-terminated"])]
    if rng.random() < 0.6:
        words += ["--grouping"]
    columns = rng.choice([None, None, None, None, 1, 8, 20, -1, -9])
    if columns:
        words += rng.choice([[f"--padding={columns}"], ["--padding", str(columns)]])
    is_odd = rng.random() < 0.5
    lines = [a_line(rng, delimiter, is_odd) for _ in range(rng.choice([0, 1, 2, 5, 12]))]
    is_words = len(lines) > 0 and rng.random() < 0.2
    # a last line without a byte is none
    is_ended = is_words or not is_odd or rng.random() < 0.8 or not lines or not line_of(lines[-1])
    return Case(words, locale, mode or "abort", delimiter, fields, header, end, is_words, lines, is_ended)


def line_of(fields: Sequence[Field]) -> bytes:
    return b"".join(b"".join(field) for field in fields)


def ran(program: str, words: Sequence[Word], case: Case) -> subprocess.CompletedProcess[bytes]:
    """What a program does with the lines of a case, as lines of input or as words."""
    lines = [line_of(line) for line in case.lines]
    given = b"".join(line + case.end for line in lines)
    environment = {**os.environ, "LC_ALL": case.locale}
    if case.is_words:
        command = [program, *words, "--", *lines]
        return subprocess.run(command, stdin=subprocess.DEVNULL, capture_output=True, timeout=60, env=environment)
    given = given if case.is_ended else given[:-1]
    return subprocess.run([program, *words], input=given, capture_output=True, timeout=60, env=environment)


def printable(text: bytes) -> bytes:
    """A text as locnum shows it: control characters as question marks, and nothing by a word."""
    return re.sub(rb"[\x00-\x1f\x7f]", b"?", text) or b"(empty)"


def unquoted(text: bytes) -> bytes:
    """A text as numfmt has it between quotes, in the C locale or another."""
    quoted = re.fullmatch(rb"(?:'|\xe2\x80\x98)(.*)(?:'|\xe2\x80\x99)", text)
    text = (quoted[1] if quoted else text).replace(b"\\t", b"\t").replace(b"\\r", b"\r")
    return re.sub(rb"\\([0-7]{3})", lambda code: bytes([int(code[1], 8)]), text)


def texts_told(form: re.Pattern[bytes], lines: Sequence[bytes]) -> list[bytes] | None:
    """The texts of which lines in this form tell, or None where a line hasn't this form."""
    found = [form.fullmatch(line) for line in lines]
    return [match[1] for match in found if match] if all(found) else None


def result_of_numfmt(case: Case) -> Result:
    """What numfmt gives. Where it tells anything but texts, that stands for them."""
    done = ran("numfmt", [*case.words, "--round=nearest"], case)
    texts = texts_told(TOLD, done.stderr.split(b"\n")[:-1])
    return Result(done.returncode, done.stdout, done.stderr if texts is None else [printable(unquoted(text)) for text in texts])


def result_of_locnum(program: str, case: Case) -> Result:
    """The same of locnum, which writes separators as numfmt does in the locale."""
    is_grouped = "--grouping" in case.words and case.locale != "C"
    words = [word for word in case.words if word != "--grouping"] + [f"--grouping={'auto' if is_grouped else 'never'}"]
    done = ran(program, words, case)
    notes = [line.replace(MARK, b"") for line in done.stderr.split(b"\n")[:-1]]
    texts = texts_told(NOTE, [line for line in notes if not ASIDE.fullmatch(line)])
    output = done.stdout.replace(MARK, b"")
    return Result(done.returncode, output, done.stderr if texts is None else [text or b"(empty)" for text in texts])


# The known kinds. Each changes a field of a line that isn't of the header, or the whole case.


def is_chosen(fields: str | None, index: int) -> bool:
    """Whether a list has a field of this number."""
    for part in (fields or "1").split(","):
        first, dash, last = part.partition("-")
        if int(first or 1) <= index <= (int(last or sys.maxsize) if dash else int(first)):
            return True
    return False


def is_refused(field: Field) -> bool:
    return not NUMBER.fullmatch(field.text + field.behind)


def plus_refused(case: Case, field: Field) -> Field:
    return field._replace(text=field.text + MARK) if field.text.startswith(b"+") else field


def behind_refused(case: Case, field: Field) -> Field:
    return field._replace(behind=field.behind + MARK) if field.behind else field


def zeros_dropped(case: Case, field: Field) -> Field:
    return field if is_refused(field) else field._replace(text=re.sub(rb"^(-?)0+(?=[0-9])", rb"\1", field.text))


def minus_dropped(case: Case, field: Field) -> Field:
    return field._replace(text=field.text[1:]) if re.fullmatch(rb"-[0.]+", field.text) and not is_refused(field) else field


def blanks_dropped(case: Case, field: Field) -> Field:
    return field._replace(before=b"") if case.delimiter and not is_refused(field) else field


def blanks_not_written(case: Case, field: Field) -> Field:
    is_end = case.mode == "abort" and is_refused(field)
    # marked, so that a line which had nothing else stays one
    return field._replace(before=b"", text=field.text + MARK) if is_end else field


def composed(*changes: Change) -> Change:
    """What changes a field in these ways, one behind the other."""
    return lambda case, field: functools.reduce(lambda changed, change: change(case, changed), changes, field)


SPACED = "a tab that ends a field without a delimiter: numfmt writes a space"
ENDED = "ends of lines: numfmt loses those of a header that end in NUL, and writes none that the input lacks"
FIELD_KINDS = {
    "a plus sign, and blanks or a carriage return behind a number: numfmt refuses them": composed(plus_refused, behind_refused),
    "zeros in front, and the sign of zero: numfmt drops them": composed(zeros_dropped, minus_dropped),
    "blanks in front of a number with a delimiter, or of the text at which a run ends: numfmt doesn't write them":
        composed(blanks_dropped, blanks_not_written),
}
KINDS = [SPACED, *FIELD_KINDS, ENDED]
OTHER = "any other"


def changed_field(case: Case, kinds: Collection[str], field: Field, index: int) -> Field:
    """A field with what these kinds change of it."""
    if SPACED in kinds and not case.delimiter and field.separator:
        field = field._replace(separator=b" ")
    if not is_chosen(case.fields, index):
        return field
    old = field
    for name, change in FIELD_KINDS.items():
        field = change(case, field) if name in kinds else field
    return in_its_width(case, old, field, index)


def in_its_width(case: Case, old: Field, field: Field, index: int) -> Field:
    """A field that has lost bytes of its text, in the width that it had, which is that of its number."""
    lost = len(old.text) - len(field.text.replace(MARK, b""))
    is_asked = any(str(word).startswith("--padding") for word in case.words)
    if case.delimiter or is_asked or lost <= 0 or index == 1 and not old.before:
        return field
    return field._replace(before=b" " * lost + field.before)


def changed(case: Case, kinds: Collection[str]) -> Case:
    """A case with what these kinds change of it."""
    header = 0 if case.is_words else case.header
    front, lines = case.lines[:header], case.lines[header:]
    lines = [[changed_field(case, kinds, field, place + 1) for place, field in enumerate(line)] for line in lines]
    return case._replace(lines=front + lines)


def result_by(program: str, case: Case, kinds: Collection[str]) -> Result:
    """What locnum gives where these kinds have changed what it reads, and what it wrote."""
    result = result_of_locnum(program, changed(case, kinds))
    if ENDED in kinds and case.end == b"\0" and not case.is_words:
        result = result._replace(output=result.output.replace(b"\0", b"", min(case.header, len(case.lines))))
    is_stopped = case.mode == "abort" and result.status == 2
    if ENDED in kinds and not case.is_ended and not is_stopped:
        return result._replace(output=result.output.removesuffix(case.end))
    return result


def kinds_of(program: str, case: Case) -> tuple[list[str], Result, Result]:
    """Which kinds a case needs so that locnum gives what numfmt does: none where it does so by itself; and both results."""
    theirs, ours = result_of_numfmt(case), result_of_locnum(program, case)
    if ours == theirs:
        return [], theirs, ours
    if result_by(program, case, KINDS) != theirs:
        return [OTHER], theirs, result_by(program, case, KINDS)
    whole, needed = changed(case, KINDS), []
    for kind in KINDS:
        others = [each for each in KINDS if each != kind]
        is_same = kind != ENDED and changed(case, others) == whole
        if not is_same and result_by(program, case, others) != theirs:
            needed.append(kind)
    # where either of two would do, the first is told
    alone = next((kind for kind in KINDS if not needed and result_by(program, case, [kind]) == theirs), OTHER)
    return needed or [alone], theirs, ours


# Words that are refused.

# Words of which the programs judge differently: the statuses of numfmt and of locnum, and why.
KNOWN_WORDS = {
    ("--field=1 2",): (0, 1, "a list of fields may have blanks between its parts"),
    ("--delimiter=",): (2, 1, "an empty delimiter is NUL, which no line has"),
}
WORDS = [("--header=x",), ("--header=-1",), ("--header=",), ("--header=1.5",), ("--invalid=x",), ("--invalid=",),
         ("--unknown",), ("--delimiter=ab",), ("-d", "ab"), ("-q",), ("--field",), ("--invalid",), ("-d",),
         ("--zero-terminated=1",), ("--header=99999999999999999999999",), ("--field=99999999999999999999999",),
         ("--field=a",), ("--field=1,a",), ("--header=0",), ("--fiel=1",), ("--inv=warn",)]


def a_list(rng: random.Random) -> str:
    """A list of fields, or nearly one."""
    return "".join(rng.choice("0112233--,,") for _ in range(rng.randint(0, 6)))


def statuses_of(program: str, words: Sequence[str]) -> list[tuple[int, bytes]]:
    """The statuses and outputs of numfmt and of locnum for these words and one line."""
    runs = [subprocess.run([*start, *words], input=b"1234 5678 9012 345\n", capture_output=True, timeout=60)
            for start in (["numfmt"], [program, "--grouping=never"])]
    return [(run.returncode, run.stdout if run.returncode == 0 else b"") for run in runs]


def judged_words(program: str, count: int, seed: str) -> tuple[list[str], int]:
    """Lists of words on whose status or output the programs differ, but for those that are known, and how many there are."""
    rng = random.Random(f"{seed} words")
    lists = [*WORDS, *((f"--field={a_list(rng)}",) for _ in range(count))]
    unknown = []
    for words in lists:
        theirs, ours = statuses_of(program, words)
        if theirs != ours:
            unknown.append(f"{' '.join(words)}: numfmt {theirs}, locnum {ours}")
    for words, (their_status, our_status, _) in KNOWN_WORDS.items():
        theirs, ours = statuses_of(program, words)
        if (theirs[0], ours[0]) != (their_status, our_status):
            unknown.append(f"{' '.join(words)}: numfmt {theirs}, locnum {ours}, known are {their_status} and {our_status}")
    return unknown, len(lists) + len(KNOWN_WORDS)


# The whole.


def shown(case: Case, theirs: Result, ours: Result) -> str:
    """A case and what came out of it, as one text."""
    given = [line_of(line) for line in case.lines]
    return f"{case.locale} {case.words} {'words' if case.is_words else 'lines'} {given}: numfmt {theirs}, locnum {ours}"


def main(program: str, count: str, seed: str, *locales: str) -> int:
    cases = [a_case(number, seed, locale) for locale in locales for number in range(int(count))]
    with ThreadPoolExecutor() as runs:
        found = list(runs.map(lambda case: kinds_of(program, case), cases))
    counted: collections.Counter[str] = collections.Counter()
    examples: dict[str, str] = {}
    for case, (kinds, theirs, ours) in zip(cases, found):
        counted.update(kinds or ["equal"])
        if kinds == [OTHER]:
            print(f"numfmt: {shown(case, theirs, ours)}")
        elif len(kinds) == 1 and len(line_of(sum(case.lines, []))) < len(examples.get(kinds[0], " " * 999)):
            examples[kinds[0]] = shown(case, theirs, ours)
    unknown, words = judged_words(program, int(count) // 4, seed)
    for text in unknown:
        print(f"numfmt: {text}")
    lines = sum(len(case.lines) for case in cases)
    print("\n| locales | runs of each program | lines | equal by themselves |\n|---|---|---|---|")
    print(f"| {', '.join(locales)} | {len(cases):,} | {lines:,} | {counted['equal']:,} |")
    print("\n| difference | runs |\n|---|---|")
    for kind in [*KINDS, OTHER]:
        print(f"| {kind} | {counted[kind]:,} |")
    print(f"\n{words} lists of words: {len(KNOWN_WORDS)} known differences, {len(unknown)} others")
    # each kind has to be met, so that none is known without a need
    unmet = [kind for kind in KINDS if not counted[kind] and int(count) >= 1000]
    for kind in unmet:
        print(f"numfmt: not met: {kind}")
    failed = counted[OTHER] + len(unknown) + len(unmet)
    print(f"{len(cases) + words - counted[OTHER] - len(unknown)} passed, {failed} failed")
    return 1 if failed else 0


if __name__ == "__main__":
    sys.exit(main(*usage.words_of(__doc__, 4, 1000)))
