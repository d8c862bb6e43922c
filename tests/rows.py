#!/usr/bin/env python3
"""Judges the files of rows, and plants faults in copies of them, each of which the programs of rows have to report.

usage: tests/rows.py [PROGRAM..], by default each program of rows, as `rt run` and `rt ci` build them

- The program writes what crates/PROGRAM/stdout has: it prints each row of wrong.rows, and no other row.
- Each file of data/ is named in crates/PROGRAM/args, and each call that is counted has a row in wrong.rows.
- The output is another one if a row wants another answer, if a row is deleted, if the call of a row is misspelled, each in
  one row of each file, and if a file isn't named in args.
- The output is another one if the program counts rows without looking at answers. For this the sources are changed and run
  unproved.

The last line is 'N passed, M failed'.
"""
import os
import re
import shutil
import subprocess
import sys
import tempfile
from collections.abc import Iterator, Sequence

import edits
import usage

WRONG = "wrong.rows"
# How the judge of rows compares an answer, and how it finds any answer right.
JUDGE = "crates/rows/src/asking.rt"
COMPARES = "Some(text) if text.as_str() == wanted => Outcome::Right,"
NEVER_COMPARES = "Some(text) if text.len() < usize::MAX => Outcome::Right,"
counts = {True: 0, False: 0}


def judge(held: object, name: str) -> None:
    """Counts a case, and names one that failed."""
    counts[bool(held)] += 1
    if not held:
        print(f"rows: {name}")


def lines_of(path: str) -> list[str]:
    with open(path, encoding="utf-8") as file:
        return file.read().splitlines()


def rows_of(lines: Sequence[str]) -> list[int]:
    """Where the rows stand among the lines of a file, from 0 on."""
    return [at for at, line in enumerate(lines) if line and not line.startswith("#")]


class Rows:
    """A program of rows, with a copy of its data in a folder."""

    def __init__(self, program: str, folder: str) -> None:
        self.program = program
        self.home = os.path.join(edits.ROOT, "crates", program)
        self.names = lines_of(f"{self.home}/args")
        self.folder = os.path.join(folder, program)
        shutil.copytree(f"{self.home}/data", self.folder)

    def said(self, names: Sequence[str]) -> list[str]:
        """What the program prints for these files of the copy."""
        done = subprocess.run([f"{self.home}/out/{self.program}", *names], cwd=self.folder, stdout=subprocess.PIPE, timeout=120)
        return done.stdout.decode("utf-8", "replace").splitlines()

    def said_with(self, name: str, lines: Sequence[str]) -> list[str]:
        """What the program prints where a file of rows has these lines."""
        path = os.path.join(self.folder, name)
        before = lines_of(path)
        try:
            with open(path, "w", encoding="utf-8") as file:
                file.writelines(f"{line}\n" for line in lines)
            return self.said(self.names)
        finally:
            with open(path, "w", encoding="utf-8") as file:
                file.writelines(f"{line}\n" for line in before)


def planted(lines: Sequence[str], at: int) -> Iterator[tuple[str, list[str]]]:
    """The faults that are planted in a row of a file: what each is, and the file's lines with it."""
    before, row, behind = list(lines[:at]), lines[at], list(lines[at + 1:])
    yield "it wants another answer", [*before, f"{row}{{7E}}", *behind]
    yield "it is deleted", before + behind
    yield "its call is misspelled", [*before, re.sub(r"^\S+", r"\g<0>_misspelled", row), *behind]


def judge_files(rows: Rows, wanted: Sequence[str]) -> None:
    """The files of data/, the calls, and the rows that are printed."""
    others = sorted(set(os.listdir(rows.folder)) ^ set(rows.names))
    judge(not others, f"{rows.program}: not both in data/ and in args: {', '.join(others)}")
    counted = re.findall(r"^(\S+\.rows): (\S+) \d+$", "\n".join(wanted), flags=re.M)
    missing = sorted({call for _, call in counted} - {call for file, call in counted if file == WRONG})
    judge(counted and not missing, f"{rows.program}: these calls have no row in {WRONG}: {', '.join(missing)}")
    printed = re.findall(r"^(\S+\.rows):(\d+): ", "\n".join(wanted), flags=re.M)
    wrong = [(WRONG, str(at + 1)) for at in rows_of(lines_of(os.path.join(rows.folder, WRONG)))]
    judge(printed == wrong, f"{rows.program}: not just the rows of {WRONG} are printed: {sorted(set(printed) ^ set(wrong))}")


def judge_faults(rows: Rows, wanted: Sequence[str]) -> None:
    """Each fault that is planted in a row of each file, and each file that args doesn't name."""
    for name in [name for name in rows.names if name.endswith(".rows")]:
        lines = lines_of(os.path.join(rows.folder, name))
        places = rows_of(lines)
        judge(places, f"{rows.program}: {name} has no row")
        for at in places[len(places) // 2:][:1]:
            for fault, changed in planted(lines, at):
                judge(rows.said_with(name, changed) != wanted, f"{rows.program}: {name}:{at + 1}: {fault}, and the output is as before")
    for name in rows.names:
        judge(rows.said([it for it in rows.names if it != name]) != wanted, f"{rows.program}: {name} isn't named, and the output is as before")


def judge_unseen(rows: Rows) -> None:
    """A program that finds each row right without looking at the answer."""
    with tempfile.TemporaryDirectory(prefix="rt-rows-") as room:
        for file in ("crates.txt", "HANDLES"):
            shutil.copy(os.path.join(edits.ROOT, file), room)
        for crate in edits.USES:
            edits.copy_crate(crate, os.path.join(room, "crates", crate))
        path = os.path.join(room, JUDGE)
        text = edits.read(path)
        judge(text.count(COMPARES) == 1, f"{JUDGE}: this isn't there once: {COMPARES}")
        with open(path, "w", encoding="utf-8") as changed:
            changed.write(text.replace(COMPARES, NEVER_COMPARES))
        names = [name for name in rows.names if not name.endswith(".rows") or name == WRONG]
        wanted = rows.said(names)
        words = ["rt", "try", "--", *[os.path.join(rows.folder, name) for name in names]]
        said = edits.ran(words, os.path.join(room, "crates", rows.program)).splitlines()
        is_run = any(line.startswith("run=ended status=0") for line in said)
        same = [line for line in said if line in wanted]
        judge(is_run and same != wanted, f"{rows.program}: it doesn't look at answers, and its output is as before: {said[:2]}")


def main() -> int:
    asked = usage.words_of(__doc__ or "", 0, 100)
    programs = asked or [crate for crate in edits.USES if edits.is_of_rows(crate)]
    with tempfile.TemporaryDirectory() as folder:
        for program in programs:
            rows = Rows(program, folder)
            wanted = lines_of(f"{rows.home}/stdout")
            judge(rows.said(rows.names) == wanted, f"{program}: its output isn't crates/{program}/stdout")
            judge_files(rows, wanted)
            judge_faults(rows, wanted)
            judge_unseen(rows)
    print(f"{counts[True]} passed, {counts[False]} failed")
    return 1 if counts[False] else 0


if __name__ == "__main__":
    sys.dont_write_bytecode = True
    sys.exit(main())
