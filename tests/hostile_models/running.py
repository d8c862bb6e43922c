"""How the hostile scripts are called, and how they run a program."""
import os
import subprocess
from collections.abc import Sequence
from dataclasses import dataclass

import usage

ROOT = os.path.abspath(os.path.join(os.path.dirname(os.path.abspath(__file__)), "../.."))
Word = str | bytes


@dataclass(frozen=True)
class Asked:
    """The counts of two kinds of cases, the seed, and the program's path."""

    first: int
    second: int
    seed: int
    path: str


def asked_of(doc: str, first: int, second: int, program: str) -> Asked:
    """What the arguments of a script ask for, which are all optional: its counts, the seed, and the program's path."""
    words: list[str] = usage.words_of(doc, 0, 4)
    usual = [str(first), str(second), "1", os.path.join(ROOT, f"crates/{program}/out/{program}")]
    counted = [word or each for word, each in zip([*words, "", "", "", ""], usual)]
    return Asked(int(counted[0]), int(counted[1]), int(counted[2]), counted[3])


@dataclass(frozen=True)
class Answer:
    """What a run ended with: a status of None where it didn't end by itself."""

    status: int | None
    output: bytes
    error: bytes


@dataclass(frozen=True)
class Program:
    """A program, and the folder in which it runs, without an environment."""

    path: str
    folder: str

    def run(self, words: Sequence[Word], given: bytes) -> Answer:
        """What it answers to this input within 20 seconds."""
        command = [os.path.abspath(self.path), *words]
        environment: dict[str, str] = {}
        try:
            ended = subprocess.run(command, input=given, capture_output=True, timeout=20, cwd=self.folder, env=environment,
                                   close_fds=False)
        except subprocess.TimeoutExpired:
            return Answer(None, b"", b"")
        return Answer(ended.returncode, ended.stdout, ended.stderr)
