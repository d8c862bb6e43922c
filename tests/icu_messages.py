#!/usr/bin/env python3
"""Compares what messages write, and which texts are messages, with ICU, on random messages and damaged ones.

usage: tests/icu_messages.py PEER ROWS [COUNT]

PEER is a command that runs tests/icu_messages_peer.cpp, compiled. ROWS is the program of rows of messages. COUNT messages (5,000 by
default) are written in a random locale with random arguments, and have to write what ICU writes. Each is also damaged at a few
bytes. A damaged text that ICU rejects has to be rejected, and one that both take has to write what ICU writes. One that is
rejected here alone has to be so by a fault of STRICTER.

The last line is 'N passed, M failed'.
"""
import random
import re
import subprocess
import sys
import tempfile
from collections import Counter
from collections.abc import Sequence
from decimal import ROUND_HALF_EVEN, Decimal
from pathlib import Path
from typing import NamedTuple

import usage

DATA = Path(__file__).resolve().parent.parent / "crates/rows_messages/data"
LOCALES = ("en", "ru", "ar-EG", "pl", "lv", "ja", "cy", "fr", "de")
# Numbers of four digits are left out: ICU's MessageFormat writes separators in them in each locale, and others don't.
# Ordinal rules are those of these locales alone.
ORDINALS = ("en", "cy", "fr")
NUMBERS = ("0", "1", "-1", "2", "3", "5", "11", "12", "21", "22", "100", "101", "10000", "1234567", "1.5", "0.5", "-2.25", "1000000")
TEXTS = ("a", "b", "other", "x y", "{n}", "#", "it's", "é", "")
CATEGORIES = ("zero", "one", "two", "few", "many")
# Skeletons, each with the number of fraction digits that it shows.
SKELETONS = {"": None, ".00": 2, ".0": 1, ".": 0}
WORDS = ("file", "files", " ", "é", "😀", "it''s", "o'clock", "'{'", "'}'", "'#'", "#", "''", "x", "\n", "'{''}'", "a'b")
# Faults by which a text may be rejected here and not by ICU; the page of icu_message has what each means.
STRICTER = ("Unopened", "OpenQuote", "Name", "Kind", "Style", "Skeleton", "TwoKinds", "Offset", "Key", "Repeated", "Unexpected",
            "TooDeep", "End")
FAULTS = (*STRICTER, "NoOther", "TooLong")
# What is said of arguments here: ICU writes the name of a missing one, and a number or a text in each place.
UNFIT = ("MissingArgument", "NotANumber", "NotAText")
SHOWN = 30


class Case(NamedTuple):
    """A message, and what it is written with."""

    locale: str
    message: str
    given: dict[str, str]
    forms: frozenset[tuple[str, str]]


def text_of(rng: random.Random, is_counted: bool) -> str:
    """A few characters of a message."""
    words = [word for word in WORDS if is_counted or word != "'#'"]
    return "".join(rng.choice(words) for _ in range(rng.randrange(3)))


def choice_of(rng: random.Random, depth: int, forms: set[tuple[str, str]], locale: str) -> str:
    """A choice with its arms."""
    kinds = ["plural", "select", *(["selectordinal"] if locale in ORDINALS else [])]
    kind = rng.choice(kinds)
    name = "who" if kind == "select" else rng.choice("nm")
    keys = ["a", "b", "x"] if kind == "select" else [*CATEGORIES, "=0", "=1", "=10000"]
    chosen = rng.sample(keys, rng.randrange(3))
    chosen.insert(rng.randrange(len(chosen) + 1), "other")
    arms = " ".join(f"{key}{{{message_of(rng, depth + 1, kind != 'select', forms, locale)}}}" for key in chosen)
    return f"{{{name}, {kind}, {arms}}}"


def place_of(rng: random.Random, forms: set[tuple[str, str]]) -> str:
    """A place, perhaps with a form."""
    if rng.random() < 0.7:
        return f"{{{rng.choice(['n', 'm', 'who', ' n '])}}}"
    name, skeleton = rng.choice("nm"), rng.choice(list(SKELETONS))
    forms.add((name, skeleton))
    return f"{{{name}, number, ::{skeleton}}}" if skeleton or rng.random() < 0.5 else f"{{{name}, number}}"


def message_of(rng: random.Random, depth: int, is_counted: bool, forms: set[tuple[str, str]], locale: str) -> str:
    """A message within so many arms."""
    parts = []
    for _ in range(rng.randrange(1, 4)):
        draw = rng.random()
        if draw < 0.3 and depth < 4:
            parts.append(choice_of(rng, depth, forms, locale))
        elif draw < 0.6:
            parts.append(place_of(rng, forms))
        else:
            parts.append(text_of(rng, is_counted))
    return "".join(parts)


def case_of(rng: random.Random) -> Case:
    """A message, with arguments."""
    locale = rng.choice(LOCALES)
    forms: set[tuple[str, str]] = set()
    message = message_of(rng, 0, False, forms, locale)
    given = {"n": rng.choice(NUMBERS), "m": rng.choice(NUMBERS), "who": rng.choice(TEXTS)}
    return Case(locale, message, given, frozenset(forms))


def damaged(rng: random.Random, message: str) -> str:
    """A message with a few characters taken away, doubled or put in."""
    letters = list(message)
    for _ in range(rng.randrange(1, 3)):
        at = rng.randrange(len(letters) + 1)
        draw = rng.random()
        if draw < 0.4 and at < len(letters):
            del letters[at]
        elif draw < 0.6 and at < len(letters):
            letters.insert(at, letters[at])
        else:
            letters.insert(at, rng.choice("{}#',:=n1 eo\n"))
    return "".join(letters)


def shown(number: str, skeleton: str) -> str:
    """The number with the digits that a skeleton shows."""
    places = SKELETONS[skeleton]
    return number if places is None else str(Decimal(number).quantize(Decimal(1).scaleb(-places), ROUND_HALF_EVEN))


def peer_line(case: Case) -> str:
    """The line by which ICU is asked."""
    fields = [case.locale, case.message, f"n={case.given['n']}", f"m={case.given['m']}", f"who:{case.given['who']}"]
    return "\t".join(field.replace("\\", "\\\\").replace("\n", "\\n").replace("\t", "\\t") for field in fields)


def spelled(text: str) -> str:
    """A text as rows have it: what rows read as signs of their own by its code."""
    return re.sub("[{}\"'=#*\n\t ]|^\\s|\\s$", lambda found: f"{{{ord(found[0]):02X}}}", text)


def row_of(case: Case, want: str) -> str:
    """A row of `write`."""
    forms = (f'"{name},{skeleton}={shown(case.given[name], skeleton)}"' for name, skeleton in sorted(case.forms))
    words = [f'"{spelled(case.message)}"', f"n={case.given['n']}", f"m={case.given['m']}", f'"who:{spelled(case.given["who"])}"', *forms]
    return f"write {case.locale} {' '.join(words)} = {spelled(want)}"


def asked(peer: str, cases: Sequence[Case]) -> list[str]:
    """What ICU answers for messages."""
    lines = "".join(f"{peer_line(case)}\n" for case in cases)
    return subprocess.run([peer], input=lines, capture_output=True, text=True, check=True).stdout.split("\n")[: len(cases)]


def answers(rows: str, lines: Sequence[str]) -> dict[int, str]:
    """What the program of rows answers for rows that differ, by their places."""
    with tempfile.TemporaryDirectory() as folder:
        path = Path(folder) / "asked.rows"
        path.write_text("".join(f"{line}\n" for line in lines), encoding="utf-8")
        files = [str(DATA / "messages.json"), str(DATA / "ordinals.txt"), str(path)]
        said = subprocess.run([rows, *files], capture_output=True, text=True, check=False).stdout.split("\n")
    found: dict[int, str] = {}
    for at, line in enumerate(said):
        place = re.match(r"\S*asked\.rows:(\d+): ", line)
        if place:
            found[int(place[1]) - 1] = said[at + 1].removeprefix("  answers ") if at + 1 < len(said) else ""
    return found


def told(text: str) -> str:
    """The text of an answer of ICU."""
    return re.sub(r"\\(.)", lambda found: {"n": "\n", "t": "\t"}.get(found[1], found[1]), text[2:])


def judge(kind: str, cases: Sequence[Case], said: Sequence[str], rows: str, counts: Counter[str]) -> None:
    """Compares what both say of messages, and counts it."""
    wants = [told(line) if line.startswith("= ") else "(rejected)" for line in said]
    differing = answers(rows, [row_of(case, want) for case, want in zip(cases, wants)])
    for at, (case, line) in enumerate(zip(cases, said)):
        answer = differing.get(at)
        fault = answer.split(" ")[0] if answer else ""
        is_fault = fault in FAULTS and re.fullmatch(r"\w+ \d+( .*)?", answer or "") is not None
        if answer is None:
            counts[f"{kind}: equal"] += 1
        elif line.startswith("!") and is_fault:
            counts[f"{kind}: rejected by both"] += 1
        elif line.startswith("?"):
            counts[f"{kind}: not written by ICU"] += 1
        elif kind == "damaged" and (is_fault and fault in STRICTER or fault in UNFIT):
            counts[f"{kind}: rejected here alone, {fault}"] += 1
        else:
            counts[f"{kind}: FAILED"] += 1
            if counts[f"{kind}: FAILED"] <= SHOWN:
                print(f"{case}\n  ICU {line}\n  here {answer}")


def main() -> None:
    words = usage.words_of(__doc__ or "", 2, 3)
    peer, rows, count = words[0], words[1], int(words[2]) if len(words) > 2 else 5000
    rng = random.Random(1)
    cases = [case_of(rng) for _ in range(count)]
    counts: Counter[str] = Counter()
    judge("random", cases, asked(peer, cases), rows, counts)
    broken = [case._replace(message=damaged(rng, case.message)) for case in cases]
    judge("damaged", broken, asked(peer, broken), rows, counts)
    for what, number in sorted(counts.items()):
        print(f"{what}: {number}")
    failed = sum(number for what, number in counts.items() if what.endswith("FAILED"))
    print(f"{sum(counts.values()) - failed} passed, {failed} failed")
    sys.exit(failed > 0)


if __name__ == "__main__":
    main()
