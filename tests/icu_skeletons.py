#!/usr/bin/env python3
"""Compares what number skeletons are read as with ICU, on random skeletons and on texts that are nearly skeletons.

usage: tests/icu_skeletons.py PEER ROWS [COUNT [FILE]]

PEER is a command that runs tests/icu_skeletons_peer.cpp, compiled, and ROWS is the program rows_numbers. The program reads
COUNT texts (100,000 by default) from a file of rows, whose wanted answers are those of ICU: the canonical form of a text, or
the byte of its first fault. Each row that the program prints has to differ for one of the reasons of REASONS.

With FILE, the script writes a file of 1,000 rows whose answers are those of ICU, without texts that differ.

The last line is 'N passed, M failed'.
"""
import os
import random
import re
import subprocess
import sys
import tempfile
from collections import Counter
from collections.abc import Sequence

import usage

# Texts that a reader of skeletons meets: tokens of the grammar, each kind with what stands for it most often first.
TOKENS: tuple[tuple[str, ...], ...] = (
    ("compact-short", "K", "compact-long", "KK", "notation-simple"),
    ("percent", "%", "permille", "base-unit", "%x100", "currency/EUR", "currency/usd", "currency/JPY", "unit/meter",
     "unit/kilometer-per-hour", "unit/percent", "unit/permille"),
    ("unit-width-narrow", "unit-width-short", "unit-width-full-name", "unit-width-iso-code", "unit-width-hidden"),
    ("precision-integer", ".00", ".0#", ".##", ".00+", ".+", ".*", ".0*", ".00/@@+", ".0#/@##", ".0/@@@s", ".0##/@@#r",
     "@@", "@##", "@@+", "@@*", "@@@/w", ".00/w", ".00/@@+/w", "precision-unlimited", "precision-unlimited/w",
     "precision-integer/@@+", "precision-integer/w", "precision-currency-standard", "precision-currency-standard/w",
     "precision-currency-cash", "precision-increment/0.05", "precision-increment/0.50", "precision-increment/25",
     "precision-increment/1000", "precision-increment/2.5/w"),
    ("rounding-mode-ceiling", "rounding-mode-floor", "rounding-mode-down", "rounding-mode-up", "rounding-mode-half-even",
     "rounding-mode-half-up", "rounding-mode-half-down", "rounding-mode-half-ceiling", "rounding-mode-half-floor"),
    ("000", "0", "00", "integer-width/+000", "integer-width/*00", "integer-width/+0"),
    ("scale/100", "scale/0.01", "scale/1", "scale/1000", "scale/001.00", "scale/.01"),
    ("group-off", "group-min2", "group-auto", "group-on-aligned", "group-thousands", ",_", ",?", ",!"),
    ("latin", "numbering-system/arab", "numbering-system/latn", "numbering-system/deva"),
    ("sign-auto", "sign-always", "sign-never", "sign-except-zero", "sign-negative", "sign-accounting",
     "sign-accounting-always", "sign-accounting-except-zero", "sign-accounting-negative", "+!", "+_", "+?", "+-", "()",
     "()!", "()?", "()-"),
    ("decimal-auto", "decimal-always"),
    ("scientific", "engineering", "E0", "EE+!0", "measure-unit/length-meter", "per-measure-unit/time-second", "usage/road",
     "unit-width-formal", "unit-width-variant", "rounding-mode-unnecessary", "integer-width-trunc", "integer-width/##0",
     "integer-width/+", "scale/2", "scale/1.5", "scale/-1", "precision-increment/3", "precision-increment/1.25"),
    ("foo", "percents", "currency", "currency/", "currency/EURO", "currency/E1R", "unit", "unit/", "unit/Meter", "scale",
     "scale/", "scale/x", "scale/5.", "scale/1E2", "integer-width", "integer-width/x", "numbering-system",
     "numbering-system/ab", "precision-increment", "precision-increment/", "precision-increment/0", "percent/x",
     "percent/", "/w", "//", ".00x", ".0+0", "@@0", "@#@", "001", ".00/@@", ".00/x", ".00/", ".00/@@+/x", "group-on",
     "sign", "+", "(", ",", "precision-integer/@@", "latin/x", "K/@@", "currency/EUR/x", ".00/w/w", "@@/w/w"),
)
BLANKS = (" ", " ", " ", " ", "  ", "\t", "\u00a0", "\u200e", "\u2028")
BITS = ("/", " ", "0", "#", "@", "+", "*", "w", "r", "s", "-", ".", "x", "E", "1", "5", "\u00e9")

REASONS = {
    "left out": "ICU takes it, or finds a fault behind it",
    "groups": "ICU's canonical form leaves out group-auto",
    "number": "a currency, a scale or an increment with an exponent or a point at its end, or an increment of zero",
    "names": "a unit or a numbering system that ICU doesn't have",
    "wild": "ICU takes `.+/@@+` for precision-integer/@@+",
    "compact": "an increment of which 1 is no multiple, in compact notation",
    "count": "ICU reads more than 999 digits, or fewer",
}


def text_of(chance: random.Random) -> str:
    """A random skeleton, or nearly one."""
    kinds = chance.sample(range(len(TOKENS)), chance.choice((1, 1, 2, 2, 3, 4, 5)))
    if chance.random() < 0.7:
        kinds = [kind for kind in kinds if kind < len(TOKENS) - 2] or [3]
    if chance.random() < 0.1:
        kinds.append(chance.choice(kinds))
    text = "".join(chance.choice(TOKENS[kind]) + chance.choice(BLANKS) for kind in kinds)
    if chance.random() < 0.8:
        text = text.rstrip()
    if chance.random() < 0.3 and text:
        at = chance.randrange(len(text))
        text = text[:at] + chance.choice(("", chance.choice(BITS), chance.choice(BITS) + text[at])) + text[at + 1:]
    return text


def texts(count: int) -> list[str]:
    """Different random texts, by a fixed seed."""
    chance = random.Random(72)
    found: dict[str, None] = {}
    while len(found) < count:
        found.setdefault(text_of(chance))
    return list(found)


def answers_of_icu(peer: str, skeletons: Sequence[str]) -> list[str]:
    """What ICU answers: a canonical form, or the byte of a fault; `?` and a status where it has neither."""
    lines = "".join(f"{skeleton}\n" for skeleton in skeletons)
    done = subprocess.run(peer, input=lines.encode(), stdout=subprocess.PIPE, shell=True, check=True)
    found = []
    for skeleton, line in zip(skeletons, done.stdout.decode().split("\n")):
        if line.startswith("! "):
            units = skeleton.encode("utf-16-le")[:2 * int(line[2:])]
            found.append(str(len(units.decode("utf-16-le").encode())))
        else:
            found.append(line[2:] if line.startswith("= ") else line)
    return found


def spelled(text: str) -> str:
    """A text as a word of a row."""
    def character(found: "re.Match[str]") -> str:
        return f"{{{ord(found[0]):02X}}}"
    return re.sub(r"[^ !#-&(-z|~]|[{}]", character, text)


def is_byte(answer: str) -> bool:
    return answer.isdigit()


def row_of(skeleton: str, answer: str) -> str:
    return f'canonical_or_byte "{spelled(skeleton)}" = {answer if is_byte(answer) else f"[{spelled(answer)}]"}'


def differing(rows_program: str, rows: Sequence[str]) -> dict[int, str]:
    """The rows that the program prints, by their index, with its answer."""
    with tempfile.TemporaryDirectory() as folder:
        with open(os.path.join(folder, "icu.rows"), "w", encoding="utf-8") as file:
            file.writelines(f"{row}\n" for row in rows)
        done = subprocess.run([os.path.abspath(rows_program), "icu.rows"], cwd=folder, stdout=subprocess.PIPE, check=True)
    found: dict[int, str] = {}
    lines = done.stdout.decode().splitlines()
    for line, behind in zip(lines, lines[1:]):
        place = re.match(r"icu\.rows:([0-9]+): ", line)
        if place:
            found[int(place[1]) - 1] = behind.strip().removeprefix("answers ").strip("[]")
    counted = re.search(r"canonical_or_byte ([0-9]+)", lines[-1] if lines else "")
    if counted is None or int(counted[1]) != len(rows):
        sys.exit(f"icu_skeletons: {rows_program} tried {counted[1] if counted else 'none'} of {len(rows)} rows")
    return found


LEFT_OUT = re.compile(
    r"scientific|engineering|E|decimal-always|measure-unit|per-measure-unit|usage|unit-width-(formal|variant)"
    r"|rounding-mode-(unnecessary|half-odd)|integer-width-trunc")


def reason_of(skeleton: str, icu: str, ours: str) -> str:
    """Why the two answers may differ; nothing if no reason is known."""
    if not is_byte(ours):
        if "group-auto" in ours and ours.replace(" group-auto", "").replace("group-auto ", "").replace("group-auto", "") == icu:
            return "groups"
        if re.search(r"(^|[\s\u200e\u2028])(unit|numbering-system)/", skeleton) and (is_byte(icu) or icu.startswith("?")):
            return "names"
        return ""
    byte = int(ours)
    rest = re.split(r"[\s\u200e\u2028]", skeleton.encode()[byte:].decode(errors="replace"))[0]
    if is_byte(icu) and int(icu) < byte:
        in_front = skeleton.encode()[:int(icu)].decode(errors="replace")
        return "names" if in_front.endswith(("unit/", "numbering-system/")) else ""
    before = re.split(r"[\s\u200e\u2028]", skeleton.encode()[:byte].decode(errors="replace"))[-1]
    if LEFT_OUT.match(rest) and not before:
        return "left out"
    if before == "integer-width/" and re.match(r"[#+*0]", rest):
        return "left out"
    if before in ("scale/", "precision-increment/"):
        return "number" if re.search(r"E|\.$|\./|^[0.]*$", rest) else "left out"
    if before == "currency/":
        return "number"
    if before.startswith((".+", ".*")):
        return "wild"
    if re.match(r"precision-increment/", rest) and re.search(r"compact|K", skeleton):
        return "compact"
    return ""


def compared(peer: str, rows_program: str, skeletons: Sequence[str]) -> tuple[list[str], Counter[str], list[str]]:
    """The rows that agree, how many differ by which reason, and the rows that differ without one."""
    answers = answers_of_icu(peer, skeletons)
    rows = [row_of(skeleton, answer) for skeleton, answer in zip(skeletons, answers)]
    differ = differing(rows_program, rows)
    reasons: Counter[str] = Counter()
    unexplained = []
    for at, ours in differ.items():
        reason = reason_of(skeletons[at], answers[at], ours)
        reasons[reason] += 1
        if not reason:
            unexplained.append(f"{rows[at]}\n  answers {ours}")
    return [row for at, row in enumerate(rows) if at not in differ], reasons, unexplained


def write_rows(path: str, version: str, rows: Sequence[str]) -> None:
    """Writes a file of rows: half of them read, half of them rejected."""
    read = [row for row in rows if row.endswith("]")]
    rejected = [row for row in rows if not row.endswith("]")]
    with open(path, "w", encoding="utf-8") as file:
        file.write(f"# Number skeletons with ICU {version}'s answers: `canonical_or_byte TEXT = [CANONICAL]`, or the byte of the"
                   " first fault.\n# tests/icu_skeletons.py makes this file.\n")
        file.writelines(f"{row}\n" for row in read[:500])
        file.writelines(f"{row}\n" for row in rejected[:500])


def main() -> int:
    words = usage.words_of(__doc__, 2, 4)
    peer, rows_program = words[:2]
    version = subprocess.run(f"{peer} --version", stdout=subprocess.PIPE, shell=True, check=True).stdout.decode().strip()
    count = int(words[2]) if len(words) > 2 else 100000
    agreeing, reasons, unexplained = compared(peer, rows_program, texts(count))
    for row in unexplained[:20]:
        print(row)
    for reason, found in sorted(reasons.items()):
        print(f"{found} differ: {REASONS.get(reason, 'for no known reason')}")
    if len(words) > 3:
        write_rows(words[3], version, agreeing)
    print(f"{count - len(unexplained)} passed, {len(unexplained)} failed")
    return bool(unexplained)


if __name__ == "__main__":
    sys.exit(main())
