#!/usr/bin/env python3
"""Tries the must-fail mutations of crates by what rejects each of them; tests/edits.sh has the usage.

A mutation is a file of lines `file: PATH`, `old: TEXT`, `new: TEXT`, as `rt` reads it, with lines that `rt` passes over:

    refused: FUNCTION CLAUSE    this goal has to be among those that the prover leaves open. FUNCTION is the path in the
                                crate, as in `rounding::rounds_up`, and CLAUSE the name of the goal. A goal with a written
                                answer in proofs/ is no evidence, since an answer that no longer fits fails too.
    shown: CRATE TEST           this test of the crate has to fail on the edited program, unproved (`rt try --test`).
    shown: PROGRAM FILE ROW     this row of crates/PROGRAM/data/FILE has to be printed by the program of rows on the edited
                                sources, unproved (`rt try`). ROW is the call with its arguments, as they stand once in FILE.
    unpromised: WHY             no contract speaks of what the edit changes, so that the crate is still proved; a test or a row
                                shows it.

Each mutation of the inner set, must-fail/, has one of the first two at least. One of the outer set, edits/, that has none is
rejected at some goal, as `rt ci` sees those of the inner set rejected. A control, edits/controls/, changes no meaning:
it has to be proved, or says by a line `fragile: WHY` that the written answers don't survive it.

What a check said is kept in crates/NAME/out/edits, under the hash of all that it read.
"""
import concurrent.futures
import dataclasses
import glob
import hashlib
import os
import re
import shutil
import subprocess
import sys
import tempfile
from collections.abc import Callable, Iterable, Iterator, Sequence
from typing import NamedTuple, TypeAlias

import layout
import named
import usage

ROOT = os.path.dirname(os.path.dirname(os.path.abspath(__file__)))
LOCK = os.path.join(ROOT, "edits.lock")
PARTS = ("src", "specs", "proofs")
INNER, OUTER, CONTROLS = "must-fail", "edits", "edits/controls"
# How the edits of a circle are seen: the prover refuses each, at the goals that they name; the tests that they name fail.
BY_PROVER, BY_TESTS = "", "/shown"
# What the prover says of a place, of a written answer that names what the edit took away, and of a goal that is open.
PLACE = re.compile(r"(note: )?\S+:\d+:\d+:")
MISSING_NAME = re.compile(r"(\./)?proofs/.*(has no field|is not in scope|has no `|was not admitted)")
UNREAD = re.compile(r"(\./)?(src|specs)/\S+:\d+:\d+: error(\[\S+\])?: (?!`)")
# What isn't seen by the prover when it tries an edit.
NO_PART = re.compile(rf"/{CONTROLS}/|/src/tests(?:\.rt$|/)")
# What a source uses of its crate.
USED = re.compile(r"\bcrate::((?:\w+::)*\w+)")
OPEN_GOAL = re.compile(r"note: (?:\./)?src/(\S+)\.rt:\d+:\d+: it is not proved that .*?\(`([^`]+)`\)")


# A hash that is being made.
Hash: TypeAlias = "hashlib._Hash"


class Circle(NamedTuple):
    """The edits of a crate in a folder, and how they are seen."""

    crate: str
    folder: str
    seen_by: str


class Pair(NamedTuple):
    """The text that stands once in a file, and the text that takes its place."""

    file: str
    old: str
    new: str


@dataclasses.dataclass
class Edit:
    """What the file of an edit says; `refused` has the words of each such line, `shown` each crate with what it runs."""

    crate: str
    circle: str
    path: str
    pairs: list[Pair] = dataclasses.field(default_factory=list)
    refused: list[tuple[str, ...]] = dataclasses.field(default_factory=list)
    shown: list[tuple[str, str]] = dataclasses.field(default_factory=list)
    fragile: str = ""
    unpromised: str = ""

    @property
    def name(self) -> str:
        return os.path.splitext(os.path.basename(self.path))[0]


# Edits, each with the reasons for which it isn't as it has to be.
Faults: TypeAlias = list[tuple[Edit, list[str]]]


def read(path: str) -> str:
    with open(path, encoding="utf-8") as file:
        return file.read()


def read_edit(crate: str, circle: str, path: str) -> Edit:
    """The edit of a file."""
    edit, file, old = Edit(crate, circle, path), "", ""
    for line in read(path).split("\n"):
        key, _, text = line.partition(":")
        text = text.removeprefix(" ")
        if key == "file":
            file = text.strip()
        elif key == "old":
            old = text
        elif key == "new":
            edit.pairs.append(Pair(file, old, text))
        elif key == "refused":
            edit.refused.append(tuple(text.split()))
        elif key == "shown":
            crate_of_tests, _, test = text.strip().partition(" ")
            edit.shown.append((crate_of_tests, test))
        elif key == "fragile":
            edit.fragile = text
        elif key == "unpromised":
            edit.unpromised = text
    return edit


def edits_of(crate: str, *circles: str) -> list[Edit]:
    """The edits of some circles of a crate, of all where none is named."""
    found = []
    for circle in circles or (INNER, OUTER, CONTROLS):
        for path in sorted(glob.glob(os.path.join(ROOT, "crates", crate, circle, "*.edit"))):
            found.append(read_edit(crate, circle, path))
    return found


# Crates

def read_crates() -> tuple[dict[str, list[str]], set[str]]:
    """For each crate the words behind its name in crates.txt, and whether it is a static library."""
    uses: dict[str, list[str]] = {}
    static: set[str] = set()
    for line in read(os.path.join(ROOT, "crates.txt")).splitlines():
        head, colon, tail = line.partition("#")[0].partition(":")
        if colon:
            name = head.split()[0]
            uses[name] = tail.split()
            if "staticlib" in head.split():
                static.add(name)
    return uses, static


USES, STATIC = read_crates()


def below(crate: str) -> list[str]:
    """The repository's crates below a crate, each behind those that it uses."""
    found: list[str] = []
    for name in USES[crate]:
        if name in USES:
            found += [it for it in [*below(name), name] if it not in found]
    return found


def said_by(*words: str) -> str:
    return subprocess.run(words, capture_output=True, text=True, check=True).stdout.strip()


def words_of_check(crate: str, kit: str) -> list[str]:
    """How `rt` calls the prover for a crate over the libraries in out/rlib."""
    def library(name: str) -> str:
        return os.path.join(ROOT, "crates", name, "out", "rlib")

    source = "src/main.rt" if os.path.exists(os.path.join(ROOT, "crates", crate, "src/main.rt")) else "src/lib.rt"
    words = [f"{kit}/bin/rattle", "check", "--crate-name", crate, source]
    for name in ["std", *[it for it in USES[crate] if it not in USES]]:
        words += ["--extern", f"{name}={kit}/rlibs/{name}.rlib"]
    words += ["-L", f"dependency={kit}/rlibs"]
    for name in [it for it in USES[crate] if it in USES]:
        words += ["--extern", f"{name}={library(name)}/{name}.rlib"]
    for name in below(crate):
        words += ["-L", f"dependency={library(name)}"]
    words += ["--antt-project", f"{kit}/rattle/logic/antt-project.json", "--logic-built", f"{kit}/logic_built"]
    words += ["--links", f"{crate}=", *(["--crate-type", "staticlib"] if crate in STATIC else []), "--jobs", "1"]
    return words


# Hashes

def files_of(*folders: str) -> list[str]:
    """The files below some folders of the repository, in the order of their paths, without the controls and a crate's own tests."""
    found = [path for folder in folders for path in glob.glob(f"{folder}/**", root_dir=ROOT, recursive=True)]
    return sorted(path for path in found if os.path.isfile(os.path.join(ROOT, path)) and not NO_PART.search(path))


def add(into: Hash, paths: Iterable[str]) -> None:
    """Adds files to a hash, each by its path and what it says."""
    for path in paths:
        into.update(f"{path}\n{layout.spelled(os.path.join(ROOT, path))}\n".encode())


def add_contracts(into: Hash, crate: str, *circles: str) -> None:
    """Adds what a crate's proofs are read with: of the crates below it the definitions, and the contracts of what they offer,
    that the crate and the edits of these circles name, with all that these stand on."""
    own = files_of(*[f"crates/{crate}/{part}" for part in (*PARTS, *circles)])
    offered = files_of(*[f"crates/{name}/{part}" for name in sorted(below(crate)) for part in ("src", "specs")])
    texts = named.named([os.path.join(ROOT, path) for path in own], [(os.path.join(ROOT, path), path) for path in offered])
    into.update("".join(f"{text}\n" for text in texts).encode())


def add_row(into: Hash, program: str, row: str) -> None:
    """Adds a row of a program to a hash, and the documents that it names; no other row, so that it can be added freely, and not
    the program, which tests/rows.py tries."""
    words = set(row.split())
    add(into, [path for path in documents_of(program) if os.path.basename(path) in words])
    into.update(f"{program} {[line for _, line in lines_of_row(program, row)]}\n".encode())


def sources_of_test(crate: str, test: str) -> list[str]:
    """The sources that stand on a test's path in its crate, and those of the crate that they use."""
    found: set[str] = set()
    waiting = [test.split("::")[:-1]]
    while waiting:
        names = waiting.pop()
        for last in range(1, len(names) + 1):
            path = f"crates/{crate}/src/{'/'.join(names[:last])}.rt"
            if path not in found and os.path.exists(os.path.join(ROOT, path)):
                found.add(path)
                waiting += [used.split("::") for used in USED.findall(read(os.path.join(ROOT, path)))]
    return sorted(found)


def add_edits(into: Hash, crate: str, circle: str, seen_by: str) -> None:
    """Adds the edits of a circle to a hash: for the prover without the tests and rows that they name, for these without goals."""
    other = "shown:" if seen_by == BY_PROVER else "refused:"
    for edit in edits_of(crate, circle):
        if seen_by == BY_PROVER or edit.shown:
            lines = [line for line in read(edit.path).splitlines() if not line.startswith(other)]
            into.update("\n".join([os.path.relpath(edit.path, ROOT), *lines, ""]).encode())


def hash_of(crate: str, circle: str, seen_by: str, logic: str) -> str:
    """The hash of all on which it rests that a circle of a crate's edits is seen so. Tests run without proofs."""
    into = hashlib.sha256(f"{logic}\n".encode())
    parts = PARTS if seen_by == BY_PROVER else ("src", "specs")
    add(into, files_of(*[f"crates/{crate}/{part}" for part in parts]))
    add_edits(into, crate, circle, seen_by)
    add_contracts(into, crate, circle)
    if seen_by == BY_TESTS:
        for tests, test in sorted({shown for edit in edits_of(crate, circle) for shown in edit.shown}):
            if is_of_rows(tests):
                add_row(into, tests, test)
            else:
                add(into, sources_of_test(tests, test))
    elif has_controls(crate, circle):
        add(into, [os.path.relpath(edit.path, ROOT) for edit in edits_of(crate, CONTROLS)])
    return into.hexdigest()


# Rows

def is_of_rows(crate: str) -> bool:
    """Whether a crate is a program of rows."""
    return os.path.exists(os.path.join(ROOT, "crates", crate, "args")) and "rows" in USES.get(crate, [])


def documents_of(program: str) -> list[str]:
    """The files of data that the rows of a program name."""
    words = read(os.path.join(ROOT, "crates", program, "args")).splitlines()
    return [f"crates/{program}/data/{word}" for word in words if not word.endswith(".rows")]


def lines_of_row(program: str, row: str) -> list[tuple[int, str]]:
    """The lines of `FILE ROW` in the file's data, each with its number: the call and the arguments, up to the answer."""
    file, _, text = row.partition(" ")
    path = os.path.join(ROOT, "crates", program, "data", file)
    lines = read(path).split("\n") if os.path.exists(path) else []
    return [(number, line) for number, line in enumerate(lines, 1) if f"{line} ".startswith(f"{text} = ")]


# Checks

def has_controls(crate: str, circle: str) -> bool:
    """Whether the prover sees a crate's controls with this circle: with the inner one, or with the outer one where there is none."""
    return circle == INNER or not edits_of(crate, INNER)


def apply(edit: Edit, folder: str) -> str | None:
    """Changes the files of a crate in a folder, or answers why that can't be."""
    if not edit.pairs:
        return "it has no 'old:' and 'new:' pair"
    for file, old, new in edit.pairs:
        path = os.path.join(folder, file)
        text = read(path) if os.path.exists(path) else ""
        if not old or text.count(old) != 1:
            return f"an 'old:' text is in {file} {text.count(old) if old else 'no'} times, and not once"
        with open(path, "w", encoding="utf-8") as target:
            target.write(text.replace(old, new))
    return None


def once(crate: str, key: Hash, ask: Callable[[], str]) -> str:
    """What was said under a key, asked for where nothing is kept of it."""
    path = os.path.join(ROOT, "crates", crate, "out", "edits", key.hexdigest())
    if os.path.exists(path):
        return read(path)
    said = ask()
    os.makedirs(os.path.dirname(path), exist_ok=True)
    with open(path, "w", encoding="utf-8") as file:
        file.write(said)
    return said


def ran(words: Sequence[str], folder: str) -> str:
    """What a command says in a folder, with its status as the last line."""
    ended = subprocess.run(words, cwd=folder, stdin=subprocess.DEVNULL, stdout=subprocess.PIPE, stderr=subprocess.STDOUT,
                           encoding="utf-8", errors="replace")
    return f"{ended.stdout.rstrip()}\n{ended.returncode}"


def copy_crate(crate: str, to: str) -> None:
    for part in PARTS:
        if os.path.isdir(os.path.join(ROOT, "crates", crate, part)):
            shutil.copytree(os.path.join(ROOT, "crates", crate, part), os.path.join(to, part))


def add_room(into: Hash, room: str, *parts: str) -> None:
    """Adds the files of a changed copy of a crate to a hash."""
    for path in sorted(path for part in parts for path in glob.glob(f"{part}/**", root_dir=room, recursive=True)):
        if os.path.isfile(os.path.join(room, path)):
            with open(os.path.join(room, path), "rb") as file:
                into.update(f"{path}\n".encode() + file.read() + b"\n")


def check(edit: Edit, kit: str, contracts_below: Hash, kept: str) -> str:
    """What the prover says of the edited crate."""
    with tempfile.TemporaryDirectory(prefix="rt-edit-") as room:
        copy_crate(edit.crate, room)
        why = apply(edit, room)
        if why:
            return f"unread: {why}"
        key = contracts_below.copy()
        add_room(key, room, *PARTS)
        return once(edit.crate, key, lambda: ran([*words_of_check(edit.crate, kit), "--incremental", kept], room))


def why_not_refused(said: str) -> str | None:
    """Why what the prover said isn't a refusal at a goal, or nothing."""
    lines = said.split("\n")
    if lines[-1] == "0":
        return "the crate is still proved"
    if lines[-1] != "1" or not lines[-2].startswith("logic=not-proved"):
        return f"it didn't reach the prover: {lines[0][:200]}"
    unread = [line for line in lines if UNREAD.match(line)]
    if unread:
        return f"the prover can't read the edited text: {unread[0][:200]}"
    told = [line for line in lines if PLACE.match(line) and (": error" in line or line.startswith("note: "))]
    if told and all(MISSING_NAME.match(line) for line in told):
        return f"only a proof names what the edit took away: {told[0][:200]}"
    return None


def why_not_by(edit: Edit, said: str, function: str, clause: str) -> str | None:
    """Why a goal isn't among those that are open, or why that would be no evidence; else nothing."""
    path = function.replace("::", "/")
    proofs = os.path.join(ROOT, "crates", edit.crate, "proofs")
    # functions that call each other have the answers of all in a folder by the name of one, behind a plus sign
    answers = glob.glob(f"{proofs}/{path}/Answers.antt") + glob.glob(f"{proofs}/{os.path.dirname(path)}/+*/Answers.antt")
    if any(re.search(rf"^(pub )?{re.escape(clause)}( .*)?[:=]", read(it), flags=re.M) for it in answers):
        return f"{clause} of {function} has a written answer, so that its failing shows nothing: name a test"
    goals = {goal for module, goal in OPEN_GOAL.findall(said) if f"{path}/".startswith(f"{module}/") or module in ("lib", "main")}
    own = re.search(rf"^fn {edit.crate}::{re.escape(function)}: (?:no proof: expected|not proved)(.*)", said, flags=re.M)
    if own:
        # a method may stand in another file than its type, by whose path it goes
        goals |= set(re.findall(r"`([^`]+)`", own[1].partition("did not prove")[2]))
    # a law that an impl is to give is named by the impl's path and the law, as `spells-value`
    if re.search(rf"^impl {edit.crate}::{re.escape(function)}: not proved; antt refuses `{re.escape(clause)}`", said, flags=re.M):
        return None
    if not own or clause not in goals:
        return f"{clause} of {function} isn't among the open goals: {', '.join(sorted(goals)) or 'none there'}"
    return None


# Tests

def said_on_edited(edit: Edit, tests: str, *words: str) -> str:
    """What `rt try` with some words says in a crate whose tests or rows run on the edited program."""
    with tempfile.TemporaryDirectory(prefix="rt-edit-") as room:
        for file in ("crates.txt", "HANDLES"):
            shutil.copy(os.path.join(ROOT, file), room)
        for name in USES:
            copy_crate(name, os.path.join(room, "crates", name))
        why = apply(edit, os.path.join(room, "crates", edit.crate))
        if why:
            return f"unread: {why}"
        if is_of_rows(tests):
            shutil.copytree(os.path.join(ROOT, "crates", tests, "data"), os.path.join(room, "crates", tests, "data"))
        key = hashlib.sha256(f"tests of {tests} {words}\n".encode())
        for name in [*below(tests), tests]:
            add_room(key, os.path.join(room, "crates", name), "src", "specs", "data")
        # the interpreter, which `rt try` asks first, has an answer for hardly any of these programs: one step of it is enough
        return once(edit.crate, key, lambda: ran(["rt", "try", "--steps", "1", *words], os.path.join(room, "crates", tests)))


def why_no_test(edit: Edit, tests: str, test: str) -> str | None:
    """Why a test of a crate doesn't show an edit, or nothing."""
    said = said_on_edited(edit, tests, "--test")
    failed = set(re.findall(r"^test (\S+) \.\.\. FAILED", said, flags=re.M))
    if not re.search(r"^test result: ", said, flags=re.M):
        return f"the tests didn't run: {said[:200]}"
    if test in failed:
        return None
    return f"{test} of {tests} doesn't fail on the edited program; these do: {', '.join(sorted(failed)) or 'none'}"


def why_no_row(edit: Edit, program: str, row: str) -> str | None:
    """Why a row of a program doesn't show an edit, or nothing."""
    lines = lines_of_row(program, row)
    if len(lines) != 1:
        return f"{row} stands {len(lines)} times in the rows of {program}, and not once"
    file = row.partition(" ")[0]
    documents = [os.path.relpath(path, f"crates/{program}") for path in documents_of(program)]
    said = said_on_edited(edit, program, "--", *documents, f"data/{file}")
    # where the program faults behind the row, `rt try` shows the end of its output behind bars
    printed = [int(number) for number in re.findall(rf"^(?:\| )?{re.escape(file)}:(\d+): ", said, flags=re.M)]
    if lines[0][0] in printed:
        return None
    if not re.search(r"^run=ended status=0", said, flags=re.M):
        return f"the rows didn't run: {said[:200]}"
    return f"{row} of {program} is as before on the edited program; these lines aren't: {printed or 'none'}"


def why_not_shown(edit: Edit, tests: str, test: str) -> str | None:
    return (why_no_row if is_of_rows(tests) else why_no_test)(edit, tests, test)


# Verdicts

def faults_by_prover(edit: Edit, said: str) -> list[str]:
    """Why an edit isn't what its circle asks for, by what the prover said of it."""
    if said.startswith("unread: "):
        return [said]
    if edit.circle == CONTROLS:
        is_proved = said.endswith("\n0")
        if is_proved == bool(edit.fragile):
            return [f"it is {'proved' if is_proved else 'not proved'}, and has {'a' if edit.fragile else 'no'} line 'fragile:'"]
        return []
    if edit.unpromised:
        is_as_told = said.endswith("\n0") and bool(edit.shown) and not edit.refused
        return [] if is_as_told else ["it is refused, or no test and no row shows it, and it has a line 'unpromised:'"]
    found = [why_not_refused(said)]
    if edit.circle == INNER and not (edit.refused or edit.shown):
        found.append("it names neither a clause that refuses it nor a test that shows it")
    found += [why_not_by(edit, said, *words) if len(words) == 2 else f"refused: {words}" for words in edit.refused]
    return [why for why in found if why]


def faults_by_tests(edit: Edit) -> list[str]:
    """Why an edit isn't what its circle asks for, by the tests that it names."""
    found = [why_not_shown(edit, *words) for words in edit.shown]
    return [why for why in found if why]


def try_circle(crate: str, circle: str, seen_by: str, kit: str, logic: str) -> Faults:
    """The faults of each edit of a circle, in the order of the edits, and of the controls that are seen with it."""
    if seen_by == BY_TESTS:
        return [(edit, faults_by_tests(edit)) for edit in edits_of(crate, circle) if edit.shown]
    tried = edits_of(crate, circle, *([CONTROLS] if has_controls(crate, circle) else []))
    contracts_below = hashlib.sha256(f"{logic}\n{crate}\n".encode())
    add_contracts(contracts_below, crate, INNER, OUTER)
    incremental = os.path.join(ROOT, "crates", crate, "out", "incremental")
    with tempfile.TemporaryDirectory() as kept:
        if os.path.isdir(incremental):
            shutil.copytree(incremental, kept, dirs_exist_ok=True)
        return [(edit, faults_by_prover(edit, check(edit, kit, contracts_below, kept))) for edit in tried]


def read_lock() -> dict[str, str]:
    """The hashes of edits.lock, by the path of a circle's folder and how it was seen."""
    lines = read(LOCK).splitlines() if os.path.exists(LOCK) else []
    return dict(line.split() for line in lines)


def write_lock(lines: dict[str, str]) -> None:
    """Writes the hash of each circle."""
    with open(LOCK, "w", encoding="utf-8") as file:
        file.writelines(f"{it} {lines[it]}\n" for it in sorted(lines))


def path_of(crate: str, circle: str, seen_by: str) -> str:
    """What edits.lock calls a circle, and how it is seen."""
    return f"{crate}/{circle}{seen_by}"


def circles_of_all() -> list[Circle]:
    """Each circle that has edits, and each way in which some of them are seen."""
    return [Circle(crate, circle, seen_by) for crate in USES for circle in (INNER, OUTER) for seen_by in (BY_PROVER, BY_TESTS)
            if any(seen_by == BY_PROVER or edit.shown for edit in edits_of(crate, circle))]


def try_all(circles: Sequence[Circle], kit: str, logic: str) -> Iterator[tuple[Circle, int, int]]:
    """Tries circles side by side, tells what is wrong, and yields for each how many of its edits are right and wrong."""
    def tried(circle: Circle) -> Faults:
        return try_circle(*circle, kit, logic)

    lanes = int(os.environ.get("EDITS_JOBS", len(os.sched_getaffinity(0))))
    with concurrent.futures.ThreadPoolExecutor(lanes) as pool:
        for circle, results in zip(circles, pool.map(tried, circles)):
            for edit, faults in results:
                for why in faults:
                    print(f"edits: {os.path.relpath(edit.path, ROOT)}: {why}")
            right = sum(not faults for _, faults in results)
            print(f"edits: {path_of(*circle)}: {right} of {len(results)} are as they have to be", flush=True)
            yield circle, right, len(results) - right


def main(words: Sequence[str]) -> int:
    is_gate = "--gate" in words
    asked = [word for word in words if word != "--gate"]
    if any(word.startswith("-") for word in asked) or (is_gate and asked):
        print("usage: tests/edits.sh [--gate | CRATE .. | CRATE/must-fail[/shown] .. | CRATE/edits[/shown] ..]", file=sys.stderr)
        return 2
    logic = re.findall(r"logic .*", said_by("rt", "version"))[0]
    locked = read_lock()
    hashes = {it: hash_of(*it, logic) for it in circles_of_all()}
    paths = {path_of(*it): it for it in hashes}
    names = {it: (it.crate, f"{it.crate}/{it.folder}", path_of(*it)) for it in hashes}
    current = [paths[path] for path in paths if locked.get(path) == hashes[paths[path]]]
    passed, failed = 0 if asked else len(current), 0
    for word in [word for word in asked if not any(word in told for told in names.values())]:
        print(f"edits: {word}: no such edits")
        failed += 1
    for path in [path for path in locked if is_gate and (path not in paths or paths[path] not in current)]:
        print(f"edits: {path}: its line of edits.lock is of another state: run tests/edits.sh, and commit edits.lock")
        failed += 1
    tried = [it for it in hashes if (any(name in asked for name in names[it]) if asked else it not in current)]
    tried.sort(key=lambda it: -len(edits_of(it.crate, it.folder)))
    if not is_gate:
        write_lock({path: locked[path] for path in paths if paths[path] in current})
    for circle, right, wrong in try_all(tried, os.path.dirname(said_by("rt", "doc")), logic):
        passed, failed = passed + right, failed + wrong
        if wrong == 0 and not is_gate:
            # at once, so that what an interrupted run has seen stays
            write_lock(read_lock() | {path_of(*circle): hashes[circle]})
    print(f"{passed} passed, {failed} failed")
    return 1 if failed else 0


if __name__ == "__main__":
    os.chdir(ROOT)
    sys.exit(main(usage.words_of(__doc__, 0, 1000, ["--gate"])))
