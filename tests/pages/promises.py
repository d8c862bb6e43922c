"""The tables of docs/PROVED.md, made from the comments `// promise:` and `// mutations:` above calls.

A promise is a sentence above a function, between its doc comment and its attributes, or above a law of a trait; a second line may
name one or two mutations that break it. The call, the definitions of its clauses and their files are found in the source. All
other text of the page is written by hand: the tables stand between it, one under the heading of each crate, or of several.
"""
import dataclasses
import functools
import itertools
import os
import re
from collections.abc import Iterator

import edits
from pages.judging import found, judge, read

PAGE = "docs/PROVED.md"
HEADER = ["| promise | call | definition | mutation |", "|---|---|---|---|"]
# How many characters a cell shows, how many a line of the page has, how many promises a call, how many lines the page.
CELL, LINE, PER_CALL, LENGTH = 60, 500, 4, 620

PROMISE, MUTATIONS = re.compile(r" *// promise: (\S.*)"), re.compile(r" *// mutations: (\S.*)")
FUNCTION = re.compile(r' *(?:pub(?:\(\w+\))? )?(?:const )?(?:final )?(?:unsafe )?(?:extern "C" )?fn (\w+)')
LAW = re.compile(r" *ghost (\w+)[ :]")
OWNER = re.compile(r"(?:pub(?:\(\w+\))? )?(?:unsafe )?(?:impl|trait)\b.*")
IMPORT = re.compile(r"\bghost use Rattle\.(\w+)\.specs\.([\w.]+)\.\{([^}]*)\};")
CLAUSE = re.compile(r"\s*(?:requires|ensures)\b(?: \w+(?= \{))?")
HEADING = re.compile(r"^## (.*)$", flags=re.M)
TABLE = re.compile(r"^\| promise \|.*\n(?:\|.*\n)*", flags=re.M)


@dataclasses.dataclass
class Promise:
    """A sentence with the call that it stands above."""

    sentence: str
    mutations: list[str]
    call: str
    path: str
    clauses: list[str]
    at: int


def without_parameters(text: str) -> str:
    """A text without what stands in angle brackets."""
    shorter = re.sub(r"<[^<>]*>", "", text.replace("->", ""))
    return shorter if shorter == text else without_parameters(shorter)


def owner_of(head: str) -> str:
    """The name of the type or trait of an impl or a trait, by its first line."""
    plain = without_parameters(head.split("{")[0].split(" where ")[0])
    name = re.sub(r".*\b(?:impl|trait)\b ?", "", plain.split(" for ")[0]) if " for " not in plain else plain.split(" for ")[1]
    return name.split(":")[0].strip(" &") if "::" not in name else name.split("::")[-1].strip()


def clauses_at(lines: list[str], at: int) -> list[str]:
    """The clauses of a function that begins in this line, or a law: without the signature and the body."""
    taken: list[str] = []
    depth, is_clause = 0, False
    for line in (line for line in lines[at:] if not line.lstrip().startswith("//")):
        is_clause = is_clause or bool(CLAUSE.match(line)) or bool(LAW.match(line))
        if depth == 0 and (line.strip() in ("{", "{}") or (not is_clause and line.endswith("{"))):
            break
        if CLAUSE.match(line) or (is_clause and not taken):
            taken.append(CLAUSE.sub("", line))
        elif is_clause:
            taken[-1] += f"\n{line}"
        depth += line.count("{") - line.count("}") if is_clause else 0
        if depth == 0 and line.endswith(";"):
            break
    return taken


def laws_around(lines: list[str], at: int) -> list[str]:
    """What the impl around a line says of its trait's clauses, in front of that line."""
    head = max(place for place in range(at) if OWNER.match(lines[place]))
    starts = [place for place in range(head, at) if LAW.match(lines[place]) and not re.match(r" *ghost (?:use|laws) ", lines[place])]
    return [clause.partition("=")[2] for place in starts for clause in clauses_at(lines, place)]


def promises_in(path: str) -> Iterator[Promise]:
    """The promises of a source, in its order."""
    lines = read(path).splitlines()
    owner = ""
    waiting: list[tuple[str, list[str]]] = []
    for at, line in enumerate(lines):
        sentence, named = PROMISE.fullmatch(line), MUTATIONS.fullmatch(line)
        if OWNER.match(line) or line == "}":
            owner = owner_of(line) if line != "}" else ""
        elif sentence:
            waiting.append((sentence[1], []))
        elif named:
            judge(waiting and not waiting[-1][1], f"{path}: no promise above", line.strip())
            waiting[-1:] = [(text, named[1].split(", ")) for text, _ in waiting[-1:]]
        elif waiting and (FUNCTION.match(line) or LAW.match(line)):
            name = (FUNCTION.match(line) or LAW.match(line) or [])[1]
            module = "laws" if os.path.basename(path) == "laws.rt" else ""
            clauses = clauses_at(lines, at) or (laws_around(lines, at) if owner else [])
            judge(len(waiting) <= PER_CALL, f"{path}: {name} has more than {PER_CALL} promises")
            for text, mutations in waiting:
                yield Promise(text, mutations, "::".join(filter(None, (owner or module, name))), path, clauses, at)
            waiting = []
        elif waiting and line.lstrip().startswith("///"):
            judge(False, f"{path}: a promise stands in front of the doc comment:", waiting[0][0])
    judge(not waiting, f"{path}: below these promises is no function:", "; ".join(text for text, _ in waiting))


# Definitions


@functools.lru_cache(maxsize=None)
def passed_on(crate: str) -> dict[str, str]:
    """The modules of specs/ that a crate passes on from others, each with its file."""
    lists = f"crates/{crate}/specs/Lib.antt"
    others = re.findall(r"\bRattle\.(\w+)\.specs\.([\w.]+)", read(lists)) if os.path.exists(lists) else []
    return {module: f"crates/{other}/specs/{module.replace('.', '/')}.antt" for other, module in others}


def file_of(crate: str, module: str) -> str:
    """The file of a module of specs/, or nothing where the module is a part of one, as the variants of a type are."""
    path = f"crates/{crate}/specs/{module.replace('.', '/')}.antt"
    return path if os.path.exists(path) else passed_on(crate).get(module, "")


@functools.lru_cache(maxsize=None)
def imported(path: str) -> dict[str, tuple[str, str]]:
    """The definitions of the repository's crates that a source imports, but for types: by their names there, each with its own
    name and file."""
    names: dict[str, tuple[str, str]] = {}
    for crate, module, items in IMPORT.findall(read(path)):
        file = file_of(crate, module) if crate in edits.USES and not module.startswith("declared") else ""
        for item in items.split(",") if file else []:
            own, _, other = item.strip().partition(" as ")
            if not re.search(rf"^(?:pub )?(?:data|record) (?:pub )?{re.escape(own)} *:", read(file), flags=re.M):
                names[other or own] = (own, file)
    return names


def definitions_in(path: str, clauses: list[str]) -> list[tuple[str, str]]:
    """The definitions that clauses cite, in their order, each with its file."""
    names = imported(path)
    words = re.findall(r"(?<![\w.'◌-])[A-Za-z_][\w'-]*", "\n".join(clauses))
    return list(dict.fromkeys(names[word] for word in words if word in names))


def cited(call: list[Promise]) -> Iterator[list[tuple[str, str]]]:
    """The definitions of each promise of a call: of the clauses that have a name that the sentence quotes, as `Overflow`. Without
    such a name one promise has those of all clauses, and several have those of a clause each, in their order."""
    waiting = call[0].clauses if len(call) > 1 else []
    seen: list[tuple[str, str]] = []
    shown: list[tuple[str, str]] = []
    for promise in call:
        quoted = [rf"\b{name}\b" for name in re.findall(r"`([A-Za-z]\w*)`", promise.sentence)]
        named = [clause for clause in promise.clauses if any(re.search(name, clause) for name in quoted)]
        every = definitions_in(promise.path, promise.clauses)
        if named:
            waiting = [clause for clause in waiting if clause not in named]
            yield definitions_in(promise.path, named)
            continue
        chosen: list[tuple[str, str]] = []
        while waiting and not chosen:
            chosen, waiting = [it for it in definitions_in(promise.path, waiting[:1]) if it not in seen], waiting[1:]
        seen += chosen
        chosen = chosen or [it for it in every if it not in shown] or every
        shown += chosen[:2]
        yield chosen


# The page


@functools.lru_cache(maxsize=None)
def mutations_by_name() -> dict[str, list[str]]:
    """The files of the mutations of all crates, by their names."""
    files: dict[str, list[str]] = {}
    for path in found("crates/*/must-fail/*.edit") + found("crates/*/edits/*.edit"):
        files.setdefault(os.path.splitext(os.path.basename(path))[0], []).append(path)
    return files


def mutation_of(promise: Promise, name: str) -> tuple[str, str]:
    """A mutation with its file: of the crate of the call, or the only one of that name."""
    files = mutations_by_name().get(name, [])
    own = [path for path in files if path.split("/")[1] == promise.path.split("/")[1]]
    chosen = own or files
    judge(len(chosen) == 1, f"{promise.path}: {len(chosen)} mutations have the name", name)
    return name, chosen[0] if chosen else ""


def cell(parts: list[tuple[str, str]]) -> tuple[str, str]:
    """What a cell shows, and its text: names, each a link to its file."""
    return ", ".join(name for name, _ in parts), ", ".join(f"[`{name}`](../{path})" for name, path in parts)


def fitting(parts: list[tuple[str, str]]) -> list[tuple[str, str]]:
    """The first two names, if a cell has room for both; else the first one."""
    return parts[: 2 if len(cell(parts[:2])[0]) <= CELL else 1]


def row(promise: Promise, definitions: list[tuple[str, str]]) -> str:
    """The row of a promise with these definitions."""
    mutations = [mutation_of(promise, name) for name in promise.mutations]
    judge(len(mutations) <= 2, f"{promise.path}: more than two mutations:", promise.sentence)
    judge(re.fullmatch(r"[A-Z`0-9][^|]*\.", promise.sentence), f"{promise.path}: no sentence:", promise.sentence)
    both = [fitting(definitions), fitting(mutations)]
    cells = [(promise.sentence, promise.sentence), *map(cell, ([(promise.call, promise.path)], *both))]
    for shown, _ in cells:
        judge(len(shown) <= CELL, f"{promise.path}: more than {CELL} characters, {len(shown)}:", shown)
    return "".join(f"| {text} " if text else "| " for _, text in cells) + "|"


def rows(promises: list[Promise]) -> Iterator[str]:
    """The rows of promises, those of a call one below the other."""
    for _, call in itertools.groupby(promises, key=lambda promise: (promise.path, promise.at)):
        several = list(call)
        yield from map(row, several, cited(several))


def promises_of(crate: str) -> list[Promise]:
    """The promises of a crate, laws behind all others."""
    paths = sorted(found(f"crates/{crate}/src/**/*.rt"), key=lambda path: (path.endswith("/laws.rt"), path))
    return [promise for path in paths for promise in promises_in(path)]


def page_made(page: str) -> str:
    """The page with its tables made anew; what stands around them is taken as it is."""
    promises = {crate: promises_of(crate) for crate in edits.USES}
    pieces = re.split(HEADING, page)
    placed: list[str] = []
    for at in range(1, len(pieces), 2):
        crates = [name for name in re.findall(r"`(\w+)`", pieces[at]) if name in edits.USES]
        placed += crates
        made = [line for crate in crates for line in rows(promises[crate])]
        stood = TABLE.search(pieces[at + 1])
        judge(bool(made) == bool(stood), f"{PAGE}: a heading without promises or without a table:", pieces[at])
        if stood:
            pieces[at + 1] = pieces[at + 1].replace(stood[0], "".join(f"{line}\n" for line in [*HEADER, *made]), 1)
    lost = [crate for crate in edits.USES if (crate in placed) != bool(promises[crate])]
    judge(not lost, f"{PAGE}: a heading, or a promise, is missing of", ", ".join(lost))
    sentences = [promise.sentence for crate in promises for promise in promises[crate]]
    twice = sorted({sentence for sentence in sentences if sentences.count(sentence) > 1})
    judge(not twice, f"{PAGE}: equal promises:", "; ".join(twice))
    return "".join(f"## {piece}" if at % 2 else piece for at, piece in enumerate(pieces))


def judge_lengths(page: str) -> None:
    """The page is short, and so are its lines, apart from the quoted promise."""
    lines = page.splitlines()
    judge(len(lines) <= LENGTH, f"{PAGE}: has more than {LENGTH} lines: {len(lines)}")
    wide = [line[:60] for line in lines if len(line) > LINE and not line.startswith("> ")]
    judge(not wide, f"{PAGE}: {len(wide)} lines have more than {LINE} characters:", "; ".join(wide))
