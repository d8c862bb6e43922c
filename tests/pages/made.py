"""What is made from the files of must-fail mutations, definitions and proofs."""
import os
import re
from collections.abc import Collection, Iterator, Mapping

import edits
from pages.judging import found, judge, read

def guard(edit: edits.Edit) -> str:
    """What an edit's file says of what refuses it."""
    if edit.circle == edits.CONTROLS:
        return f"fragile: {edit.fragile}" if edit.fragile else "proved"
    goals = [f"`{clause}` of `{function}`" for function, clause in edit.refused]
    tests = [f"{'row' if edits.is_of_rows(crate) else 'test'} `{test}` of `{crate}`" for crate, test in edit.shown]
    return ", ".join(goals + tests) or "a goal with a written answer"


CIRCLES = {edits.INNER: "inner", edits.OUTER: "outer", edits.CONTROLS: "control"}


def mutations(asked: Collection[str]) -> Iterator[str]:
    """The must-fail mutations and controls of these crates, or of all, with their set and with what rejects them."""
    for crate in sorted(edits.USES):
        rows = edits.edits_of(crate)
        if not rows or (asked and crate not in asked):
            continue
        yield from [f"## `{crate}`", "", "| mutation | set | file that is changed | what rejects it |", "|---|---|---|---|"]
        for edit in rows:
            changed = edit.pairs[0].file if edit.pairs else ""
            yield f"| `{edit.name}` | {CIRCLES[edit.circle]} | `{changed}` | {guard(edit)} |"
        yield ""


def edits_page() -> str:
    """How many must-fail mutations and controls each crate has, in which set, and what rejects them."""
    lines = [
        "# Must-fail mutations",
        "",
        "A mutation changes one meaning of a call, mostly in one place, and has to be rejected. Its file `NAME.edit` names the wrong",
        "behaviour, the change, and what rejects it: a goal that the prover leaves open, or a test or a row that fails on the changed",
        "program.",
        "A goal with a written answer also fails where the answer no longer fits, so it is no evidence by itself.",
        "",
        "- The **inner set**, in `must-fail/`, guards the main promise: every run of CI tries it, and `rt must-fail NAME` tries that of",
        "  a crate.",
        "- The **outer set** stands in `edits/`. `edits.lock` has the state in which it was seen to be rejected; CI tries what has no",
        "  line there, and fails by a line of another state.",
        "- **Controls**, in `edits/controls/`, change no meaning and have to be proved.",
        "",
        "`tests/edits.sh NAME` tries all of a crate. `tests/docs.py --mutations NAME` lists them, each with what rejects it.",
        "`tests/docs.py --write` makes this page.",
        "",
        "| crate | inner set | outer set | a goal is named | a test or a row is named | controls |",
        "|---|---|---|---|---|---|",
    ]
    totals = [0] * 5
    for crate in sorted(edits.USES):
        rows = edits.edits_of(crate)
        tried = [edit for edit in rows if edit.circle != edits.CONTROLS]
        numbers = [sum(edit.circle == edits.INNER for edit in rows), sum(edit.circle == edits.OUTER for edit in rows),
                   sum(bool(edit.refused) for edit in tried), sum(bool(edit.shown) for edit in tried), len(rows) - len(tried)]
        totals = [total + number for total, number in zip(totals, numbers)]
        if rows:
            lines.append(f"| [`{crate}`](../crates/{crate}) | {' | '.join(map(str, numbers))} |")
    lines += [f"| all | {' | '.join(map(str, totals))} |", ""]
    return "\n".join(lines)


def first_sentence(path: str) -> str | None:
    """What the comment at the head of a file says, up to its first full stop."""
    words = []
    for line in read(path).splitlines():
        if not line.startswith("-- "):
            break
        words.append(line[3:].strip())
    text = " ".join(words)
    return re.split(r"(?<=[^.]\.) (?=[A-Z])", text)[0].replace("|", "\\|") if text else None


def module(path: str) -> str:
    """The name by which a file of specs/ or proofs/ is imported."""
    return path[len("crates/"):-len(".antt")].replace("/", ".")


def is_of_a_function(path: str) -> bool:
    """Whether a file has the answers to the goals of one function."""
    return "/proofs/" in path and os.path.basename(path) in ("Answers.antt", "Invariants.antt")


def is_found(path: str) -> bool:
    """Whether a file has just answers that a search finds, which stand there so that a false goal is refused at once."""
    return "oals that a search finds" in read(path).split("\n", 1)[0]


def is_mapped(crate: str) -> bool:
    """Whether a crate has definitions or proofs."""
    return any(os.path.isdir(f"crates/{crate}/{folder}") for folder in ("specs", "proofs"))


def short_name(crate: str, path: str) -> str:
    """A file as the map names it: in its own crate by its path, a function's proof by the function; else by its crate."""
    own, _, rest = path[len("crates/"):].partition("/")
    rest = os.path.dirname(rest) if is_of_a_function(path) else re.sub(r"\.(antt|rt)$", "", rest)
    if own == crate:
        return f"`{rest}`"
    return f"`{own}`"


def users() -> dict[str, list[str]]:
    """Which files import each module, or name one of its lemmas for the prover, as `using(crate::proofs::M::lemma)`."""
    importing: dict[str, list[str]] = {}
    for path in found("crates/*/**/*.antt") + found("crates/*/**/*.rt"):
        text = read(path)
        names = set(re.findall(r"\buse Rattle\.([\w.]+?)(?=\.\{| as |;|$|\s)", text, flags=re.M))
        crate = path.split("/")[1]
        for attribute in re.findall(r"#\[tactic\(.*?\)\]", text, flags=re.S):
            names |= {f"{crate}.{name.replace('::', '.')}" for name in re.findall(r"crate::((?:proofs|specs)(?:::\w+)*)::\w+", attribute)}
        for name in names:
            importing.setdefault(name, []).append(path)
    return importing


def map_rows(crate: str, folder: str, importing: Mapping[str, list[str]]) -> list[str]:
    """The rows of a crate's files of specs/ or proofs/."""
    rows = []
    for path in found(f"crates/{crate}/{folder}/**/*.antt"):
        if is_of_a_function(path) or path.endswith("/Lib.antt"):
            continue
        says = first_sentence(path)
        judge(says, f"{path}: no comment at its head")
        by = sorted({short_name(crate, user) for user in importing.get(module(path), []) if not user.endswith("/Lib.antt")})
        rows.append(f"| `{path.split('/', 2)[2][:-5]}` | {says} | {', '.join(by)} |")
    return rows


def mapped(asked: Collection[str]) -> Iterator[str]:
    """The files of specs/ and proofs/ of these crates, or of all: what each says, and who imports it."""
    importing = users()
    for crate in filter(is_mapped, sorted(os.listdir("crates"))):
        if asked and crate not in asked:
            continue
        yield from [f"## `{crate}`", ""]
        rows = map_rows(crate, "specs", importing) + map_rows(crate, "proofs", importing)
        if rows:
            yield from ["| file | says | is used by |", "|---|---|---|", *rows, ""]
        functions = functions_of(crate)
        if functions:
            yield from [f"Functions with a proof of their own: {', '.join(functions)}.", ""]


def functions_of(crate: str) -> list[str]:
    """The functions of a crate that have a proof of their own."""
    return sorted({
        f"`{os.path.dirname(path).split('/proofs/')[1].replace('/', '::')}`"
        for path in found(f"crates/{crate}/proofs/**/*.antt")
        if is_of_a_function(path) and not is_found(path)
    })


def map_page() -> str:
    """How many files of specs/ and proofs/ each crate has, and how many functions with a proof of their own."""
    lines = [
        "# Definitions and lemmas",
        "",
        "The files of `specs/` have the definitions that contracts cite, those of `proofs/` lemmas and the answers to goals. The comment",
        "at the head of a file says what it says; `Lib` in either folder is the list of its modules.",
        "",
        "`tests/docs.py --map NAME` lists the files of a crate, each with what it says and who uses it. `tests/docs.py --write` makes",
        "this page.",
        "",
        "| crate | files of definitions | files of lemmas | functions with a proof of their own |",
        "|---|---|---|---|",
    ]
    importing = users()
    for crate in filter(is_mapped, sorted(os.listdir("crates"))):
        numbers = [len(map_rows(crate, folder, importing)) for folder in ("specs", "proofs")] + [len(functions_of(crate))]
        lines.append(f"| [`{crate}`](../crates/{crate}) | {' | '.join(map(str, numbers))} |")
    return "\n".join([*lines, ""])


def judge_page(page: str, text: str, is_writing: bool) -> None:
    if is_writing:
        with open(page, "w", encoding="utf-8") as file:
            file.write(text)
    judge(os.path.exists(page) and read(page) == text, f"{page}: isn't what `tests/docs.py --write` makes")
