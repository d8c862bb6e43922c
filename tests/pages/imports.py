"""Where libraries import items from: the crate that defines an item, and no other that passes it on."""
import os
import re
from collections.abc import Iterator

import edits
from pages.judging import found, judge, read

# The crate that passes items on for programs and tests, and the library of tests.
FACADE, TESTS = "icu_base", "test_callers"
USE = re.compile(r"^ *(pub(?:\([a-z]+\))? )?use ([\w:]+(?:::\{[^;]*\})?|\w[^;]*);", re.M)
GHOST = re.compile(r"\buse Rattle\.(\w+)\.specs\.([\w.]+?)\.\{")
PASSED_ON = re.compile(r"^pub use Rattle\.(\w+)\.specs\.(\w+)$", re.M)


def is_library(name: str) -> bool:
    """Whether a crate is neither a program, nor tests, nor the crate that passes items on."""
    return name not in (FACADE, TESTS) and os.path.exists(f"crates/{name}/src/lib.rt")


def split_list(text: str) -> Iterator[str]:
    """The parts of a list between commas outside of braces."""
    depth, part = 0, ""
    for character in text:
        depth += (character == "{") - (character == "}")
        if character == "," and depth == 0:
            yield part
            part = ""
        else:
            part += character
    yield part


def paths_of(text: str) -> Iterator[list[str]]:
    """The paths of items that the tree of an import names."""
    text = text.strip()
    head, brace, rest = text.partition("{")
    if not brace:
        if text:
            yield text.split(" as ")[0].strip().split("::")
        return
    before = [part for part in head.strip().split("::") if part]
    for part in split_list(rest.rstrip()[:-1]):
        for path in paths_of(part):
            yield [*before, *(path if path != ["self"] else [])]


def passed_on(source: str) -> dict[str, list[str]]:
    """The names that a source makes public of others, each with its path."""
    names: dict[str, list[str]] = {}
    for visible, tree in USE.findall(read(source)):
        if visible == "pub ":
            for path in paths_of(tree):
                names[path[-1]] = path
    return names


def home_of(path: list[str]) -> str:
    """The crate that defines the item at a path, which begins with a crate."""
    # a module may have the name of its crate
    name, folder, source = path[0], f"crates/{path[0]}/src", f"crates/{path[0]}/src/lib.rt"
    for index, part in enumerate(path[1:], 1):
        names = passed_on(source) if os.path.exists(source) else {}
        if part in names:
            there = names[part]
            return home_of([*there, *path[index + 1:]]) if there[0] in edits.USES and there[0] != name else name
        folder, source = f"{folder}/{part}", f"{folder}/{part}.rt"
    return name


def foreign_items(source: str) -> Iterator[str]:
    """The items that a source imports through another crate than the one that defines them."""
    text = read(source)
    for _, tree in USE.findall(text):
        for path in paths_of(tree):
            if path[0] in edits.USES and home_of(path) != path[0]:
                yield f"{source}: {'::'.join(path)} is of {home_of(path)}"


def foreign_definitions(source: str) -> Iterator[str]:
    """The modules of definitions that a file imports through another crate than theirs."""
    for name, module in GHOST.findall(read(source)):
        lib = f"crates/{name}/specs/Lib.antt"
        if name in edits.USES and os.path.exists(lib):
            homes = {passed: home for home, passed in PASSED_ON.findall(read(lib))}
            if module in homes:
                yield f"{source}: {name}.specs.{module} is of {homes[module]}"


def judge_homes() -> None:
    """The imports of libraries, each from the crate that defines the item."""
    for name in filter(is_library, edits.USES):
        sources = found(f"crates/{name}/src/**/*.rt")
        proofs = found(f"crates/{name}/specs/**/*.antt") + found(f"crates/{name}/proofs/**/*.antt")
        foreign = [fault for source in sources for fault in foreign_items(source)]
        foreign += [fault for source in sources + proofs for fault in foreign_definitions(source)]
        judge(not foreign, f"crates/{name}: items that aren't imported from their crate:", "; ".join(foreign[:5]))
