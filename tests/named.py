"""What a crate's sources, definitions, proofs and edits name of the crates below it, with all that this stands on.

A file of definitions is cut into its items: a name with its equations, a record, a block of a module. A source is cut into
what it says to other crates: types, each variant of an enum, traits, impls of a trait, functions. An item is named where its
name is among the words so far, and its own words are added to these, until nothing is added. A function has to be called
besides; an impl of a trait is named with its type, unless the trait is private to its module, so that other crates can't see it;
a definition has to be imported by any of the files so far, or to stand in a file of which another definition with its name among
its words is taken. Items of sources are looked for whatever their module, so that two of one name are both taken.
"""
import dataclasses
import functools
import re
from collections.abc import Collection, Iterable, Iterator

import layout

# A word of any file, and a name with the places of arguments.
WORD = re.compile(r"[\w'\-]+|[^\s(){}\[\],;.]*◌[^\s(){}\[\],;]*")
PLAIN = re.compile(r"[\w'\-]+")
# A name that is brought in under another one.
ALIAS = re.compile(r"([\w'\-]+) as ([\w'\-]+)")
# How a source calls a method, or names it by its type; and a function.
METHOD = re.compile(r"\.\s*(\w+)\s*(?=\(|::<)|(?:\b[A-Z]\w*|>)::\s*(\w+)")
CALL = re.compile(r"\b(\w+)\s*(?=\(|::<)|::\s*(\w+)")
IMPORT = re.compile(r"^(?:pub )?use [^;]*;", re.M)
# The heads of items at the beginning of a line.
MODIFIERS = {"abbrev", "pub", "unfoldable", "data", "record", "syntax", "ruleset"}
FUNCTION = re.compile(r" *(?:pub )?(?:const )?(?:unsafe )?(?:final )?fn (\w+)")
TYPE = re.compile(r"(?:pub(?:\(\w+\))? )?(struct|enum|trait|type|const|static|macro_rules!) ?(\w+)?")
PRIVATE_TRAIT = re.compile(r"trait (\w+)")
IMPL = re.compile(r"(?:unsafe )?impl\b(?:<(?:[^<>]|<[^<>]*>)*>)? ?(.*)")
VARIANT = re.compile(r"    ([A-Z]\w*)")
IDENTIFIER = re.compile(r"[A-Za-z_]\w*")
# What a function's contract doesn't depend on: whether its body may change an argument, and the braces behind it.
MUTABLE = re.compile(r"(?<=[(,] )mut (?=\w)")
BRACES = re.compile(r"(?: [{}])+$")
BUILT_IN = {"u8", "u16", "u32", "u64", "usize", "i16", "i32", "i64", "bool", "char", "str", "String", "Vec", "Option", "Result"}


@dataclasses.dataclass(frozen=True)
class Item:
    """What a file says at one place: the names of which one has to be a word, and how a function has to be called."""

    names: frozenset[str]
    call: str
    text: str
    words: frozenset[str]
    within: str = ""


def words_in(text: str) -> frozenset[str]:
    return frozenset(WORD.findall(text))


def item(names: Iterable[str], lines: Iterable[str], call: str = "", within: str = "") -> Item:
    text = layout.words_of(lines)
    return Item(frozenset(names), call, text, words_in(text), within)


def contract(function: Item) -> Item:
    """A function, by what its callers depend on."""
    return dataclasses.replace(function, text=BRACES.sub("", MUTABLE.sub("", function.text)))


# Definitions


def head_name(line: str) -> str:
    """The name that a line at the left edge defines or goes on with; nothing for `unfolding`."""
    words = line.split()
    while words and words[0] in MODIFIERS:
        words = words[1:]
    return words[0] if words and words[0] != "unfolding" else ""


def inner_names(lines: Iterable[str]) -> Iterator[str]:
    """The names at the left edge of a block: definitions of a module, fields and constructors."""
    for line in lines:
        inner = re.match(r"  (?:abbrev |pub |unfoldable |\| )*([^\s:]+)", line)
        if inner and not line.startswith("   "):
            yield inner[1]


def definitions(lines: Iterable[str]) -> Iterator[Item]:
    """The items of a file of definitions."""
    blocks: list[list[str]] = []
    name: str | None = None
    for line in (line for line in lines if line.strip() and not line.startswith(("use ", "mod ", "pub use ", "pub mod "))):
        if line.startswith(" ") or line.startswith(")") or head_name(line) in ("", name):
            if blocks:
                blocks[-1].append(line)
            continue
        name = head_name(line)
        blocks.append([line])
    for block in blocks:
        names = {head_name(block[0])}
        if names == {"module"} or re.match(r"(pub )?(data|record)\b", block[0]):
            names.update(inner_names(block[1:]))
        yield item(names, block)


# Sources


def blocks_of(lines: Iterable[str]) -> Iterator[list[str]]:
    """The items of a source at the left edge, each with its attributes."""
    block: list[str] = []
    for line in lines:
        is_head = line and not line[0].isspace() and line[0] not in ")}]" and not line.startswith(("where", "requires", "ensures", "{"))
        if is_head and block and not all(it.startswith("#") for it in block):
            yield block
            block = []
        if line.strip():
            block.append(line)
    if block:
        yield block


def variants(name: str, lines: Iterable[str]) -> Iterator[Item]:
    """The variants of an enum, each with its attributes."""
    found: list[list[str]] = []
    attributes: list[str] = []
    for line in lines:
        if line.startswith("    #"):
            attributes.append(line)
        elif VARIANT.match(line):
            found.append([*attributes, line])
            attributes = []
        elif found and line.startswith("    "):
            found[-1].append(line)
    for block in found:
        variant = next(match[1] for match in map(VARIANT.match, block) if match)
        yield item({variant}, block, within=name)


def functions(head: str, lines: Iterable[str]) -> Iterator[Item]:
    """The functions of an impl, each with its type."""
    found: list[list[str]] = []
    attributes: list[str] = []
    for line in lines:
        if line.startswith("    #"):
            attributes.append(line)
        elif line.startswith("    ") and not line.startswith("     ") and FUNCTION.match(line):
            found.append([*attributes, line])
            attributes = []
        elif found and not line.startswith("    ghost use"):
            found[-1].append(line)
    for block in found:
        name = next(match[1] for match in map(FUNCTION.match, block) if match)
        yield contract(item({name}, [head, *block], call="method"))


def self_names(header: str) -> set[str]:
    """The names of the type of an impl; of its trait where the type is built in."""
    trait, _, of = header.rpartition(" for ")
    names = {name for name in IDENTIFIER.findall(of.partition(" where")[0]) if name[0].isupper() and len(name) > 1} - BUILT_IN
    return names or set(IDENTIFIER.findall(trait))


def is_of(traits: Collection[str], block: Iterable[str]) -> bool:
    """Whether a block declares one of these traits, or is an impl of it."""
    head = next((line for line in block if not line.startswith("#")), "")
    declared = PRIVATE_TRAIT.match(head)
    header = IMPL.match(head)
    trait = IDENTIFIER.match(header[1].partition(" for ")[0]) if header and " for " in header[1] else None
    return bool(declared and declared[1] in traits) or bool(trait and trait[0] in traits)


def items_of_block(block: list[str]) -> Iterator[Item]:
    heads = [line for line in block if not line.startswith("#")]
    if not heads or heads[0].startswith(("use ", "pub use ", "ghost use ", "mod ", "pub mod ")):
        return
    head, rest = heads[0], block[block.index(heads[0]) + 1:]
    declared = TYPE.match(head)
    function = FUNCTION.match(head)
    header = IMPL.match(head)
    if function:
        yield contract(item({function[1]}, block, call="function"))
    elif declared and declared[1] == "enum" and not any(re.search(r"Ord\b|repr", line) for line in block if line.startswith("#")):
        yield item({declared[2]}, [line for line in block if line.startswith("#")] + [head])
        yield from variants(declared[2], rest)
    elif declared and declared[1] == "macro_rules!":
        yield item(set(), block)
    elif declared:
        yield item({declared[2]}, block)
    elif header:
        joined = " ".join([header[1], *[line.strip() for line in rest[: next((k for k, line in enumerate(rest) if line.startswith("{")), 0)]]])
        if " for " in joined:
            yield item(self_names(joined.partition("{")[0]), block)
        else:
            yield from functions(head, rest)
    else:
        yield item(set(), block)


@functools.lru_cache(maxsize=None)
def items_in(path: str) -> tuple[tuple[Item, ...], tuple[tuple[str, str], ...]]:
    """The items of a file, and the names that it brings in under others."""
    lines = layout.said_in(path)
    aliases = tuple((new, old) for old, new in ALIAS.findall("\n".join(lines)))
    if path.endswith(".antt"):
        return tuple(definitions(lines)), aliases
    blocks = list(blocks_of(layout.without_bodies(lines)))
    private = {declared[1] for block in blocks for declared in map(PRIVATE_TRAIT.match, block) if declared}
    return tuple(it for block in blocks if not is_of(private, block) for it in items_of_block(block)), aliases


# What is named


@functools.lru_cache(maxsize=None)
def imported_in(path: str) -> frozenset[tuple[str, str]]:
    """The definitions that a file imports: the end of the file in which each may stand, and its name. A module that isn't a file
    may be a part of one."""
    found: set[tuple[str, str]] = set()
    for module, names in layout.IMPORT.findall("\n".join(layout.said_in(path))):
        crate, _, parts = module.removeprefix("Rattle.").partition(".specs.")
        words = parts.split(".")
        files = ["/".join(words[:count]) for count in range(1, len(words) + 1)]
        for name in names.split(",") if words[0] not in ("", "declared") else []:
            found.update((f"crates/{crate}/specs/{file}.antt", name.split(" as ")[0].strip()) for file in files)
            found.add((f"/{files[-1]}.antt", name.split(" as ")[0].strip()))
    return frozenset(found)


def calls_in(paths: Iterable[str]) -> dict[str, set[str]]:
    """The names of methods and of functions that sources call."""
    texts = ["\n".join(layout.said_in(path)) for path in paths if path.endswith(".rt")]
    methods, functions = ({name for text in texts for found in call.findall(text) for name in found if name} for call in (METHOD, CALL))
    functions.update(name for text in texts for brought in IMPORT.findall(text) for name in IDENTIFIER.findall(brought))
    return {"method": methods, "function": functions}


def named(own: Collection[str], below: Iterable[tuple[str, str]]) -> list[str]:
    """What files name of others, as texts in their order: `own` are paths, `below` pairs of a path and what it is called."""
    words = {word for path in own for word in words_in("\n".join(layout.said_in(path)))}
    calls = calls_in(own)
    aliases: dict[str, set[str]] = {}
    waiting: list[tuple[str, Item]] = []
    paths = {called: path for path, called in below}
    imported = {name for path in own for name in imported_in(path)}
    # the words of what is taken of each file
    of_files: dict[str, set[str]] = {}
    for path in own:
        for old, new in ALIAS.findall("\n".join(layout.said_in(path))):
            aliases.setdefault(new, set()).add(old)
    for path, called in below:
        items, renamed = items_in(path)
        waiting += [(called, it) for it in items]
        for new, old in renamed:
            aliases.setdefault(new, set()).add(old)

    def is_word(name: str) -> bool:
        if PLAIN.fullmatch(name):
            return name in words
        parts = [part for part in name.split("◌") if part]
        return name in words or bool(parts) and all(part in words for part in parts)

    def is_at_hand(called: str, name: str) -> bool:
        passed_on = f"/{called.partition('/specs/')[2]}"
        is_imported = (called, name) in imported or (passed_on, name) in imported
        return not called.endswith(".antt") or is_imported or name in of_files.get(called, ())

    def is_named(called: str, it: Item) -> bool:
        if it.within and it.within not in words:
            return False
        names = [name for name in it.names if is_word(name) and is_at_hand(called, name)]
        return not it.names or any(not it.call or name in calls[it.call] for name in names)

    taken: list[tuple[str, Item]] = []
    grows = True
    while grows:
        words |= {old for new, olds in aliases.items() if new in words for old in olds}
        found = [(called, it) for called, it in waiting if is_named(called, it)]
        waiting = [pair for pair in waiting if pair not in found]
        taken += found
        for called, it in found:
            of_files.setdefault(called, set()).update(it.words)
            imported |= imported_in(paths[called])
        added = {word for _, it in found for word in it.words} - words
        words |= added
        grows = bool(found)
    return sorted(f"{called}: {it.text}" for called, it in taken)
