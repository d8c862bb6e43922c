"""What files say apart from their layout: without comments, line breaks and the order of imports."""
import os
import re
from collections.abc import Iterable, Iterator

# The head of a function's body, which `rt fmt` ends by a brace below the beginning of this line.
BODY = re.compile(r'( *)(\{|(pub(\([a-z]+\))? )?(const )?(unsafe )?(extern "C" )?fn .*\{|\) ?(-> .*)?\{)')
# The first line of a function that no other crate can call, where it doesn't stand in a trait or an impl of one, and a line
# that is a whole item.
PRIVATE = re.compile(r" *(pub\([a-z]+\) )?(const )?(unsafe )?fn .*")
WHOLE = re.compile(r".*(\}|;)")
OF_TRAIT = re.compile(r"(pub )?(unsafe )?(impl\b.* for |trait ).*")
# An import of definitions or proofs, and the words of a file: texts and characters whole.
IMPORT = re.compile(r"(?:ghost )?use ([\w.]+)\.\{([^}]*)\};?")
WORD = re.compile(r"""\"(?:\\.|[^"\\])*"|'(?:\\.|[^'\\])'|[()\[\]{},;]|[^\s()\[\]{},;"]+|\"""")
CLOSING = (")", "]", "}")
# Who may call an item of a crate, which changes nothing of the item itself.
VISIBILITY = re.compile(r"\bpub (?:\( (?:crate|super) \) )?")


def said_in(path: str) -> list[str]:
    """The lines of a file; of a source, a definition or a proof without those of comments, of an edit without those that name
    the tests and rows that show it."""
    comment = {".rt": "//", ".antt": "--", ".edit": "shown:"}.get(os.path.splitext(path)[1])
    with open(path, encoding="utf-8") as file:
        return [line for line in file.read().splitlines() if not comment or not line.lstrip(" ").startswith(comment)]


def words_of(lines: Iterable[str]) -> str:
    """The words of lines, whatever their layout: without what a broken list has more than one in a line."""
    words = WORD.findall(" ".join(map(str.strip, lines)))
    return " ".join(it for it, after in zip(words, [*words[1:], ""]) if not (it in (",", ";") and after in CLOSING))


def with_imports_in_order(lines: Iterable[str]) -> str:
    """The words of lines behind the definitions and proofs that they import."""
    text = "\n".join(lines)
    imports = {f"{module}.{item.strip()}" for module, items in IMPORT.findall(text) for item in items.split(",")}
    return " ".join([*sorted(imports), words_of(IMPORT.sub("", text).splitlines())])


def spelled(path: str) -> str:
    """What a file says, whatever its layout and the order of its imports; of a source whoever may call its items."""
    lines = said_in(path)
    said = with_imports_in_order(lines) if path.endswith((".rt", ".antt")) else words_of(lines)
    return VISIBILITY.sub("", said) if path.endswith(".rt") else said


def without_bodies(lines: Iterable[str]) -> Iterator[str]:
    """The lines of a source without the bodies of functions, and without functions that no other crate can call."""
    end: str | None = None
    is_hidden = is_of_trait = False
    attributes: list[str] = []
    for line in lines:
        if end is not None:
            if line == end:
                if not is_hidden:
                    yield line
                end, is_hidden = None, False
            continue
        if line.lstrip().startswith("#[") or sum(it.count("[") - it.count("]") for it in attributes) > 0:
            attributes.append(line)
            continue
        is_of_trait = bool(OF_TRAIT.fullmatch(line)) or (is_of_trait and line != "}")
        is_private = not is_of_trait and bool(PRIVATE.fullmatch(line))
        is_hidden = is_hidden or is_private
        head = BODY.fullmatch(line)
        end = head[1] + "}" if head else None
        if not is_hidden:
            yield from [*attributes, line]
        elif (is_private and WHOLE.fullmatch(line)) or line.strip() == "{}":
            is_hidden = False
        attributes = []
