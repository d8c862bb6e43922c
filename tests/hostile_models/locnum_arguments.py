"""The command line of locnum: which options are given, by whole names, by beginnings of names and by letters, and the numbers."""
import re
from collections.abc import Sequence

# Options with a text and without one, and their letters.
TEXTS = ["tables", "locale", "system", "style", "fraction", "significant", "increment", "integer", "scale", "round", "sign",
         "skeleton", "currency", "width", "unit", "delimiter", "field", "padding", "invalid", "list"]
# Those that have a text behind `=` or none, with what stands for none.
PERHAPS = {"header": "1", "grouping": "auto"}
FLAGS = ["accounting", "cash", "percent", "permille", "csv", "zero-terminated", "explain"]
ENDING_AT_ONCE = ["help", "version"]
LETTERS = {"t": "tables", "l": "locale", "d": "delimiter", "z": "zero-terminated", "h": "help", "V": "version"}
# The endings that the command line has.
COMMAND, HELP, VERSION = "a fault of the command line", "help", "version"
# The options that are given, with their texts; those without one have an empty text.
Given = dict[str, str]


class Ended(Exception):
    """What the words end in, before anything is read, and its note where the ending has several."""

    def __init__(self, ending: str, note: str = "") -> None:
        super().__init__(ending)
        self.ending = ending
        self.note = note


def add(given: Given, name: str, text: str = "") -> None:
    """Puts an option among those that are given."""
    if name in ENDING_AT_ONCE:
        raise Ended(HELP if name == "help" else VERSION)
    if name in given:
        raise Ended(COMMAND)
    given[name] = text


def next_of(words: list[str]) -> str:
    """The next word, which is an option's text."""
    if not words:
        raise Ended(COMMAND)
    return words.pop(0)


def whole_name(name: str) -> str:
    """The one option whose name begins so, or this name."""
    names = [*TEXTS, *PERHAPS, *FLAGS, *ENDING_AT_ONCE]
    begun = [each for each in names if each.startswith(name)]
    return name if name in names or len(begun) != 1 else begun[0]


def add_long(word: str, words: list[str], given: Given) -> None:
    """An option by its name, which may be cut short, and its text behind `=` or in the next word."""
    name, sign, text = word[2:].partition("=")
    name = whole_name(name)
    if name in TEXTS:
        add(given, name, text if sign else next_of(words))
    elif name in PERHAPS:
        add(given, name, text if sign else PERHAPS[name])
    elif name in (*FLAGS, *ENDING_AT_ONCE) and not sign:
        add(given, name)
    else:
        raise Ended(COMMAND)


def add_letters(word: str, words: list[str], given: Given) -> None:
    """Letters behind a hyphen; what stands behind one that takes a text is its text, or the next word."""
    for place, letter in enumerate(word[1:]):
        name, rest = LETTERS.get(letter), word[place + 2:]
        if name is None:
            raise Ended(COMMAND)
        if name in TEXTS:
            add(given, name, rest.removeprefix("=") if rest else next_of(words))
            return
        add(given, name)


def arguments_of(words: Sequence[str]) -> tuple[Given, list[str]]:
    """The options that are given, and the numbers."""
    left = list(words)
    given: Given = {}
    numbers: list[str] = []
    while left:
        word = left.pop(0)
        if word == "--":
            return given, numbers + left
        if word.startswith("--"):
            add_long(word, left, given)
        elif word.startswith("-") and word != "-" and not re.match(r"-[0-9]+(\.[0-9]+)?$|-\.[0-9]", word):
            add_letters(word, left, given)
        else:
            numbers.append(word)
    return given, numbers
