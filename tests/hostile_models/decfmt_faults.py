"""Tables with a fault, which has a name or is a damage of some bytes. Each is put into valid tables, of which the first entries
have its place."""
import copy
import json
import random
from collections.abc import Callable
from typing import Any

from hostile_models.decfmt_drawn import written
from hostile_models.decfmt_lines import Tables

# What a fault does to the tables, an object of JSON.
Fault = Callable[[dict[str, object]], None]


def without(key: str) -> Fault:
    """A fault that takes a key away."""
    def fault(document: dict[str, object]) -> None:
        del document[key]
    return fault


def put(*path: object) -> Fault:
    """A fault that puts its last value at the path before it."""
    def fault(document: dict[str, object]) -> None:
        # a list or an object of JSON
        place: Any = document
        for key in path[:-2]:
            place = place[key]
        place[path[-2]] = path[-1]
    return fault


def rule(text: str) -> Fault:
    """A fault in the text of a plural rule."""
    return put("rules", [{"locale": "en", "rules": [["one", "i = 1"], ["two", text]]}])


def rows(*given: tuple[int, int, str]) -> Fault:
    """A fault in the rows of a compact table."""
    return put("long", [{"locale": "en", "patterns": [[row, exponent, {"other": text}] for row, exponent, text in given]}])


def each_of(*path: object, values: list[object]) -> list[Fault]:
    """A fault for each of these values at the path."""
    return [put(*path, value) for value in values]


FAULTS: list[Fault] = (
    [without(key) for key in ["symbols", "digits"]]
    + [fault for key in ["symbols", "digits", "rules", "short", "long"] for fault in each_of(key, values=[None, {}, "a", 1, [1]])]
    + each_of("symbols", 0, "locale", values=[1, "", "e_n", "\u00e9", "a" * 64, None])
    + each_of("symbols", 0, "system", values=["la", "Latn", "123456789", None, 3])
    + each_of("symbols", 0, "numsys", values=["", "la", "LATN", "123456789", 1])
    + [fault for key in ["minus", "plus"] for fault in each_of("symbols", 0, key, values=["-", ["-"], ["", "", ""], [1, ""]])]
    + [put("symbols", 0, "decimal", "a" * 256), put("symbols", 0, "group", "\u00e9" * 128)]
    + each_of("symbols", 0, "sizes", values=[[3, 3], [3, 3, 256], [3, 3, -1], [3, 3, 1, 1], "331", [True] * 3])
    + each_of("digits", values=[[["latn"]], [["latn", "012345678"]], [["latn", "01234567890"]], [["la", "0123456789"]]])
    + each_of("x", values=[0.5, [[{"y": 1e9}]], 2**64, -(2**63) - 1])
    + [rule(text) for text in ["x = 1", "i", "i =", "i = 1 and", "i % 0 = 1", "i = " + "9" * 19, "i == 1", "i = 1.", "I = 1",
                               "\u00e9"]]
    + [put("rules", [{"locale": "en", "rules": [[category, ""]]}]) for category in ["", "One", "ones", 1]]
    + [rows((3, 3, "{0}{0}")), rows((3, 3, "a"), (3, 3, "b")), rows((4, 3, "a"), (3, 3, "b")), rows((256, 3, "a"))]
    + [rows((3, 3, "a"), (4, 2, "b")), rows((3, 4, "a")), rows((16, 0, "a")), rows((3, 3, "a" * 65536)), rows((3, -1, "a"))]
    + [put("long", [{"locale": "en", "patterns": [[3, 3, {}]]}]), put("long", [{"locale": "en"}])]
)
BYTE_FAULTS: list[Callable[[bytes], bytes]] = [
    lambda text: text[:-1],
    lambda text: text[: len(text) // 2],
    lambda text: text + b"x",
    lambda text: text + b"\xff",
    lambda text: b"\xef\xbb\xbf" + text,
    lambda text: b"[" + text + b"]",
    lambda text: b"[" * 200 + text + b"]" * 200,
    lambda text: text.replace(b'"', b"'", 1),
    lambda text: text.replace(b"[", b"[,", 1),
    lambda text: b'{"\\ud800":1,' + text[1:],
    lambda text: b'{"\xed\xa0\x80":1,' + text[1:],
    lambda text: b"",
]
NAMED_FAULTS = len(FAULTS) + len(BYTE_FAULTS)


def faulty(rng: random.Random, tables: Tables, fault: int) -> bytes:
    """The bytes of these tables with the fault of this number."""
    if fault < len(FAULTS):
        document = copy.deepcopy(tables.document())
        FAULTS[fault](document)
        return written(rng, document)
    return BYTE_FAULTS[fault - len(FAULTS)](json.dumps(tables.document()).encode())


def damaged(rng: random.Random, given: bytes) -> bytes:
    """The bytes with some of them changed, lost, doubled or put in."""
    text = bytearray(given)
    for _ in range(rng.choice([1, 1, 1, 1, 2, 6])):
        place, many = rng.randrange(len(text) + 1), rng.randint(1, 4)
        change = rng.randrange(4)
        if change == 0 and place < len(text):
            text[place] = rng.choice([rng.randrange(256), *b'0129-.{}[]":,eE\\'])
        elif change == 1:
            del text[place : place + many]
        elif change == 2:
            text[place:place] = text[place : place + rng.randint(1, 40)]
        else:
            text[place:place] = bytes(rng.choice(b'0123456789-+.{}[]":,eEu\\\x00\xff \n') for _ in range(many))
    return bytes(text)


def is_read_by_python(text: bytes) -> bool:
    """Whether Python reads the bytes as JSON, which it does more freely than the format allows."""
    try:
        json.loads(text.decode())
    except RecursionError:
        return True
    except ValueError:
        return False
    return True
