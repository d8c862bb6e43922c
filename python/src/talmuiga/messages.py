"""Plural messages (ICU MessageFormat), as `{n, plural, one{# file} other{# files}}`.

    >>> from talmuiga import Message
    >>> files = Message.english("{who} sent {n, plural, =0{no files} one{# file} other{# files}}")
    >>> files(who="Ana", n=1234)
    'Ana sent 1,234 files'
    >>> Message.english("{n, number, ::currency/USD} for {n, plural, one{# day} other{# days}}")(n=1)
    '$1.00 for 1 day'
"""
from __future__ import annotations

from typing import Callable, Dict, List, Mapping, Optional, Tuple, Union

from . import OUT_OF_MEMORY, REASONS, WORDS_REFUSED, Formatter, Number, Refused, _library, refusal, text_of, utf8

#: A value of a message: a number, or a text. A text is a number if the message wants one.
Value = Union[Number, str]

#: What a message asks of an argument, by the numbers in the library for C.
ARGUMENTS = {0: "any", 1: "number", 2: "text"}

#: Why a message isn't written, by its status.
WRITE_REASONS = {16: "missing", 17: "not a number", 18: "not a text", 19: "not UTF-8"}

#: The kinds of faults of messages, by their numbers in the library for C.
MESSAGE_KINDS = {1: "notUtf8", 2: "tooLong", 3: "end", 4: "unopened", 5: "openQuote", 6: "tooDeep", 7: "name", 8: "kind", 9: "style",
                 10: "skeleton", 11: "twoKinds", 12: "offset", 13: "key", 14: "repeated", 15: "noOther", 16: "unexpected"}


class MessageRefused(Refused):
    """The text isn't a message: the byte of its first fault in its UTF-8, the kind of the fault, as noOther, and words for people."""

    def __init__(self, byte: int, kind: str, words: str):
        super().__init__(f"the message is refused: {words}, byte {byte}")
        self.byte = byte
        self.kind = kind
        self.words = words


class ArgumentRefused(ValueError):
    """A message isn't written: the name of an argument, and the reason, as `missing`, `not a number`, `not a text` or `not a decimal`."""

    def __init__(self, name: str, reason: str):
        super().__init__(f"the argument {name!r}: {reason}")
        self.name = name
        self.reason = reason


class Message:
    """A message of a locale by tables (docs/FORMATS.md), with the plural rules that the tables have for the locale.

    A message has places, as `{who}`; choices by a number's plural category, as `{n, plural, one{# file} other{# files}}` and
    `{n, selectordinal, one{#st} other{#th}}`; choices by a text, as `{who, select, female{her} other{their}}`; and places with a form of
    their own, as `{n, number, ::currency/EUR}`, with a number skeleton. The tables are read once, when the message is made, and threads
    may share it.

    What can't be is refused here: by `MessageRefused`, with byte and kind, a text that is no message; by `WordsRefused` a locale; by
    `TablesRefused` the tables; by `NoData` what these lack, rules of the locale or what a form needs; by `SkeletonRefused` a skeleton
    that no formatter has; and if memory runs out, by `MemoryError`.
    """

    def __init__(self, tables: bytes, locale: str, text: str):
        tables = bytes(tables)
        spelled = utf8(text)
        try:
            opened = _library.open_message(tables, locale, spelled)
        except ValueError:  # a NUL, or half of a pair
            raise refusal(WORDS_REFUSED, [locale]) from None
        self._hold(opened, spelled, tables, locale, lambda skeleton: Formatter(tables, locale, skeleton=skeleton))

    @classmethod
    def english(cls, text: str) -> "Message":
        """A message in English, without tables, by what `Formatter.english` knows."""
        message = cls.__new__(cls)
        spelled = utf8(text)
        message._hold(
            _library.open_english_message(spelled), spelled, b"", "en", lambda skeleton: Formatter.english(skeleton=skeleton))
        return message

    def _hold(
        self,
        opened: Union[_library.MessageCapsule, int, Tuple[int, int, str]],
        text: bytes,
        tables: bytes,
        locale: str,
        formatter_of: Callable[[str], Formatter],
    ) -> None:
        """Holds a message that was opened, and the formatters of its places; or raises why it wasn't."""
        if isinstance(opened, tuple):
            byte, kind, words = opened
            raise MessageRefused(byte, MESSAGE_KINDS.get(kind, "other"), words)
        if isinstance(opened, int):
            raise refusal(opened, [locale], tables)
        self._opened = opened
        self._text = text
        self._formatter_of = formatter_of
        #: The names of the message, each with what it asks of the argument: number, text, or any for both.
        self.names: Dict[str, str] = {
            text[start:end].decode(): ARGUMENTS.get(kind, "any") for start, end, kind in _library.names(opened)}
        self._plain: Optional[Formatter] = formatter_of("") if "number" in self.names.values() else None
        self._forms: Dict[str, Dict[bytes, Formatter]] = {}
        for name_start, name_end, start, end in _library.places(opened):
            forms = self._forms.setdefault(text[name_start:name_end].decode(), {})
            if text[start:end] not in forms:
                forms[text[start:end]] = formatter_of(text[start:end].decode())

    def __call__(self, values: Optional[Mapping[str, Value]] = None, /, **named: Value) -> str:
        """The text of the message with values, given by their names or in a mapping, as for names of digits alone.

        A number is what `Formatter.format` takes, other than a text, and stands in the text as the locale writes it. A text is a text; but
        where the message wants a number, a text that spells a decimal is one. Values that the message doesn't name are ignored.
        `ArgumentRefused` where a value is missing or isn't what the message wants.
        """
        return self.format(values, **named)

    def format(self, values: Optional[Mapping[str, Value]] = None, /, **named: Value) -> str:
        """The same as a call of the message."""
        given: List[Tuple[str, bytes, Optional[_library.Capsule], Optional[bytes]]] = []
        for name, value in {**(values or {}), **named}.items():
            if name in self.names:
                self._give(given, name, value)
        answer = _library.write(self._opened, given)
        if isinstance(answer, str):
            return answer
        raise self._refused(answer, given)

    def _give(
        self, given: List[Tuple[str, bytes, Optional[_library.Capsule], Optional[bytes]]], name: str, value: Value
    ) -> None:
        """Adds a value to those that are given."""
        if isinstance(value, str) and self.names[name] != "number":
            given.append((name, utf8(value), None, None))
            return
        number = utf8(text_of(value))
        if self._plain is None:
            self._plain = self._formatter_of("")
        given.append((name, number, self._plain._opened, None))
        for skeleton, formatter in self._forms.get(name, {}).items():
            given.append((name, number, formatter._opened, skeleton))

    def _refused(
        self, answer: Tuple[int, int, int], given: List[Tuple[str, bytes, Optional[_library.Capsule], Optional[bytes]]]
    ) -> Exception:
        """The exception of a message that isn't written."""
        status, first, last = answer
        if status == OUT_OF_MEMORY:
            return MemoryError("the library had no memory for a message")
        # a value that isn't added, or a name in the text of the message
        name = given[first][0] if last < 0 else self._text[first:last].decode()
        return ArgumentRefused(name, {**REASONS, **WRITE_REASONS}.get(status, "refused"))
