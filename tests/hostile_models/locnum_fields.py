"""The fields of lines, and of the records of CSV: the page of locnum_lines."""
import re
from collections.abc import Iterator, Sequence
from dataclasses import dataclass

# A field of CSV in quotes.
QUOTED = re.compile(rb'"((?:[^"]|"")*)"(?!")')
BLANKS = b" \t\n"


@dataclass(frozen=True)
class Piece:
    """A field of a line, and the byte behind it or nothing."""

    text: bytes
    behind: bytes


@dataclass(frozen=True)
class Field:
    """A field of CSV: how it stands there, and what it holds."""

    text: bytes
    content: bytes

    def name(self) -> bytes:
        """Its content as the name of a column: without a carriage return behind the field."""
        return self.content.removesuffix(b"\r") if self.text.endswith(b"\r") else self.content


@dataclass(frozen=True)
class Record:
    """A record of CSV, what stands behind it, and the line in which quotes begin that don't end, or None."""

    fields: Sequence[Field]
    end: bytes
    open_line: int | None = None


def pieces_of(line: bytes, delimiter: bytes | None) -> list[Piece]:
    """The fields of a line: by the delimiter, or else by blanks, of which those behind a field but the first are a field."""
    if delimiter is not None:
        fields = line.split(delimiter)
        return [*(Piece(field, delimiter) for field in fields[:-1]), Piece(fields[-1], b"")]
    shown_part = line.rstrip(BLANKS)
    pieces = [Piece(text, behind) for text, behind in re.findall(rb"([ \t\n]*[^ \t\n]+)([ \t\n]?)", shown_part)]
    rest = line[len(shown_part):]
    if pieces and rest:
        pieces[-1] = Piece(pieces[-1].text, rest[:1])
        rest = rest[1:]
    return [*pieces, Piece(rest, b"")] if not pieces or pieces[-1].behind else pieces


def records_of(given: bytes, delimiter: bytes) -> Iterator[Record]:
    """The records of CSV. Behind quotes, what stands before the delimiter or the end of the line is of the field, too."""
    unquoted = re.compile(rb"[^\n" + re.escape(delimiter) + rb"]*")
    place = 0
    fields: list[Field] = []
    while place < len(given) or fields:
        quoted = QUOTED.match(given, place)
        if given[place:place + 1] == b'"' and not quoted:
            yield Record(fields, b"", given.count(b"\n", 0, place) + 1)
            return
        behind = unquoted.match(given, quoted.end() if quoted else place)
        assert behind
        content = (quoted[1].replace(b'""', b'"') if quoted else b"") + behind[0]
        fields.append(Field(given[place:behind.end()], content))
        place = behind.end() + 1
        if given[place - 1:place] != delimiter:
            yield Record(fields, given[place - 1:place] or b"\n")
            fields = []
