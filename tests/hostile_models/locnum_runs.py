"""What locnum writes and reports of lines, of records of CSV and of numbers that are explained; and what it is to answer."""
import re
from collections.abc import Sequence

from hostile_models.locnum_arguments import COMMAND, HELP, VERSION, Ended, arguments_of
from hostile_models.locnum_fields import BLANKS, Record, pieces_of, records_of
from hostile_models.locnum_numbers import WHITE, explained, reported, written
from hostile_models.locnum_settings import FAULTS, FILE, NO_TEXT, OTHER, PLAIN, UNIT, Settings, data_of, meant, settings_of
from hostile_models.running import ROOT, Answer, Word

MARK = b"\xef\xbb\xbf"


def distance(name: bytes, other: bytes) -> int:
    """How many bytes have to change until a name is another one (Levenshtein)."""
    row = list(range(len(other) + 1))
    for count, byte in enumerate(name):
        above, row = row, [count + 1]
        for at, another in enumerate(other):
            row.append(min(above[at + 1] + 1, row[at] + 1, above[at] + (byte != another)))
    return row[-1]


class Run:
    """What is written and reported of lines."""

    def __init__(self, settings: Settings, met: list[str], place: bytes | None = None) -> None:
        self.settings, self.met, self.place = settings, met, place
        self.read, self.most_fields, self.left = 0, 0, settings.header
        self.holding = b""
        self.names: list[bytes] = []
        self.columns: list[int] = []
        self.output: list[bytes] = []
        self.error: list[bytes] = []
        self.has_invalid = self.is_stopped = False

    def place_of(self, index: int) -> bytes:
        """Where a field stands, with the name that the last line of the header gives it."""
        name = self.names[index - 1] if index <= len(self.names) else b""
        return self.place or b"line %d, field %d" % (self.read + 1, index) + (b" (" + reported(name) + b")" if name else b"")

    def spaced(self, number: bytes, before: bytes, text: bytes, index: int) -> bytes:
        """What is written for a text in the columns that it takes, behind the blanks in front of it or in their place."""
        columns = self.settings.columns
        if columns is None and self.settings.delimiter is None and (before or index > 1):
            columns = len(before) + len(text)
        if columns is None:
            return before + number
        spaces = b" " * (abs(columns) - len(number.decode()))
        return spaces + number if columns > 0 else number + spaces

    def pass_on(self, *texts: bytes) -> None:
        """What goes through, which explanations leave out."""
        if not self.settings.explain:
            self.output += texts

    def is_invalid(self, why: str) -> None:
        """A text is invalid."""
        self.has_invalid = True
        self.met.append(why)
        self.is_stopped = self.settings.mode == "abort"

    def field(self, field: bytes, index: int) -> None:
        """A field that is chosen, of this number."""
        before = field[:len(field) - len(field.lstrip(BLANKS))]
        text = field[len(before):].rstrip(BLANKS + b"\r")
        behind = field[len(before) + len(text):]
        if self.settings.explain:
            self.explained_text(text, self.place_of(index) + b"\n")
            return
        number = written(text, self.settings)
        if isinstance(number, bytes):
            self.output += [self.spaced(number, before, text, index), behind]
            if not self.settings.csv and self.settings.delimiter and self.settings.delimiter in number:
                self.holding = self.holding or number
            return
        self.output.append(before)
        self.is_invalid(number)
        if self.settings.mode != "ignore":
            self.error.append(b"locnum: " + self.place_of(index) + b": " + reported(text) + b": " + number.encode() + b"\n")
        if not self.is_stopped:
            self.output += [text, behind]

    def csv_field(self, text: bytes, content: bytes, index: int) -> None:
        """A field of CSV that is chosen: of its content what is written is put into quotes where it has to be."""
        kept = b"\r" if text.endswith(b"\r") else b""
        apart = Run(self.settings, self.met, self.place_of(index))
        apart.field(content[:len(content) - len(kept)], index)
        self.error += apart.error
        if self.settings.explain:
            self.output += apart.output
            self.has_invalid, self.is_stopped = self.has_invalid or apart.has_invalid, apart.is_stopped
            return
        if apart.has_invalid:
            self.has_invalid, self.is_stopped = True, apart.is_stopped
            self.output.append(b"" if self.is_stopped else text)
            return
        number = b"".join(apart.output)
        if text.startswith(b'"') or re.search(rb'["\n' + re.escape(self.settings.comma) + rb"]", number):
            number = b'"' + number.replace(b'"', b'""') + b'"'
        self.output += [number, kept]

    def is_chosen(self, index: int) -> bool:
        """Whether the field of this number is chosen."""
        self.most_fields = max(self.most_fields, index)
        if self.settings.names:
            return index in self.columns
        return any(each.first <= index <= each.last for each in self.settings.fields)

    def is_of_header(self) -> bool:
        """Whether what is next is a line of the header."""
        is_header, self.left = self.left > 0, max(self.left - 1, 0)
        return is_header

    def look_for_columns(self) -> None:
        """Behind the header: the columns that are asked for by name, or a note of the first name that none has."""
        if self.left > 0:
            return
        for name in self.settings.names:
            if name not in self.names:
                self.met.append("a name of no column")
                near = sorted(self.names, key=lambda column: distance(column, name))[:5]
                self.error.append(b"locnum: no field %s; the header has %s\n" % (reported(name), b", ".join(map(reported, near))))
                self.is_stopped = True
                return
            self.columns.append(self.names.index(name) + 1)

    def record(self, record: Record) -> None:
        """A record of CSV."""
        if self.settings.explain and record.open_line is not None:
            self.open_record(record.open_line)
            return
        is_header = self.is_of_header()
        if is_header:
            self.names = [each.name() for each in record.fields]
        for place, field in enumerate(record.fields):
            if not is_header and self.is_chosen(place + 1):
                self.csv_field(field.text, field.content, place + 1)
            else:
                self.pass_on(field.text)
            if self.is_stopped:
                return
            is_last = place + 1 == len(record.fields) and record.open_line is None
            self.pass_on(record.end if is_last else self.settings.comma)
        if is_header and record.open_line is None:
            self.look_for_columns()
        self.read += sum(field.text.count(b"\n") for field in record.fields) + 1
        if record.open_line is not None:
            self.open_record(record.open_line)

    def open_record(self, line: int) -> None:
        """Quotes of CSV that begin in this line don't end."""
        self.met.append("quotes without an end")
        self.error.append(f"locnum: line {line}: a quote without an end\n".encode())
        self.is_stopped = True

    def line(self, line: bytes) -> None:
        """A line."""
        pieces = pieces_of(line, self.settings.delimiter)
        if self.is_of_header():
            self.read += 1
            self.names = [piece.text.lstrip(BLANKS).rstrip(BLANKS + b"\r") for piece in pieces]
            self.pass_on(line, self.settings.end)
            self.look_for_columns()
            return
        for place, piece in enumerate(pieces):
            if self.is_chosen(place + 1):
                self.field(piece.text, place + 1)
            else:
                self.pass_on(piece.text)
            if self.is_stopped:
                return
            self.pass_on(piece.behind)
        self.read += 1
        self.pass_on(self.settings.end)

    def explained_text(self, text: bytes, front: bytes = b"") -> None:
        """A text that is explained, under what stands in front."""
        lines, why = explained(text, self.settings)
        self.output.append(front + lines)
        if why:
            self.is_invalid(why)

    def explained_line(self, line: bytes) -> None:
        """A line with a number, which is explained."""
        self.explained_text(line.strip(WHITE))

    def records(self, given: bytes) -> None:
        """The records of an input of CSV, until the run has stopped."""
        for record in records_of(given, self.settings.comma):
            if not self.is_stopped:
                self.record(record)

    def lines(self, given: bytes) -> None:
        """The lines of an input, until the run has stopped."""
        explains = self.settings.explain and not self.settings.explains_fields
        each = self.explained_line if explains else self.line
        lines = given.split(self.settings.end)
        for line in lines if lines[-1] else lines[:-1]:
            if not self.is_stopped:
                each(line)

    def whole(self, given: bytes) -> None:
        """An input."""
        if self.place is None and given.startswith(MARK):
            self.met.append("a byte order mark")
            self.pass_on(MARK)
            given = given[len(MARK):]
        (self.records if self.settings.csv else self.lines)(given)

    def words(self, numbers: Sequence[str]) -> None:
        """Numbers of the command line, until the run has stopped."""
        self.left = 0
        for place, number in enumerate(numbers):
            self.place = b"word %d" % (place + 1)
            if self.is_stopped:
                return
            if self.settings.explain and not self.settings.explains_fields:
                self.explained_line(number.encode())
            else:
                self.whole(number.encode() or self.settings.end)

    def report(self) -> None:
        """What is reported behind a run: a field that no record has, and a number that holds the delimiter."""
        ranges = [] if self.settings.names else self.settings.fields
        missed = next((each.first for each in ranges if each.first > self.most_fields), None)
        if missed and self.settings.mode != "ignore" and not self.is_stopped and self.most_fields:
            self.met.append("a field that no record has")
            self.error.append(b"locnum: no record has field %d\n" % missed)
        if self.holding:
            self.met.append("a number that holds the delimiter")
            self.error.append(b"locnum: " + self.holding + b" holds the delimiter; --csv quotes it\n")

    def answer(self) -> Answer:
        """What the program answers."""
        status = 2 if self.has_invalid and self.settings.mode in ("abort", "fail") else 1 if self.is_stopped else 0
        return Answer(status, b"".join(self.output), b"".join(self.error))


def version() -> str:
    """The version of the repository."""
    with open(f"{ROOT}/VERSION", encoding="utf-8") as file:
        return file.read().strip()


def answer_to_ending(ending: str, data: str, note: str) -> Answer:
    """What the words' ending answers, as far as it is known: a note names the data that are to be made, or is given."""
    output = {VERSION: f"locnum {version()} (proved)\n", HELP: "Writes numbers in the form of a locale\n"}.get(ending, "")
    error = "locnum: " if ending in (COMMAND, FILE, UNIT) else ""
    if ending in FAULTS:
        shown = data if ending.endswith("locale without data") else ""
        error = f"locnum: {note or FAULTS[ending]}\n".replace(" -o ", f"{shown} -o ")
    return Answer(0 if ending in (HELP, VERSION) else 1, output.encode(), error.encode())


def answer_of(words: Sequence[Word], given: bytes, met: list[str]) -> tuple[Settings | None, Answer]:
    """What the program is to answer: its settings too, where it comes so far."""
    try:
        texts = [word.decode() if isinstance(word, bytes) else word for word in words]
    except UnicodeDecodeError:
        met.append(NO_TEXT)
        return None, Answer(1, b"", b"locnum: the arguments aren't UTF-8\n")
    data = ""
    try:
        options, numbers = arguments_of(texts)
        data = data_of(meant(options))
        settings = settings_of(options, bool(numbers))
    except Ended as ended:
        met.append(ended.ending)
        return None, answer_to_ending(ended.ending, data, ended.note)
    run = Run(settings, met)
    if settings.explain:
        run.output.append(settings.heading)
    if numbers:
        run.words(numbers)
    else:
        run.whole(given)
    run.report()
    answer = run.answer()
    met.append(f"status {answer.status}")
    return settings, answer


def texts_of(output: bytes) -> list[bytes]:
    """The lines of explanations that are the texts of numbers."""
    return [line for line in output.split(b"\n") if not line.startswith(b"  ")]


def fits(answer: Answer, wanted: Answer, settings: Settings | None, met: Sequence[str]) -> bool:
    """Whether the program's answer is the one that is wanted, as far as it is known."""
    if any(kind in met for kind in (COMMAND, FILE, UNIT)):
        is_same = (answer.status, answer.output) == (wanted.status, wanted.output)
        return is_same and answer.error.startswith(wanted.error) and answer.error.endswith(b"\n")
    if HELP in met:
        return answer.status == 0 and answer.output.startswith(wanted.output) and not answer.error
    is_same = (answer.status, answer.error) == (wanted.status, wanted.error)
    if settings and settings.kind != PLAIN and settings.explain:
        return is_same and texts_of(answer.output) == texts_of(wanted.output)
    if settings and settings.kind == OTHER:
        return is_same and answer.output.count(settings.end) == wanted.output.count(settings.end)
    return answer == wanted
