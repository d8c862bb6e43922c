"""What pages show: code that stands in the sources, commands with what they write, a table of locales, a file of tables."""
import os
import re
import shlex
import subprocess
import tempfile
from collections.abc import Iterator

from pages.judging import PROGRAM, REPORTS, found, judge, output_of, read, typed

SHOWING = ["README.md", "docs/LIBRARY.md", "crates/icu_provider/README.md", "crates/examples/README.md"]
BUILDING = ["README.md", "docs/BUILDING.md"]
# Where Debian's package unicode-cldr-core has a release of CLDR.
RELEASE = "/usr/share/unicode/cldr"
# The commands that build a program unproved, and what they write.
UNPROVED_COMMAND = re.compile(r"^```sh\n([^\n]*\brt try\b[^\n]*)\n```$.*?^```text\n(.*?)^```$", flags=re.M | re.S)
LOCALES_HEADER = "| locale | plain | short | long | euros |"
LOCALES_NUMBER = "1234567.8"
LOCALES_TABLES = "tables/six_locales.json"


def judge_code() -> None:
    """Each block of Rust stands in a source of the crates."""
    sources = [read(path) for path in found("crates/*/src/**/*.rt")]
    for page in SHOWING:
        for block in re.findall(r"^```rust\n(.*?)^```$", read(page), flags=re.M | re.S):
            judge(any(block in source for source in sources), f"{page}: no source has", block.splitlines()[0])


def judge_examples() -> None:
    """The example at the head of each library is a run of lines of the program of examples."""
    program = [line.strip() for line in read("crates/examples/src/main.rt").splitlines()]
    for path in found("crates/*/src/lib.rt"):
        for block in re.findall(r"^//! ```\n(.*?)^//! ```$", read(path), flags=re.M | re.S):
            lines = [line[len("//!"):].strip() for line in block.splitlines()]
            places = range(len(program) - len(lines) + 1)
            judge(any(program[at:at + len(lines)] == lines for at in places), f"{path}: crates/examples hasn't its example")


def commands_of(page: str) -> Iterator[tuple[str, str]]:
    """The commands of a page that stand behind `$`, each with the lines below it."""
    for block in re.findall(r"^```text\n(\$ .*?)^```$", read(page), flags=re.M | re.S):
        for shown in re.split(r"^\$ ", block, flags=re.M)[1:]:
            command, _, wanted = shown.partition("\n")
            yield command, wanted.strip("\n")


def shell_lines(page: str) -> list[str]:
    """The lines of a page's blocks of shell."""
    return "".join(re.findall(r"^```sh\n(.*?)^```$", read(page), flags=re.M | re.S)).splitlines()


def judge_commands() -> None:
    """Each command behind `$` gives the lines below it, on a terminal too, at which nobody types; and those that build the
    program and run it, which aren't tried here, have their input from elsewhere."""
    for page in SHOWING:
        for command, wanted in commands_of(page):
            given = output_of(command)
            judge(given.strip("\n") == wanted, f"{page}: {command}:", given)
            seen = typed(command)
            judge(seen is not None and seen.strip("\n") == wanted, f"{page}: on a terminal: {command}:", seen or "waits")
    for page in BUILDING:
        for line in re.findall(r"^.*\brt (?:run|try)\b.*$", "\n".join(shell_lines(page)), flags=re.M):
            judge(re.search(r"[|<].*\brt ", line), f"{page}: waits for input on a terminal:", line)


def judge_first_commands() -> None:
    """README's first command builds the program for reports unproved, and docs/BUILDING.md has one that builds the program for
    lines; each writes the lines of the block of text below it."""
    for page, program in zip(BUILDING, ("locnum", "decfmt")):
        found = UNPROVED_COMMAND.findall(read(page))
        judge(len(found) == 1 and f"crates/{program}" in found[0][0] and shell_lines(page)[0] == found[0][0],
              f"{page}: doesn't begin with {program}")
        for command, wanted in found:
            given = typed(command, minutes=20)
            judge(given is not None and wanted in given, f"{page}: on a terminal: {command}:", given or "waits")


def judge_release(page: str) -> None:
    """README's commands by a release of CLDR, where it is there, write what README quotes."""
    lines = [line for line in shell_lines("README.md") if RELEASE in line or "cldr.json" in line or "de.json" in line]
    if not os.path.isdir(RELEASE) or not os.path.exists(PROGRAM) or not os.path.exists(REPORTS):
        return
    with tempfile.TemporaryDirectory() as folder:
        script = re.sub(r"\b(cldr|de)\.json", lambda name: os.path.join(folder, name[0]), "\n".join(lines))
        done = subprocess.run(["bash", "-ec", script], stdout=subprocess.PIPE, stderr=subprocess.PIPE, timeout=600)
    told = done.stdout.decode("utf-8", "replace").splitlines()
    well = done.returncode == 0 and told and all(f"`{line}`" in page for line in told)
    judge(well, "README.md: by a release of CLDR:", "\n".join(told))


def judge_installed(prefix: str) -> None:
    """What README shows is what the programs write that are installed below a folder, and `man` finds their pages."""
    prefix = os.path.abspath(prefix)
    path = f"{prefix}/bin:/usr/bin:/bin"
    page = read("README.md")
    for command, wanted in commands_of("README.md"):
        given = output_of(command.replace(REPORTS, "locnum").replace(PROGRAM, "decfmt"), path)
        # explanations name the tables, which an installed program takes from its own folder
        given = re.sub(r"^/.*/en\.json.*: locale", "the tables in the program: locale", given, flags=re.M)
        judge(given.strip("\n") == wanted, f"README.md: installed: {command}:", given)
    judge_locales(page, "decfmt", "locnum", path)
    has_tables = os.path.exists(f"{prefix}/share/talmuiga/tables/de.json")
    for words in re.findall(r"^\S+/bin/locnum (.*)$", "\n".join(shell_lines("README.md")), flags=re.M):
        if has_tables or "-t " in words:
            given = output_of(f"locnum {words}", path).strip("\n")
            judge(given and f"`{given}`" in page, f"README.md: installed: locnum {words}:", given)
    for name in ("locnum", "decfmt", "talmuiga-tables"):
        given = output_of(f"man -M {shlex.quote(prefix)}/share/man {name}", path)
        judge(given.lower().startswith(f"{name}(1)"), f"{prefix}: no manual page {name}:", given[:80])


def judge_locales(page: str, lines: str = PROGRAM, reports: str = REPORTS, path: str | None = None) -> None:
    """Each row of the table of locales is what the programs write of the number by the tables of the six locales."""
    rows = page.split(LOCALES_HEADER + "\n|---|---|---|---|---|\n")[1].split("\n\n")[0].splitlines()
    for row in rows:
        locale, *wanted = [cell.strip().strip("`") for cell in row.strip("|").split("|")]
        given = [
            output_of(f"echo {LOCALES_NUMBER} | {lines} {LOCALES_TABLES} {locale} - {style}", path).strip("\n")
            for style in ("plain", "short", "long")
        ]
        given.append(output_of(f"{reports} -t {LOCALES_TABLES} -l {locale} --currency EUR {LOCALES_NUMBER}", path).strip("\n"))
        judge(given == wanted, f"README.md: {locale}:", str(given))


def judge_file() -> None:
    """The file at the head of docs/FORMATS.md has what both programs ask for."""
    text = re.findall(r"^```json\n(.*?)^```$", read("docs/FORMATS.md"), flags=re.M | re.S)[0]
    with tempfile.NamedTemporaryFile("w", encoding="utf-8", suffix=".json") as file:
        file.write(text)
        file.flush()
        given = output_of(f"echo 1650 | {PROGRAM} {file.name} en - short; {REPORTS} -t {file.name} --currency USD 5; "
                          f"{REPORTS} -t {file.name} --currency USD --width name 1; {REPORTS} -t {file.name} --percent 0.5")
    judge(given.split("\n") == ["1.6K", "$5.00", "1.00 US dollars", "50%", ""], "docs/FORMATS.md: its first file:", given)
