"""What stands in two places: the version, texts of tables, packages; crates.txt with its pages; widths of lines."""
import os
import re
import subprocess
import sys

import edits
from pages.judging import PROGRAM, ROOT, found, judge, output_of, read

sys.path.insert(0, os.path.join(ROOT, "tools"))
import pictures  # noqa: E402

# The folders in which rows name the sample tables.
SAMPLES = ("crates/rows_formats/data", "crates/rows_reports/data")


def judge_version() -> None:
    """The header, the Python package, the manual page and the newest entry of the changes have the version of VERSION."""
    version = read("VERSION").strip()
    told = re.findall(r'^#define TALMUIGA_VERSION "(.*)"$', read("include/talmuiga.h"), flags=re.M)
    judge(told == [version], f"include/talmuiga.h: isn't of version {version}:", str(told))
    numbers = dict(re.findall(r"^#define TALMUIGA_VERSION_(MAJOR|MINOR|PATCH) (\d+)$", read("include/talmuiga.h"), flags=re.M))
    spelled = ".".join(numbers.get(part, "?") for part in ("MAJOR", "MINOR", "PATCH"))
    judge(spelled == version, f"include/talmuiga.h: its numbers aren't of version {version}:", spelled)
    for path, form in (
        ("python/pyproject.toml", r'^version = "(.*)"$'),
        ("python/src/talmuiga/__init__.py", r'^__version__ = "(.*)"$'),
        ("docs/talmuiga.3", r'^\.TH TALMUIGA 3 \S+ "talmuiga (.*?)"'),
        ("docs/talmuiga-tables.1", r'^\.TH TALMUIGA-TABLES 1 "" "talmuiga-tables (.*?)"'),
        ("crates/locnum/src/built.rt", r'VERSION: &str = "(.*) \(proved\)";$'),
    ):
        told = re.findall(form, read(path), flags=re.M)
        judge(told == [version], f"{path}: isn't of version {version}:", str(told))
    for path in ("README.md", "docs/BUILDING.md"):
        told = sorted(set(re.findall(r"talmuiga[-\w]*?[-_](\d+\.\d+\.\d+)", read(path))))
        judge(told == [version], f"{path}: names packages of another version than {version}:", str(told))
    newest = re.search(r"^## (\S+)", read("CHANGELOG.md"), flags=re.M)
    judge(newest and newest[1] == version, f"CHANGELOG.md: doesn't begin with {version}")


def judge_pictures() -> None:
    """The pictures are as they are drawn, and the program shows the numbers of one of them as it says."""
    others = pictures.stale()
    for name in pictures.PICTURES:
        path = f"{pictures.FOLDER}/{name}.svg"
        judge(path not in others, f"{path}: isn't what tools/pictures.py draws")
    numbers = "\\n".join(str(number) for number, _ in pictures.SHOWN)
    given = output_of(f"printf '{numbers}\\n' | {PROGRAM} tables/sample.json en - short").split()
    judge(given == [text for _, text in pictures.SHOWN], f"{pictures.FOLDER}/showable.svg:", str(given))


def judge_needs(page: str) -> None:
    """The page has the command that installs what the gate needs, and the toolchain that the repository is proved by."""
    packages = re.findall(r"^([^#\s]+)", read("tests/packages.txt"), flags=re.M)
    command = f"`sudo apt-get install {' '.join(packages)}`"
    judge(command in page, "docs/BUILDING.md: isn't there:", command)
    logic = subprocess.run(["rt", "version"], stdout=subprocess.PIPE, timeout=60).stdout.decode().strip().partition("logic ")[2]
    told = set(re.findall(r"`logic (\w+)`", page))
    judge(logic and told == {logic}, f"docs/BUILDING.md: the toolchain's logic is {logic}:", str(told))


def read_exactly(path: str) -> str:
    """The text of a file, the ends of its lines as they are."""
    with open(path, encoding="utf-8", newline="") as file:
        return file.read()


def judge_sample() -> None:
    """The sample tables that rows name have the bytes of the file."""
    for folder in SAMPLES:
        same = read_exactly(f"{folder}/sample.json") == read_exactly("tables/sample.json")
        judge(same, f"{folder}/sample.json: isn't tables/sample.json")


def judge_english() -> None:
    """The constants of the program locnum and of the library for C have the bytes of the file."""
    for crate in ("locnum", "talmuiga_c"):
        literal = re.search(r'= "((?:[^"\\]|\\["\\])*)";$', read_exactly(f"crates/{crate}/src/english.rt"), flags=re.M)
        text = re.sub(r"\\(.)", r"\1", literal.group(1)) if literal else None
        judge(text == read_exactly("tables/english.json"), f"crates/{crate}: isn't the text of tables/english.json")


def judge_signs() -> None:
    """crates.txt stands under headings, and the page of each crate that isn't tests says in a line where its tests stand."""
    heading: str | None = None
    crates: dict[str, str | None] = {}
    for line in read("crates.txt").splitlines():
        if line.startswith("# "):
            heading = line[2:]
        elif line:
            crates[line.split(":")[0].split()[0]] = heading
    judge(None not in crates.values(), "crates.txt: a crate stands before the first heading")
    listed = re.findall(r"\]\((\w+)/README\.md\)", read("crates/README.md"))
    judge(sorted(listed) == sorted(crates), "crates/README.md: other crates:", ", ".join(sorted(set(listed) ^ set(crates))))
    early = [name for at, name in enumerate(listed) if set(edits.USES.get(name, [])) & set(listed[at:])]
    judge(not early, "crates/README.md: in front of what they use:", ", ".join(early))
    tests = [name for name in crates if name.startswith(("rows_", "test_"))]
    judge(all(crates[name] == "Tests." for name in tests), "crates.txt: a crate of tests stands under another heading")
    for name in crates:
        page = f"crates/{name}/README.md"
        if not os.path.exists(page):
            judge(False, f"{page}: isn't there")
        elif name not in tests:
            told = re.findall(r"^Tests: .*\.$", read(page), flags=re.M)
            judge(len(told) == 1, f"{page}: no line 'Tests: ..'")


def is_code(line: str) -> bool:
    """Whether a line of a source is neither a comment, an attribute nor an import, and has no text in it."""
    return not line.lstrip().startswith(("//", "#", "\\", "ghost use")) and '"' not in line


def judge_widths() -> None:
    """Lines that are wider than a page."""
    for crate in edits.USES:
        lines = [(path, line, len(line.encode()), 160)
                 for path in found(f"crates/{crate}/specs/**/*.antt") + found(f"crates/{crate}/proofs/**/*.antt")
                 for line in read(path).splitlines()]
        lines += [(path, line, len(line), 100) for path in found(f"crates/{crate}/src/**/*.rt") for line in filter(is_code, read(path).splitlines())]
        wide = [f"{path}: {line.strip()[:60]}" for path, line, width, most in lines if width > most]
        judge(not wide, f"crates/{crate}: {len(wide)} lines are too wide:", "; ".join(wide[:5]))


def judge_lengths() -> None:
    """Sources that have more lines than a file is to have."""
    for crate in edits.USES:
        counts = {path: len(read(path).splitlines()) for path in found(f"crates/{crate}/src/**/*.rt")}
        long = [f"{path}: {count}" for path, count in counts.items() if count > 400]
        judge(not long, f"crates/{crate}: sources have more than 400 lines:", "; ".join(long))
