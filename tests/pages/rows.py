"""The table of docs/TESTING.md that says which rows stand in which file, made from the heads of these files."""
import re

import edits
from pages.judging import judge, read

PAGE = "docs/TESTING.md"
BEGIN, END = "<!-- rows -->\n", "<!-- end rows -->"


def first_comment(lines: list[str]) -> str:
    """What the comment at the head of a file says, up to its first full stop."""
    head = []
    for line in lines:
        if not line.startswith("# "):
            break
        head.append(line[2:].strip())
    return re.split(r"(?<!\.)\.(?: |$)", " ".join(head))[0]


def table() -> str:
    """A line for each file of rows: its program, how many rows it has, and what its head says."""
    lines = ["| program | file | rows | what they are |", "|---|---|---|---|"]
    total = 0
    for program in [crate for crate in edits.USES if edits.is_of_rows(crate)]:
        for name in [word for word in read(f"crates/{program}/args").splitlines() if word.endswith(".rows")]:
            text = read(f"crates/{program}/data/{name}").splitlines()
            rows = sum(1 for line in text if line and not line.startswith("#"))
            says = first_comment(text)
            judge(says, f"crates/{program}/data/{name}: no comment at its head")
            lines.append(f"| `{program}` | [`{name}`](../crates/{program}/data/{name}) | {rows:,} | {says} |")
            total += rows
    return "\n".join([*lines, f"| together | | {total:,} | |", ""])


def page_made(page: str) -> str:
    """The page with its table of rows made anew."""
    before, begin, rest = page.partition(BEGIN)
    _, end, behind = rest.partition(END)
    judge(begin and end, f"{PAGE}: no {BEGIN.strip()} with {END} below it")
    return f"{before}{begin}{table()}{end}{behind}" if begin and end else page
