"""Links of pages, and the names of calls, definitions and mutations that are links."""
import os
import re
import subprocess

from pages.judging import judge, pages, read

REFERENCE = re.compile(r"^\[([^\]]+)\]: (\S+)$", flags=re.M)


def without_code(text: str) -> str:
    """The text without its blocks of code and its quoted words."""
    return re.sub(r"`[^`\n]*`", "", re.sub(r"^```.*?^```$", "", text, flags=re.M | re.S))


def placed(page: str) -> tuple[str, list[str]]:
    """A page's text with the target of each reference in its place, and the references that have none or are none's."""
    text = read(page)
    targets: dict[str, str] = dict(REFERENCE.findall(text))
    used: set[str] = set()
    missing: list[str] = []

    def place(reference: re.Match[str]) -> str:
        name = reference[2] or reference[1]
        if name in targets:
            used.add(name)
            return f"[{reference[1]}]({targets[name]})"
        if reference[2] or (targets and name.startswith("`")):
            missing.append(name)
        return reference[0]

    text = re.sub(r"\[([^\[\]]+)\](?:\[([^\[\]]+)\])?(?!\()", place, REFERENCE.sub("", text))
    return text, missing + sorted(targets.keys() - used)


def anchors(text: str) -> set[str]:
    """The names of the headings of a page, as a browser of repositories makes them."""
    headings = re.findall(r"^#+ (.*)$", re.sub(r"^```.*?^```$", "", text, flags=re.M | re.S), flags=re.M)
    return {re.sub(r"[^\w\- ]", "", heading.lower()).replace(" ", "-") for heading in headings}


def broken_links(page: str, text: str) -> list[str]:
    """The relative links of a page that have no target."""
    broken = []
    for target in re.findall(r"\]\(([^)\s]+)\)", without_code(text)):
        if re.match(r"[a-z]+:", target):
            continue
        path, _, anchor = target.partition("#")
        path = os.path.normpath(os.path.join(os.path.dirname(page), path)) if path else page
        if not os.path.exists(path) or (anchor and anchor not in anchors(read(path))):
            broken.append(target)
    return broken


def names_elsewhere(page: str, text: str) -> list[str]:
    """The linked names of calls, definitions and edits that don't stand in the file that the link leads to."""
    wrong = []
    for names, target in re.findall(r"\[(`[^\]]+`)\]\(([^)#\s]+\.(?:rt|antt|edit))\)", text):
        path = os.path.normpath(os.path.join(os.path.dirname(page), target))
        there = read(path) + path.replace("/", " ").replace(".", " ") if os.path.exists(path) else ""
        for name in re.findall(r"`([^`]+)`", names):
            word = re.split(r"::|/", re.sub(r"<.*|\.rt$|\.antt$", "", name))[-1]
            if not re.search(rf"(?<!\w){re.escape(word)}(?!\w)", there):
                wrong.append(f"{name} in {target}")
    return wrong


def judge_links() -> None:
    for page in pages():
        text, unplaced = placed(page)
        broken = unplaced + broken_links(page, text) + names_elsewhere(page, text)
        judge(not broken, f"{page}: no target:", ", ".join(broken))


PATH = re.compile(r"`((?:[\w.-]+/)*[\w-]+\.(?:antt|c|cpp|edit|h|hpp|json|md|py|rt|sh|svg|toml|txt))`")
# Names of files that a reader makes, or that others have.
MADE = {"cldr.json", "de.json", "numbers.txt", "program.c", "core.zip"}


def judge_paths() -> None:
    """Each path in a code span is the end of that of a file."""
    files = subprocess.run(["git", "ls-files"], stdout=subprocess.PIPE, encoding="utf-8", check=True).stdout.splitlines()
    ends = {"/".join(path.split("/")[at:]) for path in files for at in range(path.count("/") + 1)}
    for page in pages():
        text = re.sub(r"^```.*?^```$", "", read(page), flags=re.M | re.S)
        told = {path for path in PATH.findall(text) if not re.search(r"\b(?:NAME|FILE|SUBJECT)\b", path.replace("_", "/"))}
        stale = sorted(told - ends - MADE)
        judge(not stale, f"{page}: no file has the path", ", ".join(stale))
