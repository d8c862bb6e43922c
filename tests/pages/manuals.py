"""The manual pages and the completions, beside the pages of the programs and what `locnum --help` says."""
import os
import re
import shutil
import subprocess

import locnum_pages
from pages.judging import REPORTS, judge, output_of, read

def shown_by_man(path: str) -> list[str]:
    """The lines of a manual page on a very wide terminal, each without the spaces around and doubled in it."""
    environment = {**os.environ, "MANWIDTH": "2000", "LC_ALL": "C.UTF-8"}
    done = subprocess.run(["man", "--warnings", path], capture_output=True, env=environment, timeout=60)
    judge(done.returncode == 0 and not done.stderr, f"{path}: man says", done.stderr.decode())
    text = done.stdout.decode().translate(str.maketrans("‐−’\u00a0", "--' "))
    return [" ".join(line.split()) for line in text.splitlines()]


def judge_manual() -> None:
    """The manual page says of the program's words, statuses and error lines what the program's page does."""
    if not shutil.which("man"):
        print("skipped: docs: there is no man")
        return
    path, page = "docs/decfmt.1", read("crates/decfmt/README.md")
    lines = shown_by_man(path)
    text = " ".join(line for line in lines if line)
    words = re.findall(r"Else the arguments are `([^`]+)`", page)[0]
    judge(f"decfmt {words}" in lines, f"{path}: hasn't the usage: decfmt", words)
    for word in words.replace("[", "").replace("]", "").split():
        judge(any(line == word or line.startswith(word + " ") for line in lines), f"{path}: hasn't the word", word)
    for status, when, told in re.findall(r"^\| (\d) \| (.*) \| (.*) \|$", page, flags=re.M):
        line = f"{status} {when}: {told.strip('`')}"
        judge(line in lines, f"{path}: hasn't the status", line)
    wanted = set(re.findall(r"`(error: [^`]+)`", page))
    given = set(re.findall(r"(error: [\w ]+)$", "\n".join(lines), flags=re.M))
    judge(given == wanted, f"{path}: other error lines:", str(given ^ wanted))
    for shown in re.findall(r"(?:^    .*\n)+", page, flags=re.M):
        example = " ".join(shown.split())
        judge(example in text, f"{path}: hasn't the example", example)
    version = read("VERSION").strip()
    judge(f'"decfmt {version}"' in read(path).split("\n", 1)[0], f"{path}: isn't of version", version)


def judge_options() -> None:
    """The page, the manual page and the completions of locnum say what its --help says."""
    for held, name, told in locnum_pages.cases(REPORTS, shown_by_man if shutil.which("man") else None):
        judge(held, name, told)


def judge_converter() -> None:
    """The manual page of the converter has the options of its --help, and no others."""
    path = "docs/talmuiga-tables.1"
    wanted = set(re.findall(r"--[a-z]+", output_of("tools/cldr_to_tables.py --help")))
    given = {option.replace("\\", "") for option in re.findall(r"\\-\\-[a-z]+", read(path).split(".SH EXAMPLES")[0])}
    judge(wanted and given == wanted, f"{path}: other options:", str(given ^ wanted))
