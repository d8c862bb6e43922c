"""What `locnum --help` says, and whether its page, its manual page and the completions of three shells say the same.

tools/option_pages.py makes the completions and the options of the manual page; tests/docs.py counts what `cases` finds.
"""
import os
import re
import subprocess
import sys
from collections.abc import Callable, Iterator, Mapping, Sequence
from typing import TypeAlias

sys.path.insert(0, os.path.join(os.path.dirname(os.path.dirname(os.path.abspath(__file__))), "tools"))
import option_pages  # noqa
from option_pages import BASH, FILE, LISTED, MANUAL, NONE, OPTIONAL, WORDS, Option, read, spellings  # noqa

PAGE = "crates/locnum/README.md"
# The words beside which the words of an option are taken.
BESIDE = {"width": [["--currency=USD"], ["--unit=x"]]}
# Whether a case holds, its name, and what is told where it doesn't.
Case: TypeAlias = tuple[bool, str, str]
Options: TypeAlias = Mapping[str, Option]


def is_taken(program: str, name: str, word: str) -> bool:
    """Whether the program doesn't reject this word of an option."""
    runs = [subprocess.run([program, f"--{name}={word}", *beside, "5"], capture_output=True, timeout=60)
            for beside in BESIDE.get(name, [[]])]
    return any(not run.stderr.startswith(f"locnum: --{name}: ".encode()) for run in runs)


def is_said(word: str, said: str) -> bool:
    """Whether --help has a word, or `(half-)` in front of what follows its `half-`."""
    said_words = re.findall(r"[\w-]+", said)
    return word in said_words or "(half-)" in said and word.startswith("half-") and word.removeprefix("half-") in said_words


def help_cases(program: str, options: Options) -> Iterator[Case]:
    """The words of options are those that the program takes, and --help says them; it has 80 columns at most."""
    helped = subprocess.run([program, "--help"], stdout=subprocess.PIPE, timeout=60).stdout.decode()
    wide = [line for line in helped.splitlines() if len(line) > 80]
    yield not wide, "locnum --help: has lines of more than 80 columns:", "; ".join(wide)
    for name, words in WORDS.items():
        missing = [word for word in words.split() if not is_taken(program, name, word)] if name in options else [name]
        unsaid = [word for word in words.split() if name in options and not is_said(word, options[name].said)]
        yield not missing and not unsaid, f"locnum: --{name} hasn't the words", ", ".join(missing + unsaid)
        yield not is_taken(program, name, "else"), f"locnum: --{name} takes any word", ""


def made_cases(program: str) -> Iterator[Case]:
    """The completions, and the options of the manual page, are what tools/option_pages.py makes."""
    for path, text in option_pages.pages(program).items():
        yield read(path) == text, f"{path}: isn't what tools/option_pages.py makes", ""


def manual_cases(lines: Sequence[str]) -> Iterator[Case]:
    """The manual page beside the page; these are the lines that `man` shows."""
    page, text = read(PAGE), " ".join(line for line in lines if line)
    for status, when in re.findall(r"^\| (\d+) \| (.*) \|$", page, flags=re.M):
        line = f"{status} {when.replace('`', '')}"
        yield line in lines, f"{MANUAL}: hasn't the status", line
    for shown in re.findall(r"(?:^    .*\n)+", page, flags=re.M):
        example = " ".join(shown.split())
        yield example in text, f"{MANUAL}: hasn't the example", example
    version = read("VERSION").strip()
    yield f'"locnum {version}"' in read(MANUAL).split("\n", 1)[0], f"{MANUAL}: isn't of version", version


def page_cases(options: Options) -> Iterator[Case]:
    """The page beside --help: each option stands in its table, and no other."""
    table = "\n".join(re.findall(r"^\| (`-.*) \|$", read(PAGE), flags=re.M))
    names = set(re.findall(r"--([\w-]+)", table)) | {"help", "version"}
    yield names == set(options), f"{PAGE}: other options:", ", ".join(sorted(names ^ set(options)))


# The completion of bash, which is run.

ASKING = """
source "$1" || exit
while IFS= read -r -d '' count; do
    COMP_WORDS=()
    for ((; count > 0; count--)); do
        IFS= read -r -d '' word
        COMP_WORDS+=("$word")
    done
    COMP_CWORD=$((${#COMP_WORDS[@]} - 1))
    _locnum
    printf '%s\\0' "${#COMPREPLY[@]}" "${COMPREPLY[@]}" | head -z -n $((${#COMPREPLY[@]} + 1))
done
"""


def offered(program: str, questions: Sequence[Sequence[str]]) -> list[list[str]]:
    """What bash offers for the last of these words, which stand behind the program's name; a list for each question."""
    asked = "".join(f"{word}\0" for words in questions for word in [str(len(words) + 1), program, *words])
    done = subprocess.run(["bash", "-c", ASKING, "bash", BASH], input=asked.encode(), stdout=subprocess.PIPE,
                          stderr=subprocess.STDOUT, timeout=60)
    told = done.stdout.decode().split("\0")
    answers: list[list[str]] = []
    at = 0
    while at < len(told) and told[at].isdigit():
        answers.append(sorted(told[at + 1:at + 1 + int(told[at])]))
        at += 1 + int(told[at])
    return answers if len(answers) == len(questions) else [told] * len(questions)


def words_of(program: str, option: Option) -> list[str]:
    """The words that are offered for the text of an option, in order."""
    if option.name in LISTED:
        listed = [program, "--list", LISTED[option.name]]
        return sorted(subprocess.run(listed, stdout=subprocess.PIPE, timeout=60).stdout.decode().split())
    return sorted(WORDS.get(option.name, "").split())


def bash_questions(program: str, options: Options) -> Iterator[tuple[list[str], list[str]]]:
    """Lists of words, each with what is to be offered for the last of them."""
    every = sorted(spelling for option in options.values() for spelling in spellings(option))
    yield ["-"], every
    yield ["--"], [spelling for spelling in every if spelling.startswith("--")]
    yield ["5", "-"], every
    for words in ([""], ["5", ""], ["docs"], ["--", "-"], ["--cash", ""], ["--cash", "--", "--s"], ["="]):
        yield words, []
    yield ["--tables", "tables/six_locales.json", "-l", "b"], ["bn"]
    yield ["--tables", "=", "tables/six_locales.json", "--locale", "=", "b"], ["bn"]
    for option in options.values():
        words = words_of(program, option)
        # behind a name alone stands the text of an option that always has one
        apart = words if option.takes not in (NONE, OPTIONAL) else []
        for spelling in spellings(option):
            # the next word is another option, unless it is this one's text
            yield [spelling, "-"], every if option.takes in (NONE, OPTIONAL) else []
            yield [spelling, "docs/locnu"], ["docs/locnum.1"] if option.takes == FILE else []
            yield ["5", spelling, ""] if option.takes != FILE else [spelling, MANUAL], apart if option.takes != FILE else [MANUAL]
        for start in ([f"--{option.name}", "="], [f"--{option.name}", "=", ""]):
            yield [*start] if option.takes != FILE else [f"--{option.name}", "=", MANUAL], words if option.takes != FILE else [MANUAL]
        yield [f"--{option.name}", "=", "-"], []
        for word in words:
            yield [f"--{option.name}", "=", word[:-1]], [each for each in words if each.startswith(word[:-1])]


def bash_cases(program: str, options: Options) -> Iterator[Case]:
    questions = list(bash_questions(program, options))
    answers = offered(program, [words for words, _ in questions])
    for (words, wanted), given in zip(questions, answers):
        yield given == sorted(wanted), f"{BASH}: {words}:", f"{given}, wanted {sorted(wanted)}"


def cases(program: str, manual_lines: Callable[[str], list[str]] | None) -> Iterator[Case]:
    """Whether each case holds, its name, and what is told where it doesn't; manual_lines shows a manual page, or is None."""
    program = os.path.abspath(program)
    options = {option.name: option for option in option_pages.options_of(program)}
    yield from help_cases(program, options)
    yield from page_cases(options)
    if manual_lines:
        yield from manual_cases(manual_lines(MANUAL))
    yield from made_cases(program)
    yield from bash_cases(program, options)
