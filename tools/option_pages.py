#!/usr/bin/env python3
"""Makes the completions of locnum, and the options of its manual page, by what `locnum --help` lists.

usage: tools/option_pages.py [--write] [PROGRAM]

An option is its entry in crates/locnum/src/options.rt; here stand the words among which it chooses, if it does, what its
text names in tables, and what the manual page says of it. --write writes docs/completions and the part of docs/locnum.1
between OPTIONS and REJECTED TEXTS; without it the pages that differ are named, and the status is 1 if there are any.
"""
from __future__ import annotations

import os
import re
import subprocess
import sys
from typing import NamedTuple, Sequence

ROOT = os.path.dirname(os.path.dirname(os.path.abspath(__file__)))
sys.path.insert(0, os.path.join(ROOT, "tests"))
import usage  # noqa: E402

PROGRAM = os.path.join(ROOT, "crates/locnum/out/locnum")
BASH, ZSH, FISH = "docs/completions/locnum.bash", "docs/completions/_locnum", "docs/completions/locnum.fish"
MANUAL = "docs/locnum.1"
# The words among which the text of an option is one.
WORDS = {
    "style": "plain short long",
    "width": "short narrow code hidden name long",
    "round": "half-even half-up half-down half-ceiling half-floor up down ceiling floor",
    "grouping": "auto never always min2",
    "sign": "auto always never except-zero negative",
    "invalid": "abort fail warn ignore",
    "list": "locales systems currencies units",
}
# What `locnum --list` lists of the names that the text of an option is one of.
LISTED = {"locale": "locales", "system": "systems", "currency": "currencies", "unit": "units"}
# What an option takes: no text, one behind `=` or none, the name of a file, any other text.
NONE, OPTIONAL, FILE, TEXT = "no text", "perhaps a text", "a file", "a text"


class Option(NamedTuple):
    """An option: its heading, its letter if it has one, its name, what it takes, the name of its text or nothing, and what is
    said of it."""

    heading: str
    letter: str | None
    name: str
    takes: str
    text: str
    said: str


def read(path: str) -> str:
    with open(os.path.join(ROOT, path), encoding="utf-8") as file:
        return file.read()


def options_of(program: str) -> list[Option]:
    """The options that --help lists, in their order."""
    helped = subprocess.run([program, "--help"], stdout=subprocess.PIPE, timeout=60, check=True).stdout.decode()
    options: list[Option] = []
    heading = ""
    for line in helped.splitlines():
        if re.fullmatch(r"[A-Z]\w*:", line):
            heading = line[:-1]
        entry = re.fullmatch(r" +(?:-(\w), )?--([\w-]+)( <([^>]*)>|\[=<([^>]*)>\])? +(\S.*)", line)
        if entry:
            letter, name, given, needed, perhaps, said = entry.groups()
            takes = NONE if not given else OPTIONAL if perhaps else FILE if needed == "FILE" else TEXT
            options.append(Option(heading, letter, name, takes, needed or perhaps or "", said))
    return options


def spellings(option: Option) -> list[str]:
    return [f"--{option.name}", *([f"-{option.letter}"] if option.letter else [])]


def wrapped(words: Sequence[str], width: int, indent: str) -> str:
    """Words in lines of this width, each but the first behind an indent."""
    lines = [""]
    for word in words:
        if lines[-1] and len(lines[-1]) + 1 + len(word) > width:
            lines.append("")
        lines[-1] += (" " if lines[-1] else "") + word
    return ("\n" + indent).join(lines)


# The completions.


def bash(options: Sequence[Option]) -> str:
    every = [f"--{option.name}" for option in options] + [f"-{option.letter}" for option in options if option.letter]
    files = " | ".join(spelling for option in options if option.takes == FILE for spelling in sorted(spellings(option)))
    cases = []
    for option in options:
        pattern = " | ".join(sorted(spellings(option), key=len))
        if option.name in LISTED:
            cases.append(f"    {pattern}) mapfile -t COMPREPLY < <(compgen -W \"$(_locnum_list {LISTED[option.name]})\" -- \"$word\") ;;")
        elif option.name in WORDS and option.takes != OPTIONAL:
            cases.append(f"    {pattern}) mapfile -t COMPREPLY < <(compgen -W '{WORDS[option.name]}' -- \"$word\") ;;")
        elif option.name in WORDS:
            cases.append(f"    {pattern}=) mapfile -t COMPREPLY < <(compgen -W '{WORDS[option.name]}' -- \"$word\") ;;")
    plain = [spelling for option in options if option.takes == TEXT and option.name not in WORDS and option.name not in LISTED
             for spelling in sorted(spellings(option), key=len)]
    optional = [f"--{option.name}=" for option in options if option.takes == OPTIONAL and option.name not in WORDS]
    return f"""# Completion of locnum for bash: to be read by the shell, or to be put where bash-completion looks, under the name locnum.
# tools/option_pages.py makes it.

# what the file of tables that the words name holds, or else the program
_locnum_list() {{
    local place file=()
    for ((place = 1; place < COMP_CWORD; place++)); do
        case ${{COMP_WORDS[place]}} in
        {files})
            file=(-t "${{COMP_WORDS[place + 1]}}")
            [ "${{file[1]}}" != = ] || file=(-t "${{COMP_WORDS[place + 2]}}")
            ;;
        esac
    done
    "${{COMP_WORDS[0]}}" --list "$1" "${{file[@]}}" 2>/dev/null
}}

_locnum() {{
    local at=$COMP_CWORD
    local word=${{COMP_WORDS[at]}} before=${{COMP_WORDS[at - 1]}} place
    local options='{wrapped(every, 110, "        ")}'
    COMPREPLY=()
    # --style=short is three words, the sign one of them
    if [ "$word" = = ]; then
        word=
        before+==
    elif [ "$before" = = ]; then
        before=${{COMP_WORDS[at - 2]}}=
    fi
    case $before in
    {" | ".join(f"--{option.name}=" for option in options if option.takes in (FILE, TEXT))}) before=${{before%=}} ;;
    esac
    # behind -- all are numbers
    for ((place = 1; place < at; place++)); do
        [ "${{COMP_WORDS[place]}}" != -- ] || return 0
    done
    case $before in
    {files})
        compopt -o filenames 2>/dev/null
        mapfile -t COMPREPLY < <(compgen -f -- "$word")
        ;;
""" + "\n".join(cases) + f"""
    {" | ".join(plain + optional)}) ;;
    *) [[ $word != -* || $before = *= ]] || mapfile -t COMPREPLY < <(compgen -W "$options" -- "$word") ;;
    esac
}}
complete -F _locnum locnum
"""


def zsh(options: Sequence[Option]) -> str:
    lines = []
    for option in options:
        if option.name in LISTED:
            action = f"_locnum_list {LISTED[option.name]}"
        else:
            action = "_files" if option.takes == FILE else f"({WORDS[option.name]})" if option.name in WORDS else " "
        text = "" if option.takes == NONE else f":{':' if option.takes == OPTIONAL else ''}{option.text.replace(':', ' ')}:{action}"
        said = option.said.replace("'", "'\\''").replace("[", "\\[").replace("]", "\\]").replace(":", "\\:")
        plus, sign = ("+", "=") if option.takes in (FILE, TEXT) else ("", "=-" if option.takes == OPTIONAL else "")
        if option.letter:
            spelled = f"'(-{option.letter} --{option.name})'{{-{option.letter}{plus},--{option.name}{sign}}}'"
        else:
            spelled = f"'--{option.name}{sign}"
        lines.append(f"    {spelled}[{said}]{text}' \\\n")
    return """#compdef locnum
# Completion of locnum for zsh: to be put into a folder of $fpath. tools/option_pages.py makes it.

# what the file of tables that the words name holds, or else the program
_locnum_list() {
    local file=${opt_args[-t]:-${opt_args[--tables]}}
    compadd -- ${(f)"$(locnum --list $1 ${file:+-t} $file 2>/dev/null)"}
}

_arguments -s -S \\
""" + "".join(lines) + "    '*:NUMBER: '\n"


def fish(options: Sequence[Option]) -> str:
    lines = []
    for option in options:
        letter = f" -s {option.letter}" if option.letter else ""
        if option.name in LISTED:
            words = f" -a '(__locnum_list {LISTED[option.name]})'"
        else:
            words = f" -a '{WORDS[option.name]}'" if option.name in WORDS and option.takes != OPTIONAL else ""
        takes = {NONE: "", OPTIONAL: "", FILE: " -r -F", TEXT: " -x"}[option.takes]
        said = option.said.replace("'", "\\'")
        lines.append(f"complete -c locnum{letter} -l {option.name}{takes}{words} -d '{said}'\n")
    return """# Completion of locnum for fish: to be put into ~/.config/fish/completions. tools/option_pages.py makes it.

# what the file of tables that the words name holds, or else the program
function __locnum_list
    set -l words (commandline -opc)
    set -l file
    for place in (seq (count $words))
        switch $words[$place]
            case -t --tables
                set file -t $words[(math $place + 1)]
            case '--tables=*'
                set file -t (string replace -- --tables= '' $words[$place])
        end
    end
    locnum --list $argv[1] $file 2>/dev/null
end

complete -c locnum -f
""" + "".join(lines)


# The manual page.


def escaped(text: str) -> str:
    return text.replace("-", "\\-")


def head(option: Option) -> str:
    """An option as the manual page has it."""
    letter = f'\\-{option.letter} ", " ' if option.letter else ""
    name = "\\-\\-" + escaped(option.name)
    if option.takes == NONE:
        return f".BR {letter}{name}" if letter else f".B {name}"
    text = escaped(option.text).replace("|", "\\fR|\\fI").replace("..", "\\fR..\\fI")
    return f".BR {letter}{name}[=\\fI{text}\\fR]" if option.takes == OPTIONAL else f'.BR {letter}{name} " \\fI{text}\\fR"'


def texts_of(manual: str) -> tuple[dict[str, str], dict[str, str]]:
    """What a manual page says of each option, by its name, and what stands behind all of a heading."""
    section = re.findall(r"^\.SH OPTIONS\n(.*?)^\.SH ", manual, flags=re.M | re.S)[0]
    texts: dict[str, str] = {}
    behind: dict[str, str] = {}
    for group in re.split(r"^\.SS ", section, flags=re.M)[1:]:
        heading, _, rest = group.partition("\n")
        rest, _, more = rest.partition("\n.PP\n")
        behind[heading] = more
        for paragraph in re.split(r"^\.TP\n", rest, flags=re.M)[1:]:
            first, _, text = paragraph.partition("\n")
            name = re.findall(r"\\-\\-((?:\w|\\-)+)", first)[0].replace("\\-", "-")
            texts[name] = text.rstrip("\n") + "\n"
    return texts, behind


def manual(options: Sequence[Option]) -> str:
    """The manual page, with each option under its heading; what is said of it stays, or is what --help says."""
    page = read(MANUAL)
    texts, behind = texts_of(page)
    made = ""
    for heading in dict.fromkeys(option.heading for option in options):
        made += f".SS {heading}\n"
        for option in options:
            if option.heading == heading:
                said = texts.get(option.name, escaped(option.said[0].upper() + option.said[1:]) + ".\n")
                made += f".TP\n{head(option)}\n{said}"
        if behind.get(heading):
            made += f".PP\n{behind[heading].rstrip()}\n"
    start = page.index(".SH OPTIONS\n") + len(".SH OPTIONS\n")
    end = page.index(".SH ", start)
    return page[:start] + made + page[end:]


def pages(program: str) -> dict[str, str]:
    """Each page that is made, with its text."""
    options = options_of(program)
    return {BASH: bash(options), ZSH: zsh(options), FISH: fish(options), MANUAL: manual(options)}


def main(*words: str) -> int:
    program = next((word for word in words if word != "--write"), PROGRAM)
    differing = {path: text for path, text in pages(program).items() if read(path) != text}
    for path, text in differing.items():
        if "--write" in words:
            with open(os.path.join(ROOT, path), "w", encoding="utf-8") as file:
                file.write(text)
        print(f"{'written' if '--write' in words else 'differs'}: {path}")
    return 1 if differing and "--write" not in words else 0


if __name__ == "__main__":
    sys.exit(main(*usage.words_of(__doc__, 0, 1, ["--write"])))
