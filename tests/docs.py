#!/usr/bin/env python3
"""Judges the pages of the repository.

usage: tests/docs.py [--write | --installed PREFIX | --mutations [CRATE] | --map [CRATE] | --help]

--write makes the pages that are made. --mutations prints the must-fail mutations of a crate, or of all, each with what rejects
it; --map the files of specs/ and proofs/, with what each says and who uses it. --installed judges
what README shows, and nothing else, by the programs that are installed below PREFIX: each command behind `$`, each row of its
table of locales, the commands by which it tries an installed program, and the manual pages. Else the pages are judged:

- Each relative link of README.md, CONTRIBUTING.md, CHANGELOG.md, docs/, tables/ and the crates' pages has its target, a
  heading too; each reference is one of the page, and each of these is used; the name of a call, a definition or a mutation that is a link stands in the file that the link leads to.
- The tables of docs/PROVED.md are made from the lines `// promise:` and `// mutations:` of the sources: each sentence has 60
  characters at most and stands above one call, each mutation is one of the repository's, each crate that has promises has a
  heading, and the page has 620 lines at most, of 500 characters each apart from quotes.
- docs/EDITS.md counts the must-fail mutations of each crate, and docs/MAP.md the files of specs/ and proofs/: both pages are
  made from these files, and each such file has a comment at its head.
- The table of docs/TESTING.md that lists the files of rows is made from the comments at their heads.
- Each path in a code span of a page is one of the repository's.
- Each block of Rust code of README.md, docs/LIBRARY.md and of the pages of icu_provider and examples stands so in a source of the crates; the
  example at the head of each library stands in the program crates/examples.
- The version of include/talmuiga.h, of the Python package, of docs/talmuiga.3, of docs/talmuiga-tables.1, of locnum and of
  the packages that README and docs/BUILDING.md name is that of VERSION, and CHANGELOG.md begins with it.
- The pictures of docs/pictures are what tools/pictures.py draws, and the numbers around 999,500 are shown as one of them says.
- docs/BUILDING.md names the packages of tests/packages.txt, and the logic of the toolchain as `rt version` prints it.
- docs/decfmt.1, as `man` shows it, has the words, the statuses with their texts, the error lines and the examples of
  crates/decfmt/README.md, and no other error line; its version is that of VERSION.
- docs/locnum.1 and the completions of bash, zsh and fish in docs/completions have each option that `locnum --help` has, its
  letter, whether it takes a text or a file, and the words among which it chooses, and no other; so the table of its page
  has their names. That of bash is run: it offers just these options, words and files. Those of zsh and fish are read. The
  manual page has the statuses and examples of the page too.
- docs/talmuiga-tables.1 has each option of the converter's --help, and no other.
- The sample tables that rows name are tables/sample.json, byte for byte, and the text in crates/locnum is that of
  tables/english.json.
- crates.txt has each crate under a heading, crates/README.md has each behind those that it uses, and the page of each crate says in a line `Tests: ..` where its tests stand.
- No page has a word of the last column of CONTRIBUTING.md's table of terms, outside of code.
- No line of specs/ and proofs/ is longer than 160 bytes, and none of a clause than 100 characters.
- No source of a crate has more than 400 lines.
- Each library imports an item, and a definition, from the crate that defines it.
- The whole file that docs/FORMATS.md begins with is read by both programs.
- Each command that README.md and the page of examples show behind `$` gives the output below it, also on a terminal at which
  nobody types; those of README.md and docs/BUILDING.md that build the program and run it have their input from a pipe or a
  file. Their commands that build a program unproved write what stands below each, that of README stands in front of all
  others, and README's commands by a release of CLDR, where Debian's package of it is there, write what README quotes. Each row of README's
  table of locales is what the program writes. This needs crates/decfmt/out/decfmt, crates/locnum/out/locnum and
  crates/examples/out/examples, as `rt run` and `rt ci` build them.

The last line is 'N passed, M failed', one for each page's links, each page that is made, each block and example, each place
of the version, each picture, the packages, the toolchain, each status, word and example of the manual pages, each option of
a completion and each question to that of bash, the text of the tables, the headings, each crate's page, the widths of each
crate, the imports of each library, each command, twice, each one that builds unproved, those by a release, and each row. Without `man` a line
'skipped: docs: WHY' stands for the manual pages.
"""
import os
import sys
from collections.abc import Sequence

sys.dont_write_bytecode = True

from pages import imports, links, made, manuals, promises, rows, shown, sources, terms  # noqa: E402
from pages.judging import ROOT, counts, read  # noqa: E402


def ended() -> int:
    """Prints the count, the last line."""
    print(f"{counts[True]} passed, {counts[False]} failed")
    return 0 if counts[False] == 0 else 1


def judge_all(is_writing: bool) -> int:
    """Judges all pages; with is_writing those that are made are written first."""
    made.judge_page("docs/EDITS.md", made.edits_page(), is_writing)
    made.judge_page("docs/MAP.md", made.map_page(), is_writing)
    made.judge_page(promises.PAGE, promises.page_made(read(promises.PAGE)), is_writing)
    made.judge_page(rows.PAGE, rows.page_made(read(rows.PAGE)), is_writing)
    promises.judge_lengths(read(promises.PAGE))
    links.judge_links()
    links.judge_paths()
    terms.judge_terms()
    shown.judge_code()
    shown.judge_examples()
    sources.judge_version()
    sources.judge_pictures()
    sources.judge_needs(read("docs/BUILDING.md"))
    manuals.judge_manual()
    manuals.judge_options()
    manuals.judge_converter()
    sources.judge_sample()
    sources.judge_english()
    sources.judge_signs()
    sources.judge_widths()
    sources.judge_lengths()
    imports.judge_homes()
    shown.judge_file()
    shown.judge_commands()
    shown.judge_first_commands()
    shown.judge_release(read("README.md"))
    shown.judge_locales(read("README.md"))
    return ended()


def main(words: Sequence[str]) -> int:
    os.chdir(ROOT)
    if words and words[0] in ("--mutations", "--map") and len(words) <= 2:
        print("\n".join((made.mutations if words[0] == "--mutations" else made.mapped)(words[1:])))
        return 0
    if words == ["--help"]:
        print(__doc__)
        return 0
    if words and words[0] == "--installed" and len(words) == 2:
        shown.judge_installed(words[1])
        return ended()
    if words not in ([], ["--write"]):
        print("usage: tests/docs.py [--write | --installed PREFIX | --mutations [CRATE] | --map [CRATE] | --help]", file=sys.stderr)
        return 2
    return judge_all(words == ["--write"])


if __name__ == "__main__":
    sys.exit(main(sys.argv[1:]))
