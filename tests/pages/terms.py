"""The words of pages: those of the last column of CONTRIBUTING.md's table of terms stand in none."""
import re

from pages.judging import judge, pages, read
from pages.links import REFERENCE, without_code

OLD_WORDS = re.compile(r"[Ww]ant of memory|\b[Ss]o many\b|\b(?:[Tt]old|[Rr]efus\w+|[Gg]ate|[Cc]ircles?|[Ee]dits?|[Hh]ouse)\b")


def judge_terms() -> None:
    """No page has a word for which CONTRIBUTING.md's table of terms has another one."""
    terms = re.findall(r"^\| write \| for \| not \|\n(?:\|.*\n)+", read("CONTRIBUTING.md"), flags=re.M)[0]
    for page in pages():
        text = without_code(REFERENCE.sub("", read(page).replace(terms, "")))
        text = re.sub(r"^    .*$|\]\([^)]*\)|<!--.*?-->", "", text, flags=re.M)
        old = sorted({word.lower() for word in OLD_WORDS.findall(text)})
        judge(not old, f"{page}: has words that the table of terms replaces:", ", ".join(old))
