"""How scripts in Python answer --help, and reject what they don't take."""
import sys
from collections.abc import Collection


def words_of(doc: str, least: int, most: int, options: Collection[str] = ()) -> list[str]:
    """The words of a script. With --help among them it prints its text and ends; other options than these, and another count of
    words that are none, are rejected with status 2."""
    words = sys.argv[1:]
    if "--help" in words:
        print(doc.strip())
        sys.exit(0)
    others = [word for word in words if not word.startswith("-")]
    strange = [word for word in words if word.startswith("-") and word not in options]
    if strange or not least <= len(others) <= most:
        print(f"{sys.argv[0]}: {(strange or ['these words'])[0]}: not expected; --help says what is", file=sys.stderr)
        sys.exit(2)
    return words
