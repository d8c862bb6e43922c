"""What the benches of Python share: ways to make texts of texts, their times, and the table of them."""
import math
import time
from collections.abc import Callable
from typing import TypeAlias

COUNT = 1_000_000

# What makes texts of texts.
Way: TypeAlias = Callable[[list[str]], list[str]]


def print_table(what: str, ways: dict[str, Way | None], texts: list[str], wanted: list[str], runs: int) -> None:
    """Prints the processor time that each way takes for a text, the best of the runs, and whether its texts are those wanted.

    A way that isn't there has no times. A way may leave texts out: of a hundred it may answer to the first alone.
    """
    print(f"| {what} from Python | ns each | of the library's | same output |\n|---|---|---|---|")
    own: float | None = None
    for name, way in ways.items():
        if way is None:
            print(f"| {name} | – | – | – |")
            continue
        best, given = math.inf, texts
        for _ in range(runs):
            start = time.process_time()
            given = way(texts)
            best = min(best, (time.process_time() - start) / len(given))
        own = own or best
        same = given == wanted[:: len(texts) // len(given)]
        print(f"| {name} | {best * 1e9:.0f} | {best / own:.2f} | {'yes' if same else 'no'} |")
