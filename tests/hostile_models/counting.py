"""How cases are tried by a seed, and counted."""
import collections
import concurrent.futures
import random
from collections.abc import Callable, Iterable, Sequence
from dataclasses import dataclass, field

from hostile_models.running import Answer, Word

# Of the cases of a kind that fail that many are shown.
MOST_SHOWN = 3


@dataclass(frozen=True)
class Case:
    """A case that was tried: whether it holds, what the program was given and answered, what is wanted of it where this is known
    as a whole, and which kinds of things were met, each as often as it counts."""

    is_held: bool
    words: Sequence[Word]
    given: bytes
    answer: Answer
    wanted: Answer | None = None
    met: Iterable[str] = ()

    def shown(self) -> str:
        """The case in a line, where it fails."""
        wanted = f", wanted {self.wanted!r:.2000}" if self.wanted else ""
        return f"words {self.words!r:.600}, input {self.given!r:.2000}, gives {self.answer!r:.2000}{wanted}"


@dataclass
class Tally:
    """How many cases of a kind were tried, and failed; the statuses, and what was met."""

    name: str
    count: int = 0
    missed: int = 0
    statuses: collections.Counter[int | None] = field(default_factory=collections.Counter)
    met: collections.Counter[str] = field(default_factory=collections.Counter)

    def add(self, case: Case) -> None:
        """Counts a case."""
        if not case.is_held:
            self.missed += 1
            if self.missed <= MOST_SHOWN:
                print(f"hostile: {self.name} {self.count}: {case.shown()}")
        self.count += 1
        self.statuses[case.answer.status] += 1
        self.met.update(case.met)

    def runs(self) -> str:
        """The counts of runs, as a line begins."""
        return f"hostile: {self.name}: {self.count} runs, {self.missed} missed"

    def unmet(self, kinds: Iterable[str]) -> list[str]:
        """Which of these kinds weren't met."""
        return [kind for kind in kinds if not self.met[kind]]

    def met_of(self, kinds: Sequence[str], noun: str = "") -> str:
        """How many of these kinds were met, and which weren't."""
        unmet, rarest = self.unmet(kinds), min(self.met[kind] for kind in kinds)
        missing = f": not {', '.join(unmet)}" if unmet else ""
        return f"{len(kinds) - len(unmet)} of {len(kinds)}{noun}, the rarest {rarest} times{missing}"


def tally_of(name: str, holds: Callable[[random.Random, int], Case], count: int, seed: int, program: str = "") -> Tally:
    """That many cases of a kind, each drawn by the seed, the kind and its number; the first that fail are shown."""
    def case(number: int) -> Case:
        return holds(random.Random(f"{seed} {name} {number}"), number)

    tally = Tally(program + name)
    with concurrent.futures.ThreadPoolExecutor(2) as workers:
        for each in workers.map(case, range(count)):
            tally.add(each)
    return tally


def ended_all(results: Sequence[bool]) -> int:
    """Prints the last line; the status of the script."""
    print(f"{sum(results)} passed, {len(results) - sum(results)} failed")
    return 0 if all(results) else 1
