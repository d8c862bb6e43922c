#!/usr/bin/env python3
"""Runs CI and prints, after its own output, a table of what each crate cost: functions proved, tests, mutations, and
the processor minutes of each. Counts are read from CI's output, minutes from the prover's processes on the processors
that this script is bound to, so that taskset tells a run from others beside it. Below it stand
the minutes from begin to end, the longest chain of tasks that wait for one another, what the same tasks take on two and
on four processors that do nothing else, and how much of this machine's processors its host gave to others meanwhile.

usage: tests/gate_table.py [COMMAND ARGUMENT..], by default .ci/run
"""
import heapq
import os
import re
import subprocess
import sys
import threading
import time
from collections.abc import Iterable
from typing import TypeAlias

import usage

TASKS = ("proof", "tests", "edits")
TICKS = os.sysconf("SC_CLK_TCK")
# The name of a crate and that of a task; a task with the number of the edit, if it is one of a crate's edits.
CrateTask: TypeAlias = tuple[str, str]
Task: TypeAlias = CrateTask | tuple[str, str, int]
# Counts by crates and then by tasks.
Counts: TypeAlias = dict[str, dict[str, int]]


def task_of(pid: str) -> CrateTask | None:
    """The crate and the task that a process works for, if it is the prover, on the processors of this script."""
    with open(f"/proc/{pid}/cmdline", "rb") as file:
        words = file.read().decode(errors="replace").split("\0")
    if not words[0].endswith("/rattle") or "--crate-name" not in words:
        return None
    if os.sched_getaffinity(int(pid)) != os.sched_getaffinity(0):
        return None
    crate = words[words.index("--crate-name") + 1]
    if "/rt-edit-" in os.readlink(f"/proc/{pid}/cwd"):
        return crate, "edits"
    return crate, "tests" if "--test" in words else "proof"


def seconds_of(pid: str) -> float:
    """The processor time of a process so far."""
    with open(f"/proc/{pid}/stat") as file:
        fields = file.read().rsplit(")", 1)[1].split()
    return (int(fields[11]) + int(fields[12])) / TICKS


def sample(spent: dict[tuple[CrateTask, str], float]) -> None:
    """Notes the processor time of every process of the prover."""
    for pid in filter(str.isdigit, os.listdir("/proc")):
        try:
            task = task_of(pid)
            if task:
                spent[task, pid] = max(seconds_of(pid), spent.get((task, pid), 0))
        except (OSError, IndexError):
            pass


def counts_of(lines: Iterable[str]) -> Counts:
    """The numbers of functions, tests and edits of each crate, from the gate's output."""
    counts: Counts = {}
    crate: str | None = None
    is_tests = False
    for line in lines:
        begun = re.match(r"== (\w+)(: its tests)?$", line)
        proved = re.match(r"logic=proved (?:tests=(\d+) )?functions=(\d+)", line)
        edits = re.search(r"(\w+): trying its must-fail edits \((\d+)\)", line)
        if begun:
            crate, is_tests = begun[1], bool(begun[2])
        elif proved and crate:
            count = counts.setdefault(crate, dict.fromkeys(TASKS, 0))
            count["tests" if is_tests else "proof"] = int((proved[1] or 0) if is_tests else proved[2])
            crate = None
        elif edits:
            counts.setdefault(edits[1], dict.fromkeys(TASKS, 0))["edits"] = int(edits[2])
    return counts


def waits_of(counts: Counts) -> dict[Task, list[Task]]:
    """The tasks that each task waits for: a proof and tests for the proofs of the crates below, each edit for both."""
    below = {}
    with open("crates.txt") as file:
        for line in file:
            name, _, words = line.split("#")[0].partition(":")
            below[name.split(" ")[0].strip()] = words.split()
    waits: dict[Task, list[Task]] = {}
    for crate, count in counts.items():
        proofs: list[Task] = [(it, "proof") for it in below.get(crate, []) if it in counts]
        waits[crate, "proof"] = proofs
        waits[crate, "tests"] = proofs
        for number in range(count["edits"]):
            waits[crate, "edits", number] = [(crate, "proof"), (crate, "tests")]
    return waits


def shares_of(waits: Iterable[Task], minutes: dict[CrateTask, float], counts: Counts) -> dict[Task, float]:
    """The minutes of each task, an edit's as its share of what those of its crate took."""
    return {it: minutes.get((it[0], it[1]), 0) / (counts[it[0]]["edits"] if it[1] == "edits" else 1) for it in waits}


def chain_of(waits: dict[Task, list[Task]], minutes: dict[Task, float]) -> tuple[float, list[Task]]:
    """The longest chain of tasks that wait for one another, and its minutes."""
    none: tuple[float, list[Task]] = (0, [])
    longest: dict[Task, tuple[float, list[Task]]] = {}

    def chain(task: Task) -> tuple[float, list[Task]]:
        if task not in longest:
            before = max((chain(it) for it in waits[task]), default=none)
            longest[task] = (before[0] + minutes[task], before[1] + [task])
        return longest[task]

    return max((chain(it) for it in waits), default=none)


def scheduled(waits: dict[Task, list[Task]], minutes: dict[Task, float], processors: int) -> float:
    """The minutes that the tasks take with one task a processor, those with the longest chain behind them first."""
    behind: dict[Task, float] = {}

    def weight(task: Task) -> float:
        if task not in behind:
            after = (weight(it) for it, before in waits.items() if task in before)
            behind[task] = minutes[task] + max(after, default=0)
        return behind[task]

    left = sorted(waits, key=weight, reverse=True)
    running: list[tuple[float, Task]] = []
    done: set[Task] = set()
    now = 0.0
    while left or running:
        ready = [it for it in left if done.issuperset(waits[it])]
        for task in ready[: processors - len(running)]:
            left.remove(task)
            heapq.heappush(running, (now + minutes[task], task))
        now, ended = heapq.heappop(running)
        done.add(ended)
    return now


def host() -> tuple[float, float]:
    """The minutes that this machine's processors have worked so far, and those that its host gave to others instead."""
    with open("/proc/stat") as file:
        ticks = [int(it) for it in file.readline().split()[1:9]]
    return sum(ticks[:3] + ticks[5:7]) / TICKS / 60, ticks[7] / TICKS / 60


def main() -> int:
    if sys.argv[1:] and sys.argv[1].startswith("-"):
        usage.words_of(__doc__, 0, 0)
    command = sys.argv[1:] or [".ci/run"]
    began, before = time.time(), host()
    spent: dict[tuple[CrateTask, str], float] = {}
    lines: list[str] = []
    gate = subprocess.Popen(command, stdout=subprocess.PIPE, stderr=subprocess.STDOUT, text=True, errors="replace")

    def watch() -> None:
        while gate.poll() is None:
            sample(spent)
            time.sleep(1)

    threading.Thread(target=watch, daemon=True).start()
    for line in gate.stdout or ():
        print(line, end="", flush=True)
        lines.append(line.rstrip("\n"))
    status = gate.wait()
    minutes: dict[CrateTask, float] = {}
    for (task, _), seconds in spent.items():
        minutes[task] = minutes.get(task, 0) + seconds / 60
    print("\n| crate | functions | minutes | tests | minutes | edits | minutes |")
    print("|---|---|---|---|---|---|---|")
    sums, counts = [0.0] * 6, counts_of(lines)
    for crate, count in counts.items():
        row = [cell for task in TASKS for cell in (count[task], minutes.get((crate, task), 0))]
        sums = [a + b for a, b in zip(sums, row)]
        print(f"| `{crate}` | " + " | ".join(f"{cell:.1f}" if at % 2 else str(cell) for at, cell in enumerate(row)) + " |")
    print("| together | " + " | ".join(f"{cell:.0f}" for cell in sums) + " |")
    print(f"\nprocessor minutes {sum(minutes.values()):.0f}, minutes from begin to end {(time.time() - began) / 60:.0f}")
    waits = waits_of(counts)
    shares = shares_of(waits, minutes, counts)
    length, chain = chain_of(waits, shares)
    print(f"longest chain {length:.0f} minutes: " + ", ".join(" ".join(map(str, it)) for it in chain))
    two, four = scheduled(waits, shares, 2), scheduled(waits, shares, 4)
    print(f"the same tasks on two free processors {two:.0f} minutes, on four {four:.0f}")
    worked, lost = (b - a for a, b in zip(before, host()))
    print(f"this machine worked {worked:.0f} processor minutes; its host gave {lost:.0f} more to others")
    return status


if __name__ == "__main__":
    sys.exit(main())
