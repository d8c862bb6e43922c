"""What the judges of pages share: how cases are counted, and how files and commands are read."""
import fcntl
import glob
import os
import pty
import select
import signal
import subprocess
import termios
import time

ROOT = os.path.dirname(os.path.dirname(os.path.dirname(os.path.abspath(__file__))))
PROGRAM = "crates/decfmt/out/decfmt"
REPORTS = "crates/locnum/out/locnum"
PAGES = ["README.md", "CONTRIBUTING.md", "CHANGELOG.md", "docs/*.md", "tables/README.md", "crates/README.md", "crates/*/README.md"]
counts = {True: 0, False: 0}


def judge(held: object, name: str, told: str = "") -> None:
    """Counts a case, and tells one that failed."""
    counts[bool(held)] += 1
    if not held:
        print(f"docs: {name} {told}".rstrip())


def read(path: str) -> str:
    with open(path, encoding="utf-8") as file:
        return file.read()


def found(pattern: str) -> list[str]:
    """The files of a pattern in the order of their names, without what checks leave."""
    return sorted(path for path in glob.glob(pattern, recursive=True) if "/out/" not in path)


def output_of(command: str, path: str | None = None) -> str:
    """Standard output and standard error of a command, as a terminal shows them, by the programs of another PATH where it is
    given."""
    env = None if path is None else {"PATH": path, "LC_ALL": "C.UTF-8"}
    done = subprocess.run(["bash", "-c", command], env=env, stdout=subprocess.PIPE, stderr=subprocess.STDOUT, timeout=60)
    return done.stdout.decode("utf-8", "replace")


def typed(command: str, minutes: int = 1) -> str | None:
    """What a command shows on a terminal at which nobody types, or none where it hasn't ended in some minutes."""
    screen, terminal = pty.openpty()
    process = subprocess.Popen(["bash", "-c", command], stdin=terminal, stdout=terminal, stderr=terminal,
                               start_new_session=True, preexec_fn=lambda: fcntl.ioctl(0, termios.TIOCSCTTY, 0))
    os.close(terminal)
    shown, end = b"", time.monotonic() + 60 * minutes
    while select.select([screen], [], [], max(0, end - time.monotonic()))[0]:
        try:
            shown += os.read(screen, 65536)
        except OSError:  # the last process has closed the terminal
            break
    else:
        os.killpg(process.pid, signal.SIGKILL)
    os.close(screen)
    return shown.decode("utf-8", "replace").replace("\r\n", "\n") if process.wait() >= 0 else None


def pages() -> list[str]:
    """All pages that people write or that are made."""
    return [page for pattern in PAGES for page in found(pattern)]
