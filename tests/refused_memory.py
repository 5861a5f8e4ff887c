#!/usr/bin/env python3
"""Refuses each allocation of the built program in turn, and tells how the calls end.

    tests/refused_memory.py [CALLS]

CALLS has the words of a call a line, and stands in the folder where the files are that they name; without it, it is tests/data/calls. For
each call, and for each allocation that it makes, there is a run in which that allocation is refused and those after it are given. Each is
to answer that memory ran out, or what the call answers where none is refused, to the byte and with the same status. Ends with 1 where a run
ends otherwise, and with 2 where nothing could be tried.

The program is out/satallax, or the one that SATALLAX names. It is run with tests/refuse.c loaded before it, which CC compiles, or cc. That
needs Linux with the C library of GNU.
"""
import os
import shlex
import subprocess
import sys
import tempfile
import time
from concurrent.futures import ThreadPoolExecutor
from dataclasses import dataclass, field
from pathlib import Path

HERE = Path(os.path.realpath(__file__)).parent
PROGRAM = Path(os.environ.get("SATALLAX") or HERE.parent / "out" / "satallax").resolve()
NO_MEMORY = 30
# What the report says where memory ran out: nothing before the call, else one line, and before that the problem's name once it is kept.
MEMORY = b"% memory\n"
STATUS = b"% SZS status ResourceOut for "


class Failed(Exception):
    """Nothing could be tried, and why."""


@dataclass(frozen=True)
class End:
    """How a run ended: the exit status, or 256 and a signal, and what was written."""

    status: int
    written: bytes


@dataclass
class Ends:
    """How often runs ended in which way, and the first allocation whose refusal led to it."""

    allocations: int = 0
    counts: dict[End, int] = field(default_factory=dict)
    first: dict[End, int] = field(default_factory=dict)

    def add(self, other: "Ends") -> None:
        self.allocations = max(self.allocations, other.allocations)
        for end, count in other.counts.items():
            self.counts[end] = self.counts.get(end, 0) + count
            self.first[end] = min(self.first.get(end, other.first[end]), other.first[end])


def compiled(folder: Path) -> Path:
    library = folder / "refuse.so"
    compiler = shlex.split(os.environ.get("CC") or "cc")
    try:
        subprocess.run([*compiler, "-O2", "-shared", "-fPIC", "-o", library, HERE / "refuse.c"], check=True)
    except (OSError, subprocess.CalledProcessError) as error:
        raise Failed(f"tests/refuse.c isn't compiled: {error}") from error
    return library


def run(words: list[str], folder: Path, library: Path, step: int, rest: int) -> tuple[End, Ends]:
    """Returns how the call itself ends, and how those end in which an allocation with this rest is refused."""
    with tempfile.NamedTemporaryFile() as results:
        environment = {"LD_PRELOAD": str(library), "REFUSE_RESULTS": results.name, "REFUSE_STEP": str(step), "REFUSE_REST": str(rest)}
        streams = {"stdin": subprocess.DEVNULL, "stdout": subprocess.PIPE}
        done = subprocess.run([str(PROGRAM), *words], cwd=folder, env=environment, **streams, check=False)
        end = End(done.returncode if done.returncode >= 0 else 256 - done.returncode, done.stdout)
        return end, read_ends(Path(results.name).read_bytes())


def read_ends(told: bytes) -> Ends:
    ends = Ends()
    while told:
        head, _, told = told.partition(b"\n")
        if head.startswith(b"allocations "):
            ends.allocations = int(head.split()[1])
            return ends
        status, count, first, length = map(int, head.split())
        end = End(status, told[:length])
        ends.counts[end], ends.first[end] = count, first
        told = told[length + 1 :]
    raise Failed("the program doesn't tell what its allocations came to: is it linked to the system's C library?")


def is_no_memory(end: End) -> bool:
    before, is_told, after = end.written.partition(MEMORY)
    is_named = before.startswith(STATUS) and before.endswith(b"\n") and before.count(b"\n") == 1
    return end.status == NO_MEMORY and not after and (not end.written or bool(is_told) and (not before or is_named))


def shown(end: End) -> str:
    status = f"status {end.status}" if end.status < 256 else f"signal {end.status - 256}"
    return f"{status}, {end.written[:200]!r}"


def refused(words: list[str], folder: Path, library: Path) -> bool:
    """Tries the call, tells what it came to, and returns whether each run ended as it is to."""
    begun, many = time.monotonic(), len(os.sched_getaffinity(0))
    whole, ends = run(words, folder, library, 0, 0)
    if not ends.allocations:
        raise Failed(f"{shlex.join(words)} makes no allocation")
    with ThreadPoolExecutor(many) as pool:
        for end, part in pool.map(lambda rest: run(words, folder, library, many, rest), range(many)):
            ends.add(part)
            if end != whole:
                raise Failed(f"{shlex.join(words)} ends in two ways: {shown(whole)}; {shown(end)}")
    memory = sum(count for end, count in ends.counts.items() if is_no_memory(end) and end != whole)
    same = ends.counts.get(whole, 0)
    others = [end for end in ends.counts if end != whole and not is_no_memory(end)]
    tried = sum(ends.counts.values())
    came = f"{memory:,} times no memory, {same:,} times status {whole.status} as ever"
    print(f"{shlex.join(words)}: {ends.allocations:,} allocations; refused: {came}; {time.monotonic() - begun:.0f} s")
    for end in others:
        print(f"  {ends.counts[end]} times, first at allocation {ends.first[end]}: {shown(end)}")
    if tried != ends.allocations:
        print(f"  {tried} of {ends.allocations} allocations were refused")
    sys.stdout.flush()
    return not others and tried == ends.allocations


def main(arguments: list[str]) -> int:
    if len(arguments) > 1 or arguments[:1] == ["--help"]:
        print(__doc__, end="")
        return 0 if arguments == ["--help"] else 2
    calls = Path(arguments[0] if arguments else HERE / "data" / "calls")
    try:
        if not os.access(PROGRAM, os.X_OK):
            raise Failed(f"{PROGRAM} isn't built: call ./satallax first")
        lines = [shlex.split(line, comments=True) for line in calls.read_text(encoding="utf-8").splitlines()]
        with tempfile.TemporaryDirectory() as room:
            library = compiled(Path(room))
            ends = [refused(words, calls.resolve().parent, library) for words in lines if words]
    except (Failed, OSError, ValueError) as failed:
        print(f"refused_memory.py: {failed}", file=sys.stderr)
        return 2
    print(f"{len(ends)} calls, {ends.count(False)} with a run that ends otherwise")
    return 1 if ends.count(False) else 0


if __name__ == "__main__":
    sys.exit(main(sys.argv[1:]))
