#!/usr/bin/env python3
"""Makes hostile inputs by the thousand, and compares the built program with another one that takes the same words.

    tests/hostile.py [--seed N] [--count N] [--seconds N] [--keep FOLDER] OTHER [KIND..]

Inputs are random by the seed: problems, mutated problems and texts, includes, modes, schedules, command lines. The kinds are those of KINDS
below; without a kind each of them has its share of the count. Both programs run on each input, with an address space of 3 GB and so many
seconds of processor time. Exit status and output have to be the same up to a refutation, since which one is written is the solver's affair.
But OTHER has to accept each refutation that the program writes. Not compared are runs in which one of the two comes to its conflict limit,
runs out of memory, or runs out of time. A status of the program that docs/REPORTS.md doesn't have, or a signal, is always a difference.

The program is out/satallax, or the one that SATALLAX names. Each input that shows a difference is kept in a folder of its own, where FOLDER
is given: the files, the words (between null bytes) and both outputs. Ends with 1 where there is a difference.
"""
import argparse
import os
import random
import re
import resource
import signal
import subprocess
import sys
import tempfile
import time
from collections import Counter
from dataclasses import dataclass
from pathlib import Path

sys.dont_write_bytecode = True
import hostile_inputs
from hostile_inputs import KINDS, Input

PROGRAM = Path(os.environ.get("SATALLAX") or Path(os.path.realpath(__file__)).parent.parent / "out" / "satallax").resolve()
STATUSES = {*range(9), *range(10, 16), 17, 18, 20, 21, 30}
REFUTATION, TREE = b"% SZS output start Refutation for ", re.compile(rb"% tree .*\n")
# Keys that not every other program knows: inputs that have them are left out.
OWN_KEYS = (b"clock", b"terms", b"names", b"defaults")


@dataclass
class End:
    """How a run ended: the exit status, or 256 and a signal, and what was written."""

    status: int
    written: bytes

    def compared(self) -> tuple[int, bytes]:
        """What both programs have to agree about."""
        before, is_there, _ = self.written.partition(REFUTATION)
        return self.status, TREE.sub(b"", before) + is_there

    def shown(self) -> str:
        status = f"status {self.status}" if self.status < 256 else f"signal {self.status - 256}"
        return f"{status}, {self.written[:150]!r}"


def run(program: Path, of: Input) -> End:
    streams = {"stdin": subprocess.DEVNULL, "stdout": subprocess.PIPE, "stderr": subprocess.DEVNULL}
    done = subprocess.run([program, *of.words], **streams, close_fds=False, check=False)
    return End(done.returncode if done.returncode >= 0 else 256 - done.returncode, done.stdout)


def write(files: dict[bytes, bytes]) -> None:
    for path in Path().iterdir():
        subprocess.run(["rm", "-rf", path], check=False) if path.is_dir() else path.unlink()
    for name, data in files.items():
        path = Path(os.fsdecode(name))
        if len(path.parts) > 1:
            path.parent.mkdir(parents=True, exist_ok=True)
        path.write_bytes(data)


def report(of: Input) -> bytes:
    write(of.files)
    return run(PROGRAM, of).written


def tried(other: Path, of: Input) -> tuple[str, End, End | None]:
    """Runs both, and returns in a word what came of it, and how they ended."""
    own, second = run(PROGRAM, of), run(other, of)
    timeout = 256 + signal.SIGXCPU
    if own.status not in STATUSES and own.status != timeout:
        return "different", own, second
    for status, why in ((timeout, "out of time"), (30, "out of memory"), (3, "conflict limit")):
        if status in (own.status, second.status):
            return why, own, second
    if own.compared() != second.compared():
        return "different", own, second
    if REFUTATION not in own.written:
        return "alike", own, second
    Path("written").write_bytes(own.written)
    word = b"--strict" if re.search(rb"(?m)^% tree \d", own.written) else b"--check"
    name = own.written.partition(REFUTATION)[2].partition(b"\n")[0]
    accepted = run(other, Input([word, b"written", b"--", name]))
    return ("alike, its text accepted" if accepted.status == 0 else "different"), own, accepted


def keep(folder: Path, of: Input, ends: tuple[End, End | None]) -> None:
    folder.mkdir(parents=True, exist_ok=True)
    ends_files = {b"own": ends[0].written, b"other": ends[1].written if ends[1] else b""}
    for name, data in {**of.files, b"words": b"\0".join(of.words), **ends_files}.items():
        (folder / os.fsdecode(name).replace("/", "_")).write_bytes(data)


def main() -> int:
    parser = argparse.ArgumentParser(description="Compares the built program with another one over hostile inputs.")
    parser.add_argument("other", type=Path)
    parser.add_argument("kinds", nargs="*", metavar="KIND", default=[])
    parser.add_argument("--seed", default="1")
    parser.add_argument("--count", type=int, default=1000)
    parser.add_argument("--seconds", type=int, default=10)
    parser.add_argument("--keep", type=Path)
    given = parser.parse_args()
    other, kept = given.other.resolve(), given.keep and given.keep.resolve()
    if not os.access(PROGRAM, os.X_OK) or not os.access(other, os.X_OK):
        print(f"hostile.py: {PROGRAM} or {other} isn't there", file=sys.stderr)
        return 2
    # The limits are those of the programs that are started. This one goes on past its own.
    signal.signal(signal.SIGXCPU, lambda *_: None)
    resource.setrlimit(resource.RLIMIT_CPU, (given.seconds, resource.RLIM_INFINITY))
    resource.setrlimit(resource.RLIMIT_CORE, (0, 0))
    resource.setrlimit(resource.RLIMIT_AS, (3 << 30, 3 << 30))
    hostile_inputs.prove = report
    kinds = given.kinds or list(KINDS)
    ends: Counter[tuple[str, str]] = Counter()
    begun = time.monotonic()
    with tempfile.TemporaryDirectory(dir="/dev/shm" if os.path.isdir("/dev/shm") else None) as room:
        # (some inputs name files by ../here)
        here = Path(room) / "here"
        here.mkdir()
        os.chdir(here)
        for kind in kinds:
            make, share = KINDS[kind]
            for index in range(-(-given.count * share // sum(KINDS[k][1] for k in kinds))):
                pick = random.Random(f"{given.seed} {kind} {index}")
                of = make(pick)
                if any(key in data for data in of.files.values() if data[:4] for key in OWN_KEYS):
                    continue
                write(of.files)
                what, *both = tried(other, of)
                ends[kind, what] += 1
                if what == "different":
                    print(f"{kind} {index}: {b' '.join(of.words)!r}: {both[0].shown()}; the other: {both[1].shown()}", flush=True)
                if kept and what not in ("alike", "alike, its text accepted"):
                    keep(kept / what.replace(" ", "_") / f"{kind}_{given.seed}_{index}", of, tuple(both))
            told = [f"{count} {what}" for (of_kind, what), count in sorted(ends.items()) if of_kind == kind]
            print(f"{kind}: {', '.join(told)}", flush=True)
        os.chdir("/")
    different = sum(count for (_, what), count in ends.items() if what == "different")
    print(f"{sum(ends.values())} inputs by seed {given.seed}, {different} different, {time.monotonic() - begun:.0f} s")
    return 1 if different else 0


if __name__ == "__main__":
    sys.exit(main())
