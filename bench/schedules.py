#!/usr/bin/env python3
"""Runs a program over the goals of bench/goals and over examples/ by modes and schedules, and prints how many goals each of them proves:

    bench/schedules.py out/satallax [--each] [FILE..]

FILE is a file of modes/, or standard; without one, standard and all of modes/. The goals are counted in two halves, each second one by
name, so that what is chosen by one half can be looked at on the other. Commands are those of all their runs together, proved or not. Goals
whose names begin with library_ include facts of bench/library: they belong to no half, and have a column of their own. With --each, a line
for each goal says after how many commands it is proved. Status 1 where a run ends in another way than proved, or by a limit."""
import subprocess
import sys
from pathlib import Path

TOP = Path(__file__).resolve().parent.parent
PROVED = ("Theorem", "Unsatisfiable")


def run(program: str, by: str, goal: Path) -> tuple[bool, int]:
    words = [] if by == "standard" else ["--schedule" if by.endswith(".schedule") else "--mode", by]
    process = subprocess.Popen([program, *words, goal], stdout=subprocess.PIPE, cwd=TOP, text=True)
    head, number = process.stdout.readline().split(), process.stdout.readline().split()
    process.stdout.close()
    process.wait()
    if len(head) < 4 or len(number) < 3 or "command" not in number[1]:
        sys.exit(f"{goal.name} by {by}: {' '.join(head)} {' '.join(number)}")
    return head[3] in PROVED, int(number[-1])


def main() -> None:
    program, each = str(Path(sys.argv[1]).resolve()), "--each" in sys.argv
    files = [word for word in sys.argv[2:] if word != "--each"]
    files = files or ["standard", *sorted(str(path.relative_to(TOP)) for path in (TOP / "modes").iterdir() if path.suffix != ".md")]
    every, examples = (sorted((TOP / folder).glob("*.p")) for folder in ("bench/goals", "examples"))
    library = [goal for goal in every if goal.name.startswith("library_")]
    goals = [goal for goal in every if goal not in library]
    print("| By | First half | Second half | All | Commands | Examples | Library |\n|---|---|---|---|---|---|---|")
    for by in files:
        ends, seen, large = ([run(program, by, goal) for goal in group] for group in (goals, examples, library))
        halves = [sum(proved for proved, _ in ends[half::2]) for half in (0, 1)]
        few, many = (sum(proved for proved, _ in group) for group in (seen, large))
        print(f"| `{by}` | {halves[0]} | {halves[1]} | {sum(halves)} | {sum(n for _, n in ends):,} | {few} | {many} |", flush=True)
        for goal, (proved, number) in zip(goals + library, ends + large):
            if each:
                print(f"    {goal.stem}: {number if proved else '-'}")


if __name__ == "__main__":
    main()
