#!/usr/bin/env python3
"""Writes each goal of bench/goals that includes files of bench/library with just the facts that it names in its line `% Needs:`:

    bench/library/needs.py FOLDER [whole]

FOLDER/NAME.p is the goal with these facts and the types and constants that they and the goal speak of, without an include. With the word
`whole` it has all that the goal includes instead, so that it can be read where includes can't. Status 1 where a fact isn't found."""
import re
import sys
from pathlib import Path

TOP = Path(__file__).resolve().parent.parent.parent
STATEMENT = re.compile(r"^thf\((\w+),(\w+),.*?\)\.$|^include\('([^']+)'\)\.$", re.MULTILINE | re.DOTALL)


def statements(path: Path) -> list[tuple[str, str, str]]:
    """Name, role and text of each statement of a file, with those of its includes in place."""
    found = []
    for match in STATEMENT.finditer(path.read_text()):
        name, role, included = match.groups()
        found += statements(TOP / included) if included else [(name, role, match.group())]
    return found


def needed(goal: Path) -> list[str]:
    """The texts of a goal, of the facts that it names, and of what they speak of."""
    line = re.search(r"^% Needs: (.*)$", goal.read_text(), re.MULTILINE)
    names = set(line.group(1).split(", ")) if line else set()
    own, found = goal.read_text(), statements(goal)
    if missing := names - {name for name, role, _ in found if role != "type"}:
        sys.exit(f"{goal.name}: no fact {', '.join(sorted(missing))}")
    kept = [text for name, role, text in found if role != "type" and (name in names or text in own)]
    words, declared = set(re.findall(r"\w+", " ".join(kept))), []
    for name, role, text in reversed(found):
        constant = re.match(r"thf\(\w+,type,(\w+)", text)
        if role == "type" and constant.group(1) in words:
            words |= set(re.findall(r"\w+", text.split(":", 1)[1]))
            declared.append(text)
    return [*reversed(declared), *kept]


def main() -> None:
    folder, whole = Path(sys.argv[1]), sys.argv[2:] == ["whole"]
    folder.mkdir(parents=True, exist_ok=True)
    for goal in sorted((TOP / "bench" / "goals").glob("library_*.p")):
        texts = [text for _, _, text in statements(goal)] if whole else needed(goal)
        (folder / goal.name).write_text("\n".join(texts) + "\n")


if __name__ == "__main__":
    main()
