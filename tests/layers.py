#!/usr/bin/env python3
"""Looks whether crates.txt is an honest map: no entry leads to a crate of a later heading, each crate that an entry names is named by a file
of the entry's crate, and docs/ARCHITECTURE.md has the headings with their crates in the same order. Needs no program. Ends with 1 where
something is wrong."""
import re
import sys
from pathlib import Path

TOP = Path(__file__).resolve().parent.parent
WORDS = re.compile(r"[a-z0-9_]+")


def read_map() -> dict[str, dict[str, list[str]]]:
    """The headings with their crates, and what each crate stands on."""
    headings: dict[str, dict[str, list[str]]] = {}
    before = ""
    for line in (TOP / "crates.txt").read_text().splitlines():
        if line.startswith("#") and before == "":
            heading = line[2:]
        elif line and not line.startswith("#"):
            name, _, below = line.partition(":")
            headings.setdefault(heading, {})[name] = below.split()
        before = line
    return headings


def named_by(crate: str) -> set[str]:
    """The words of a crate's files in src, specs and proofs."""
    files = [path for part in ("src", "specs", "proofs") for path in (TOP / "crates" / crate / part).rglob("*") if path.suffix in (".rt", ".antt")]
    return {word for path in files for word in WORDS.findall(path.read_text())}


def table() -> list[tuple[str, list[str]]]:
    """The rows of the table of crates in docs/ARCHITECTURE.md."""
    text = (TOP / "docs" / "ARCHITECTURE.md").read_text()
    rows = re.findall(r"(?m)^\| ([a-z ]+) \| ((?:`[a-z0-9_*]+`(?:, )?)+) \|", text)
    return [(layer, re.findall(r"`([a-z0-9_*]+)`", crates)) for layer, crates in rows]


def main() -> None:
    headings, wrong = read_map(), []
    place = {name: i for i, crates in enumerate(headings.values()) for name in crates}
    for crates in headings.values():
        for name, below in crates.items():
            words = named_by(name)
            for other in below:
                if place.get(other, -1) > place[name]:
                    wrong.append(f"crates.txt: {name} leads to {other}, of a later heading")
                if other not in words:
                    wrong.append(f"crates.txt: no file of {name} names {other}")
    told = [(heading.lower(), [name for name in crates if not name.startswith("test_")]) for heading, crates in headings.items()]
    shown = [(layer, [name for name in crates if name != "test_*"]) for layer, crates in table()]
    if told != shown:
        wrong += [f"docs/ARCHITECTURE.md: {b} where crates.txt has {a}" for a, b in zip(told, shown) if a != b]
        wrong.append(f"{len(told)} headings in crates.txt, {len(shown)} rows in docs/ARCHITECTURE.md")
    for line in wrong:
        print(line)
    print(f"{len(place)} crates under {len(headings)} headings, {len(wrong)} wrong")
    sys.exit(1 if wrong else 0)


if __name__ == "__main__":
    main()
