#!/usr/bin/env python3
"""The table of crates in docs/ARCHITECTURE.md, made from crates.txt and the first sentence of each crate's README.

`tools/crate_table.py` writes it anew; with `--check` it only says whether it is as it would be written, by its status.
"""
import pathlib
import re
import sys

ROOT = pathlib.Path(__file__).resolve().parent.parent
PLACE = ROOT / "docs" / "ARCHITECTURE.md"
HEAD, TAIL = "<!-- made by tools/crate_table.py -->\n", "<!-- end of the table -->\n"
WIDEST = 200


def rooms():
    """Each room with its crates, and each crate with those that it stands on, as crates.txt has them."""
    found = []
    for line in (ROOT / "crates.txt").read_text().splitlines():
        if line.startswith("#"):
            found.append((line[1:].strip(), []))
        elif line.strip():
            name, _, below = line.partition(":")
            found[-1][1].append((name.split()[0], below.split()))
    return found


def purpose(crate):
    """The first sentence of a crate's README, without its last mark."""
    text = (ROOT / "crates" / crate / "README.md").read_text().split("\n\n", 1)[1].lstrip()
    sentence = re.split(r"(?<=[^.])[.:](?=\s)", " ".join(text.split()), maxsplit=1)[0]
    return sentence if len(sentence) <= WIDEST else sentence[:WIDEST].rsplit(" ", 1)[0] + " .."


def table():
    """The table, a part for each room."""
    lines = []
    for room, crates in rooms():
        lines += [f"**{room}**", "", "| Crate | What it does |", "|---|---|"]
        lines += [f"| `{name}` | {purpose(name)} |" for name, _ in crates]
        lines += [""]
    return "\n".join(lines)


def main():
    text = PLACE.read_text()
    before, rest = text.split(HEAD, 1)
    _, after = rest.split(TAIL, 1)
    wanted = before + HEAD + "\n" + table() + TAIL + after
    if sys.argv[1:] == ["--check"]:
        sys.exit(0 if wanted == text else "docs/ARCHITECTURE.md: the table of crates isn't as tools/crate_table.py makes it")
    PLACE.write_text(wanted)


main()
