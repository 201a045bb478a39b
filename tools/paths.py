#!/usr/bin/env python3
"""Checks that each path which a doc or a README names is there; the status is 1 if one isn't.

A path is what stands between backquotes with a `/` or an ending of a file of this repository. It is looked for at the root, in `crates/`, in
`docs/`, and beside the text: in its folder, and in `specs/`, `src/` and `proofs/` there; so in each crate that the line, or the
one before it, names.
"""
import pathlib
import re
import sys

ROOT = pathlib.Path(__file__).resolve().parent.parent
QUOTED = re.compile(r"`([^`\n]+)`")
ENDINGS = (".rt", ".antt", ".md")
NAMED = re.compile(r"\bisle_\w+")
WRITTEN = re.compile(r"^[\w./-]+$")


def texts():
    """The texts that are read."""
    yield ROOT / "README.md"
    for pattern in ("docs/*.md", "bench/*.md", "edits/*.md", "crates/*/README.md"):
        yield from sorted(ROOT.glob(pattern))


def is_path(word):
    """Whether a word in backquotes names a file of this repository."""
    if not WRITTEN.match(word) or word.startswith((".", "/")) or "NAME" in word or "CRATE" in word:
        return False
    return word.endswith(ENDINGS) and ("/" in word or word.endswith(".antt") and word[0].isupper())


def places(text, lines):
    """The folders in which a path may lie: those of the repository, of the text, and of the crates that these lines name."""
    yield from (ROOT, ROOT / "crates", ROOT / "docs")
    for own in [text.parent, *(ROOT / "crates" / name for name in NAMED.findall(lines))]:
        yield from (own, *(own / part for part in ("specs", "src", "proofs")))


def missing(text):
    """The paths that a text names and that aren't there, each with its line."""
    before = ""
    for number, line in enumerate(text.read_text().splitlines(), 1):
        for word in filter(is_path, QUOTED.findall(line)):
            if not any((folder / word).exists() for folder in places(text, before + line)):
                yield number, word
        before = line


def main():
    found = [f"{text.relative_to(ROOT)}:{number}: no {word}" for text in texts() for number, word in missing(text)]
    print(*found, f"{len(found)} paths that aren't there", sep="\n")
    sys.exit(1 if found else 0)


main()
