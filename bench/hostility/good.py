"""The good texts that random ones are made of: those of examples and cases that compile."""
import os
import re

from hostility.changes import TOKEN
from hostility.paths import EXAMPLES, ROOT
from hostility.running import lay, run
from hostility.sharing import pool_of, share, shared

MOST_SEED_BYTES = 4096


def text_of_case(lines):
    """A text of a case, of its lines, with what `\\n` and the like stand for; nothing where a part is to be repeated."""
    text = "\n".join(lines)
    if re.search(r"\\\d", text):
        return None
    kept = {"n": b"\n", "t": b"\t", "r": b"\r"}
    parts = re.split(r"\\(n|t|r|x[0-9a-f]{2})", text)
    return b"".join(part.encode() if at % 2 == 0 else kept.get(part) or bytes([int(part[1:], 16)]) for at, part in enumerate(parts))


def texts_of_cases(file):
    """The texts of the `file` lines of a topic."""
    lines = file.read_text().splitlines()
    for place, line in enumerate(lines):
        if line.startswith("file "):
            more = place + 1
            while more < len(lines) and lines[more].startswith("|"):
                more += 1
            first = line.split(" ", 2)[2:]
            yield text_of_case([*first, *(line[1:].removeprefix(" ") for line in lines[place + 1 : more])])


def good_texts(work):
    """The texts that others are made of, as tokens: those that compile."""
    found = [file.read_bytes() for file in sorted(EXAMPLES.rglob("*.isle"))]
    for file in sorted((ROOT / "crates" / "isle_cases" / "data").glob("*.cases")):
        found += [text for text in texts_of_cases(file) if text]
    kept = {text for text in found if len(text) <= MOST_SEED_BYTES and re.search(rb"\((decl|type|rule|extern|extractor) ", text)}
    share([work, sorted(kept)])
    with pool_of() as pool:
        return [TOKEN.findall(shared[1][number]) for number in pool.map(good_number, range(len(kept)), 64) if number is not None]


def good_number(number):
    """The number of a text that compiles."""
    folder = shared[0] / f"good-{os.getpid()}"
    lay(folder, {"a.isle": shared[1][number]})
    return number if run(folder, ["compile", "a.isle"]).status == 0 else None
