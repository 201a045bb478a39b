"""Runs some of whose calls are refused by a library that stands before the calls of the C library."""
import errno
import os
import pathlib
import subprocess
import typing

from hostility.running import run

SOURCE = pathlib.Path(__file__).resolve().parent / "refuse.c"
ALL = 1 << 60
NOTHING, HALF, HALF_ONCE = 0, -1, -2


class Refusal(typing.NamedTuple):
    """Calls of one kind that are refused, from the first to the last, and how: see refuse.c."""
    kind: str
    first: int = 0
    last: int = 0
    how: int = 0

    def shown(self):
        answer = {NOTHING: "answered with 0", HALF: "cut to half", HALF_ONCE: "cut to half at first and then EIO"}.get(self.how, errno.errorcode.get(self.how))
        return f"{self.kind} calls {self.first} to {self.last if self.last < ALL else 'the last'} {answer}"


def library(folder):
    """Compiles the library that refuses calls."""
    made = folder / "refuse.so"
    subprocess.run(["gcc", "-O2", "-shared", "-fPIC", "-o", made, SOURCE], check=True)
    return made


def refused_run(place, row, refusal):
    """Runs a row with some calls refused: how it ended, how many calls there were, and the path of the first refused one."""
    told = place.parent / f"told-{os.getpid()}"
    told.unlink(missing_ok=True)
    environment = {"LD_PRELOAD": str(place.parent / "refuse.so"), "REFUSE_TOLD": str(told), "REFUSE": " ".join(map(str, refusal))}
    ended = run(place, row.words, environment)
    count, _, path = told.read_text().strip().partition(" ") if told.exists() else ("0", "", "")
    return ended, int(count), path


def places(count):
    """The numbers of calls that are refused: all, or of many the first 300, the last 100 and 1,000 evenly between."""
    if count <= 2000:
        return list(range(1, count + 1))
    between = [300 + (count - 400) * place // 1000 for place in range(1, 1001)]
    return sorted({*range(1, 301), *between, *range(count - 99, count + 1)})
