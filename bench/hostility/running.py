"""Runs the program under limits, and tells how it ended."""
import os
import resource
import tempfile
import typing

from hostility.paths import PROGRAM

SECONDS = 5
BYTES = 1 << 30
# How many bytes a text may have.
MOST_BYTES = 1 << 24


class Ended(typing.NamedTuple):
    """How a run ended: its status, or the signal below 0, what it wrote, and what it took."""
    status: int
    out: bytes
    err: bytes
    seconds: float = 0.0
    megabytes: float = 0.0

    def short(self):
        return f"status {self.status}, out {len(self.out)} bytes, err {self.err[:300]!r}, {self.seconds:.2f} s, {self.megabytes:.0f} MB"


LIMITS = [(resource.RLIMIT_CPU, SECONDS), (resource.RLIMIT_AS, BYTES), (resource.RLIMIT_CORE, 0)]
outputs = {}


def sinks():
    """Two files of this process for what a run writes, empty."""
    if outputs.get("process") != os.getpid():
        outputs.update(process=os.getpid(), out=tempfile.TemporaryFile(), err=tempfile.TemporaryFile())
    for name in ["out", "err"]:
        outputs[name].seek(0)
        outputs[name].truncate()
    return outputs["out"], outputs["err"]


def run(folder, words, environment={}, limits=LIMITS, closed=(), out_path=None):
    """Runs the program, and returns how it ended. Descriptors can be closed before, and the output can go elsewhere."""
    out, err = sinks()
    child = os.fork()
    if child == 0:
        try:
            os.chdir(folder)
            os.dup2(os.open("/dev/null", os.O_RDONLY), 0)
            os.dup2(os.open(out_path, os.O_WRONLY) if out_path else out.fileno(), 1)
            os.dup2(err.fileno(), 2)
            for file in closed:
                os.close(file)
            for what, limit in limits:
                resource.setrlimit(what, (limit, limit))
            os.execve(PROGRAM, [b"isle", *map(os.fsencode, words)], environment)
        finally:
            os._exit(127)
    _, status, usage = os.wait4(child, 0)
    out.seek(0)
    err.seek(0)
    return Ended(os.waitstatus_to_exitcode(status), out.read(), err.read(), usage.ru_utime + usage.ru_stime, usage.ru_maxrss / 1024)


def lay(folder, files):
    """Writes files into a folder."""
    for name, text in files.items():
        place = folder / name
        if name.endswith("/"):
            place.mkdir(parents=True, exist_ok=True)
            continue
        place.parent.mkdir(parents=True, exist_ok=True)
        place.write_bytes(text if isinstance(text, bytes) else text.encode())


def same(ended, base):
    return ended[:3] == base[:3]
