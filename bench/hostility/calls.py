"""Refuses calls of the machine on inputs and outputs."""
import errno
import os
import re

import shapes
from hostility.refusals import ALL, HALF, HALF_ONCE, NOTHING, Refusal, places, refused_run
from hostility.rows import Row, based, faulty_rows, worked_rows
from hostility.running import Ended, run, same
from hostility.sharing import pool_of, share, shared
from hostility.telling import figure, head, tell

FAULT = b"isle: write fault\n"
INPUT_ERRORS = [errno.EIO, errno.EACCES, errno.ENOENT, errno.ENOTDIR, errno.EISDIR, errno.EMFILE, errno.ENOMEM, errno.EINTR, errno.EAGAIN]
OUTPUT_ERRORS = [errno.EIO, errno.ENOSPC, errno.EPIPE, errno.EBADF, errno.EAGAIN, errno.EINTR]


def is_cannot_read(folder, ended, path, causes):
    """Whether the run ended in 5, and told that it can't read the file of the refused call, for one of these causes."""
    told = re.fullmatch(rb"isle: cannot read file (.*): (.*)\n", ended.err, flags=re.S)
    name = os.path.normpath(os.path.join(folder, os.fsdecode(told[1]))) if told else ""
    return ended.status == 5 and not ended.out and told and told[2] in causes and name == os.path.normpath(os.path.join(folder, path))


def input_holds(folder, ended, base, path, refusal):
    """Whether a run ended as it is to where a call on an input was refused."""
    if refusal.how == HALF:
        return same(ended, base)
    if refusal.kind == "close" or refusal.how == errno.EINTR and same(ended, base):
        return same(ended, base)
    is_absence = refusal.kind != "read" and refusal.how in (errno.ENOENT, errno.ENOTDIR)
    return is_cannot_read(folder, ended, path, [b"absent"] if is_absence else [b"fault"])


def output_holds(ended, base, refusal):
    """Whether a run ended as it is to where a write was refused."""
    if refusal.how == HALF:
        return same(ended, base)
    if refusal.kind == "err":
        is_whole = ended.err == base.err and refusal.how != HALF_ONCE
        return ended.status == base.status and ended.out == base.out and base.err.startswith(ended.err) and not is_whole
    told = b"" if refusal.kind == "write" else FAULT
    return ended.status == 11 and ended.err == told and base.out.startswith(ended.out) and ended.out != base.out


def refusals(row_counts):
    """What is refused of a row's calls, by their counts."""
    for kind in ["statx", "open", "read", "close"]:
        for place in places(row_counts[kind]):
            errors = [errno.EIO, errno.EBADF] if kind == "close" else [*INPUT_ERRORS, *[HALF] * (kind == "read")]
            yield from (Refusal(kind, place, place, how) for how in errors)
    yield Refusal("read", 1, ALL, HALF)
    for kind in ["out", "err"]:
        for place in places(row_counts[kind]):
            yield from (Refusal(kind, place, last, how) for how in [*OUTPUT_ERRORS, NOTHING, HALF] for last in (place, ALL))
            yield Refusal(kind, place, ALL, HALF_ONCE)
    if row_counts["out"]:
        yield Refusal("write", 1, ALL, errno.EIO)


def one_call(task):
    number, refusal = task
    folder, row, base = shared[number]
    ended, count, path = refused_run(folder, row, refusal)
    if refusal.kind in ("out", "err", "write"):
        holds = output_holds(ended, base, refusal)
    else:
        holds = input_holds(folder, ended, base, path, refusal)
    return number, refusal, holds, "" if holds else f"{path} {ended.short()}"


def counted_calls(number):
    folder, row, _ = shared[number]
    return {kind: refused_run(folder, row, Refusal(kind))[1] for kind in ["statx", "open", "read", "close", "out", "err"]}


def calls(work):
    """Refuses each call on inputs and outputs in turn, in several ways."""
    several = {f"{name}.isle": shapes.terms(300).replace("t", name) for name in ["a", "b", "c"]}
    large = Row(["compile", "a.isle", "b.isle", "c.isle"], several, "`compile` of three files")
    rows = based(work, [large, *worked_rows(), *faulty_rows()])
    share(rows)
    counts = [counted_calls(number) for number in range(len(rows))]
    tasks = [(number, refusal) for number, count in enumerate(counts) for refusal in refusals(count)]
    held = dict.fromkeys(range(len(rows)), 0)
    with pool_of() as pool:
        for number, refusal, holds, what in pool.imap_unordered(one_call, tasks, 64):
            held[number] += 1
            if not holds:
                tell("calls:", shared[number][1].shown(), shared[number][1].words, refusal.shown(), what)
    head("Calls that fail", "Run", "Status", "statx", "open", "read", "close", "write to out", "to err", "Runs")
    for number, (_, row, base) in enumerate(rows):
        figure(row.shown(), base.status, *counts[number].values(), held[number])
    return f"{len(tasks) + real_outputs(rows):,} runs of {len(rows)} rows"


def real_outputs(rows):
    """Runs each row with outputs that are full or closed, and returns how many runs that were."""
    for folder, row, base in rows:
        ways = {"a full device": run(folder, row.words, out_path="/dev/full"), "output closed": run(folder, row.words, closed=[1]),
                "input closed": run(folder, row.words, closed=[0]), "errors closed": run(folder, row.words, closed=[2])}
        faulty = Ended(11, b"", FAULT) if base.out else base
        silent = Ended(base.status, base.out, b"")
        wanted = {"a full device": faulty, "output closed": faulty, "input closed": base, "errors closed": silent}
        for way, ended in ways.items():
            if not same(ended, wanted[way]):
                tell("calls:", row.shown(), row.words, way, ended.short())
    return 4 * len(rows)
