"""Compiles random texts."""
import os
import pathlib
import re

from hostility.changes import text_of
from hostility.good import good_texts
from hostility.running import lay, run
from hostility.sharing import pool_of, share, shared
from hostility.telling import figure, head, tell


def is_utf8(text):
    try:
        text.decode()
    except UnicodeDecodeError:
        return False
    return True


def text_holds(text, ended):
    """Whether a text was compiled or refused as it is to be."""
    if not is_utf8(text):
        return ended[:3] == (5, b"", b"isle: cannot read file a.isle: not utf-8\n")
    if ended.status == 0:
        return not ended.err and ended.out.endswith(b"\n")
    lines = ended.err.split(b"\n")
    told = lines[-1] == b"" and len(lines) > 1 and all(re.match(rb"a\.isle:\d+:\d+: |isle: ", line) for line in lines[:-1])
    return ended.status in (6, 7, 8, 9, 10) and not ended.out and told


def one_text(seed):
    """Compiles the text of a seed: its status, seconds, megabytes, and the text and what came of it where that doesn't hold."""
    folder, good, keep = shared
    text, options = text_of(seed, good)
    place = folder / f"text-{os.getpid()}"
    lay(place, {"a.isle": text})
    ended = run(place, ["compile", *options, "a.isle"])
    holds = text_holds(text, ended)
    if not holds and keep:
        lay(pathlib.Path(keep), {f"{seed}.isle": text})
    what = "" if holds else f"{' '.join(options)} {ended.short()} of {text[:600]!r}"
    return seed, ended.status, ended.seconds, ended.megabytes, what


def texts(work, count, seed, keep):
    """Compiles random texts."""
    good = good_texts(work)
    share([work, good, keep])
    statuses, seconds, megabytes = {}, 0.0, 0.0
    with pool_of() as pool:
        for number, status, took, held, what in pool.imap_unordered(one_text, range(seed, seed + count), 64):
            statuses[status] = statuses.get(status, 0) + 1
            seconds, megabytes = max(seconds, took), max(megabytes, held)
            if what:
                tell(f"texts 1 --seed {number}:", what)
    found = sorted(statuses)
    names = [f"Status {status}" for status in found]
    head(f"Random texts, of {len(good):,} good ones, by the seeds from {seed} on", "Texts", *names, "Most seconds", "Most MB")
    figure(count, *(statuses[status] for status in found), f"{seconds:.2f}", f"{megabytes:.0f}")
    return f"{count:,} texts"
