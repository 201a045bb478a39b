"""Runs odd and wide inputs, under limits of time and memory."""
import pathlib
import resource

from hostility.many import wide_texts
from hostility.odd import odd_files, odd_numbers, odd_words
from hostility.rows import share_laid
from hostility.running import SECONDS, run
from hostility.sharing import pool_of, shared
from hostility.telling import figure, head, tell


def own_megabytes():
    """The memory of this process, which counts as that of the runs that it starts."""
    return int(pathlib.Path("/proc/self/statm").read_text().split()[1]) * resource.getpagesize() / (1 << 20)


def one_wide(number):
    folder, row, _ = shared[number]
    return number, run(folder, row.words)


def wide_holds(one, ended):
    """Whether an input ended as it is to, in time."""
    written = ended.out.endswith(b"\n") and not ended.err if one.status == 0 else not ended.out and one.told in ended.err
    return ended.status == one.status and written and ended.seconds <= SECONDS


def wide(work):
    """Runs odd and wide inputs, under limits of time and memory."""
    inputs = [*odd_files(), *odd_numbers(), *wide_texts(), *odd_words()]
    share_laid(work, [one.row for one in inputs])
    inputs = [one._replace(row=one.row._replace(files={})) for one in inputs]
    ends, own = {}, own_megabytes()
    with pool_of() as pool:
        for number, ended in pool.imap_unordered(one_wide, range(len(inputs))):
            one, ends[number] = inputs[number], ended
            if not wide_holds(one, ended):
                tell("wide:", one.row.shown(), f"wanted status {one.status} {one.told!r}:", ended.short())
    head(f"Odd and wide inputs; no memory is told of a run that holds less than the {own:.0f} MB of this script", "Input", "Status", "Seconds", "MB")
    for number, one in enumerate(inputs):
        held = ends[number].megabytes
        figure(one.row.shown(), ends[number].status, f"{ends[number].seconds:.2f}", f"{held:.0f}" if held > own + 2 else "")
    return f"{len(inputs)} inputs"
