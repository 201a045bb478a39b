"""Refuses growths of memory."""
import errno

from hostility.refusals import ALL, Refusal, places, refused_run
from hostility.rows import based, faulty_rows, worked_rows
from hostility.running import same
from hostility.sharing import pool_of, share, shared
from hostility.telling import figure, head, tell

NO_MEMORY = b"isle: out of memory\n"


def kind_of_refusal(ended, base):
    """What became of a run in which growths were refused."""
    if same(ended, base):
        return "same"
    if ended.status == 12 and not ended.out and ended.err == NO_MEMORY:
        return "told"
    if base.status == ended.status == 5 and not ended.out and ended.err == base.err.replace(b": absent", b": fault"):
        return "fault"
    return "other"


def one_growth(task):
    number, place, last = task
    folder, row, base = shared[number]
    ended, _, _ = refused_run(folder, row, Refusal("grow", place, last, errno.ENOMEM))
    kind = kind_of_refusal(ended, base)
    return number, place, last, kind, ended.short() if kind == "other" else ""


def counted_growths(number):
    """How many growths a row has. More than all are refused, which may change nothing."""
    folder, row, base = shared[number]
    ended, count, _ = refused_run(folder, row, Refusal("grow", 0, 0))
    past, _, _ = refused_run(folder, row, Refusal("grow", count + 1, ALL, errno.ENOMEM))
    if not same(ended, base) or not same(past, base):
        tell("memory:", row.shown(), "is not the same with calls counted:", ended.short(), past.short())
    return count


def memory(work):
    """Refuses each growth in turn, and all from there on."""
    rows = based(work, worked_rows() + faulty_rows())
    share(rows)
    counts = [counted_growths(number) for number in range(len(rows))]
    tasks = [(number, place, last) for number, count in enumerate(counts) for place in places(count) for last in (place, ALL)]
    kinds = {}
    with pool_of() as pool:
        for number, place, last, kind, what in pool.imap_unordered(one_growth, tasks, 64):
            kinds[number, place, last == ALL] = kind
            if kind == "other":
                tell("memory:", shared[number][1].shown(), shared[number][1].words, Refusal("grow", place, last, errno.ENOMEM).shown(), what)
    head("Growths of memory that are refused", "Run", "Status", "Growths", "Refused", "Go on alone", "Go on with all later")
    for number, (_, row, base) in enumerate(rows):
        figure_of_memory(row, base, counts[number], {key[1:]: kind for key, kind in kinds.items() if key[0] == number})
    return f"{len(tasks):,} runs of {len(rows)} rows"


def figure_of_memory(row, base, count, kinds):
    """A line for a row. Those with a fault are told beside the ones that go on."""
    tried = sorted({place for place, _ in kinds})
    on = {is_on: sum(kinds[place, is_on] == "same" for place in tried) for is_on in (False, True)}
    faults = sum(kinds[place, False] == "fault" for place in tried)
    alone = f"{on[False]}, and {faults} a fault" if faults else on[False]
    figure(row.shown(), base.status, count, len(tried), alone, on[True])
