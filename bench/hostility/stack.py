"""Runs the deepest inputs on stacks that double."""
import resource
import signal

from hostility.deep import DEEP_STATUSES, deep_rows
from hostility.rows import Row, example, share_laid
from hostility.running import run, same
from hostility.sharing import pool_of, shared
from hostility.telling import figure, head, tell

USUAL_STACK = 8 << 20
LEAST_STACK = 64 << 10
MOST_STACK = 1 << 30


def on_stack(folder, row, size):
    """Runs a row on a stack of this size; address space isn't limited, since its limit lays the stack out in another way."""
    limits = [(resource.RLIMIT_STACK, size), (resource.RLIMIT_CPU, 60), (resource.RLIMIT_CORE, 0)]
    return run(folder, row.words, limits=limits)


def one_stack(number):
    """The least stack of those that double on which a row does what it does on the largest; and what doesn't hold."""
    folder, row, _ = shared[number]
    base = on_stack(folder, row, MOST_STACK)
    size, wrong = LEAST_STACK, []
    while size < MOST_STACK:
        ended = on_stack(folder, row, size)
        if same(ended, base):
            break
        if ended.status != -signal.SIGSEGV:
            wrong.append(f"on {size >> 10} KB: {ended.short()}, and on the largest {base.short()}")
        size *= 2
    if size > USUAL_STACK:
        wrong.append(f"needs a stack of {size >> 10} KB")
    return number, base.status, size, wrong, base.short()


def stack(work):
    """Runs the deepest inputs on stacks that double."""
    rows = [*deep_rows(), Row(["compile", "ops.isle"], example("ops.isle"), "`examples/ops.isle`")]
    share_laid(work, rows)
    lines = {}
    with pool_of() as pool:
        for number, status, size, wrong, how in pool.imap_unordered(one_stack, range(len(rows))):
            name = rows[number].name
            lines[number] = [name, status, size >> 10]
            if status != DEEP_STATUSES.get(name, 0):
                wrong.append(how)
            for what in wrong:
                tell("stack:", name, *rows[number].words[:3], what)
    head("The least stack, of those that double from 64 KB", "Input", "Status", "KB")
    for number in range(len(rows)):
        figure(*lines[number])
    return f"{len(rows)} rows"
