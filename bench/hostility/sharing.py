"""What the processes of a pool read: it is put here before they are started, and they are forks of this one."""
import multiprocessing

PROCESSES = 2
# One list for good, since each module that reads it holds it by this name.
shared = []


def share(things):
    shared[:] = things


def pool_of():
    """A pool of processes that have what is shared."""
    return multiprocessing.get_context("fork").Pool(PROCESSES)
