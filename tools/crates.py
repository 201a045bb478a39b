"""The crates of the repository, and what each stands on, as crates.txt tells."""
import pathlib

ROOT = pathlib.Path(__file__).resolve().parent.parent


def libraries():
    """The libraries that each crate of the repository uses."""
    lines = [line.split("#")[0] for line in (ROOT / "crates.txt").read_text().splitlines()]
    return {line.split(":")[0].split()[0]: line.split(":")[1].split() for line in lines if ":" in line}


def below(crate):
    """The crates of the repository that a crate stands on, lowest first."""
    uses, order = libraries(), []

    def add(name):
        for used in uses[name]:
            if used in uses and used not in order:
                add(used)
                order.append(used)

    add(crate)
    return order
