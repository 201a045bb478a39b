"""Tells what doesn't hold, and prints tables."""
import sys

findings = []


def tell(*parts):
    """Notes that something doesn't hold."""
    findings.append(parts)
    print("hostile:", *parts, file=sys.stderr, flush=True)


def figure(*cells):
    print("| " + " | ".join(f"{cell:,}" if isinstance(cell, int) else str(cell) for cell in cells) + " |", flush=True)


def head(title, *names):
    print(f"\n{title}\n")
    figure(*names)
    print("|" + "---|" * len(names), flush=True)
