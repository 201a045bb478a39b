#!/usr/bin/env python3
"""Prints what the numeric operations give at the limits of their types, worked out over whole numbers.

    tools/numeric_rows.py > crates/isle_cases/data/numerics.rows

Each row is a type, an operation, its two arguments and what it gives: a number, `true`, `false`, `nothing` or `panic`. A number of
`u128` stands as its 128 bits with a sign, as `eval_op` takes and gives it; of an operation of one argument the second is 0.
"""
TYPES = [(name + str(width), name == "i", width) for width in (8, 16, 32, 64, 128) for name in "iu"]
COMPARE = ["eq", "ne", "lt", "lt_eq", "gt", "gt_eq"]
EXACT = ["add", "sub", "mul", "div"]
ONE = ["not", "is_zero", "is_non_zero", "is_odd", "is_even", "checked_ilog2", "ilog2", "trailing_zeros", "trailing_ones", "leading_zeros",
       "leading_ones"]
SHIFTS = ["shl", "shr"]


def limits(signed, width):
    """The least and the greatest number of a type."""
    return (-(1 << (width - 1)), (1 << (width - 1)) - 1) if signed else (0, (1 << width) - 1)


def wrapped(n, signed, width):
    """The number of a type that has the lowest bits of this one."""
    n %= 1 << width
    return n - (1 << width) if signed and n >= 1 << (width - 1) else n


def quotient(a, b):
    """The quotient without its fraction."""
    found = abs(a) // abs(b)
    return found if (a < 0) == (b < 0) else -found


def exact(op, a, b):
    """The exact result of an operation, or None if there is none."""
    if op == "add":
        return a + b
    if op == "sub":
        return a - b
    if op == "mul":
        return a * b
    if b == 0:
        return None
    return quotient(a, b) if op == "div" else a - b * quotient(a, b)


def overflows(op, a, b, signed, width):
    """Whether the exact result is none, or no number of the type; a rest is none where its quotient isn't."""
    found = exact("div" if op == "rem" else op, a, b)
    least, most = limits(signed, width)
    return found is None or not least <= found <= most


def shifted(op, a, b, signed, width):
    """A number shifted by less than its width."""
    return wrapped(a << b if op == "shl" else a >> b, signed, width)


def turned(a, b, signed, width):
    """A number whose bits go round to the left."""
    bits = a % (1 << width)
    return wrapped(bits << b | bits >> (width - b), signed, width)


def count(op, a, width):
    """How many bits of a kind stand at an end."""
    bits = f"{a % (1 << width):0{width}b}"
    bit = "0" if op.endswith("zeros") else "1"
    bits = bits if op.startswith("leading") else bits[::-1]
    return len(bits) - len(bits.lstrip(bit))


def ilog2(a):
    """The place of the highest bit of a number above 0."""
    return len(f"{a:b}") - 1 if a > 0 else None


def predicate(op, a):
    return {"is_zero": a == 0, "is_non_zero": a != 0, "is_odd": a % 2 == 1, "is_even": a % 2 == 0,
            "is_power_of_two": a > 0 and f"{a:b}".count("1") == 1}[op]


def bitwise(op, a, b, signed, width):
    return wrapped({"and": a & b, "or": a | b, "xor": a ^ b}[op], signed, width)


def compared(op, a, b):
    return {"eq": a == b, "ne": a != b, "lt": a < b, "lt_eq": a <= b, "gt": a > b, "gt_eq": a >= b}[op]


def checked(prefix, found, is_missing):
    """What an operation gives whose result may be missing: `checked_` ones give nothing then, others stop."""
    if is_missing:
        return "nothing" if prefix == "checked" else "panic"
    return found


def gives(op, a, b, signed, width):
    """What an operation gives."""
    prefix, _, rest = op.partition("_")
    base = rest if prefix in ("checked", "wrapping") else op
    if op in COMPARE:
        return compared(op, a, b)
    if base in EXACT or base == "rem":
        if prefix == "wrapping":
            return "panic" if exact(base, a, b) is None else wrapped(exact(base, a, b), signed, width)
        return checked(prefix, exact(base, a, b), overflows(base, a, b, signed, width))
    if op in ("and", "or", "xor"):
        return bitwise(op, a, b, signed, width)
    if op == "not":
        return wrapped(-a - 1, signed, width)
    if base in SHIFTS:
        if prefix == "wrapping":
            return shifted(base, a, b % width, signed, width)
        return "nothing" if b >= width and prefix == "checked" else "panic" if b >= width else shifted(base, a, b, signed, width)
    if op in ("rotl", "rotr"):
        return turned(a, b % width if op == "rotl" else -b % width, signed, width)
    if op.startswith("is_"):
        return predicate(op, a)
    if base == "ilog2":
        return checked(prefix, ilog2(a), ilog2(a) is None)
    if base == "neg":
        least, most = limits(signed, width)
        return wrapped(-a, signed, width) if prefix == "wrapping" else checked(prefix, -a, not least <= -a <= most)
    return count(op, a, width)


def operations(signed):
    """The operations of a type, in the order of the table."""
    tried = [f"{prefix}{op}" for op in EXACT for prefix in ("checked_", "wrapping_", "")]
    moved = [f"{prefix}{op}" for op in SHIFTS for prefix in ("checked_", "wrapping_", "")]
    own = ["checked_neg", "wrapping_neg", "neg"] if signed else ["is_power_of_two"]
    return (COMPARE + tried + ["checked_rem", "rem", "and", "or", "xor", "not"] + moved
            + ["rotl", "rotr", "is_zero", "is_non_zero", "is_odd", "is_even", "checked_ilog2", "ilog2",
               "trailing_zeros", "trailing_ones", "leading_zeros", "leading_ones"] + own)


def pairs(op, signed, width):
    """Arguments at the limits of a type: of each operation the first ones, and others in turn."""
    least, most = limits(signed, width)
    numbers = [0, 1, most, least, most - 1, least + 1, 2, most // 2 + 1] + ([-1, -2] if signed else [])
    base = op.rpartition("_")[2] if op.startswith(("checked_", "wrapping_")) else op
    if op in ONE or base in ("ilog2", "neg") or op.startswith("is_") or op.startswith(("leading", "trailing")):
        return [(a, 0) for a in numbers]
    if base in SHIFTS or op in ("rotl", "rotr"):
        amounts = [0, 1, width - 1, width, width + 1, 3 * width + 5, (1 << 32) - 1]
        return [(numbers[(i + 2) % len(numbers)], b) for i, b in enumerate(amounts)]
    return [(a, numbers[(i * 3 + 1) % len(numbers)]) for i, a in enumerate(numbers)] + [(least, -1 if signed else most), (most, most), (most, 0)]


def shown(found, width):
    if isinstance(found, bool):
        return "true" if found else "false"
    return found if isinstance(found, str) else str(wrapped(found, True, 128) if width == 128 else found)


def main():
    print("# Numeric operations at the limits of their types, by tools/numeric_rows.py.")
    for name, signed, width in TYPES:
        print(f"{name} has {len(operations(signed))}")
        for op in operations(signed):
            for a, b in pairs(op, signed, width):
                carried = [wrapped(n, True, 128) if width == 128 else n for n in (a, b)]
                print(name, op, *carried, shown(gives(op, a, b, signed, width), width))


main()
