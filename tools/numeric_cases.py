#!/usr/bin/env python3
"""Prints the case of the numeric prelude's Rust text: each method of the macro, worked out from the tables of operations and conversions.

    tools/numeric_cases.py > crates/isle_cases/data/prelude_numerics.cases
    tools/numeric_cases.py rust

With the word `rust` it prints that text as a program that rustc compiles, in which each method is one of a struct.
"""
import sys

WIDTHS = (8, 16, 32, 64, 128)
TYPES = [(f"{sign}{width}", sign == "i", width) for width in WIDTHS for sign in "iu"]

COMPARISONS = [("eq", "=="), ("ne", "!="), ("lt", "<"), ("lt_eq", "<="), ("gt", ">"), ("gt_eq", ">=")]
ARITHMETIC = [("add", "addition overflow: {a} + {b}"), ("sub", "subtraction overflow: {a} - {b}"),
              ("mul", "multiplication overflow: {a} * {b}"), ("div", "div failure: {a} / {b}")]
REMAINDER = "rem failure: {a} % {b}"
SHIFTS = [("shl", "shl overflow: {a} << {b}"), ("shr", "shr overflow: {a} >> {b}")]
PREDICATES = [("zero", "a == 0"), ("non_zero", "a != 0"), ("odd", "a & 1 == 1"), ("even", "a & 1 == 0")]
COUNTS = ["trailing_zeros", "trailing_ones", "leading_zeros", "leading_ones"]


def panics(call, text):
    """What an operation does that has a value, or else panics."""
    return f'a.{call}.unwrap_or_else(|| panic!("{text}"))'


def inline(name, args, gives, body):
    return f"#[inline] fn {name}(&mut self, {args}) -> {gives} {{ {body} }}"


def operation(ty, name, takes, gives, body, partial=False):
    """A method whose arguments each have a comma behind them."""
    args = " ".join(f"{arg}: {of}," for arg, of in zip("ab", takes))
    return inline(f"{ty}_{name}", args, f"Option<{gives}>" if partial else gives, body)


def predicate(ty, name, body):
    """A predicate, and the method that answers its flag."""
    return [operation(ty, f"is_{name}", [ty], "bool", body), inline(f"{ty}_matches_{name}", f"a: {ty}", "Option<bool>", f"Some({body})")]


def arithmetic(ty):
    for name, text in ARITHMETIC:
        yield operation(ty, f"checked_{name}", [ty, ty], ty, f"a.checked_{name}(b)", True)
        yield operation(ty, f"wrapping_{name}", [ty, ty], ty, f"a.wrapping_{name}(b)")
        yield operation(ty, name, [ty, ty], ty, panics(f"checked_{name}(b)", text))
    yield operation(ty, "checked_rem", [ty, ty], ty, "a.checked_rem(b)", True)
    yield operation(ty, "rem", [ty, ty], ty, panics("checked_rem(b)", REMAINDER))


def bits(ty):
    for name, sign in (("and", "&"), ("or", "|"), ("xor", "^")):
        yield operation(ty, name, [ty, ty], ty, f"a {sign} b")
    yield operation(ty, "not", [ty], ty, "!a")
    for name, text in SHIFTS:
        yield operation(ty, f"checked_{name}", [ty, "u32"], ty, f"a.checked_{name}(b)", True)
        yield operation(ty, f"wrapping_{name}", [ty, "u32"], ty, f"a.wrapping_{name}(b)")
        yield operation(ty, name, [ty, "u32"], ty, panics(f"checked_{name}(b)", text))
    yield operation(ty, "rotl", [ty, "u32"], ty, "a.rotate_left(b)")
    yield operation(ty, "rotr", [ty, "u32"], ty, "a.rotate_right(b)")


def operations(ty, signed):
    """The methods of a type's operations, in order."""
    for name, sign in COMPARISONS:
        yield operation(ty, name, [ty, ty], "bool", f"a {sign} b")
    yield from arithmetic(ty)
    yield from bits(ty)
    for name, body in PREDICATES:
        yield from predicate(ty, name, body)
    yield operation(ty, "checked_ilog2", [ty], "u32", "a.checked_ilog2()", True)
    yield operation(ty, "ilog2", [ty], "u32", panics("checked_ilog2()", "ilog2 overflow: {a}"))
    for name in COUNTS:
        yield operation(ty, name, [ty], "u32", f"a.{name}()")
    if signed:
        yield operation(ty, "checked_neg", [ty], ty, "a.checked_neg()", True)
        yield operation(ty, "wrapping_neg", [ty], ty, "a.wrapping_neg()")
        yield operation(ty, "neg", [ty], ty, panics("checked_neg()", "negation overflow: {a}"))
    else:
        yield from predicate(ty, "power_of_two", "a.is_power_of_two()")


def conversions(one, two):
    """The methods of a pair of types, in order."""
    (f, f_signed, f_width), (g, g_signed, g_width) = one, two

    def method(name, gives, body):
        return inline(f"{f}_{name}", f"x: {f}", gives, body)

    lossless = g_width > f_width and (not f_signed or g_signed)
    if lossless:
        yield method(f"into_{g}", g, f"{g}::from(x)")
    else:
        yield method(f"try_into_{g}", f"Option<{g}>", f"{g}::try_from(x).ok()")
        yield method(f"unwrap_into_{g}", g, f"{g}::try_from(x).unwrap()")
        if f_signed == g_signed:
            yield method(f"truncate_into_{g}", g, f"x as {g}")
        if f_width == g_width:
            yield method(f"cast_{'signed' if g_signed else 'unsigned'}", g, f"x as {g}")
    yield method(f"from_{g}", f"Option<{g}>", "Some(x.into())" if lossless else "x.try_into().ok()")


def methods():
    for ty, signed, _ in TYPES:
        yield from operations(ty, signed)
    for one in TYPES:
        for two in TYPES:
            if one != two:
                yield from conversions(one, two)


def text():
    return ["#[macro_export] #[doc(hidden)] macro_rules! isle_numerics_methods { () => {", *methods(), "} }"]


def main():
    if sys.argv[1:] == ["rust"]:
        print("\n".join(text()) + "\npub struct Numbers;\nimpl Numbers { isle_numerics_methods!(); }\nfn main() {}")
        return
    print("# The numeric prelude in Rust, whole, by tools/numeric_cases.py.\n")
    print("= the numeric prelude in Rust\n$ prelude numerics-rust\ntokens")
    print("".join(f"| {line}\n" for line in text()), end="")


if __name__ == "__main__":
    main()
