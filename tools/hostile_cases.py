#!/usr/bin/env python3
"""Prints the topic `hostile` of isle_cases: deep, wide, doubling and odd texts, and an `err` that takes nothing.

    tools/hostile_cases.py > crates/isle_cases/data/hostile.cases

What each is refused for, and where, is worked out from the text alone.
"""

HEAD = """# Texts that are deep or wide, that double as templates are replaced, or that are odd; by tools/hostile_cases.py.
$ compile a
"""
NODES = "the rule has more than 4,096 nodes when its templates are replaced"
RING = "its extractor uses itself, by itself or through others"
DEEP = "expected no more than 256 '(' and '@' open, found '('"


def case(name, text, wanted):
    """A case of one file."""
    print(f"\n= {name}\nfile a {text}\n{wanted}")


def refused(status, place, error, words):
    """The status, and the line of one error at a place of the first line."""
    return f"status {status}\nerr a:1:{place}: {error}: {words}\\n"


def function(name, body):
    """The function of a term that takes a byte and gives one."""
    return f"functions pub fn constructor_{name}<C: Context>(ctx: &mut C, arg0: u8,) -> u8 {{ {body} }}"


def doubling():
    """A rule whose nodes double with each use of a template."""
    start = "(decl d (u8) u8) (extractor (d x) (and x x)) (decl t (u8) u8) "
    place = len(start) + 1
    for uses, wanted in (
        (11, function("t", "return 0x0_u8;")),
        (12, refused(7, place, "type error", f"'t': {NODES}")),
        (200, refused(7, place, "type error", f"'t': {NODES}")),
    ):
        text = f"{start}(rule (t \\{uses}{{(d }}y\\{uses}{{)}}) 0)"
        case(f"{uses} templates in one another, each of which doubles its part", text, wanted)


def deep():
    """Lists that are passed over, up to the deepest and one deeper."""
    for depth in (256, 257):
        text = f"(spec \\{depth - 1}{{(}}\\{depth - 1}{{)}})"
        place = len("(spec ") + 256
        wanted = "functions" if depth == 256 else refused(6, place, "parse error", DEEP)
        case(f"{depth} parentheses open, in a list that is passed over", text, wanted)


def ring():
    """Templates that use each other."""
    text = "(decl a (u8) u8) (decl b (u8) u8) (extractor (a x) (b x)) (extractor (b x) (a x))"
    place = text.index("(extractor (a") + 1
    case("two templates that use each other", text, refused(7, place, "type error", f"'a': {RING}"))


def wide():
    """Many rules of one term, and one of them twice."""
    start = "(decl w (u16) u8) "
    text = start + "\\2000{(rule (w #) 0) }"
    case("2,000 rules of one term", text, "lines 2000 \\8{ }0x\nlines 1 \\8{ }0x7cf_u16 => {")
    place = len(start) + sum(len(f"(rule (w {i}) 0) ") for i in range(2000)) + 1
    words = "rule 2000 of w has the same priority and matches too"
    case("the last of them twice", text + "(rule (w 1999) 0)", refused(8, place, "overlap error", words))


def crossing(arguments, rules):
    """Rules that test one argument each: two overlap unless they test the same one for different numbers."""
    tests = [(i % arguments, i // arguments) for i in range(rules)]
    text = f"(decl t ({' '.join(['u8'] * arguments)}) u8)"
    lines = ""
    for i, (argument, number) in enumerate(tests):
        place = len(text) + 2
        parts = ["_"] * arguments
        parts[argument] = str(number)
        text += f" (rule (t {' '.join(parts)}) {i})"
        first = next((j for j in range(i) if tests[j][0] != argument or tests[j][1] == number), None)
        if first is not None:
            lines += f"a:1:{place}: overlap error: rule {first + 1} of t has the same priority and matches too\\n"
    case(f"{rules} rules that test one of {arguments} arguments each", text, f"status 8\nerr {lines}")


def odd():
    """Names that are words of the target, and one that is no identifier."""
    case("a term whose name is no identifier", "(decl a-b (u8) u8) (rule (a-b x) x)",
         "status 10\nerr isle: bad name a-b: Term\\n")
    case("a term whose name is a word of the target", "(decl fn (u8) u8) (rule (fn x) x)",
         function("fn", "return arg0;"))
    case("a function whose name is a word of the target", "(decl e (u8) u8) (extern constructor e fn)",
         "status 10\nerr isle: bad name fn: Function\\n")


def unheard():
    """An error's line, which `err` never takes."""
    print("\n= each call of err fails")
    print(r"file a (decl T (i8) u8)\n(rule (T 255) 1)\n(rule (T -1) 2)")
    print("fails err 1 2 3 4 5 6 7 8 9 10\nstatus 8")


def main():
    print(HEAD, end="")
    doubling()
    deep()
    ring()
    wide()
    crossing(3, 9)
    crossing(20, 40)
    odd()
    unheard()


main()
