"""Texts of many of one thing."""
import shapes
from hostility.deep import EXTERNAL
from hostility.odd import one_file


def wide_texts():
    """Texts of many of one thing."""
    many = 65_536
    variants = " ".join(f"V{i}" for i in range(many))
    return [
        one_file("65,536 rules told by a number", shapes.told_by_one(many), 0),
        one_file("65,536 rules that are the same", "(decl t (u32) u32)\n" + "(rule (t 1) 2)\n" * many, 8, b"a.isle:"),
        one_file("65,536 rules of a `multi` term that are the same", "(decl multi t (u32) u32)\n" + "(rule (t 1) 2)\n" * many, 0),
        one_file("65,536 rules that all overlap with half of the others", shapes.crossing(many), 8, b"a.isle:3:1: overlap error: rule 1 of t "),
        one_file("65,536 rules that all later ones shadow", shapes.rising(many), 8, b"a.isle:2:1: shadowed rule: "),
        one_file("65,536 rules that all earlier ones shadow", shadowed(range(many, 0, -1)), 8, b"a.isle:3:1: shadowed rule: "),
        one_file("65,536 rules that an extractor of their own tells", own_extractors(many, "multi"), 0),
        one_file("65,536 rules of priorities and extractors of their own", own_extractors(many, "partial"), 0),
        one_file("65,536 names of one hash", alike(many), 0),
        one_file("65,536 priorities", "(decl t (u32) u32)\n" + "".join(f"(rule {i} (t {i}) 2)\n" for i in range(many)), 0),
        one_file("65,536 variants", f"(type E (enum {variants}))\n(decl t (E) u32)\n" + "".join(f"(rule (t (E.V{i})) {i})\n" for i in range(many)), 0),
        one_file("65,536 declarations of one term", "(decl t (u32) u32)\n" * many, 7, b"a.isle:2:1: "),
        one_file("65,536 arguments", f"(decl t ({'u8 ' * many}) u8)\n", 7, b"a.isle:1:1: "),
        one_file("a rule of 65,536 conditions", shapes.many_conditions(many), 7, b"a.isle:"),
        one_file("a rule of 65,536 patterns in one `and`", f"(decl t (u8) u8)\n(rule (t (and {'_ ' * many})) 1)\n", 7, b"a.isle:2:1: "),
        one_file("a rule of 65,536 arguments too many", f"(decl t (u8) u8)\n(rule (t {'_ ' * many}) 1)\n", 7, b"a.isle:2:1: "),
        one_file("a `let` of 65,536 variables", f"(decl t (u8) u8)\n(rule (t x) (let ({'(x u8 x) ' * many}) x))\n", 7, b"a.isle:2:1: "),
        one_file("templates that double 60 times", doubling(60), 7, b"a.isle:"),
    ]


def shadowed(priorities):
    """Rules of these priorities, each of which matches whatever it is given."""
    return "(decl t (u32) u32)\n" + "".join(f"(rule {priority} (t x) 2)\n" for priority in priorities)


def own_extractors(count, mark):
    """Rules that an extractor of their own tells, and where the term isn't `multi` a priority of their own."""
    priority = (lambda i: "") if mark == "multi" else (lambda i: f"{i} ")
    return "".join(f"(decl x{i} (u32) u32)\n(extern extractor x{i} g{i})\n" for i in range(count)) + f"(decl {mark} t (u32) u32)\n" + (
        "".join(f"(rule {priority(i)}(t (x{i} y)) y)\n" for i in range(count)))


def alike(count):
    """Terms whose names differ in the bytes that their hash leaves out alone (`hash_of` in crates/isle_declarations)."""
    return "".join(f"(decl {'a' * 16}{i:08}{'b' * 16} (u8) u8)\n(rule ({'a' * 16}{i:08}{'b' * 16} 1) 2)\n" for i in range(count))


def doubling(count):
    """Templates each of which uses the one before twice, and a rule that uses the last."""
    return EXTERNAL + "(decl w0 (u8) u8)\n(extractor (w0 x) (e x))\n" + "".join(
        f"(decl w{i} (u8) u8)\n(extractor (w{i} x) (and (w{i - 1} x) (w{i - 1} x)))\n" for i in range(1, count)) + (
        f"(decl partial t (u8) u8)\n(rule (t (w{count - 1} x)) x)\n")
