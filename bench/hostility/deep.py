"""Inputs of forms in one another, as deep as they may be."""
import shapes
from hostility.rows import Row

NODE = "(type N (enum End (Next (more N))))\n"
EXTERNAL = "(decl e (u8) u8)\n(extern constructor e g)\n(extern extractor e h)\n"


def nested(before, inner, after, depth):
    return before * depth + inner + after * depth


def own_tests(count):
    """A rule of so many tests in one another, each by an extractor of its own: a node each."""
    names = range(count)
    return "".join(f"(decl x{i} () u32)\n(extern extractor x{i} g{i})\n" for i in names) + (
        f"(decl partial t (u32) u32)\n(rule (t (and {' '.join(f'(x{i})' for i in names)})) 1)\n")


def nested_templates(depth):
    """Templates in a row, each around the one before, and a use of the last nested as deep."""
    return EXTERNAL + "(decl w0 (u8) u8)\n(extractor (w0 x) (e x))\n" + "".join(
        f"(decl w{i} (u8) u8)\n(extractor (w{i} x) (w{i - 1} x))\n" for i in range(1, depth)) + (
        f"(decl partial t (u8) u8)\n(rule (t {nested('(w1 ', 'x', ')', depth)}) x)\n(decl partial u (u8) u8)\n(rule (u (w{depth - 1} x)) x)\n")


def lists_in_lists(depth):
    """A rule of loops in one another."""
    return shapes.MULTI + f"(decl multi t (u8) u8)\n(rule (t {nested('(e ', 'x', ')', depth)}) x)\n"


def through_templates(count, mark, form):
    """Templates in a row, each with such a form around the one before, and a rule that uses the last: so many forms in one another."""
    return NODE + f"(decl {mark} e (N) N)\n(extern extractor e h)\n(decl w0 (N) N)\n(extractor (w0 x) ({form} x))\n" + "".join(
        f"(decl w{i} (N) N)\n(extractor (w{i} x) ({form} (w{i - 1} x)))\n" for i in range(1, count)) + (
        f"(decl {mark or 'partial'} t (N) N)\n(rule (t (w{count - 1} x)) x)\n")


def nested_lets(depth):
    """Rules of `let`s in the values of `let`s, and in what they are made for."""
    return f"(decl t (u8) u8)\n(rule (t x) {nested('(let ((x u8 x)) ', 'x', ')', depth - 1)})\n" + (
        f"(decl u (u8) u8)\n(rule (u x) {nested('(let ((x u8 ', '1', ')) x)', depth // 3)})\n")


def deep_condition(depth):
    """A condition of which both sides are as deep."""
    return shapes.PURE + f"(decl partial t (u32) u32)\n(rule (t x) (if-let {nested('(and ', 'y', ')', depth - 1)} {nested('(q ', 'x', ')', depth)}) y)\n"


def deep_texts():
    """Texts of deep forms, with their names."""
    term, partial = "(decl t (u8) u8)\n", "(decl partial t (u8) u8)\n"
    return {
        "254 `and`s in one another": partial + f"(rule (t {nested('(and ', '1', ')', 254)}) 1)\n",
        "254 `@`s in one another": term + f"(rule (t {nested('x @ ', '_', '', 254)}) x)\n",
        "254 extractors in one another": EXTERNAL + partial + f"(rule (t {nested('(e ', 'x', ')', 254)}) x)\n",
        "255 calls in one another": EXTERNAL + term + f"(rule (t x) {nested('(e ', 'x', ')', 255)})\n",
        "254 made values matched": NODE + f"(decl partial t (N) N)\n(rule (t {nested('(N.Next ', 'x', ')', 254)}) x)\n",
        "255 made values made": NODE + f"(decl t (N) N)\n(rule (t x) {nested('(N.Next ', 'x', ')', 255)})\n",
        "254 `let`s in one another": nested_lets(254),
        "an `if-let` of 254 forms on either side": deep_condition(254),
        "`spec` lists in one another": f"(spec {nested('(', 'x', ')', 255)})\n",
        "256 parentheses and one more": nested("(", "", ")", 257),
        "2^21 comments in one another": shapes.nested_comments(1 << 21),
        "templates 200 deep": nested_templates(200),
        "250 lists in one another": lists_in_lists(250),
        "a rule of 4,000 nodes": shapes.large_rule(4000),
        "a rule of 4,090 tests": own_tests(4090),
        "a rule of 1,200 conditions": shapes.many_conditions(1200),
        "a chain of 2,000 templates": shapes.chain_of_templates(2000),
        "a use of the last of 4,000 templates": shapes.multi_templates(4000),
        "4,080 extractors in one another, by templates": through_templates(4080, "", "e"),
        "4,080 made values matched, by templates": through_templates(4080, "", "N.Next"),
        "4,080 lists in one another, by templates": through_templates(4080, "multi", "e"),
        "a ring of 20,000 templates": shapes.ring_of_templates(20_000),
        "a row of 40,000 terms": shapes.row_of_terms(40_000),
        "a ring of 40,000 terms": shapes.ring_of_terms(40_000),
        "an unmarked ring of 40,000 terms": shapes.unmarked_ring(40_000),
        "enums in a ring of 20,000": shapes.used_enums(20_000),
        "8,000 rules told by two numbers": shapes.told_by_two(8_000),
        "40,000 arms": shapes.closed_arms(40_000),
    }


def deep_runs():
    """Runs of deep forms: values and answers that are nested, and rules that nest as deep as they may."""
    value = nested("(N.Next ", "(N.End)", ")", 254)
    answers = f"(turns C::g (rest {nested('(N.Next ', '(N.End)', ')', 253)}))\n"
    tests = own_tests(4090)
    held = "".join(f"(answers C::g{i} (rest (some (tuple))))\n" for i in range(4090))
    extractors = deep_texts()["254 extractors in one another"]
    same_value, called = NODE + "(decl t (N) N)\n(rule (t x) x)\n", NODE + "(decl e (N) N)\n(extern constructor e g)\n(decl t (N) N)\n(rule (t x) (e x))\n"
    return {
        "`run`: a value of 254 in one another": (same_value, f"({value})", ""),
        "`run`: a value of 257 parentheses": (same_value, nested("(", "", ")", 257), ""),
        "`run`: an answer of 253 in one another": (called, "((N.End))", answers),
        "`run`: answers of 257 parentheses": (EXTERNAL + "(decl t (u8) u8)\n(rule (t x) (e x))\n", "(1)", nested("(", "", ")", 257)),
        "`run`: 254 extractors in one another": (extractors, "(1)", "(answers C::h (rest (some 1)))\n"),
        "`run`: a rule of 4,090 tests": (tests, "(1)", held),
        "`run`: 4,080 extractors in one another": (through_templates(4080, "", "e"), "((N.End))", "(answers C::h (rest (some (N.End))))\n"),
        "`run`: 4,080 lists in one another": (through_templates(4080, "multi", "e"), "((N.End))", "(answers C::h (rest (list (N.End))))\n"),
        "`run`: 250 lists in one another": (lists_in_lists(250), "(1)", "(answers C::e_of (rest (list 7)))\n"),
    }


# The status of those that are refused.
DEEP_STATUSES = {
    "256 parentheses and one more": 6,
    "a ring of 20,000 templates": 7,
    "an unmarked ring of 40,000 terms": 9,
    "`run`: a value of 257 parentheses": 2,
    "`run`: answers of 257 parentheses": 13,
}


def deep_rows():
    """Runs of all these."""
    rows = [Row(["compile", "a.isle"], {"a.isle": text}, name) for name, text in deep_texts().items()]
    options = ["--log", "--split", "--threshold", "0"]
    closures = Row(["compile", *options, "a.isle"], {"a.isle": through_templates(4080, "multi", "e")}, "the same 4,080 lists, with `--log` and closures")
    runs = [Row(["run", "a.isle", "t", values, "--answers", "t"], {"a.isle": text, "t": answers}, name)
            for name, (text, values, answers) in deep_runs().items()]
    return [*rows, closures, *runs, Row(["sample", "10000"], {}, "`sample 10000`"), Row(["prelude", "numerics"], {}, "`prelude numerics`")]
