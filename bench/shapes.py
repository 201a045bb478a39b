"""The inputs that double: a function for each shape, which gives the text of a size."""


def terms(count, end="\n"):
    """A declaration and a rule for each term."""
    return end.join(f"(decl t{i} (u8 u16) u8){end}(rule (t{i} {i % 256} x) {i % 251})" for i in range(count)) + end


def one_line(count):
    return terms(count, " ")


def declarations_first(count):
    return "".join(f"(decl t{i} (u8) u8)\n" for i in range(count)) + "".join(f"(rule (t{i} 1) 2)\n" for i in range(count))


def long_names(count):
    prefix = "n" * 1000
    return "".join(f"(decl {prefix}{i} (u8) u8)\n(rule ({prefix}{i} 1) 2)\n" for i in range(count))


def many_arguments(count):
    types = " ".join(["u8"] * 256)
    patterns = " ".join(["1", "x"] + ["_"] * 254)
    return "".join(f"(decl t{i} ({types}) u8)\n(rule (t{i} {patterns}) x)\n" for i in range(count))


def nested_calls(count):
    """Terms of four calls in one another, each with an external constructor of its own."""
    return "".join(
        f"(decl e{i} (u8) u8)\n(extern constructor e{i} g{i})\n(decl t{i} (u8) u8)\n"
        f"(rule (t{i} x) (e{i} (e{i} (e{i} (e{i} x)))))\n" for i in range(count))


def shared_calls(count):
    """Terms of four calls in one another, all of one external constructor."""
    return "(decl e (u8) u8)\n(extern constructor e g)\n" + "".join(
        f"(decl t{i} (u8) u8)\n(rule (t{i} x) (e (e (e (e x)))))\n" for i in range(count))


def comment(size):
    return ";" + "c" * (size - 1)


def nested_comments(count):
    return "(;" * count + ";)" * count


def lines_of(line, size):
    """A text of the size at most, of this line again and again."""
    return line * (size // len(line))


def passed_over(size):
    return lines_of("(spec (lower x) (provide (= result (@ x 1))) (require < >))\n", size)


def type_declarations(size):
    return lines_of("(type Reg (primitive u32))\n(type Op (enum (Add (a Reg) (b Reg)) (Nop) Move))\n", size)


def enums(count):
    """Enums of four variants, with a field of the type of the next, which is declared later."""
    return "".join(f"(type E{i} (enum Nop (Imm u64) (Add (x E{(i + 1) % count}) (y u8)) (Not bool E{i})))\n" for i in range(count))


def used_enums(count):
    """The same enums, and a rule that takes values of two of them apart."""
    return enums(count) + "(decl t (E0 E1) E1)\n(rule (t (E0.Add (E1.Imm _) y) (E1.Not true z)) (E1.Not false z))\n"


def one_enum(count):
    """One enum of many variants, and a rule for each."""
    return "(type E (enum\n" + "".join(f"  (V{i} (x u8) (y E))\n" for i in range(count)) + "))\n(decl t (E) u8)\n" + (
        "".join(f"(rule (t (E.V{i} x _)) x)\n" for i in range(count)))


def nested_values(count):
    """Terms that take values apart that are nested ten deep, and make such ones."""
    matched = "".join(f"(N.Next {i} " for i in range(10)) + "x" + ")" * 10
    made = "".join(f"(N.Next {i} " for i in range(10, 20)) + "x" + ")" * 10
    return "(type N (enum End (Next (here u8) (more N))))\n" + "".join(f"(decl t{i} (N) N)\n(rule (t{i} {matched}) {made})\n" for i in range(count))


def equal_values(count):
    """Terms of 256 arguments, on 128 variables that stand twice."""
    types = " ".join(["u8"] * 256)
    patterns = " ".join(f"x{i}" for i in range(128))
    return "".join(f"(decl t{i} ({types}) u8)\n(rule (t{i} {patterns} {patterns}) x0)\n" for i in range(count))


def one_value(count):
    """A rule that matches one value against one number again and again, and against many variables."""
    return "(decl partial t (u32) u32)\n(rule (t (and " + " ".join(f"7 x{i}" for i in range(count)) + ")) x0)\n"


def nested_extractors(count):
    """Terms that open a value four deep, each with an external extractor of its own."""
    return "".join(
        f"(decl x{i} (u8) u8)\n(extern extractor x{i} g{i})\n(decl partial t{i} (u8) u8)\n"
        f"(rule (t{i} (x{i} (x{i} (x{i} (x{i} y))))) y)\n" for i in range(count))


def opened_value(count):
    """A rule that opens one value by many extractors."""
    return "".join(f"(decl x{i} (u8) u8)\n(extern extractor x{i} g{i})\n" for i in range(count)) + (
        "(decl partial t (u8) u8)\n(rule (t (and " + " ".join(f"(x{i} y{i})" for i in range(count)) + ")) y0)\n")


def several_results(count):
    """Terms that open a value into four, two of which are read, each with an external extractor of its own."""
    return "".join(
        f"(decl x{i} (u8 u8 u8 u8) u8)\n(extern extractor x{i} g{i})\n(decl e{i} (u8 u8) u8)\n(extern constructor e{i} h{i})\n"
        f"(decl partial t{i} (u8) u8)\n(rule (t{i} (x{i} a _ _ d)) (e{i} d a))\n" for i in range(count))


PURE = "(decl pure partial q (u32) u32)\n(extern constructor q q)\n"


def pure_calls(count):
    """One rule that calls a pure term on each of many values."""
    return PURE + f"(decl partial t (u32) u32)\n(rule (t x) (let ({' '.join(f'(y{i} u32 (q {i}))' for i in range(count))}) x))\n"


def nested_pure_calls(count):
    """Terms of four pure calls in one another, of which two rules have the same."""
    return PURE + "".join(
        f"(decl partial t{i} (u32) u32)\n(rule 1 (t{i} 1) (q (q (q (q {i})))))\n(rule 0 (t{i} x) (q (q (q (q {i})))))\n" for i in range(count))


def conditions(count):
    """Terms of one rule each, with two extractors and a condition."""
    return PURE + "(decl x (u32) u32)\n(extern extractor x g)\n" + "".join(
        f"(decl partial t{i} (u32 u32) u32)\n(rule (t{i} (x a) (x b)) (if-let c (q a)) c)\n" for i in range(count))


def one_condition(count):
    """A term of many rules that a condition tells apart."""
    return PURE + "(decl partial t (u32) u32)\n" + "".join(f"(rule (t x) (if-let {i} (q x)) {i + 1})\n" for i in range(count))


def many_conditions(count):
    """A rule of many conditions, each on what the one before binds."""
    return PURE + f"(decl partial t (u32) u32)\n(rule (t y0) {' '.join(f'(if-let y{i + 1} (q y{i}))' for i in range(count))} y{count})\n"


def converters(count):
    """Types in a row, each converted into the next, and a rule for each that needs the converter on both sides."""
    return "".join(f"(type T{i} (primitive T{i}))\n" for i in range(count + 1)) + "".join(
        f"(decl c{i} (T{i}) T{i + 1})\n(extern constructor c{i} c{i})\n(extern extractor c{i} d{i})\n(convert T{i} T{i + 1} c{i})\n"
        f"(decl x{i} () T{i})\n(extern extractor x{i} x{i})\n"
        f"(decl partial t{i} (T{i + 1} T{i}) T{i + 1})\n(rule (t{i} (x{i}) y) y)\n" for i in range(count))


def templates_in_templates(count):
    """Templates in a row, each of which uses the last, and in a tree, each of which uses two, and terms of one rule with the row and the tree."""
    chain = "(decl c0 (u8) u8)\n(extern extractor c0 c0)\n" + "".join(f"(decl c{i} (u8) u8)\n(extractor (c{i} x) (c{i - 1} (c0 x)))\n" for i in range(1, 10))
    leaves = "".join(f"(decl n{i} (u8) u8)\n(extern extractor n{i} n{i})\n" for i in range(8, 16))
    tree = "".join(f"(decl n{i} (u8) u8)\n(extractor (n{i} x) (and (n{2 * i} x) (n{2 * i + 1} x)))\n" for i in range(1, 8))
    return chain + leaves + tree + "".join(f"(decl partial t{i} (u8 u8) u8)\n(rule (t{i} (c9 x) (n1 {i % 256})) x)\n" for i in range(count))


def large_rule(nodes):
    """One rule of so many nodes and one more: on each 250 an argument, opened by a template of three nodes again and again."""
    patterns = " ".join("(w " * 83 + f"x{i}" + ")" * 83 for i in range(nodes // 250))
    return "(decl e (u8) u8)\n(extern extractor infallible e g)\n(decl w (u8) u8)\n(extractor (w x) (and _ (e x)))\n" + (
        f"(decl t ({' '.join(['u8'] * (nodes // 250))}) u8)\n(rule (t {patterns}) x0)\n")


def type_fault_at_the_end(count):
    """Enums, and a struct that makes a term of the first."""
    return enums(count) + "(type E0.Nop (struct))\n"


def rule_fault_at_the_end(count):
    """Terms with extractors and conditions, and a rule that names a constant which is not declared."""
    return conditions(count) + "(decl last () u32)\n(rule (last) $K)\n"


def ring_of_templates(count):
    """Templates in a row, each of which uses the next, and the last one the first."""
    return "".join(f"(decl r{i} (u8) u8)\n(extractor (r{i} x) (and x (r{(i + 1) % count} x)))\n" for i in range(count))


def row_of_terms(count):
    """Terms in a row, each of which calls the next."""
    return "".join(f"(decl r{i} (u8) u8)\n(rule (r{i} x) (r{i + 1} x))\n" for i in range(count)) + f"(decl r{count} (u8) u8)\n(rule (r{count} x) x)\n"


def ring_of_terms(count, mark="rec "):
    """Terms in a ring, each of which calls the next."""
    return "".join(f"(decl {mark}r{i} (u8) u8)\n(rule (r{i} x) (r{(i + 1) % count} x))\n" for i in range(count))


def unmarked_ring(count):
    return ring_of_terms(count, "")


def grid_of_terms(count):
    """Terms in a square, each of which calls the one beside it and the one below, around the edges."""
    side = int(count ** 0.5)
    return "(decl e (u8 u8) u8)\n(extern constructor e g)\n" + "".join(
        f"(decl rec g{i}x{j} (u8) u8)\n(rule (g{i}x{j} x) (e (g{i}x{(j + 1) % side} x) (g{(i + 1) % side}x{j} x)))\n" for i in range(side) for j in range(side))


def equalities(count):
    """A term of many rules that one integer tells apart, each of which asks for equal values."""
    return "(decl partial t (u32 u32 u32) u32)\n" + "".join(f"(rule (t {i} x x) {i + 1})\n" for i in range(count))


def unreachable_rules(count):
    """A term of many rules, each of which tests equal values for two integers."""
    return "(decl partial t (u32 u32 u32) u32)\n" + "".join(f"(rule (t {i} (and x 1) (and x 2)) {i + 1})\n" for i in range(count))


def name_at_the_end(count):
    """Terms with extractors and conditions, and a constant of a name that may not be emitted."""
    return "(extern const $v0 u8)\n" + conditions(count)


def fault_at_the_end(size):
    """Rules, and a parenthesis that closes nothing."""
    line = "(rule (t x @ 1 (and y _)) (if-let z (g x)) (e x (e y 7)))\n"
    return lines_of(line, size - 1) + ")"


def open_parentheses(size):
    return "(" * size


def files(count):
    """The declarations and the rules of terms, dealt to 64 files."""
    texts = ["".join(f"(decl t{i} (u8 u16) u8)\n" for i in range(file, count, 32)) for file in range(32)]
    return texts + ["".join(f"(rule (t{i} {i % 256} x) {i % 251})\n" for i in range(file, count, 32)) for file in range(32)]


def told_by_one(count):
    """A term of many rules that one integer tells apart."""
    return "(decl t (u32) u32)\n" + "".join(f"(rule (t {i}) {i + 1})\n" for i in range(count))


def told_by_answers(count):
    """A term of many rules that the answer of one extractor tells apart."""
    return "(decl x (u32) u32)\n(extern extractor x g)\n(decl partial t (u32) u32)\n" + "".join(f"(rule (t (x {i})) {i + 1})\n" for i in range(count))


def told_by_two(count):
    """A term of many rules of one priority on two arguments, about as many values on each."""
    side = int(count ** 0.5) + 1
    return "(decl t (u32 u32) u32)\n" + "".join(f"(rule (t {i % side} {i // side}) {i})\n" for i in range(count))


def told_by_many(count):
    """A term of many rules of three priorities that test some of eight arguments, the first of which tells them apart."""
    def args(i):
        return " ".join([str(i), *(str((i >> n) % 5) if (i * 37 + n * 11) % 3 else "_" for n in range(7))])
    return "(decl t (u32 u8 u8 u8 u8 u8 u8 u8) u32)\n" + "".join(f"(rule {i % 3} (t {args(i)}) {i})\n" for i in range(count))


def closed_arms(count):
    """A `multi` term of rules that two numbers tell, fifty within each arm of the first."""
    return "(decl multi t (u32 u32) u32)\n" + "".join(f"(rule (t {i // 50} {i % 50}) {i})\n" for i in range(count))


def told_by_extractors(count):
    """A `multi` term of many rules, each of which tests what an extractor of its own finds."""
    return "(decl multi t (u32) u32)\n" + "".join(f"(decl x{i} (u32) u32)\n(extern extractor x{i} g{i})\n(rule (t (x{i} y)) y)\n" for i in range(count))


def sample(count):
    """The text that `sample` compiles for so many terms."""
    return "".join(
        f"(decl t{i} (u8 u8) u8)\n" + "".join(f"(rule (t{i} {a} {b}) {4 * a + b})\n" for a in range(i % 4 + 1) for b in range(i % 4 + 1))
        + f"(rule -1 (t{i} _ _) 255)\n" for i in range(count))


def called(count):
    """A term that calls one of many external functions."""
    return "".join(f"(decl e{i} (u8) u8)\n(extern constructor e{i} g{i})\n" for i in range(count)) + (
        "(decl t (u8) u8)\n(rule (t x) (e0 (e0 (e0 (e0 x)))))\n")


def forms(count):
    """Answers of as many functions, two turns each."""
    return "".join(f"(turns C::g{i} {i % 256} 1 (rest 0))\n" for i in range(count))


def caller(count):
    """A term that calls one external function."""
    return "(decl e (u8) u8)\n(extern constructor e g)\n(decl t (u8) u8)\n(rule (t x) (e (e (e (e x)))))\n"


def turns(count):
    """Answers of one function, in many turns."""
    return "(turns C::g " + " ".join(str(i % 256) for i in range(count)) + " (rest 0))\n"


def opener(count):
    """A term that calls one external extractor."""
    return "(decl x (u32) u32)\n(extern extractor x g)\n(decl partial t (u32) u32)\n(rule (t (x (x (x y)))) y)\n"


def cases(count):
    """Answers of one function, in many cases."""
    return "(answers C::g " + " ".join(f"(case ({i}) (some {i + 1}))" for i in range(count)) + " (rest (none)))\n"


def taker(count):
    """A term that calls a function for a value of an enum of many variants, and one with a rule for each."""
    return "(type E (enum\n" + "".join(f"  (V{i} (x u8))\n" for i in range(count)) + "))\n" + (
        "(decl e (u8) E)\n(extern constructor e g)\n(decl t (u8) E)\n(rule (t x) (e x))\n(decl m (E) u8)\n") + (
        "".join(f"(rule (m (E.V{i} x)) x)\n" for i in range(count)))


def variants(count):
    """Answers of one function, a value of each variant."""
    return "(turns C::g " + " ".join(f"(E.V{i} {i % 256})" for i in range(count)) + " (rest (E.V0 0)))\n"


def constants(count):
    """A term with a rule for each of many constants."""
    return "(type P (primitive P))\n" + "".join(f"(extern const $c{i} P)\n" for i in range(count)) + "(decl t (P) u32)\n" + (
        "".join(f"(rule 1 (t $c{i}) {i})\n" for i in range(count))) + "(rule 0 (t _) 0)\n"


def own_conditions(count):
    """A term of many rules, each of a priority of its own, with a condition on a pure term of its own."""
    return "".join(f"(decl pure partial p{i} (u32) u32)\n(extern constructor p{i} q{i})\n" for i in range(count)) + "(decl partial t (u32) u32)\n" + (
        "".join(f"(rule {i} (t x) (if-let 1 (p{i} x)) {i})\n" for i in range(count)))


def lets(count):
    """Terms of four variables of `let`s, each made of the one before."""
    return "(decl e (u32) u32)\n(extern constructor e g)\n" + "".join(
        f"(decl t{i} (u32) u32)\n(rule (t{i} x) (let ((a u32 (e x)) (b u32 (e a))) (let ((c u32 (e b)) (d u32 (e c))) (e d))))\n"
        for i in range(count))


def own_templates(count):
    """Terms that open a value by a template of their own."""
    return "(decl e (u8) u8)\n(extern extractor e g)\n" + "".join(
        f"(decl w{i} (u8 u8) u8)\n(extractor (w{i} x y) (and x (e y)))\n(decl partial t{i} (u8) u8)\n(rule (t{i} (w{i} a (w{i} b 7))) b)\n"
        for i in range(count))


def chain_of_templates(count):
    """Templates in a row, each of which uses the one before, and no rule that uses one."""
    return "(decl e (u8) u8)\n(extern extractor e g)\n(decl w0 (u8) u8)\n(extractor (w0 x) (e x))\n" + "".join(
        f"(decl w{i} (u8) u8)\n(extractor (w{i} x) (and _ (w{i - 1} x)))\n" for i in range(1, count))


def large_rules(count):
    """Terms of one rule each that makes a thousand tests, each within the last."""
    names = range(500)
    tests = " ".join(f"(x{i} {i % 200})" for i in names)
    return "".join(f"(decl x{i} (u8) u32)\n(extern extractor x{i} g{i})\n" for i in names) + "".join(
        f"(decl partial t{k} (u32) u32)\n(rule (t{k} (and {tests})) {k})\n" for k in range(count))


def lowering(count):
    """A lowering: of each operation one rule takes a small constant and another one registers, and makes an instruction."""
    head = (
        "(type Value (primitive Value))\n(type Reg (primitive Reg))\n"
        "(decl put (Value) Reg)\n(extern constructor put put_in_reg)\n"
        "(decl small (u8) Value)\n(extern extractor small small_constant)\n"
        "(decl emit (Inst) Reg)\n(extern constructor emit emit_inst)\n"
        "(decl defined (Op) Value)\n(extern extractor defined def_inst)\n(decl partial lower (Value) Reg)\n")
    ops = "(type Op (enum " + " ".join(f"(Op{i} (left Value) (right Value))" for i in range(count)) + "))\n"
    insts = "(type Inst (enum " + " ".join(f"(Imm{i} (from Reg) (by u8)) (Reg{i} (left Reg) (right Reg))" for i in range(count)) + "))\n"
    rules = "".join(
        f"(rule 1 (lower (defined (Op.Op{i} x (small n)))) (emit (Inst.Imm{i} (put x) n)))\n"
        f"(rule 0 (lower (defined (Op.Op{i} x y))) (emit (Inst.Reg{i} (put x) (put y))))\n" for i in range(count))
    return head + ops + insts + rules


def given(count):
    """Values of those constants."""
    return "".join(f"(const c{i} {i + 2})\n" for i in range(count))


MULTI = "(decl multi e (u8) u8)\n(extern extractor e e_of)\n"


def multi_terms(count):
    """Many `multi` terms, each of which takes its argument apart by a `multi` extractor."""
    return MULTI + "".join(f"(decl multi t{i} (u8) u8)\n(rule (t{i} (e {i % 256})) {i % 251})\n" for i in range(count))


def nested_loops(count):
    """`multi` terms of two rules each, of three loops in one another."""
    pure = "(decl multi pure c (u8) u8)\n(extern constructor c c_of)\n"
    return MULTI + pure + "".join(
        f"(decl multi t{i} (u8) u8)\n(rule (t{i} (e (e (e y)))) y)\n(rule (t{i} (e x)) (c (c x)))\n" for i in range(count))


def looping(_):
    """A term that loops over all triples of items of three lists."""
    lists = "".join(f"(decl multi {name} (u32) u8)\n(extern extractor {name} {name}_of)\n" for name in "abc")
    return lists + "(decl multi t (u8) u32)\n(rule (t (and (a _) (b _) (c x))) x)\n"


def items(count):
    """Items of those lists, whose triples are as many."""
    sizes = {"a": 100, "b": 10, "c": count // 1_000}
    return "".join(f"(answers C::{name}_of (rest (list {' '.join(map(str, range(size)))})))\n" for name, size in sizes.items())


def multi_templates(count):
    """A `multi` extractor behind a row of templates."""
    return MULTI + "(decl x0 (u8) u8)\n(extractor (x0 a) (e a))\n" + "".join(
        f"(decl x{i} (u8) u8)\n(extractor (x{i} a) (x{i - 1} a))\n" for i in range(1, count)) + f"(decl multi t (u8) u8)\n(rule (t (x{count - 1} y)) y)\n"


def multi_fault_at_the_end(count):
    """The same extractor in the last rule, whose term is not `multi`."""
    return multi_terms(count) + "(decl t (u8) u8)\n(rule (t (e y)) y)\n"


def crossing(count):
    """Rules of one priority, half of which test one argument and half the other, so that each of one half overlaps all of the other."""
    return "(decl t (u32 u32) u32)\n" + "".join(f"(rule (t {i} _) 2)\n(rule (t _ {i}) 2)\n" for i in range(count // 2))


def rising(count):
    """Rules without tests, each of a higher priority than all before it, so that each is shadowed by the next."""
    return "(decl t (u32) u32)\n" + "".join(f"(rule {i} (t x) 2)\n" for i in range(count))
