#!/usr/bin/env python3
"""Prints cases of the two texts of an assembler, over rows of all kinds and over rows that aren't supported.

    tools/assembler_cases.py > crates/isle_cases/data/prelude_assembler.cases

What is wanted is worked out here from the tables of the assembler's terms alone, by the rules that `crates/isle_assembler/README.md` tells.
"""
LIBRARY = "cranelift_assembler_x64"


class Op:
    """An operand: `kind` is one of imm, reg, fixed, regmem, mem; `how` one of r, w, rw."""

    def __init__(self, location, bits, kind, how, cls="", signed=False, align=False):
        self.location, self.bits, self.kind, self.how, self.cls = location, bits, kind, how, cls
        self.signed, self.align = signed, align

    def read(self):
        return "r" in self.how

    def written(self):
        return "w" in self.how

    def raw(self):
        return self.read() or self.kind in ("regmem", "mem")

    def type(self, aligned=True):
        if self.kind == "imm":
            return f"{'i' if self.signed else 'u'}{self.bits}"
        if self.kind == "mem":
            return "SyntheticAmode"
        if self.kind == "regmem":
            return f"{self.cls}Mem{'Aligned' if self.align and aligned else ''}{self.bits}"
        return self.cls

    def row(self):
        cls = self.cls.lower()
        kind = {"imm": "imm", "mem": "mem", "reg": cls, "fixed": f"fixed-{cls}", "regmem": f"{cls}-mem"}[self.kind]
        return f"({self.location} {self.bits} {kind} {self.how}{' signed' if self.signed else ''}{' align' if self.align else ''})"

    def rust(self):
        return ("&" if self.kind in ("regmem", "mem") else "") + self.type()


class Row:
    def __init__(self, name, ops, reads=False, writes=False, trap=False, alternate=None, mnemonic="op"):
        self.name, self.ops, self.reads, self.writes = name, ops, reads, writes
        self.trap, self.alternate, self.mnemonic = trap, alternate, mnemonic

    def row(self):
        says = [word for word, stands in (("reads", self.reads), ("writes", self.writes), ("trap", self.trap)) if stands]
        if self.alternate:
            says.append("(alt {} {})".format(*self.alternate))
        return f"(x64 {' '.join([self.mnemonic, self.name, '(' + ' '.join(op.row() for op in self.ops) + ')', *says])})"


# ---- the rows


def reg(location, how, cls="Gpr", bits=64):
    return Op(location, bits, "reg", how, cls)


def fixed(location, how, cls="Gpr", bits=64):
    return Op(location, bits, "fixed", how, cls)


def regmem(location, how, cls="Gpr", bits=64, align=False):
    return Op(location, bits, "regmem", how, cls, align=align)


def mem(location, how, bits=64):
    return Op(location, bits, "mem", how)


def imm(location, bits, signed=False):
    return Op(location, bits, "imm", "r", signed=signed)


def groups():
    """Rows by what they write."""
    found = []

    def group(name):
        found.append((name, []))

    def row(*words, **named):
        rows = found[-1][1]
        rows.append(Row(f"r{len(rows)}", list(words), **named))

    group("nothing is written")
    row()
    row(writes=True)
    row(reads=True)
    row(reads=True, writes=True)
    row(trap=True)
    row(reg("a", "r"), imm("i", 8), writes=True)
    row(regmem("a", "r"), imm("i", 32, True), writes=True, trap=True)
    row(mem("m", "r"))
    row(fixed("a", "r"), fixed("b", "r", "Xmm"), imm("i", 16), imm("j", 64, True))
    group("a vector register")
    row(reg("x", "w", "Xmm"), regmem("y", "r", "Xmm", 128, True))
    row(reg("x", "rw", "Xmm"), regmem("y", "r", "Xmm", 128, True), alternate=("vadd", "avx"))
    row(reg("x", "rw", "Xmm"), regmem("y", "r", "Xmm", 32), alternate=("vadd", "avx2"), trap=True)
    row(fixed("x", "w", "Xmm"))
    row(fixed("x", "rw", "Xmm"), reg("y", "r", "Xmm"))
    row(reg("x", "w", "Xmm"), mem("m", "r", 128), alternate=("vmov", "avx"))
    row(reg("x", "w", "Xmm"), reg("a", "r"), writes=True)
    group("a general register")
    row(reg("a", "w"))
    row(reg("a", "rw"), imm("i", 8, True))
    row(reg("a", "w"), regmem("b", "r", bits=32), trap=True)
    row(fixed("a", "w"))
    row(fixed("a", "rw"), regmem("b", "r", bits=16, align=True))
    row(reg("a", "w"), regmem("x", "r", "Xmm", 32), alternate=("vcvt", "avx"))
    row(reg("a", "rw"), regmem("b", "r"), reads=True)
    row(fixed("a", "rw"), imm("i", 32), reads=True, writes=True)
    row(reg("a", "w"), regmem("x", "r", "Xmm", 64, True), reads=True, alternate=("vread", "avx"))
    row(reg("a", "w"), mem("m", "r"), reads=True, trap=True)
    group("a place in memory")
    row(mem("m", "w"), reg("a", "r"))
    row(mem("m", "rw"), imm("i", 8))
    row(mem("m", "w", 128), reg("x", "r", "Xmm"), alternate=("vst", "avx"))
    row(mem("m", "rw"), reg("a", "r"), writes=True, trap=True)
    group("a vector register or a place in memory")
    row(regmem("x", "w", "Xmm", 128), reg("y", "r", "Xmm"))
    row(regmem("x", "rw", "Xmm", 128, True), reg("y", "r", "Xmm"), alternate=("vst", "avx"))
    row(regmem("x", "w", "Xmm", 128, True), reg("y", "r", "Xmm"), alternate=("vst", "avx"), trap=True)
    row(regmem("x", "w", "Xmm", 64), reg("y", "r", "Xmm"), alternate=("vst", "avx512f"))
    group("a general register or a place in memory")
    row(regmem("a", "rw", bits=32), reg("b", "r", bits=32))
    row(regmem("a", "w", bits=8), reg("x", "r", "Xmm"), imm("i", 8), alternate=("vext", "avx"))
    row(regmem("a", "rw", bits=16, align=True), imm("i", 16), trap=True)
    row(regmem("a", "w", bits=8), reads=True)
    row(regmem("a", "rw", bits=8), reg("b", "r"), reads=True, trap=True)
    row(regmem("a", "rw", bits=64), reads=True, writes=True)
    group("two registers")
    row(reg("a", "w"), reg("b", "w"))
    row(reg("a", "rw"), fixed("b", "w"))
    row(fixed("a", "w"), reg("b", "rw", "Xmm"))
    row(fixed("a", "rw"), fixed("b", "rw"), regmem("c", "r"), trap=True)
    row(reg("x", "w", "Xmm"), reg("y", "rw", "Xmm"), alternate=("vtwo", "avx"))
    group("a general register, then a place in memory")
    row(reg("a", "w"), mem("m", "rw"))
    row(reg("a", "rw"), mem("m", "rw"))
    row(reg("a", "rw"), mem("m", "rw"), writes=True, trap=True)
    group("what may be a place in memory, then a general register")
    row(mem("m", "rw"), reg("a", "w"))
    row(mem("m", "rw"), reg("a", "rw"), trap=True)
    row(mem("m", "rw"), fixed("a", "rw"))
    row(regmem("b", "rw"), reg("a", "rw"))
    row(regmem("b", "rw", bits=32), fixed("a", "w"))
    row(regmem("b", "w", bits=32), reg("a", "rw"))
    row(regmem("x", "rw", "Xmm", 128, True), reg("a", "w"), alternate=("vboth", "avx"))
    row(regmem("x", "w", "Xmm", 128), fixed("a", "rw"))
    group("two fixed registers and a place in memory")
    row(fixed("a", "rw"), fixed("b", "rw"), mem("m", "rw"))
    row(fixed("a", "w"), fixed("b", "rw"), mem("m", "rw"), fixed("c", "r"), fixed("d", "r"), trap=True)
    row(fixed("a", "rw", "Xmm"), fixed("b", "w"), mem("m", "rw"), alternate=("vthree", "sse"))
    group("rows that are left out")
    row(reg("a", "r"), mnemonic="pushq")
    row(Op("i", 32, "imm", "w"), mnemonic="push")
    return found


def left_out(row):
    return row.mnemonic.startswith("push")


# ---- constructors, by the operands that are written

WRITTEN = {
    "reg Gpr": {False: ["RetGpr"], True: ["ConsumesFlagsReturnsGpr"]},
    "fixed Gpr": {False: ["RetGpr"], True: ["ConsumesFlagsReturnsGpr"]},
    "reg Xmm": {False: ["RetXmm"]},
    "fixed Xmm": {False: ["RetXmm"]},
    "mem": {False: ["RetMemorySideEffect"]},
    "regmem Xmm": {False: ["RetXmm", "RetMemorySideEffect"]},
    "regmem Gpr": {False: ["RetGpr", "RetMemorySideEffect"], True: ["ConsumesFlagsReturnsGpr"]},
    "fixed fixed mem": {False: ["RetValueRegs"]},
}
RESULT = {
    "RetMemorySideEffect": ("SideEffectNoResult", "defer_side_effect"),
    "NoReturnSideEffect": ("SideEffectNoResult", "defer_side_effect"),
    "RetGpr": ("Gpr", "emit_ret_gpr"),
    "RetXmm": ("Xmm", "emit_ret_xmm"),
    "RetValueRegs": ("ValueRegs", "emit_ret_value_regs"),
    "ProducesFlagsSideEffect": ("ProducesFlags", "asm_produce_flags_side_effect"),
    "ConsumesFlagsReturnsGpr": ("ConsumesFlags", "asm_consumes_flags_returns_gpr"),
}
PLACE = {"RetMemorySideEffect": "SyntheticAmode", "RetGpr": "Gpr", "ConsumesFlagsReturnsGpr": "Gpr", "RetXmm": "Xmm", "RetValueRegs": "ValueRegs"}


def constructors(row):
    written = [op for op in row.ops if op.written()]
    if not written:
        return ["ProducesFlagsSideEffect" if row.writes else "NoReturnSideEffect"]
    if len(written) == 1:
        return WRITTEN[f"{written[0].kind} {written[0].cls}".strip()][row.reads]
    assert not row.reads
    kinds = [op.kind for op in written]
    if len(kinds) == 2 and set(kinds) <= {"reg", "fixed"}:
        return ["RetValueRegs"]
    if kinds == ["reg", "mem"] and written[0].cls == "Gpr":
        return ["RetGpr"]
    if kinds in (["mem", "reg"], ["mem", "fixed"], ["regmem", "reg"], ["regmem", "fixed"]) and written[1].cls == "Gpr":
        return ["RetGpr"]
    return WRITTEN[" ".join(kinds)][False]


# ---- rules


def spaced(*words):
    return " ".join(word for word in words if word)


def head():
    fields = [("SideEffect", ""), ("RetGpr", "(gpr Gpr)"), ("RetXmm", "(xmm Xmm)"), ("RetValueRegs", "(regs ValueRegs)")]
    found = ["(type AssemblerOutputs (enum " + " ".join(f"({spaced(name, '(inst MInst)', field)})" for name, field in fields) + "))"]
    for word, name, x, ty in (("gpr", "RetGpr", "gpr", "Gpr"), ("xmm", "RetXmm", "xmm", "Xmm"), ("value_regs", "RetValueRegs", "regs", "ValueRegs")):
        found.append(f"(decl emit_ret_{word} (AssemblerOutputs) {ty})")
        found.append(f"(rule (emit_ret_{word} (AssemblerOutputs.{name} inst {x})) (let ((_ Unit (emit inst))) {x}))")
    found.append("(decl defer_side_effect (AssemblerOutputs) SideEffectNoResult)")
    found.append("(rule (defer_side_effect (AssemblerOutputs.SideEffect inst)) (SideEffectNoResult.Inst inst))")
    return found


def rules_of(row):
    if left_out(row):
        return []
    raws = [op for op in row.ops if op.raw()]
    term = f"x64_{row.name}_raw"
    trap_type, trap = ("TrapCode", "trap") if row.trap else ("", "")
    found = [f"(decl {term} ({spaced(*[op.type() for op in raws], trap_type)}) AssemblerOutputs)", f"(extern constructor {term} {term})"]
    for c in constructors(row):
        in_memory = c == "RetMemorySideEffect"
        suffix = "_mem" if in_memory else ""
        params = [op for op in raws if in_memory or op.read()]

        def types(aligned, c=c, params=params):
            return [PLACE[c] if op.written() and op.kind == "regmem" else op.type(aligned) for op in params]

        result, conversion = RESULT[c]
        names = spaced(*[op.location for op in params], trap)
        temporary = "(temp_writable_xmm)" if c == "RetXmm" else "(temp_writable_gpr)"
        handed = spaced(*[op.location if op in params else temporary for op in raws], trap)
        made = f"x64_{row.name}{suffix}"
        found.append(f"(decl {made} ({spaced(*types(True), trap_type)}) {result})")
        found.append(f"(rule ({spaced(made, names)}) ({conversion} ({spaced(term, handed)})))")
        if row.alternate:
            other, feature = row.alternate
            choice = f"{made}_or_{feature}"
            found.append(f"(decl {choice} ({spaced(*types(feature != 'avx'), trap_type)}) {result})")
            found.append(f"(rule 1 ({spaced(choice, names)}) (if-let true (has_{feature})) ({spaced('x64_' + other + suffix, names)}))")
            found.append(f"(rule 0 ({spaced(choice, names)}) ({spaced(made, names)}))")
    return found


# ---- Rust


def converted(op):
    x, k = op.location, op.cls.lower()
    if op.kind == "imm":
        return f"{LIBRARY}::{'Simm' if op.signed else 'Imm'}{op.bits}::new({x})"
    if op.kind == "mem":
        return f"self.convert_amode_to_assembler_amode({x})"
    if op.kind == "regmem":
        how = {"r": "read", "w": "write", "rw": "read_write"}[op.how]
        return f"self.convert_{k}_mem_to_assembler_{how}_{k}_mem{'_aligned' if op.align else ''}({x})"
    if op.how == "rw":
        return f"self.convert_{k}_to_assembler_{'fixed_' if op.kind == 'fixed' else ''}read_write_{k}({x})"
    maker = f"{LIBRARY}::Fixed" if op.kind == "fixed" else f"{LIBRARY}::{op.cls}::new"
    return f"{maker}({x})" if op.how == "r" else f"{maker}(self.temp_writable_{k}())"


def reached(op):
    return "write.to_reg()" if op.how == "rw" else "to_reg()"


def given(row):
    written = [op for op in row.ops if op.written()]
    registers = [op for op in written if op.kind in ("reg", "fixed")]
    if len(registers) == 2:
        one, two = (f"{op.location}.as_ref().{reached(op)}.to_reg()" for op in registers)
        return f"let one = {one}; let two = {two}; let regs = ValueRegs::two(one, two); AssemblerOutputs::RetValueRegs {{ inst, regs }}"
    if len(registers) == 1:
        op = registers[0]
        k = op.cls.lower()
        return f"let {k} = {op.location}.as_ref().{reached(op)}; AssemblerOutputs::Ret{op.cls} {{ inst, {k} }}"
    if written and written[0].kind == "regmem":
        op = written[0]
        k, place = op.cls.lower(), f"{LIBRARY}::{op.cls}Mem"
        arm = f"{place}::{op.cls}(reg) => {{ let {k} = reg.{reached(op)}; AssemblerOutputs::Ret{op.cls} {{ inst, {k} }} }}"
        return f"match {op.location} {{ {arm} {place}::Mem(_) => {{ AssemblerOutputs::SideEffect {{ inst }} }} }}"
    return "AssemblerOutputs::SideEffect { inst }"


def method(row):
    params = [f"{op.location}: {op.rust()}" for op in row.ops if op.raw()] + (["trap: &TrapCode"] if row.trap else [])
    args = [f"{op.location}.clone()" for op in row.ops] + ([f"{LIBRARY}::TrapCode(trap.as_raw())"] if row.trap else [])
    lets = " ".join(f"let {op.location} = {converted(op)};" for op in row.ops)
    return (f"fn x64_{row.name}_raw(&mut self, {', '.join(params)}) -> AssemblerOutputs {{ {lets} "
            f"let inst = {LIBRARY}::inst::{row.name}::new({', '.join(args)}).into(); "
            f"let inst = MInst::External {{ inst }}; {given(row)} }}")


def macro(rows):
    methods = [method(row) for row in rows if not left_out(row)]
    return ["#[doc(hidden)] macro_rules! isle_assembler_methods { () => {", *methods, "}; }"]


# ---- rows that aren't supported

GOOD = Row("good", [reg("a", "rw"), regmem("b", "r")], alternate=None)


def refused():
    """What is wrong, the rows before, the row, and its shape."""
    def row(*words, name="bad", **named):
        return Row(name, list(words), **named)

    wide = regmem("x", "r", "Xmm", 128)
    yield "a name that Rust keeps", [], row(name="loop"), "BadName"
    yield "a name with a mark", [], row(name="a-b"), "BadName"
    yield "a location that Rust keeps", [], row(reg("fn", "r")), "BadName"
    yield "a location that begins with a digit", [], row(reg("8a", "r")), "BadName"
    yield "an alternate's name", [], row(reg("x", "rw", "Xmm"), alternate=("v-add", "avx")), "BadName"
    yield "an alternate's feature", [], row(reg("x", "rw", "Xmm"), alternate=("vadd", "type")), "BadName"
    yield "a name of a row that is left out", [], row(name="a-b", mnemonic="push"), "BadName"
    yield "one operand twice", [], row(reg("a", "r"), reg("a", "rw")), "RepeatedName"
    yield "an operand that is named as the trap's code", [], row(reg("trap", "r"), trap=True), "RepeatedName"
    yield "a name twice", [row(name="bad")], row(reg("a", "r")), "RepeatedName"
    yield "a term in memory", [row(regmem("a", "rw"), name="bad")], row(name="bad_mem"), "RepeatedName"
    yield "a raw term", [row()], row(name="bad_raw"), "RepeatedName"
    yield "a term by a feature", [row(reg("x", "rw", "Xmm"), alternate=("vadd", "avx"))], row(name="bad_or_avx"), "RepeatedName"
    yield "an immediate that is written", [], row(Op("i", 8, "imm", "w")), "WrittenImm"
    yield "an immediate that is read and written", [], row(reg("a", "rw"), Op("i", 8, "imm", "rw")), "WrittenImm"
    yield "a place in memory that is aligned", [], row(Op("m", 64, "mem", "r", align=True)), "AlignedMem"
    yield "three registers are written", [], row(reg("a", "w"), reg("b", "w"), reg("c", "w")), "WrittenOperands"
    yield "a vector register is written and flags are read", [], row(reg("x", "w", "Xmm"), reads=True), "WrittenOperands"
    yield "memory is written and flags are read", [], row(mem("m", "w"), reads=True), "WrittenOperands"
    yield "two registers are written and flags are read", [], row(reg("a", "w"), reg("b", "w"), reads=True), "WrittenOperands"
    yield "a vector register, then memory", [], row(reg("x", "w", "Xmm"), mem("m", "w")), "WrittenOperands"
    yield "a fixed register, then memory", [], row(fixed("a", "w"), mem("m", "rw")), "WrittenOperands"
    yield "memory, then a vector register", [], row(mem("m", "rw"), reg("x", "w", "Xmm")), "WrittenOperands"
    yield "two places in memory", [], row(mem("m", "w"), regmem("a", "w")), "WrittenOperands"
    yield "a fixed register, a register, memory", [], row(fixed("a", "w"), reg("b", "w"), mem("m", "rw")), "WrittenOperands"
    yield "memory that isn't read, beside a register", [], row(reg("a", "w"), mem("m", "w")), "ImplicitOperand"
    yield "two that aren't read", [], row(regmem("a", "w"), mem("m", "w"), reg("b", "w")), "WrittenOperands"
    yield "memory that isn't read, before a register", [], row(mem("m", "w"), reg("a", "rw")), "ImplicitOperand"
    yield "an alternate without a vector register", [], row(reg("a", "rw"), alternate=("vadd", "avx")), "AlternateWithoutXmm"
    yield "an alternate without operands", [], row(alternate=("vadd", "avx")), "AlternateWithoutXmm"
    yield "an immediate before an alternate", [], row(wide, Op("i", 8, "imm", "w"), alternate=("vadd", "avx")), "WrittenImm"


# ---- what is printed


def rules(rows):
    return head() + [line for row in rows for line in rules_of(row)]


def block(lines):
    return "".join(f"| {line}\n" for line in lines)


def main():
    print("# The two texts of an assembler over rows of all kinds, and rows that aren't supported, by tools/assembler_cases.py.\n")
    for name, rows in groups():
        given = block([row.row() for row in rows])
        print(f"= rules: {name}\n$ prelude assembler\ntables\n{given}tokens\n{block(rules(rows))}")
        print(f"= Rust: {name}\n$ prelude assembler-rust\ntables\n{given}tokens\n{block(macro(rows))}")
    for name, before, row, shape in refused():
        told = f"status 4\nerr isle: unsupported {row.name}: {shape}\\n\nfails dir 1\n"
        print(f"= refused: {name}\n$ prelude assembler\ntables\n{block([one.row() for one in [*before, row]])}{told}")
        print(f"= refused after a good row: {name}\n$ prelude assembler-rust\ntables\n{block([one.row() for one in [GOOD, *before, row]])}{told}")


if __name__ == "__main__":
    main()
