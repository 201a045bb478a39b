#!/usr/bin/env python3
"""Prints cases of the two texts of Pulley's operations, over rows of all kinds and over rows that aren't supported.

    tools/pulley_cases.py > crates/isle_cases/data/prelude_pulley.cases

What is wanted is worked out here from the rows alone, by the rules that `crates/isle_pulley/README.md` and `crates/isle_pulley_rows/README.md` tell.
"""
import re

X, F, S = "XReg", "FReg", "UpperRegSet < XReg >"

# rows: snake name, name, fields
ROWS = [
    # binary operands of one, two and three types
    ("xadd32", "Xadd32", [("operands", "BinaryOperands < XReg >")]),
    ("xadd32_u8", "Xadd32U8", [("operands", "BinaryOperands < XReg, U6 >")]),
    ("xmixed", "Xmixed", [("operands", "BinaryOperands < XReg, FReg, VReg >")]),
    ("xshift", "Xshift", [("operands", "BinaryOperands < XReg, XReg, U6 >")]),
    ("xfirst_imm", "XfirstImm", [("operands", "BinaryOperands < U6, XReg, U8 >")]),
    # a trap by name, by a field, and by both, which is one
    ("trap", "Trap", []),
    ("xtrap_if", "XTrapIf", [("cond", X)]),
    ("xload_z", "XLoadZ", [("dst", X), ("addr", "AddrZ")]),
    ("xstore_z", "XStoreZ", [("addr", "AddrZ"), ("src", F)]),
    ("trap_z", "TrapZ", [("addr", "AddrZ")]),
    ("xdiv_trap", "XDivTrap", [("operands", "BinaryOperands < XReg >")]),
    ("trapless", "Untrapped", [("src", X)]),
    # no operands at all
    ("nop", "Nop", []),
    ("ret", "Ret", []),
    # what is read: registers, other types, addresses
    ("xmov_imm", "XmovImm", [("dst", X), ("imm", "i8")]),
    ("imm_first", "ImmFirst", [("imm", "i32"), ("dst", X)]),
    ("xload", "XLoad", [("dst", X), ("addr", "AddrO32")]),
    ("xstore", "XStore", [("addr", "AddrG32"), ("src", X)]),
    ("two_addresses", "TwoAddresses", [("left", "AddrO32"), ("right", "AddrG32")]),
    ("address_alone", "AddressAlone", [("at", "Addr")]),
    ("address_register", "AddressRegister", [("at", "AddrReg")]),
    ("only_imm", "OnlyImm", [("imm", "u64")]),
    ("two_imms", "TwoImms", [("a", "u8"), ("b", "u16")]),
    # what is written: a register, another type, and a name that only begins so
    ("foo", "Foo", [("src", X), ("dst", X)]),
    ("fmov", "Fmov", [("dst", F), ("src", F)]),
    ("vmov", "Vmov", [("dst", "VReg"), ("src", "VReg")]),
    ("dst_other", "DstOther", [("dst", "U6")]),
    ("dst_alone", "DstAlone", [("dst", X)]),
    ("dst_long", "DstLong", [("dst_long", X), ("src", X)]),
    ("dstination", "Dstination", [("dstination", F)]),
    # two results, each in its place
    ("xmul_wide", "XmulWide", [("dst_lo", X), ("dst_hi", F), ("lhs", X), ("rhs", X)]),
    ("two_between", "TwoBetween", [("src", X), ("dst1", X), ("imm", "u8"), ("dst2", "VReg")]),
    ("two_swapped", "TwoSwapped", [("dst2", X), ("dst1", X)]),
    ("binary_and_more", "BinaryAndMore", [("operands", "BinaryOperands < XReg, FReg >"), ("dst9", F)]),
    ("more_and_binary", "MoreAndBinary", [("dst9", F), ("operands", "BinaryOperands < XReg, FReg >"), ("imm", "u8")]),
    # binary operands after another operand: no comma
    ("imm_and_binary", "ImmAndBinary", [("imm", "u8"), ("operands", "BinaryOperands < XReg >")]),
    # sets of upper registers
    ("push_frame_save", "PushFrameSave", [("amt", "u16"), ("regs", S)]),
    ("pop_frame_restore", "PopFrameRestore", [("amt", "u16"), ("regs", S)]),
    ("push_set", "PushSet", [("regs", S)]),
    ("named_set", "NamedSet", [("regs", "UpperXRegSet"), ("src", X)]),
    ("set_written", "SetWritten", [("dst", "UpperXRegSet")]),
    ("frame_written", "FrameWritten", [("src", X), ("dst", "UpperXRegSet")]),
    # skipped rows
    ("jump", "Jump", [("offset", "PcRelOffset")]),
    ("call", "Call", [("offset", "PcRelOffset")]),
    ("call_indirect", "CallIndirect", [("dst", X)]),
    ("br_if", "BrIf", [("cond", X), ("offset", "PcRelOffset")]),
    ("xpush32_many", "XPush32Many", [("srcs", "RegSet < XReg >")]),
    ("xpop64_many", "XPop64Many", [("dsts", "RegSet < XReg >")]),
    ("broken", "Broken", [("src", X)]),
    # not skipped: names that only hold these words
    ("jumps", "Jumps", [("src", X)]),
    ("xcall", "XCall", [("src", X)]),
    ("xpush32", "XPush32", [("src", X)]),
    # a skipped row's terms may come again
    ("jump", "JumpAgain", [("src", X)]),
]

# earlier rows, the row, and the shape that it breaks first
ONE = ("one", "One", [("src", X)])
REFUSED = [
    ([], ("a-b", "Ab", []), "BadName"),
    ([], ("ab", "loop", []), "BadName"),
    ([], ("ab", "Ab", [("fn", X)]), "BadName"),
    ([], ("ab", "", []), "BadName"),
    ([], ("9a", "Jump", []), "BadName"),
    ([ONE], ("one", "Other", []), "RepeatedName"),
    ([ONE], ("other", "One", []), "RepeatedName"),
    ([], ("ab", "Ab", [("x", X), ("x", F)]), "RepeatedName"),
    ([], ("ab", "Ab", [("src1", X), ("operands", "BinaryOperands < XReg >")]), "RepeatedName"),
    ([], ("ab", "AbTrap", [("code", X)]), "RepeatedName"),
    ([], ("ab", "Ab", [("code", "AddrZ")]), "RepeatedName"),
    ([], ("br", "BrTwice", [("x", X), ("x", X)]), "RepeatedName"),
    ([], ("ab", "Ab", [("operands", "XReg")]), "BinaryOperands"),
    ([], ("ab", "Ab", [("operands", "BinaryOperands<XReg>")]), "BinaryOperands"),
    ([], ("ab", "Ab", [("operands", "BinaryOperands < >")]), "BinaryOperands"),
    ([], ("ab", "Ab", [("operands", "BinaryOperands < A, B, C, D >")]), "BinaryOperands"),
    ([], ("ab", "Ab", [("operands", "BinaryOperands < XReg > ")]), "BinaryOperands"),
    ([], ("ab", "Ab", [("operands", "BinaryOperands <  >")]), "FieldType"),
    ([], ("ab", "Ab", [("operands", "BinaryOperands < A,B >")]), "FieldType"),
    ([], ("ab", "Ab", [("operands", "BinaryOperands < A,  B >")]), "FieldType"),
    ([], ("ab", "Ab", [("dst1", X), ("dst2", X), ("dst3", X)]), "Results"),
    ([], ("ab", "Ab", [("dst1", X), ("dst2", X), ("operands", "BinaryOperands < XReg >")]), "Results"),
    ([], ("ab", "Ab", [("dst", S)]), "FieldType"),
    ([], ("ab", "Ab", [("x", "UpperRegSet < FReg >")]), "FieldType"),
    ([], ("ab", "Ab", [("x", "fn")]), "FieldType"),
    ([("call", "Call", [])], ("call", "CallAgain", []), None),
    ([], ("jump", "Jump", [("operands", "Foo"), ("x", "a b")]), None),
]


def is_skipped(name):
    many = ("XPush32Many", "XPush64Many", "XPop32Many", "XPop64Many")
    return name == "Jump" or name.startswith(("Call", "Br")) or name in many


def operands(name, fields):
    """Each operand as a kind and its texts."""
    found = []
    for field, ty in fields:
        if field == "operands":
            parts = re.fullmatch(r"BinaryOperands < (.*) >", ty, re.S).group(1).split(", ")
            found.append(("binop", parts[0], parts[1] if len(parts) > 1 else parts[0], parts[2] if len(parts) > 2 else parts[0]))
        elif field.startswith("dst"):
            found.append(("writable", field, ty))
        else:
            found.append(("normal", field, "UpperXRegSet" if ty == S else ty))
    if "Trap" in name or any(ty == "AddrZ" for _, ty in fields):
        found.append(("trap",))
    return found


def made(rows):
    return [(snake, name, operands(name, fields)) for snake, name, fields in rows if not is_skipped(name)]


def rules(rows):
    variants, defs = [], []
    for snake, name, ops in made(rows):
        fields, types, args, insts, results = [], [], [], [], []
        for op in ops:
            if op[0] == "normal":
                fields.append(f"({op[1]} {op[2]})"), types.append(op[2]), args.append(op[1]), insts.append(op[1])
            elif op[0] == "writable":
                fields.append(f"({op[1]} Writable{op[2]})"), insts.append(None), results.append(op[2])
            elif op[0] == "binop":
                fields += [f"(dst Writable{op[1]})", f"(src1 {op[2]})", f"(src2 {op[3]})"]
                types += op[2:]
                args += ["src1", "src2"]
                insts += [None, "src1", "src2"]
                results.append(op[1])
            else:
                fields.append("(code TrapCode)"), types.append("TrapCode"), args.append("code"), insts.append("code")
        variants.append(f"({name} {' '.join(fields)})" if fields else name)
        names = ["dst"] if len(results) == 1 else ["dst1", "dst2"]
        left = iter(names)
        raw = f"(RawInst.{name} {' '.join(next(left) if one is None else one for one in insts)})"
        lets = " ".join(f"({to} Writable{ty} (temp_writable_{ty.lower()}))" for to, ty in zip(names, results))
        if not results:
            answer, body = "SideEffectNoResult", f"(SideEffectNoResult.Inst {raw})"
        elif len(results) == 1:
            answer, body = results[0], f"(let ({lets} (_ Unit (emit {raw}))) dst)"
        else:
            answer, body = "ValueRegs", f"(let ({lets} (_ Unit (emit {raw}))) (value_regs dst1 dst2))"
        defs.append(f"(decl pulley_{snake} ({' '.join(types)}) {answer})")
        defs.append(f"(rule (pulley_{snake} {' '.join(args)}) {body})")
    return [f"(type RawInst (enum {' '.join(variants)}))", *defs]


def is_register(ty):
    return "Reg" in ty


def display_arm(snake, name, ops):
    pat, form, local = "", snake, ""
    for at, op in enumerate(ops):
        if op[0] in ("normal", "writable"):
            pat += op[1] + ","
            form += ("" if at == 0 else ",") + " {" + op[1] + (":?}" if op[2] == "UpperXRegSet" else "}")
            if op[0] == "writable" and is_register(op[2]):
                local += f"let {op[1]} = RegNameDisplay(*{op[1]}.to_reg());"
            elif op[0] == "normal" and is_register(op[2]) and op[2] != "UpperXRegSet":
                local += f"let {op[1]} = RegNameDisplay(**{op[1]});"
        elif op[0] == "binop":
            pat += "dst, src1, src2,"
            form += " {dst}, {src1}, {src2}"
            local += "let dst = RegNameDisplay(*dst.to_reg()); let src1 = RegNameDisplay(**src1);"
            local += "let src2 = RegNameDisplay(**src2);" if is_register(op[3]) else ""
        else:
            pat += "code,"
            form += " // trap={code:?}"
    return pat, f'RawInst::{name} {{ {pat} }} => {{ {local} write!(f, "{form}") }}'


def visit_arm(name, ops):
    some, uses, defs, addresses = "", "", "", ""
    for op in ops:
        if op[0] in ("normal", "writable"):
            kept = not (op[2] == "UpperXRegSet" and name in ("PushFrameSave", "PopFrameRestore"))
            if is_register(op[2]) and kept:
                some += op[1] + ","
                if op[0] == "normal":
                    uses += f"collector.reg_use({op[1]});"
                else:
                    defs += f"collector.reg_def({op[1]});"
            elif op[0] == "normal" and op[2].startswith("Addr") and not is_register(op[2]):
                some += op[1] + ","
                addresses += f"{op[1]}.collect_operands(collector);"
        elif op[0] == "binop":
            some += "dst, src1," + ("src2," if is_register(op[3]) else "")
            uses += "collector.reg_use(src1);" + ("collector.reg_use(src2);" if is_register(op[3]) else "")
            defs += "collector.reg_def(dst);"
    return f"RawInst::{name} {{ {some} .. }} => {{ {uses} {defs} {addresses} }}"


def emit_arm(snake, name, ops, pat):
    trap = "sink.add_trap(code);" if any(op[0] == "trap" for op in ops) else ""
    args = ""
    for op in ops:
        if op[0] in ("normal", "writable"):
            args += op[1] + ","
        elif op[0] == "binop":
            args += "pulley_interpreter::regs::BinaryOperands::new(dst, src1, src2),"
    return f"RawInst::{name} {{ {pat} }} => {{ {trap} pulley_interpreter::encode::{snake}(sink, {args}) }}"


def rust(rows):
    shown, visited, emitted = "", "", ""
    for snake, name, ops in made(rows):
        pat, arm = display_arm(snake, name, ops)
        shown += arm
        visited += visit_arm(name, ops)
        emitted += emit_arm(snake, name, ops, pat)
    return f"""impl<'a> std::fmt::Display for RawInstDisplay<'a> {{
fn fmt(&self, f: &mut std::fmt::Formatter<'_>) -> std::fmt::Result {{ let inst = self.0; match inst {{ {shown} }} }} }}
pub fn get_operands(inst: &mut RawInst, collector: &mut impl OperandVisitor) {{ match inst {{ {visited} }} }}
pub fn emit<P>(inst: &RawInst, sink: &mut MachBuffer<InstAndKind<P>>) where P: PulleyTargetKind, {{ match *inst {{ {emitted} }} }}"""


def spelt(ty):
    """A type as the notation of rows has it."""
    binary = re.fullmatch(r"BinaryOperands < (.*) >", ty)
    if binary and all(re.fullmatch(r"\w+", part) for part in binary.group(1).split(", ")):
        return f"(binary {' '.join(binary.group(1).split(', '))})"
    if ty == S:
        return "(upper)"
    if re.fullmatch(r"\w+", ty):
        return ty
    return "(words " + " ".join(word or "_" for word in ty.split(" ")) + ")"


def written(row, kind="op"):
    snake, name, fields = row
    said = "".join(f" ({field} {spelt(ty)})" for field, ty in fields)
    return f"({kind} {snake} {name or chr(39) * 2}{said})"


def block(lines):
    return "".join(f"| {line}\n" for line in lines)


def told(name, shape):
    return f"status 4\nerr isle: unsupported {name}: {shape}\\n\nfails dir 1\n"


def texts(name, ops, extended):
    """Cases of both texts of these rows."""
    given = block([written(row) for row in ops] + [written(row, "ext-op") for row in extended])
    tables = f"tables\n{given}" if given else ""
    print(f"= rules: {name}\n$ prelude pulley\n{tables}tokens\n{block(rules(ops + extended))}")
    print(f"= Rust: {name}\n$ prelude pulley-rust\n{tables}tokens\n{block(rust(ops + extended).splitlines())}")


def across_lists():
    """Cases of names that repeat across lists, or don't."""
    form = "(format Plain (values 0) (blocks 0) (raw 0))"
    for what, first, row, name in (
        ("an assembler's term and an instruction", "(inst x64_bad X64Bad Plain (in) (out 0))", "(x64 op bad ())", "bad"),
        ("a raw term and an instruction", "(inst x64_bad_raw X64Bad Plain (in) (out 0))", "(x64 op bad ())", "bad"),
        ("an operation's term and an instruction", "(inst pulley_bad PulleyBad Plain (in) (out 0))", "(op bad Bad)", "Bad"),
        ("an extended operation's term and an instruction", "(inst pulley_bad PulleyBad Plain (in) (out 0))", "(ext-op bad Bad)", "Bad"),
    ):
        for kind in ("clif-lower", "assembler", "pulley-rust"):
            print(f"= {what}: prelude {kind}\n$ prelude {kind}\ntables\n{block([form, first, row])}{told(name, 'RepeatedName')}")
    for what, first, row in (
        ("an assembler's row that is left out and an instruction", "(inst x64_bad X64Bad Plain (in) (out 0))", "(x64 push bad ())"),
        ("a skipped operation and an instruction", "(inst pulley_bad PulleyBad Plain (in) (out 0))", "(op bad Jump)"),
        ("an operation named as an assembler's row", "(x64 op bad ())", "(op bad Bad)"),
    ):
        print(f"= supported: {what}\n$ prelude clif-lower\ntables\n{block([form, first, row])}holds\n| (type Block extern (enum))\n")
    for kind in ("clif-opt", "clif-lower", "assembler", "assembler-rust", "pulley", "pulley-rust"):
        for row, name, shape in (("(x64 op bad ((i 8 imm w)))", "bad", "WrittenImm"), ("(ext-op bad Bad (x fn))", "Bad", "FieldType")):
            print(f"= whole tables are checked: prelude {kind}, {shape}\n$ prelude {kind}\ntables\n{block([row])}{told(name, shape)}")
    for kind in ("numerics", "numerics-rust"):
        print(f"= no tables are checked: prelude {kind}\n$ prelude {kind}\ntables\n| (op bad Bad (x fn))\nlines 0 nothing\n")


def main():
    print("# The two texts of Pulley's operations over rows of all kinds, rows that aren't supported, and names that repeat across lists, by tools/pulley_cases.py.\n")
    texts("no rows", [], [])
    for at in range(0, len(ROWS), 8):
        texts(f"rows {at + 1} to {min(at + 8, len(ROWS))}", ROWS[at:at + 5], ROWS[at + 5:at + 8])
    texts("all rows", ROWS[:30], ROWS[30:])
    for at, (before, row, shape) in enumerate(REFUSED, 1):
        if shape is None:
            texts(f"supported {at}", before, [row])
            continue
        ending = told(row[1], shape)
        print(f"= refused {at}, of the first list: {shape}\n$ prelude pulley\ntables\n{block([written(one) for one in [*before, row]])}{ending}")
        good = [written(one) for one in [("good", "Good", [("dst", X), ("src", F)]), *before]]
        print(f"= refused {at}, of the second list after good rows: {shape}\n$ prelude pulley-rust\ntables\n{block([*good, written(row, 'ext-op')])}{ending}")
    across_lists()


if __name__ == "__main__":
    main()
