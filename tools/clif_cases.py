#!/usr/bin/env python3
"""Prints cases of the two files of instructions, over tables with all kinds of operands.

    tools/clif_cases.py > crates/isle_cases/data/prelude_tables.cases

What is wanted is worked out here from the tables alone, by the rules that `docs/LANGUAGE.md` tells.
"""
WRITTEN_TYPES = ["Type", "Value", "Inst", "ValueList", "ValueSlice", "BlockCall"]


class Imm:
    def __init__(self, member, rust_type, values=None):
        self.member, self.rust_type, self.values = member, rust_type, values

    def short(self):
        return self.rust_type.split("::")[-1]

    def row(self):
        values = "" if self.values is None else " (one-of" + "".join(" " + value for value in self.values) + ")"
        return f"(imm {self.member} {self.rust_type}{values})"


class Format:
    def __init__(self, name, has_list, values, blocks, raw, imms=(), typevar=None):
        self.name, self.has_list, self.values, self.blocks, self.raw = name, has_list, values, blocks, raw
        self.imms, self.typevar = list(imms), typevar

    def row(self):
        has_list = " list" if self.has_list else ""
        typevar = "" if self.typevar is None else f" (typevar {self.typevar})"
        imms = "".join(" " + imm.row() for imm in self.imms)
        return f"(format {self.name}{has_list} (values {self.values}) (blocks {self.blocks}) (raw {self.raw}){typevar}{imms})"

    def variant(self):
        fields = ["(opcode Opcode)"]
        if self.has_list:
            fields.append("(args ValueList)")
        elif self.values == 1:
            fields.append("(arg Value)")
        elif self.values > 1:
            fields.append(f"(args ValueArray{self.values})")
        if self.blocks == 1:
            fields.append("(destination BlockCall)")
        elif self.blocks > 1:
            fields.append(f"(blocks BlockArray{self.blocks})")
        if self.raw == 1:
            fields.append("(block Block)")
        fields += [f"({imm.member} {imm.short()})" for imm in self.imms]
        return f"({self.name} {' '.join(fields)})"


class Inst:
    def __init__(self, name, camel, of, results=1, trap=False, effect=False):
        self.name, self.camel, self.of, self.results, self.trap, self.effect = name, camel, of, results, trap, effect
        self.values = [f"v{i}" for i in range(of.values)]
        self.rest = ["rest"] if of.has_list else []
        self.blocks = [f"b{i}" for i in range(of.blocks)]
        self.raw = [f"r{i}" for i in range(of.raw)]
        self.imms = [f"n{i}" for i in range(len(of.imms))]

    def row(self):
        operands = [f"(value {x})" for x in self.values] + [f"(varargs {x})" for x in self.rest]
        operands += [f"(block {x})" for x in self.blocks] + [f"(raw {x})" for x in self.raw]
        operands += [f"(imm {x} {imm.rust_type})" for x, imm in zip(self.imms, self.of.imms)]
        flags = (" trap" if self.trap else "") + (" effect" if self.effect else "")
        return f"(inst {self.name} {self.camel} {self.of.name} (in{''.join(' ' + o for o in operands)}) (out {self.results}){flags})"

    def names(self):
        return self.values + self.rest + self.blocks + self.raw + self.imms

    def types(self):
        return (["Value"] * len(self.values) + ["ValueSlice"] * len(self.rest) + ["BlockCall"] * len(self.blocks)
                + ["Block"] * len(self.raw) + [imm.short() for imm in self.of.imms])

    def data(self, array):
        parts = [f"(Opcode.{self.camel})"]
        if self.of.has_list:
            names = " ".join(self.values + self.rest)
            parts.append(f"(unwrap_head_value_list_{len(self.values)} {names})" if self.values else f"(value_list_slice {names})")
        elif len(self.values) == 1:
            parts += self.values
        elif self.values:
            parts.append(f"({array.format(len(self.values))} {' '.join(self.values)})")
        if len(self.blocks) > 1:
            parts.append(f"(block_array_{len(self.blocks)} {' '.join(self.blocks)})")
        else:
            parts += self.blocks
        return f"(InstructionData.{self.of.name} {' '.join(parts + self.raw + self.imms)})"


def listed(head, items):
    """A type whose variants stand on lines of their own, if there are any."""
    return [f"(type {head} extern (enum" + "".join("\n  " + item for item in items) + "))"]


def common(formats, insts):
    fields = [imm for f in formats for imm in f.imms]
    lines = [f"(type {x} (primitive {x}))" for x in sorted({imm.short() for imm in fields if imm.values is None})]
    lines.append("(type MemFlagsData (primitive MemFlagsData))")
    valued = {imm.short(): sorted(imm.values) for imm in fields if imm.values is not None}
    for name in sorted(valued):
        lines += listed(name, valued[name])
    for n in sorted({f.values for f in formats if f.typevar is not None and not f.has_list and f.values != 1}):
        lines += array("Value", "value", "Value", n)
    for n in sorted({f.blocks for f in formats if f.blocks > 1}):
        lines += array("Block", "block", "BlockCall", n)
    lines.append("(type Block extern (enum))")
    lines += listed("Opcode", [i.camel for i in insts])
    lines += listed("InstructionData", [f.variant() for f in formats])
    return lines


def array(kind, low, item, n):
    ty, term = f"{kind}Array{n}", f"{low}_array_{n}"
    return [f"(type {ty} extern (enum))", f"(decl {term} ({' '.join([item] * n)}) {ty})",
            f"(extern constructor {term} pack_{term})", f"(extern extractor infallible {term} unpack_{term})"]


def words(*parts):
    return " ".join(part for part in parts if part)


def instruction(i, ret, typed, taker, ty, maker):
    ty_name, ty_type = ("ty", "Type") if typed else ("", "")
    lines = [f"(decl {i.name} ({words(ty_type, *i.types())}) {ret})",
             f"(extractor ({words(i.name, ty_name, *i.names())}) ({words(taker, ty, i.data('value_array_{}'))}))"]
    if maker:
        lines.append(f"(rule ({words(i.name, ty_name, *i.names())}) ({words(maker, ty_name, i.data('value_array_{}_ctor'))}))")
    return lines


def opt(formats, insts):
    lines = common(formats, insts)
    for i in insts:
        if i.of.has_list:
            continue
        if i.results == 1 and not i.trap and not i.effect:
            lines += instruction(i, "Value", True, "inst_data_value", "ty", "make_inst")
        else:
            lines += instruction(i, "Inst", False, "inst_data", "", "make_skeleton_inst")
    return lines


def lower(formats, insts):
    lines = common(formats, insts)
    for i in insts:
        typed = not i.of.has_list and i.results >= 1
        lines += instruction(i, "Inst", typed, "inst_data_value", "ty" if typed else "_", None)
    return lines


def written(formats):
    lines = [f"(type {x} (primitive {x}))" for x in WRITTEN_TYPES]
    for term, args, ret in [("make_inst", "Type InstructionData", "Value"), ("make_skeleton_inst", "InstructionData", "Inst")]:
        lines += [f"(decl {term} ({args}) {ret})", f"(extern constructor {term} {term})"]
    lines += ["(decl pure multi inst_data_value (Type InstructionData) Value)", "(extern extractor inst_data_value inst_data_value)",
              "(decl pure inst_data (InstructionData) Inst)", "(extern extractor inst_data inst_data)"]
    for n in sorted({f.values for f in formats if f.typevar is not None and not f.has_list and f.values > 1}):
        term = f"value_array_{n}_ctor"
        lines += [f"(decl pure {term} ({' '.join(['Value'] * n)}) ValueArray{n})", f"(extern constructor {term} {term})"]
    return lines


def block(lines):
    return "".join(f"| {line}\n" for line in "\n".join(lines).split("\n"))


def tables():
    """Tables by what their formats have: each kind of values by each number of blocks, raw blocks and immediates."""
    imm64 = Imm("imm", "ir::immediates::Imm64")
    cond = Imm("cond", "ir::condcodes::IntCC", ["Equal", "SignedLessThan", "NotEqual"])
    flags = Imm("flags", "ir::Flags", [])
    some = [[], [imm64], [cond, imm64], [Imm("code", "TrapCode"), flags]]
    for has_list in [False, True]:
        for values in range(4):
            for blocks in range(3):
                for turn in range(2):
                    at = values + blocks + turn
                    imms = some[at % 4]
                    typevar = 0 if values and not (values == 3 and has_list) else None
                    made = Format("First", has_list, values, blocks, at % 2, imms, typevar)
                    plain = Format("Second", False, 2, 0, 0, [imm64] if at % 3 == 0 else [], 1)
                    insts = [Inst("one", "One", made, results=at % 3, trap=at % 5 == 1, effect=at % 4 == 2),
                             Inst("two", "Two", plain, results=1 + at % 2), Inst("move", "Move", made, results=1)]
                    kind = "a list after" if has_list else "no list,"
                    yield f"{kind} {values} values, {blocks} blocks, {at % 2} raw, {len(imms)} immediates", [made, plain], insts


def main():
    print("# The two files of instructions over tables of all kinds of operands, by tools/clif_cases.py.\n")
    for name, formats, insts in tables():
        rows = block([row.row() for row in formats + insts])
        print(f"= opt: {name}\n$ prelude clif-opt\ntables\n{rows}out\n{block(opt(formats, insts))}")
        print(f"= lower: {name}\n$ prelude clif-lower\ntables\n{rows}out\n{block(lower(formats, insts))}")
        print(f"= compiled: {name}\n$ compile written opt\ntables\n{rows}file written\n{block(written(formats))}"
              f"made opt prelude clif-opt\nlines 0 nothing\n")


if __name__ == "__main__":
    main()
