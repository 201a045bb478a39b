#!/usr/bin/env python3
"""Writes the cases of units and targets, worked out apart from the crates.

    tools/unit_cases.py > crates/isle_cases/data/units.cases
"""
from unit_lines import ARCHES, GROUPS, OPTS, UNITS, unit

LINES = {name: lines for name, lines in GROUPS}
FILES = {made[0]: unit(*made) for made in UNITS}
PRELUDE = [f"(type {name} (primitive {name}))" for name in "Type Value Inst ValueList ValueSlice BlockCall".split()]
PRELUDE_OPT = """
(decl make_inst (Type InstructionData) Value)
(extern constructor make_inst make_inst)
(decl make_skeleton_inst (InstructionData) Inst)
(extern constructor make_skeleton_inst make_skeleton_inst)
(decl pure multi inst_data_value (Type InstructionData) Value)
(extern extractor inst_data_value inst_data_value)
(decl pure inst_data (InstructionData) Inst)
(extern extractor inst_data inst_data)
(decl pure value_array_2_ctor (Value Value) ValueArray2)
(extern constructor value_array_2_ctor value_array_2_ctor)
(decl pure u64_from_imm64 (u64) Imm64)
(extern extractor infallible u64_from_imm64 u64_from_imm64)
""".strip().splitlines()
PRELUDE_LOWER = """
(decl inst_data_value (Type InstructionData) Inst)
(extern extractor inst_data_value inst_data_value)
""".strip().splitlines()
SIMPLIFY = ["(decl multi simplify (Value) Value)", "(rule (simplify (iadd ty x (iconst ty (u64_from_imm64 0)))) x)"]
ANSWERS = """
(answers C::inst_data_value (case (10) (list (tuple 32 (InstructionData.Binary (Opcode.Iadd) 20))))
 (case (2) (list (tuple 32 (InstructionData.UnaryImm (Opcode.Iconst) 0)))) (rest (list)))
(answers C::unpack_value_array_2 (case (20) (tuple 1 2)) (rest (tuple 0 0)))
(answers C::u64_from_imm64 (rest 0))
""".strip().splitlines()
# what generated terms of an assembler name
MACHINE = [f"(type {name} (primitive {name}))" for name in "MInst Gpr Xmm ValueRegs Unit".split()]
MACHINE += """
(type SideEffectNoResult (enum (Inst (inst MInst))))
(decl emit (MInst) Unit)
(extern constructor emit emit)
""".strip().splitlines()
# rules of a unit that has little in it
LOWER = """
(decl partial lower (u8) u8)
(rule 1 (lower 0) 1)
(rule 0 (lower (u8_extract_even x)) (u8_wrapping_add x x))
""".strip().splitlines()


def text(key, lines):
    return "\n".join([key] + [f"| {line}" for line in lines])


def case(name, words, *parts):
    print("\n".join([f"= {name}", f"$ {words}", *parts]) + "\n")


def opt_files(**texts):
    """The tracked files of the unit of optimizations; those without a text are empty."""
    own = {"src/prelude.isle": PRELUDE, "src/prelude_opt.isle": PRELUDE_OPT, "src/opts/arithmetic.isle": SIMPLIFY, **texts}
    paths = ["src/prelude.isle", "src/prelude_opt.isle"] + [f"src/opts/{word}.isle" for word in OPTS.split()]
    return [text(f"file {path}", own[path]) if path in own else f"file {path}" for path in paths]


def s390x_files(lower=LOWER):
    """The tracked files of the unit of lowering to s390x."""
    paths = [line.strip() for line in FILES["s390x"][1:] if line.startswith("  src/")]
    own = {paths[0]: PRELUDE, paths[1]: PRELUDE_LOWER, paths[-1]: lower}
    return [text(f"file {path}", own[path]) if path in own else f"file {path}" for path in paths]


def unread():
    """Each file of a unit that isn't read, and each call of the directory that fails."""
    print("# A file of a unit that isn't read, in each place; the first such one counts.\n")
    paths = [line.strip() for line in FILES["s390x"][1:] if line.startswith("  src/")]
    causes = {"absent": None, "not utf-8": "\\xff", "too long": "\\16777217{ }"}
    for at, path in enumerate(paths):
        for cause, bad in causes.items():
            if cause == "too long" and at not in (0, len(paths) - 1):
                continue
            files = s390x_files()
            files[at] = f"file {path} {bad}" if bad else f"file {path}/inner"
            after = [f"file {other} \\xff" for other in paths[at + 1 : at + 2]]
            if after:
                files[at + 1] = after[0]
            case(f"{cause}: {path}, and one after it isn't UTF-8" if after else f"{cause}: {path}", "build s390x", *files, "status 5", f"err isle: cannot read file {path}: {cause}\\n")
    print("# A call of the directory that fails: of each file the look-up, a piece if it has one, and its end.\n")
    calls = [path for path in paths for _ in range(2 if path.endswith("inst.isle") else 3)]
    for call, path in enumerate(calls, 1):
        case(f"call {call} fails", "build s390x", *s390x_files(), f"fails dir {call}", "status 5", f"err isle: cannot read file {path}: fault\\n")
    case("no call is left", "build s390x", *s390x_files(), f"fails dir {len(calls) + 1}", "holds pub fn constructor_lower<C: Context>(")


def listed():
    print("# Units, and the texts that are built of them; targets.\n")
    case("all units", "units", text("out", [line for name in FILES for line in FILES[name]]))
    words = [name for name, _ in GROUPS] + [word for word, target in ARCHES if target and word not in LINES]
    targets = dict(ARCHES)
    for word in words:
        case(f"the settings of {word}", f"isa {word}", text("out", LINES[word if word in LINES else targets[word]]))
    case("no target: mips", "isa mips", "status 2", "err no supported isa found for arch `mips`\\n")


def built():
    print("# A unit is built of its files and of those made of the tables.\n")
    case("opt, over the program's own tables", "build opt", *opt_files(),
         "holds pub fn constructor_simplify<C: Context>(")
    case("its one rule is run", "run unit:opt simplify (10) --answers t", *opt_files(), text("file t", ANSWERS), "out [1]\\n")
    case("no rule matches", "run unit:opt simplify (1) --answers t", *opt_files(), text("file t", ANSWERS), "out []\\n")
    case("each call is shown where a run is traced", "run --trace unit:opt simplify (10) --answers t", *opt_files(), text("file t", ANSWERS), text("holds", [
        "pub fn constructor_simplify<C: Context>(", "[1]", "call C::inst_data_value 10", "call C::unpack_value_array_2 20",
        "call C::inst_data_value 2", "call C::u64_from_imm64 0"]))
    case("lowering to s390x", "build s390x", *s390x_files(), "holds pub fn constructor_lower<C: Context>(")
    case("one of its rules is run", "run unit:s390x lower (4) --answers t", *s390x_files(),
         text("file t", ["(answers C::u8_matches_even (rest (some true)))", "(answers C::u8_wrapping_add (rest 8))"]), "out Some(8)\\n")
    for name in ("x64", "aarch64", "riscv64", "pulley"):
        paths = [line.strip() for line in FILES[name][1:] if line.startswith("  src/")]
        own = {paths[0]: PRELUDE, paths[1]: PRELUDE_LOWER, paths[2]: MACHINE if name == "x64" else [], paths[-1]: LOWER}
        files = [text(f"file {path}", own[path]) if path in own else f"file {path}" for path in paths]
        case(f"{name}, of files that have little in them", f"build {name}", *files, text("holds", ["pub fn constructor_lower<C: Context>("]
             + [line.strip() for line in FILES[name][1:]]))
    case("a file whose name is that of a generated one is not read", "build s390x", *s390x_files(), "file gen/numerics.isle (", "file gen/clif_lower.isle (",
         "holds pub fn constructor_lower<C: Context>(")
    case("generated files are named as printed", "build --prefix gen=made --prefix src=own s390x", *s390x_files(), text("holds", [
        "made/numerics.isle", "made/clif_lower.isle", "own/isa/s390x/lower.isle"]))


def refused():
    print("# Units that aren't built.\n")
    case("no unit of the name", "build mips", "status 3", "err isle: no unit mips\\n")
    case("the name of a unit's folder is none", "build pulley_shared", "status 3", "err isle: no unit pulley_shared\\n")
    case("no unit, though the tables are wrong too", "run unit:mips f ()", text("tables", ["(format Two (values 0) (blocks 0) (raw 2))"]),
         "status 3", "err isle: no unit mips\\n")
    case("a row that isn't supported comes before all files", "build opt", text("tables", ["(format Two (values 0) (blocks 0) (raw 2))"]),
         "fails dir 1", "status 4", "err isle: unsupported Two: RawBlockCount\\n")
    case("so it does in a run", "run unit:opt f ()", text("tables", ["(format Two (values 0) (blocks 0) (raw 2))"]),
         "fails dir 1", "status 4", "err isle: unsupported Two: RawBlockCount\\n")
    case("of absent files the first one counts", "build s390x", *s390x_files()[:1], "status 5",
         "err isle: cannot read file src/prelude_lower.isle: absent\\n")
    case("a file is told by its own name", "build --prefix src=own s390x", "status 5", "err isle: cannot read file src/prelude.isle: absent\\n")
    case("a call that fails", "build s390x", *s390x_files(), "fails dir 1", "status 5", "err isle: cannot read file src/prelude.isle: fault\\n")
    case("the file of answers comes after those of the unit", "run unit:s390x lower (4) --answers t", *s390x_files(), "status 5",
         "err isle: cannot read file t: absent\\n")
    case("a fault of the grammar, in a tracked file", "build --prefix src=own s390x", *s390x_files(["("]), "status 6",
         "err own/isa/s390x/lower.isle:2:1: parse error: expected the first word of a definition, found the end of the file\\n")
    case("a fault of typing, in a tracked file", "build s390x", *s390x_files(["(rule (f) 1)"]), "status 7",
         "err src/isa/s390x/lower.isle:1:1: type error: term 'f' is not declared\\n")
    case("a fault of typing, in a generated file", "build s390x", *s390x_files(["(decl u8_eq (u8 u8) bool)"]), "status 7",
         "err gen/numerics.isle:123:1: type error: term 'u8_eq' is declared twice\\n")
    case("no term of the name", "run unit:s390x raise (4)", *s390x_files(), "status 13", "err isle: no term raise\\n")


listed()
built()
unread()
refused()
