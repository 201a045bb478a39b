#!/usr/bin/env python3
"""Prints the lines that `library_calls` of isle_cases writes of targets and units, worked out apart from the crates.

    tools/unit_lines.py >> crates/isle_cases/data/library_calls.lines     (in place of those that end the file)

A preset is a name and words: `*NAME` is the flag `has_NAME`, any other word an earlier preset, with all that it enables.
"""

X86_FLAGS = """
*sse3 *ssse3 *cmpxchg16b *sse41 *sse42 *avx *avx2 *fma *avx_vnni *avx512bitalg
*avx512dq *avx512vl *avx512vbmi *avx512f *avx512vnni *apx *popcnt *bmi1 *bmi2 *lzcnt
"""
X86_PRESETS = """
sse3: *sse3
ssse3: sse3 *ssse3
sse41: ssse3 *sse41
sse42: sse41 *sse42
baseline:
nocona: sse3 *cmpxchg16b
core2: sse3 *cmpxchg16b
penryn: sse41 *cmpxchg16b
atom: ssse3 *cmpxchg16b
bonnell: atom
silvermont: atom sse42 *popcnt
slm: silvermont
goldmont: silvermont
goldmont-plus: goldmont
tremont: goldmont
alderlake: tremont *bmi1 *bmi2 *lzcnt *fma *avx_vnni
sierraforest: alderlake
grandridge: sierraforest
nehalem: sse42 *popcnt *cmpxchg16b
corei7: nehalem
westmere: nehalem
sandybridge: westmere *avx
corei7-avx: sandybridge
ivybridge: sandybridge
core-avx-i: ivybridge
haswell: ivybridge *avx2 *bmi1 *bmi2 *fma *lzcnt
core-avx2: haswell
broadwell: haswell
skylake: broadwell
knl: *popcnt *avx512f *fma *bmi1 *bmi2 *lzcnt *cmpxchg16b
knm: knl
skylake-avx512: broadwell *avx512f *avx512dq *avx512vl
skx: skylake-avx512
cascadelake: skylake-avx512 *avx512vnni
cooperlake: cascadelake
cannonlake: skylake *avx512f *avx512dq *avx512vl *avx512vbmi
icelake-client: cannonlake *avx512bitalg *avx512vnni
icelake: icelake-client
icelake-server: icelake-client
tigerlake: icelake-client
sapphirerapids: icelake-server
raptorlake: alderlake
meteorlake: alderlake
graniterapids: sapphirerapids
opteron:
k8:
athlon64:
athlon-fx:
opteron-sse3: sse3 *cmpxchg16b
k8-sse3: sse3 *cmpxchg16b
athlon64-sse3: sse3 *cmpxchg16b
barcelona: *popcnt *lzcnt *cmpxchg16b
amdfam10: barcelona
btver1: ssse3 *lzcnt *popcnt *cmpxchg16b
btver2: btver1 *avx *bmi1
bdver1: *lzcnt *popcnt ssse3 *cmpxchg16b
bdver2: bdver1 *bmi1
bdver3: bdver2
bdver4: bdver3 *avx2 *bmi2
znver1: sse42 *popcnt *bmi1 *bmi2 *lzcnt *fma *cmpxchg16b
znver2: znver1
znver3: znver2
znver4: znver3 *avx512bitalg *avx512dq *avx512f *avx512vbmi *avx512vl
x86-64:
x86-64-v2: sse42 *popcnt *cmpxchg16b
x86-64-v3: x86-64-v2 *bmi1 *bmi2 *fma *lzcnt *avx2
x86-64-v4: x86-64-v3 *avx512dq *avx512vl
"""
S390X_PRESETS = """
arch13: *mie3 *vxrs_ext2
arch14: *mie3 *vxrs_ext2
arch15: *mie3 *mie4 *vxrs_ext2 *vxrs_ext3
z15: *mie3 *vxrs_ext2
z16: *mie3 *vxrs_ext2
z17: *mie3 *mie4 *vxrs_ext2 *vxrs_ext3
"""
ARM64_FLAGS = """
*lse *pauth *fp16 *dotprod *i8mm sign_return_address_all sign_return_address sign_return_address_with_bkey use_bti use_csdb
"""
SIZES = [32 << n for n in range(12)]
RISCV_TRUE = ["*m", "*a", "*f", "*d", "*zicsr", "*zifencei"]
RISCV_FLAGS = ("*m *a *f *d *zfa *zfhmin *zfh *v *zvfh *zca *zcd *zcb *zbkb *zba *zbb *zbc *zbs *zicond *zvbb *zicsr *zifencei "
               + " ".join(f"*zvl{size}b" for size in SIZES))
RISCV_PRESETS = "has_c: *zca *zcd\n" + "\n".join(f"zvl{size}b: *zvl{size}b" + (f" zvl{size // 2}b" if size > 32 else "") for size in SIZES)


def full(word):
    return "has_" + word[1:] if word.startswith("*") else word


def group(name, flags, presets="", true=(), first=()):
    """The lines of a target's settings."""
    words = flags.split()
    lines = [name, *first] + [f"flag {full(word)} {'true' if word in true else 'false'}" for word in words]
    reached = {}
    for line in presets.strip().splitlines():
        name, _, items = line.partition(":")
        own = set()
        for word in items.split():
            own |= {word} if word.startswith("*") else reached[word]
        reached[name] = own
        lines.append(" ".join(["preset", name, *(full(word) for word in words if word in own)]))
    return lines


GROUPS = [
    ("x86", group("x86", X86_FLAGS, X86_PRESETS)),
    ("arm64", group("arm64", ARM64_FLAGS)),
    ("s390x", group("s390x", "*mie3 *vxrs_ext2 *mie4 *vxrs_ext3", S390X_PRESETS)),
    ("riscv64", group("riscv64", RISCV_FLAGS, RISCV_PRESETS, RISCV_TRUE)),
    ("pulley32", group("pulley", "big_endian", first=["enum pointer_width pointer32 pointer64"])),
    ("pulley64", group("pulley", "big_endian", first=["enum pointer_width pointer32 pointer64"])),
]
ARCHES = [("aarch64", "arm64"), ("s390x", "s390x"), ("x86_64", "x86"), ("i386", "x86"), ("i586", "x86"), ("i686", "x86"), ("riscv64", "riscv64"),
          ("riscv64gc", "riscv64"), ("riscv64imac", "riscv64"), ("pulley32", "pulley32"), ("pulley64", "pulley64"), ("mips", None), ("x86", None), ("", None)]
OPTS = "arithmetic bitops cprop extends icmp remat selects shifts skeleton spaceship spectre vector"
UNITS = [
    ("opt", "isle_opt.rs", ["src/prelude_opt.isle"] + [f"src/opts/{word}.isle" for word in OPTS.split()], ["numerics", "clif_opt"]),
    ("x64", "isle_x64.rs", ["inst", "lower"], ["numerics", "clif_lower", "assembler"]),
    ("aarch64", "isle_aarch64.rs", ["inst", "inst_neon", "lower", "lower_dynamic_neon"], ["numerics", "clif_lower"]),
    ("s390x", "isle_s390x.rs", ["inst", "lower"], ["numerics", "clif_lower"]),
    ("riscv64", "isle_riscv64.rs", ["inst", "inst_vector", "lower"], ["numerics", "clif_lower"]),
    ("pulley", "isle_pulley_shared.rs", ["inst", "lower"], ["numerics", "pulley_gen", "clif_lower"]),
]


def unit(name, output, own, made):
    """The lines of a unit."""
    lines = [f"{name} gen/{output}", "  src/prelude.isle"]
    if name == "opt":
        lines += ["  " + path for path in own]
    else:
        folder = output[len("isle_"):-len(".rs")]
        lines += ["  src/prelude_lower.isle"] + [f"  src/isa/{folder}/{word}.isle" for word in own]
    return lines + [f"  gen/{word}.isle" for word in made]


def main():
    for name, lines in GROUPS:
        print(f"target {name}")
        print("\n".join(lines))
    for word, target in ARCHES:
        print(f"arch {word}: {target}" if target else f"arch {word}: no supported isa found for arch `{word}`")
    for name, output, own, made in UNITS:
        print("\n".join(unit(name, output, own, made)))
    for path in ("src/inst_specs.isle", "src/prelude.isle", "src/prelude_lower.isle"):
        print(f"shared c/{path}")


if __name__ == "__main__":
    main()
