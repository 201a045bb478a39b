"""The lines that are run, with the files that stand where they run."""
import re
import subprocess
import typing

import shapes
from hostility.paths import EXAMPLES, PROGRAM
from hostility.running import lay, run
from hostility.sharing import share


class Row(typing.NamedTuple):
    """A run: its words, and the files that stand where it runs; a name that ends in `/` is a folder."""
    words: list
    files: dict = {}
    name: str = ""

    def shown(self):
        words = [word if len(word) <= 100 else f"{word[:60]}.." for word in self.words]
        return self.name or " ".join(words[:8])


NUMBERS = """(decl partial X (i64) i64) (rule (X -1) -2) (rule (X -2) -3) (rule (X 0x7fff_ffff_ffff_ffff) 0x8000_0000_0000_0000)
(rule (X 0xffff_ffff_ffff_fff0) 1) (decl partial Z (i64) i64) (rule (Z 0o7654321) 0b11_00_11_00)
"""
TYPES = """(type A (struct u32 u32)) (type B (enum (Ba (x u32)) (Bb u32 u32 u32))) (type D (enum (Da A) (Db B) Dc)) (type UnitStruct (struct))
(type UninhabitedEnum (enum)) (decl lower (D) B) (rule (lower (D.Da (A x _))) (B.Ba x)) (rule (lower (D.Db (B.Ba x))) (B.Bb x x x))
(rule (lower (D.Db (B.Bb _ _ z))) (B.Ba z)) (rule (lower (D.Dc)) (B.Ba 42))
"""
SEVERAL = "(decl multi m (u8) u8) (rule (m x) 1) (rule (m x) 2) (rule (m x) 3)\n"
SIMPLIFY = "(rule (simplify (iadd ty x (iconst ty (u64_from_imm64 0)))) x)\n"
OVERLAPS = "(decl t (u8 u8) u8)\n(rule (t 1 _) 1)\n(rule (t _ 2) 2)\n(rule 1 (t x y) 3)\n(rule 0 (t x 3) 4)\n"
KINDS = ["numerics", "numerics-rust", "clif-opt", "clif-lower", "assembler", "assembler-rust", "pulley", "pulley-rust"]


def unit_files(unit, changed={}):
    """The tracked files of a unit, those of examples/unit where it has them and others empty."""
    listed = subprocess.run([PROGRAM, "units"], capture_output=True, text=True, check=True).stdout
    names = [line.strip() for line in re.search(rf"^{unit} .*\n((?:  .*\n)*)", listed, flags=re.M)[1].splitlines()]
    tracked = [name for name in names if name.startswith("src/")]
    made = {name: (EXAMPLES / "unit" / name).read_text() if (EXAMPLES / "unit" / name).exists() else "" for name in tracked}
    return {**made, "answers": (EXAMPLES / "unit" / "answers").read_text(), **changed}


def example(*names):
    return {name: (EXAMPLES / name).read_text() for name in names}


def worked_rows():
    """Runs that end in 0."""
    several = {"a.isle": SEVERAL, "answers": "(held 98)\n"}
    unit = unit_files("opt", {"src/opts/arithmetic.isle": SIMPLIFY})
    ops = example("ops.isle", "ops.answers")
    return [
        Row(["compile", "a.isle"], {"a.isle": NUMBERS}, "`compile` of numbers in all spellings"),
        Row(["run", "a.isle", "X", "(-1)"], {"a.isle": NUMBERS}, "`run` of the same"),
        Row(["compile", "a.isle"], {"a.isle": TYPES}, "`compile` of enums and structs in one another"),
        Row(["run", "a.isle", "lower", "((D.Db (B.Ba 6)))"], {"a.isle": TYPES}, "`run` of the same"),
        Row(["compile", "a.isle"], several, "`compile` of a `multi` term"),
        Row(["run", "a.isle", "m", "(0)", "--answers", "answers"], several, "`run` of the same, its list nearly full"),
        Row(["compile", "--log", "--split", "--threshold", "0", "ops.isle"], ops, "`compile` of `examples/ops.isle`, with `--log`"),
        Row(["run", "ops.isle", "lower", "((Op.Add (Size.Long) 3 31))", "--answers", "ops.answers"], ops, "`run` of the same"),
        Row(["build", "opt"], unit, "`build opt`"),
        Row(["run", "unit:opt", "simplify", "(10)", "--answers", "answers"], unit, "`run unit:opt`"),
        Row(["run", "--trace", "unit:opt", "simplify", "(10)", "--answers", "answers"], unit, "`run --trace unit:opt`"),
        *(Row(["prelude", kind], {}, f"`prelude {kind}`") for kind in KINDS),
        Row(["units"], {}, "`units`"),
        Row(["isa", "x86"], {}, "`isa x86`"),
        Row(["sample", "2"], {}, "`sample 2`"),
        Row(["--help"], {}, "`--help`"),
    ]


def faulty_rows():
    """Runs that end in another status, with lines on standard error."""
    missing = unit_files("opt")
    del missing["src/prelude.isle"]
    return [
        Row(["compile", "a.isle"], {"a.isle": "(decl t (u8) u8)\n(rule (t x) x\n"}, "a parse error"),
        Row(["compile", "a.isle"], {"a.isle": "(decl t (u8) u8)\n(rule (t x) y)\n"}, "a type error"),
        Row(["compile", "a.isle"], {"a.isle": OVERLAPS}, "overlaps and a shadowed rule"),
        Row(["compile", "a.isle"], {"a.isle": shapes.unmarked_ring(5)}, "terms that use themselves"),
        Row(["compile", "a.isle"], {"a.isle": "(extern const $v0 u8)\n"}, "a bad name"),
        Row(["run", "a.isle", "n", "(0)"], {"a.isle": SEVERAL}, "no such term"),
        Row(["run", "a.isle", "m", "(300)"], {"a.isle": SEVERAL}, "a value of another type"),
        Row(["run", "a.isle", "m", "(0)", "--answers", "t"], {"a.isle": SEVERAL, "t": "(held x)"}, "bad answers"),
        Row(["compile", "absent.isle"], {}, "an absent file"),
        Row(["compile", "folder"], {"folder/": ""}, "a folder in place of a file"),
        Row(["compile", "a.isle"], {"a.isle": b"(decl \xff\n"}, "a text that isn't UTF-8"),
        Row(["build", "opt"], missing, "a unit without a file"),
        Row(["build", "none"], {}, "no such unit"),
        Row(["prelude", "none"], {}, "no such word"),
    ]


def laid(work, rows):
    """Lays each row's files into a folder of its own, and returns the folders."""
    folders = [work / f"row-{number}" for number in range(len(rows))]
    for folder, row in zip(folders, rows):
        folder.mkdir()
        lay(folder, row.files)
    return folders


def share_laid(work, rows):
    """Shares rows with their folders, without their texts, which would count as memory of the runs."""
    share([(folder, row._replace(files={}), None) for folder, row in zip(laid(work, rows), rows)])


def based(work, rows):
    """Each row with its folder and with how it ends where nothing is refused, as (folder, row, end)."""
    return [(folder, row, run(folder, row.words)) for folder, row in zip(laid(work, rows), rows)]
