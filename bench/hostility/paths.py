"""Where the program and what it is tried on stand."""
import pathlib

ROOT = pathlib.Path(__file__).resolve().parent.parent.parent
PROGRAM = ROOT / "crates" / "isle_program" / "out" / "isle_program"
EXAMPLES = ROOT / "examples"
