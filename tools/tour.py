"""The lines of docs/TOUR.md, each run once, with no proof, in the time of one."""
import pathlib
import re
import shlex
import subprocess
import sys
import tempfile

LINE = re.compile(r"^    (?:\$ )?\./isle (?!--build|--tour)(.*)$", re.M)


def lines(root):
    """The lines that the tour shows, each as it stands."""
    return list(dict.fromkeys(LINE.findall((root / "docs" / "TOUR.md").read_text())))


def lay(folder, found):
    """Lays a case for each line into a folder: nothing on standard input, and its words."""
    for number, line in enumerate(found):
        (folder / f"{number:02}").write_text("")
        (folder / f"{number:02}.args").write_text("".join(word + "\n" for word in shlex.split(line)))


def walk(root):
    """Runs them, and shows each with what it writes. The status is 0 where all gave an answer."""
    found = lines(root)
    names = sorted({word for line in found for word in shlex.split(line) if (root / word).is_file()})
    data = [argument for name in names for argument in ["--data", f"{name}={root / name}"]]
    print(f"isle: {len(found)} lines are run, unproved; the program is made first, which takes a minute or two", file=sys.stderr, flush=True)
    with tempfile.TemporaryDirectory(prefix="tour-") as folder:
        lay(pathlib.Path(folder), found)
        ran = subprocess.run(["rt", "try", *data, "--cases", folder], cwd=root / "crates" / "isle_program", stdin=subprocess.DEVNULL,
                             stdout=subprocess.PIPE, stderr=subprocess.STDOUT, text=True, errors="replace")
    for number, line in enumerate(found):
        told = re.search(rf"^== {number:02}\n(.*?)^case={number:02} run=ended status=(\d+)", ran.stdout, re.S | re.M)
        status = f"(status {told[2]})\n" if told and told[2] != "0" else ""
        print(f"$ ./isle {line}\n{told[1] if told else ran.stdout}{status}")
    return 0 if ran.returncode in (0, 4, 5, 6) else ran.returncode
