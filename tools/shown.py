"""Lines on standard error as a person reads them: under each that tells a place stands the line of the file, with a caret under the place."""
import pathlib
import re
import subprocess

KINDS = "parse error|type error|unreachable rule|overlap error|shadowed rule|recursion error"
ERROR = re.compile(rf"(?P<name>.+?):(?P<line>\d+):(?P<column>\d+): (?:{KINDS}): ")
ANSWERS = re.compile(r"isle: bad answers at (?P<place>\d+)$")
WIDEST = 200


def prefixes(words):
    """The prefixes of names that are printed otherwise, each with what stands for it."""
    pairs = [words[at + 1].split("=", 1) for at, word in enumerate(words[:-1]) if word == "--prefix"]
    return [pair for pair in pairs if len(pair) == 2]


def file_of(printed, words):
    """The file of a name as it is printed, if there is one: a prefix may stand for another, and an odd byte for `?`."""
    for word in words:
        name = word
        for prefix, shown in prefixes(words):
            if word.startswith(prefix):
                name = shown + word[len(prefix):]
                break
        masked = "".join("?" if char < " " else char for char in name)
        if masked == printed and pathlib.Path(word).is_file():
            return pathlib.Path(word)
    return None


def visible(data):
    """Bytes as text, of which none steers the terminal."""
    return "".join(char if char >= " " or char == "\t" else "?" for char in data.decode(errors="replace"))


def excerpt(data, line, column):
    """A line of a file, and a caret under one of its bytes; both count from 1."""
    lines = data.split(b"\n")
    if not 1 <= line <= len(lines):
        return []
    text = lines[line - 1].rstrip(b"\r")
    before = visible(text[:column - 1])[:WIDEST]
    pad = "".join("\t" if char == "\t" else " " for char in before)
    return [f"{line:>5} | {visible(text)[:WIDEST]}", f"      | {pad}^"]


def place_in(data, at):
    """The line and the column of a byte, counted from 1."""
    front = data[:at]
    return front.count(b"\n") + 1, at - (front.rfind(b"\n") + 1) + 1


def value_behind(words, option):
    """The word behind an option."""
    return words[words.index(option) + 1] if option in words[:-1] else None


def function_text(program, words):
    """The emitted function of the term that a line runs."""
    run = [word for word in words if word not in ("--trace", "--no-allow", "--log", "--split")]
    for option in ("--answers", "--threshold", "--prefix", "--max-returns"):
        while option in run[:-1]:
            at = run.index(option)
            run = run[:at] + run[at + 2:]
    if len(run) != 4:
        return ""
    compiled = subprocess.run([*program, "compile", run[1]], capture_output=True, text=True, errors="replace")
    found = re.search(rf"fn constructor_{re.escape(run[2])}\b.*?(?=\n\S*\s*pub fn |\Z)", compiled.stdout, re.S)
    return found.group(0) if found else ""


def unanswered(program, words, data):
    """What the run's function calls, and no form of the answers names; nothing where no program is there that tells."""
    _, _, body = (function_text(program, words) if program else "").partition("{")
    called = re.findall(r"\b(C::\w+|constructor_\w+)\(", body)
    named = set(re.findall(rb"\(\s*(?:turns|answers|const)\s+([^\s()]+)", data))
    return [name for name in dict.fromkeys(called) if name.encode() not in named]


def under_answers(at, program, words):
    """What is told under `bad answers`: the place as a line and a column; or at the end of the file what may be missing."""
    name = value_behind(words, "--answers")
    data = pathlib.Path(name).read_bytes() if name and pathlib.Path(name).is_file() else b""
    line, column = place_in(data, min(at, len(data)))
    told = [f"{name}:{line}:{column}: here", *excerpt(data, line, column)] if name else []
    if at < len(data):
        return told
    missing = unanswered(program, words, data)
    if missing:
        return [*(told[:1]), "nothing is said of what these answer: " + ", ".join(missing)]
    return [*told, "the file ends here: a parenthesis may be open, or a constant of the function has no value"]


def under(line, program, words):
    """The lines that stand under a line of standard error."""
    error = ERROR.match(line)
    if error:
        path = file_of(error["name"], words)
        return excerpt(path.read_bytes(), int(error["line"]), int(error["column"])) if path else []
    answers = ANSWERS.match(line)
    return under_answers(int(answers["place"]), program, words) if answers else []


def with_places(told, program, words):
    """Lines of standard error, each followed by those that stand under it."""
    shown = []
    for line in told.splitlines():
        shown += [line, *under(line, program, words or ["first.isle"])]
    return "".join(line + "\n" for line in shown)
