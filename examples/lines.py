"""The lines of examples/cases and of files like it, and the lists of rule files."""
import pathlib
import re

HERE = pathlib.Path(__file__).resolve().parent


def words_of(line):
    """The words of a line: blanks part them, but none within parentheses."""
    words, depth = [""], 0
    for char in line:
        depth += (char == "(") - (char == ")")
        if char == " " and depth == 0:
            words.append("")
        else:
            words[-1] += char
    return words


def blocks(cases=HERE / "cases"):
    """Each line of a file of cases, as it stands and as words, and what is written for it."""
    for block in re.split(r"^\$ ", cases.read_text(), flags=re.M)[1:]:
        line, want = block.split("\n", 1)
        yield line, words_of(line), want


def lists(text):
    """The lists of a rule file, of a text of answers, or of values: nested lists of words."""
    text = re.sub(r"\(;.*?;\)|;[^\n]*", " ", text, flags=re.S)
    stack = [[]]
    for token in re.findall(r"[()]|[^\s()]+", text):
        if token == "(":
            stack.append([])
        elif token == ")":
            last = stack.pop()
            stack[-1].append(last)
        else:
            stack[-1].append(token)
    return stack[0]
