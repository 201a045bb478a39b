"""Inputs of odd bytes, numbers and words, and how they are to end."""
import os
import typing

from hostility.rows import Row
from hostility.running import MOST_BYTES

HEAD = "(decl t () u8)\n"
DIGITS = MOST_BYTES - 40


class Wide(typing.NamedTuple):
    """An input, and how it is to end: the status, and a part of what it writes on standard error, if that is plain."""
    row: Row
    status: int
    told: bytes = b""


def one_file(name, text, status, told=b""):
    return Wide(Row(["compile", "a.isle"], {"a.isle": text}, name), status, told)


def odd_files():
    """Files of odd bytes."""
    return [
        one_file("an empty file", "", 0),
        one_file("CR alone", "\r" * 1000, 0),
        one_file("a byte order mark alone", b"\xef\xbb\xbf", 6, b"a.isle:1:1: "),
        one_file("2^24 NUL bytes", b"\0" * MOST_BYTES, 6, b"a.isle:1:1: "),
        one_file("2^24 spaces", " " * MOST_BYTES, 0),
        one_file("2^24 line feeds, and a parenthesis", "\n" * (MOST_BYTES - 1) + ")", 6, b"a.isle:16777216:1: "),
        one_file("2^24 bytes and one more", " " * (MOST_BYTES + 1), 5, b"isle: cannot read file a.isle: too long\n"),
        one_file("2^24 bytes of two-byte letters", "é" * (MOST_BYTES // 2), 6, b"a.isle:1:1: "),
        one_file("a letter cut at the end", b" " * (MOST_BYTES - 1) + b"\xc3", 5, b"isle: cannot read file a.isle: not utf-8\n"),
        one_file("a surrogate", b"\xed\xa0\x80", 5, b"isle: cannot read file a.isle: not utf-8\n"),
        one_file("one word of 2^24 bytes", "w" * MOST_BYTES, 6, b"a.isle:1:1: "),
        one_file("2^24 opened", "(" * MOST_BYTES, 6, b"a.isle:1:2: "),
        one_file("2^24 opened in a `spec`", "(spec " + "(" * (MOST_BYTES - 6), 6, b"a.isle:1:262: "),
        one_file("2^24 closed", ")" * MOST_BYTES, 6, b"a.isle:1:1: "),
        one_file("a comment of 2^24 bytes", ";" + "c" * (MOST_BYTES - 1), 0),
        one_file("2^24 semicolons", ";" * MOST_BYTES, 0),
        one_file("2^23 comments that never end", "(;" * (MOST_BYTES // 2), 6, b"a.isle:"),
        one_file("2^24 digits", "7" * MOST_BYTES, 6, b"a.isle:1:1: "),
    ]


def odd_numbers():
    """Rules of odd numbers and names."""
    long_name = "n" * (MOST_BYTES // 8)
    return [
        one_file("a number of 2^24 zeros", HEAD + f"(rule (t) {'0' * (DIGITS - 1)}1)\n", 0),
        one_file("a number of 2^24 nines", HEAD + f"(rule (t) {'9' * DIGITS})\n", 6, b"a.isle:2:"),
        one_file("a number of 2^20 underscores", HEAD + f"(rule (t) 1{'_' * (1 << 20)}0)\n", 0),
        one_file("2^24 hexadecimal digits", HEAD + f"(rule (t) 0x{'f' * DIGITS})\n", 6, b"a.isle:2:"),
        one_file("2^24 minus signs", HEAD + f"(rule (t) {'-' * DIGITS}1)\n", 6, b"a.isle:2:11: "),
        one_file("a priority of 2^20 digits", HEAD + f"(rule {'9' * (1 << 20)} (t) 1)\n", 6, b"a.isle:2:"),
        one_file("names of 2^21 bytes", f"(decl {long_name} () u8)\n(rule ({long_name}) 1)\n", 0),
        one_file("2^22 `@`s", HEAD + f"(rule (t {'x @ ' * (1 << 21)} _) 1)\n", 6, b"a.isle:2:"),
    ]


def odd_words():
    """Odd words and odd files that they name."""
    plain = {"a.isle": "(decl t (u8) u8)\n(rule (t x) x)\n"}
    answered, bad_answers = ["run", "a.isle", "t", "(1)", "--answers", "t"], b"isle: bad answers at "
    return [
        Wide(Row(["compile", "/dev/zero"], {}, "a file without an end"), 5, b"isle: cannot read file /dev/zero: too long\n"),
        Wide(Row(["compile", "/dev/null"], {}, "an empty device"), 0),
        Wide(Row(["compile", "n" * 65_536], {}, "a name of 2^16 bytes"), 5, b": fault\n"),
        Wide(Row(["compile", "a\n.isle"], {"a\n.isle": "("}, "a name with a line feed"), 6, b"a?.isle:1:2: "),
        Wide(Row(["compile", ""], {}, "an empty name"), 2, b"isle: bad word \n"),
        Wide(Row(["compile", os.fsdecode(b"\xff.isle")], {}, "a name that isn't UTF-8"), 2),
        Wide(Row([""], {}, "an empty word"), 2, b"isle: bad word \n"),
        Wide(Row(["w" * 100_000], {}, "a word of 100,000 bytes"), 2, b"isle: bad word w"),
        Wide(Row(["compile", *["a.isle"] * 10_000], {"a.isle": "; nothing\n"}, "one file 10,000 times"), 0),
        Wide(Row(["compile", *["--prefix=a=b"] * 10_000, "a.isle"], plain, "10,000 bad options"), 2, b"isle: bad word --prefix=a=b\n"),
        Wide(Row(["compile", *["--prefix", "b=c"] * 10_000, "a.isle"], plain, "10,000 prefixes"), 0),
        Wide(Row(["compile", "--max-returns", "9" * 18, "a.isle"], plain, "a limit of 18 nines"), 0),
        Wide(Row(["compile", "--max-returns", "9" * 19, "a.isle"], plain, "a limit of 19 nines"), 2, b"isle: bad word 9"),
        Wide(Row(["run", "a.isle", "t", "(" * 100_000], plain, "a value of 100,000 parentheses"), 2, b"isle: bad word ("),
        Wide(Row(["run", "a.isle", "t", f"({'7' * 100_000})"], plain, "a value of 100,000 digits"), 2, b"isle: bad word (777"),
        Wide(Row(["run", "a.isle", "t", f"({'1 ' * 60_000})"], plain, "60,000 values"), 13, b"isle: argument count\n"),
        Wide(Row(answered, {**plain, "t": "(" * MOST_BYTES}, "answers of 2^24 parentheses"), 13, bad_answers),
        Wide(Row(answered, {**plain, "t": "1 " * (MOST_BYTES // 2)}, "answers of 2^23 numbers"), 13, bad_answers),
        Wide(Row(["sample", "00001"], {}, "a sample of 5 digits"), 0),
        Wide(Row(["sample", "10001"], {}, "a sample too large"), 2, b"isle: bad word 10001\n"),
        Wide(Row(["isa", "x" * 100_000], {}, "a target of 100,000 bytes"), 2, b"no supported isa found for arch `xxx"),
    ]
