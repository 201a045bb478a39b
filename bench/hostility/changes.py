"""Random texts, made of good ones by changes to their tokens."""
import random
import re

from hostility.running import MOST_BYTES

TOKEN = re.compile(rb"\(;|;\)|;[^\n]*|[()]|\s+|[^\s();]+|.", re.S)
WORD = re.compile(rb"[^\s();]+")
ODD = [b"0x", b"-", b"--1", b"-0x8000000000000000", b"18446744073709551616", b"340282366920938463463374607431768211456", b"1__0", b"$", b"$x", b"@", b"_",
       b"(;", b";)", b";", b"\x00", b"\xff", "é".encode(), b"\xef\xbb\xbf", b"\r", b"x @", b"<", b">", b"u64::MAX"]
WORDS = (b"0 1 -1 255 256 0xff true false _ x y t f and let if if-let rule decl multi pure partial rec extern constructor extractor infallible "
         b"u8 i128 bool r#fn fn Self $x E.A Op").split()
NESTS = [(b"(and ", b")"), (b"(", b")"), (b"x @ ", b""), (b"(let ((y u8 1)) ", b")"), (b"(let ((y u8 ", b")) y)"), (b"(if-let x ", b")"), (b"(e ", b")"),
         (b"(;", b";)")]


def list_at(tokens, first):
    """The span of the list that begins there, to the end where it isn't closed."""
    last, depth = first, 0
    while last < len(tokens):
        depth += (tokens[last] == b"(") - (tokens[last] == b")")
        last += 1
        if depth == 0:
            break
    return first, last


def starts(tokens):
    """Where lists and words begin, by how many lists they stand in."""
    found, depth = {}, 0
    for place, token in enumerate(tokens):
        if token == b"(" or depth > 0 and WORD.fullmatch(token):
            found.setdefault(depth, []).append(place)
        depth += (token == b"(") - (token == b")")
    return found


def span(chance, tokens, is_whole, depth=None):
    """A random span of tokens: where it is to be whole, a list or a word, at this depth if there is one; and its depth."""
    found = starts(tokens) if is_whole or chance.random() < 0.5 else {}
    if found:
        depth = depth if depth in found else 0 if 0 in found and chance.random() < 0.4 else chance.choice(sorted(found))
        return *list_at(tokens, chance.choice(found[depth])), depth
    first = chance.randrange(len(tokens) + 1)
    return first, min(len(tokens), first + int(chance.expovariate(0.2))), None


def swapped(tokens, one, other):
    """The tokens with two spans swapped, or without the second where they overlap."""
    low, high = sorted([one, other])
    if low[1] > high[0]:
        return tokens[: high[0]] + tokens[high[1] :]
    return tokens[: low[0]] + tokens[high[0] : high[1]] + tokens[low[1] : high[0]] + tokens[low[0] : low[1]] + tokens[high[1] :]


def with_byte(chance, tokens):
    """The tokens with another byte in one place."""
    text = bytearray(b"".join(tokens) or b" ")
    text[chance.randrange(len(text))] = chance.choice([chance.randrange(256), chance.randrange(32, 127)])
    return TOKEN.findall(bytes(text))


def word_for(chance, tokens, good, is_whole):
    """Another word: of the same text or another one, or an odd one."""
    words = [token for token in chance.choice([tokens, tokens, tokens, chance.choice(good)]) if WORD.fullmatch(token)]
    return chance.choice(words if words and chance.random() < 0.8 else WORDS if is_whole else ODD)


def changed(chance, tokens, good, is_whole):
    """The tokens with one change: some cut out, doubled, swapped, nested, joined in from another text, or replaced."""
    first, last, depth = span(chance, tokens, is_whole)
    before, part, after = tokens[:first], tokens[first:last], tokens[last:]
    way = chance.choice(["cut", "double", "swap", "nest", "join", "word", "word", "word" if is_whole else "byte"])
    if way == "cut":
        return before + after
    if way == "double":
        return before + (part + [b" "]) * chance.choice([2, 2, 2, 3, 10, 100]) + after
    if way == "swap":
        return swapped(tokens, (first, last), span(chance, tokens, is_whole, depth)[:2])
    if way == "nest":
        turns = chance.choice([1, 1, 2, 3, 20, 100, 260])
        opened, closed = chance.choice(NESTS)
        return before + [opened] * turns + part + [closed] * turns + after
    if way == "join":
        other = chance.choice(good)
        low, high, _ = span(chance, other, is_whole, depth)
        return before + other[low:high] + [b" "] + (after if chance.random() < 0.5 else part + after)
    if way == "byte":
        return with_byte(chance, tokens)
    words = [place for place, token in enumerate(tokens) if WORD.fullmatch(token)]
    place = chance.choice(words or [0])
    return tokens[:place] + [word_for(chance, tokens, good, is_whole)] + tokens[place + 1 :]


def text_of(seed, good):
    """The text of a seed, and the options that it is compiled with. In most texts only whole lists and words are changed."""
    chance = random.Random(seed)
    tokens = list(chance.choice(good))
    if chance.random() < 0.3:
        tokens += [b"\n", *chance.choice(good)]
    is_whole = chance.random() < 0.75
    for _ in range(chance.choice([1, 1, 1, 2, 2, 3, 5])):
        tokens = changed(chance, tokens, good, is_whole)
    options = chance.choice([[], [], [], ["--log"], ["--split", "--threshold", "0"], ["--max-returns", "0"]])
    return b"".join(tokens)[:MOST_BYTES], options
