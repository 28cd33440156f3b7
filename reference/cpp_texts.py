"""Lines of cpp put into random texts, and edits that put some there, change them and take them away."""
import re

WORDS = b"if if if if( ifdef ifdef ifndef else else elif endif endif include define iffy if0 ifdef_ 12".split() + [b""]
WORDS += [b"elifdef", b"elifndef", b"elsewhere"]
BETWEEN = [b"", b"", b"", b"\n", b" \t\r\n", b"/* c */\n", b"/*\n#if\n*/ /**/\n", b"%\n", b";\n", b"#\n"]
BLANKS = [b"", b"", b"", b"", b" ", b"\t", b"  \t"]
PLAIN = [b" A", b" B", b" 12", b" <x.h>", b' "x.h"', b" (", b")", b" {", b" }", b";", b" #", b"\t", b" const"]
ODD = [b"/*", b"*/", b"/*/", b"*", b"/", b" /* c */", b"\\", b"\r", b"\f", b"%", b"'"]
ODD += ["é".encode(), "😀".encode()]
ENDS = [b"\n"] * 6 + [b"\r\n", b"\r", b"", b" \n", b"\n\n", b"\\\n"]
SIGNS = [b"#"] * 4 + [b" #", b"# ", b"#if ", b"#ifdef", b"#1", b"# 1", b"%#", b"##"]
LINE = re.compile(rb"([^\n]*?)(\r?\n|\Z)")
BEGINS = re.compile(rb"[ \t]*#")


def piece(chance):
    """A part of a line behind its word, seldom one that may change what follows the line."""
    return chance.choice(PLAIN if chance.random() < 0.8 else ODD)


def guard(chance):
    """An include guard, or much like one."""
    begins = chance.choice([b"#ifndef", b"#ifndef", b" # ifndef", b"#ifdef", b"#if"])
    names = chance.choice([(b" A", b" A"), (b" A", b"\tA"), (b" A_X", b" A_X 1"), (b" A", b" AA"), (b"", b"")])
    return begins + names[0] + b"\n" + chance.choice(BETWEEN) + b"#define" + names[1]


def line(chance):
    """A line of cpp or much like one, without its end; or two that are a guard."""
    if chance.random() < 0.06:
        return guard(chance)
    front = chance.choice(BLANKS) + b"#" + chance.choice(BLANKS) + chance.choice(WORDS)
    rest = b"".join(piece(chance) for _ in range(chance.choice([0, 1, 1, 2, 4])))
    return front + rest + b"\\" * (chance.random() < 0.1)


def lines_of(text):
    """Where each line starts and stops, and where the next one starts."""
    return [(match.start(), match.end(1), match.end()) for match in LINE.finditer(text)]


def with_lines(chance, text):
    """The text with such lines between some of its own."""
    share = chance.choice([0, 0.05, 0.2, 0.5])
    told = []
    for start, _, end in lines_of(text):
        if chance.random() < share:
            told.append(line(chance) + b"\n")
        told.append(text[start:end])
    return b"".join(told)


OTHERS = [b"int a;", b"int a;", b"int a;", b"int a;", b"int b;", b"int a; int c[N];", b"int a; int c; int c;"]


def branched(chance):
    """Structs that may use those before them, most of them with a field that is there again in another branch."""
    told = []
    for k in range(chance.randint(2, 6)):
        used = b"br%d b;" % chance.randrange(k) if k and chance.random() < 0.8 else b""
        lines = [b"struct br%d { %s" % (k, used), b"#if A", b"int a;", b"#else", chance.choice(OTHERS), b"#endif", b"};"]
        told += [chance.choice(line.split()) if chance.random() < 0.02 else line for line in lines]
    return b"\n".join(told) + b"\n"


# ---------------------------------------------------------------- edits of a line, by where it is

def put_line(chance, text, start, stop, end):
    return start, start, line(chance) + chance.choice(ENDS)


def take_line(chance, text, start, stop, end):
    return start, end, b""


def put_sign(chance, text, start, stop, end):
    """Typed before a line, or behind the blanks in front of it."""
    at = chance.choice([start, re.compile(rb"[ \t]*").match(text, start).end()])
    return at, at, chance.choice(SIGNS)


def take_sign(chance, text, start, stop, end):
    """The first one of a line goes, or what is behind it comes otherwise."""
    at = text.find(b"#", start, stop)
    if at < 0:
        return put_sign(chance, text, start, stop, end)
    return at, at + chance.choice([0, 1, 1, 1, 2]), chance.choice([b"", b"", b"", b" ", b"%", b"#"])


def go_on(chance, text, start, stop, end):
    """A backslash at a line's end, if there is none."""
    if text[start:stop].endswith(b"\\"):
        return stop - 1, stop, chance.choice([b"", b"", b" ", b"\\ "])
    return stop, stop, b"\\"


def end_otherwise(chance, text, start, stop, end):
    return stop, end, chance.choice(ENDS)


def put_piece(chance, text, start, stop, end):
    at = chance.randint(start, stop)
    return at, at, chance.choice(PLAIN + ODD)


def put_word(chance, text, start, stop, end):
    """Another word behind the #, or a byte more or less of it."""
    word = re.compile(rb"[ \t]*#?[ \t]*(\w*)").match(text, start, stop)
    if chance.random() < 0.5:
        return word.start(1), word.end(1), chance.choice(WORDS)
    end = word.end(1)
    return end - (end > word.start(1)), end, chance.choice([b"", b"f", b"fi", b"_", b"1"])


WAYS = [put_line, take_line, put_sign, put_sign, take_sign, take_sign, go_on, go_on, end_otherwise, put_piece]
WAYS += [put_word]


def edit(chance, text):
    """An edit of a line of cpp, if there is one, or of one that may become one."""
    lines = lines_of(text)
    begun = [places for places in lines if BEGINS.match(text, places[0], places[1])]
    places = chance.choice(begun if begun and chance.random() < 0.75 else lines)
    return chance.choice(WAYS)(chance, text, *places)
