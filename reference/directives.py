"""The lines of the C preprocessor in a text: a plain reference over bytes.

    blanked(text)                  the text with its directives blanked, in which no byte moves
    conditionals(text)             the places of `#if`, `#ifdef` and `#ifndef`, guards aside: pairs (start, end)
    in_later_branch(text, place)   whether the place stands in a branch of a conditional behind its first one
    defined(text)                  the constants that `#define NAME NUMBER` gives: pairs (name, number)
"""
import re
from collections import namedtuple

MARKER = re.compile(rb"#[ \t]*[0-9]")
DIRECTIVE = re.compile(rb"[ \t]*#")
WORDS = re.compile(rb"[ \t]*#[ \t]*([A-Za-z0-9_]*)[ \t]*([A-Za-z0-9_]*)")
BEGINS = {b"if", b"ifdef", b"ifndef"}
GOES_ON = {b"else", b"elif", b"elifdef", b"elifndef"}
WHITE = b" \t\n\v\f\r"
CONSTANT = re.compile(
    rb"[ \t]*#[ \t]*define[ \t]+([A-Za-z][A-Za-z0-9_]*)[ \t]+(-?[1-9][0-9]*|0[xX][0-9a-fA-F]+|0[0-7]*)[ \t]*(?:/[*/].*)?",
    re.DOTALL,
)

# A line: where it starts, its bytes, whether a comment goes on at its start, and whether it begins a directive
# or goes on in one.
Line = namedtuple("Line", "start bytes commented part")


def lines_of(text):
    """The lines of a text, each with the line feed that ends it; the last may have none."""
    lines = []
    start = 0
    while start < len(text):
        feed = text.find(b"\n", start)
        end = len(text) if feed < 0 else feed + 1
        lines.append(text[start:end])
        start = end
    return lines


def without_end(line):
    """A line without its line feed, and without the carriage return before that."""
    if line.endswith(b"\r\n"):
        return line[:-2]
    if line.endswith(b"\n"):
        return line[:-1]
    return line


def parted(line, commented):
    """What stands outside comments in a line, and whether a comment goes on behind it."""
    outside = []
    at = 0
    while at < len(line):
        mark = line.find(b"*/" if commented else b"/*", at)
        end = len(line) if mark < 0 else mark
        if not commented:
            outside.append(line[at:end])
        if mark < 0:
            break
        commented = not commented
        at = mark + 2
    return b" ".join(outside), commented


def marked(text):
    """The lines of a text, with what they are. A line that begins with `%`, and a marker, begin no comment."""
    found = []
    start = 0
    goes_on = commented = False
    for line in lines_of(text):
        begins = not goes_on and not commented and DIRECTIVE.match(line) and not MARKER.match(line)
        part = "later" if goes_on else "first" if begins else None
        found.append(Line(start, line, commented, part))
        goes_on = part is not None and without_end(line).endswith(b"\\")
        if commented or part is not None or line[:1] not in (b"%", b"#"):
            commented = parted(line, commented)[1]
        start += len(line)
    return found


def words(line):
    """The word of the directive that begins with a line, and the word behind it."""
    return WORDS.match(line.bytes).groups() if line.part == "first" else (None, None)


def blanked_line(line):
    """A line of a directive: only tabs, the delimiters of comments and the line's end stay."""
    inner = without_end(line)
    left = bytearray()
    for at, byte in enumerate(inner):
        beside = inner[at - 1 : at] if at > 0 else b""
        beside += inner[at + 1 : at + 2]
        opposite = {ord("/"): b"*", ord("*"): b"/"}.get(byte)
        stays = byte == ord("\t") or opposite is not None and opposite in beside
        left.append(byte if stays else ord(" "))
    return bytes(left) + line[len(inner) :]


def blanked(text):
    return b"".join(blanked_line(line.bytes) if line.part else line.bytes for line in marked(text))


def is_guard(line, later):
    """`#ifndef NAME` with nothing but white space and comments between it and `#define NAME`."""
    word, name = words(line)
    for following in later:
        if parted(following.bytes, following.commented)[0].strip(WHITE):
            return word == b"ifndef" and name != b"" and words(following) == (b"define", name)
    return False


def conditionals(text):
    found = []
    lines = marked(text)
    for at, line in enumerate(lines):
        if words(line)[0] in BEGINS and not is_guard(line, lines[at + 1 :]):
            inner = without_end(line.bytes)
            found.append((line.start + inner.index(b"#"), line.start + len(inner)))
    return found


def in_later_branch(text, place):
    """Going back from the place over the conditionals that end before it. A line that begins at the place is
    before it."""
    depth = 0
    for line in reversed(marked(text)):
        if line.start > place:
            continue
        word, _ = words(line)
        if word == b"endif":
            depth += 1
        elif word in BEGINS:
            depth = max(0, depth - 1)
        elif word in GOES_ON and depth == 0:
            return True
    return False


def defined(text):
    found = []
    for line in marked(text):
        inner = without_end(line.bytes)
        match = CONSTANT.fullmatch(inner)
        # A directive that goes on in the next line is not of one line, nor is one whose next line is missing.
        if line.part == "first" and match and not inner.endswith(b"\\"):
            found.append((match[1], match[2]))
    return found
