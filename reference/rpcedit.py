#!/usr/bin/env python3
"""rpcedit [--known FILE].. [--c-types] [--foreign] FILE: answers the lines of standard input about the text of
FILE, and compiles it anew at each question."""
import getopt
import os
import re
import sys

sys.dont_write_bytecode = True

import before
import clashes
import explained
import rpclang
import texts
import values

GREATEST_TEXT = 16_777_216
LONGEST_LINE = 33_600_000
EDIT = re.compile(rb"edit ([0-9]{1,9}) ([0-9]{1,9})(?: ((?:[0-9a-fA-F]{2})+))?")
DUMP = re.compile(rb"dump ([^ ]+)(?: ((?:[0-9a-fA-F]{2})+))?")
# The lines that ask about the whole text.
QUESTIONS = [b"tokens", b"definitions", b"faults", b"explain", b"clashes", *(kind.encode() for kind in texts.KINDS)]


def base_of(path):
    """What stands behind the last slash, without a final .x."""
    name = path.rsplit(b"/", 1)[-1]
    return name[:-2] if name.endswith(b".x") else name


def standard_output():
    """A file that writes all it is given or fails, also where Python is told not to buffer its own."""
    return open(1, "wb", closefd=False)


class Session:
    """The text of one file. A line's answer depends on the text, the file's name, what is known before the text
    and what is taken from C alone."""

    def __init__(self, file, text, known=rpclang.NOTHING, types=False, foreigners=False, is_plain=True):
        """`is_plain` is whether no known file takes a name as foreign."""
        self.file = file
        self.base = base_of(file)
        self.text = text
        self.known, self.types, self.foreigners = known, types, foreigners
        self.is_plain = is_plain
        self.refused = False
        self.last = None

    def compiled(self):
        if self.last is None or self.last.text != self.text:
            self.last = before.compiled(self.text, self.known, self.types, self.foreigners)
        return self.last

    def refuse(self, answer):
        self.refused = True
        return answer

    def answer(self, line):
        """The answer to one line that is not empty."""
        if len(line) > LONGEST_LINE:
            return self.refuse(b"refused 44 LongLine\n")
        if match := EDIT.fullmatch(line):
            return self.edit(int(match[1]), int(match[2]), bytes.fromhex((match[3] or b"").decode()))
        if line == b"tokens":
            tokens = self.compiled().tokens
            return "".join([f"tokens {len(tokens)}\n"] + [
                f"{token.start} {token.end} {token.kind}\n" for token in tokens]).encode()
        if line == b"definitions":
            lines = [rpclang.definition_line(item, definition)
                     for item, definition in enumerate(self.compiled().definitions) if definition is not None]
            return b"definitions %d\n" % len(lines) + b"".join(lines)
        if line == b"faults":
            faults = self.compiled().faults
            return b"faults %d\n" % len(faults) + b"".join(
                b"%d:%d %d %s\n" % (fault.line, fault.column, fault.code, rpclang.CODE_NAMES[fault.code].encode())
                for fault in faults)
        if line == b"explain":
            compilation = self.compiled()
            return b"explained %d\n" % len(compilation.faults) + explained.explanation(self.file, compilation)
        if line == b"clashes":
            return self.clashes()
        if line.decode("latin-1") in texts.KINDS:
            text = texts.text_of(line.decode(), self.base, self.compiled())
            return b"text %d\n" % len(text) + text
        if match := DUMP.fullmatch(line):
            answer = self.dump(match[1], bytes.fromhex((match[2] or b"").decode()))
            return answer if answer.startswith(b"value") else self.refuse(answer)
        return self.refuse(b"refused 43 BadLine\n")

    def clashes(self):
        compilation = self.compiled()
        if compilation.faults:
            return self.refuse(b"refused 40 Faulty\n")
        said = clashes.warnings(self.file, compilation)
        return b"clashes %d\n" % said.count(b"\n") + said

    def dump(self, name, data):
        compilation = self.compiled()
        if self.foreigners and not self.is_plain:
            return b"refused 40 Faulty\n"
        at = None if compilation.faults else before.foreign_use(compilation, name)
        if at is not None:
            return b"refused 21 Unknown at %d:%d\n" % at
        return values.dump_answer(compilation, name, data)

    def edit(self, start, end, insert):
        if start > end or end > len(self.text):
            return self.refuse(b"refused 1 BadRange\n")
        if len(self.text) - (end - start) + len(insert) > GREATEST_TEXT:
            return self.refuse(b"refused 2 TooLarge\n")
        self.text = self.text[:start] + insert + self.text[end:]
        return b"ok %d\n" % len(self.text)


def script_lines(script):
    """The lines of a script. An empty one is skipped; the last one counts without its line feed."""
    return [line for line in script.split(b"\n") if line]


class Stop(Exception):
    """The run goes no further: its status, and why, if that is not told yet."""


def read_whole(path):
    try:
        with open(path, "rb") as file:
            text = file.read(GREATEST_TEXT + 1)
    except OSError:
        raise Stop(2, f"{path}: cannot be read") from None
    if len(text) > GREATEST_TEXT:
        raise Stop(2, f"{path}: 2 TooLarge")
    return text


def opened(words):
    """The session that the words ask for."""
    try:
        options, files = getopt.gnu_getopt(words, "", ["known=", "c-types", "foreign"])
    except getopt.GetoptError as error:
        raise Stop(2, error) from None
    if len(files) != 1:
        raise Stop(2, "one FILE is wanted")
    names = [name for name, value in options]
    from_c = "--c-types" in names, "--foreign" in names
    paths = [path for name, path in options if name == "--known"]
    read = []

    def reading():
        """Each file is read once those before it are known."""
        for path in paths:
            read.append((path, read_whole(path)))
            yield read[-1]
    try:
        known = before.known_of(reading(), *from_c)
    except before.Faulty as faulty:
        os.write(2, before.told_faults(*faulty.args))
        raise Stop(1, None) from None
    text = read_whole(files[0])
    return Session(os.fsencode(files[0]), text, known, *from_c, before.are_plain(read, from_c[0]))


def main(words):
    def stop(reason):
        sys.stderr.write(f"rpcedit: {reason}\n")
        return 2
    try:
        session = opened(words)
    except Stop as reason:
        status, said = reason.args
        return status if said is None else stop(said)
    out = standard_output()
    try:
        for line in sys.stdin.buffer:
            if line.rstrip(b"\n"):
                answer = session.answer(line[:-1] if line.endswith(b"\n") else line)
                try:
                    out.write(answer)
                    out.flush()
                except BrokenPipeError:
                    return 2
                except OSError:
                    return stop("output cannot be written")
    except OSError:
        return stop("-: cannot be read")
    return 1 if session.refused else 0


if __name__ == "__main__":
    sys.exit(main(sys.argv[1:]))
