#!/usr/bin/env python3
"""rpcgen -c|-h|-l|-t [-o OUT] [OPTIONS] FILE: writes the routines, header, stubs or table of FILE, or its
faults. rpcgen --check [OPTIONS] FILE..: writes the faults of each FILE.

The OPTIONS are --explain, --plain, --strict, --known FILE, --c-types and --foreign. With --explain the names of
a FILE without faults that clash in C are told too, and with --strict in place of the text."""
import contextlib
import getopt
import os
import sys

sys.dont_write_bytecode = True

import before
import clashes
import explained
import rpclang
import rpcedit
import texts

LETTERS = {"-c": "routines", "-h": "header", "-l": "stubs", "-t": "table"}


def told_of(path, compilation, explains):
    """The faults of a text, explained or one a line."""
    if explains:
        return explained.explanation(os.fsencode(path), compilation)
    return before.told_faults(path, compilation)


def stop(reason):
    sys.stderr.write(f"rpcgen: {reason}\n")
    return 2


def stopped(reason):
    status, said = reason.args
    return status if said is None else stop(said)


def say(text):
    """Writes to standard error what that takes."""
    sys.stderr.flush()
    with contextlib.suppress(OSError):
        os.write(2, text)


class Opening:
    """How texts are opened, by the options."""

    def __init__(self, options):
        names = [name for name, value in options]
        self.explains = "--explain" in names
        self.is_strict = "--strict" in names
        self.from_c = "--c-types" in names, "--foreign" in names
        try:
            paths = [path for name, path in options if name == "--known"]
            self.known = before.known_of(((path, rpcedit.read_whole(path)) for path in paths), *self.from_c)
        except before.Faulty as faulty:
            self.tell(*faulty.args)

    def tell(self, path, compilation):
        say(told_of(path, compilation, self.explains))
        raise rpcedit.Stop(1, None)

    def open(self, path):
        """The compilation of a file without faults."""
        compilation = before.compiled(rpcedit.read_whole(path), self.known, *self.from_c)
        if compilation.faults:
            self.tell(path, compilation)
        return compilation

    def warn(self, path, compilation):
        """Tells the clashes of a text without faults, where faults are explained."""
        if self.explains:
            say(clashes.warnings(os.fsencode(path), compilation))

    def insist(self, path, compilation):
        """Goes no further where clashes count as faults and there are some."""
        said = clashes.warnings(os.fsencode(path), compilation) if self.is_strict else b""
        if said:
            say(said)
            raise rpcedit.Stop(1, None)

    def status_of(self, path):
        try:
            compilation = self.open(path)
            self.insist(path, compilation)
            self.warn(path, compilation)
        except rpcedit.Stop as reason:
            return stopped(reason)
        return 0


def check(options, files):
    names = [name for name, value in options if name != "--known"]
    if not files or len(set(names)) < len(names) or any(not name.startswith("--") for name in names):
        return stop("one FILE or more are wanted, and no letter")
    opening = Opening(options)
    return max([opening.status_of(path) for path in files])


def run(words):
    try:
        options, files = getopt.gnu_getopt(
            words, "chlto:", ["check", "explain", "plain", "strict", "known=", "c-types", "foreign"])
    except getopt.GetoptError as error:
        return stop(error)
    if "--check" in [name for name, value in options]:
        return check(options, files)
    if len(files) != 1:
        return stop("one FILE is wanted")
    modes = [LETTERS[name] for name, value in options if name in LETTERS]
    outs = [value for name, value in options if name == "-o"]
    if len(modes) != 1:
        return stop("exactly one of -c, -h, -l, -t")
    path = files[0]
    opening = Opening(options)
    compilation = opening.open(path)
    opening.insist(path, compilation)
    try:
        out = open(outs[-1], "wb") if outs else rpcedit.standard_output()
    except OSError:
        return stop(f"{outs[-1]}: cannot be written")
    try:
        out.write(texts.text_of(modes[0], rpcedit.base_of(os.fsencode(path)), compilation))
        out.flush()
    except BrokenPipeError:
        return 2
    except OSError:
        return stop("output cannot be written")
    opening.warn(path, compilation)
    return 0


def main(words):
    try:
        return run(words)
    except rpcedit.Stop as reason:
        return stopped(reason)


if __name__ == "__main__":
    sys.exit(main(sys.argv[1:]))
