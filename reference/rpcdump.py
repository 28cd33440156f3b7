#!/usr/bin/env python3
"""rpcdump [-x SCHEMA] [--known FILE].. [--c-types] [-b | -t TYPE] FILE: shows the calls and replies of a
recorded stream, one bare message (-b) or one bare value of a type (-t). Without SCHEMA the procedures are
those of NFS version 2 (nfs2.x)."""
import os
import sys

sys.dont_write_bytecode = True

import before
import records
import rpcedit
import rpclang
import values

CODE_NAMES = {**values.CODE_NAMES, 60: "RecordTooLong", 61: "Truncated"}
USAGE = "rpcdump [-x SCHEMA] [-b | -t TYPE] FILE"
HELP = f"""usage: {USAGE}

Prints the calls and replies of FILE, a recorded stream of Sun RPC (RFC 5531),
by a .x file. Bytes that are not a valid encoding are refused, with the reason
and the place.

  -x SCHEMA     the .x file; the default is the schema of NFS version 2
  -b            FILE is one message, without a record around it
  -t TYPE       FILE is one value of TYPE
  --known FILE  take what this file defines as known
  --c-types     accept u_int and other types of C that have an XDR routine
  --help        show this text
  --version     show the version

Example: rpcdump -x add.x add.stream

Exit status: 0 done; 1 SCHEMA has faults, or a fault was printed; 2 the run
failed.
"""
ASKED = {"help": HELP, "version": "rpcdump 0.1.0\n"}
VALUE_NAMES = {"b": None, "t": "TYPE", "x": "SCHEMA", "known": "FILE", "c-types": None}
BUILT_IN = os.path.join(os.path.dirname(os.path.realpath(__file__)), "nfs2.x")


def fault(code, at):
    return b"fault %d %s at %d\n" % (code, CODE_NAMES[code].encode(), at)


def raw(data):
    return b"raw %s\n" % values.hexadecimal(data)


def authentication(word, field):
    flavor, body = field
    return b"%s %d %s\n" % (word, flavor, values.hexadecimal(body))


class Dump:
    """The messages so far. A message's text is a function of the schema, its bytes and those before it."""

    def __init__(self, schema):
        self.schema = schema
        self.count = 0
        self.calls = {}         # of each xid the last call: its number, and its procedure or None
        self.refused = False

    def refuse(self, text):
        self.refused = True
        return text

    def message(self, data):
        """The lines of the next message."""
        self.count += 1
        message = records.message_of(data)
        if isinstance(message, records.Refused):
            return self.refuse(b"# %d %s%s" % (self.count, fault(*message.args), raw(data)))
        return self.call(message) if isinstance(message, records.Call) else self.reply(message)

    def call(self, call):
        numbers = call.program, call.version, call.procedure
        procedure = self.schema.procedure(*numbers) if call.rpcvers == 2 else None
        self.calls[call.xid] = self.count, procedure
        name = procedure.name if procedure else b"?"
        line = b"# %d call xid=%d rpcvers=%d prog=%d vers=%d proc=%d %s\n"
        return (line % (self.count, call.xid, call.rpcvers, *numbers, name)
                + authentication(b"cred", call.credential) + authentication(b"verf", call.verifier)
                + self.body(procedure and procedure.argument, call.body, b"args"))

    def reply(self, reply):
        number, procedure = self.calls.get(reply.xid, (None, None))
        name = procedure.name if procedure else b"?"
        state = (b"accepted " if reply.accepted else b"denied ") + reply.state.encode()
        whose = b"none" if number is None else b"%d" % number
        text = b"# %d reply xid=%d %s call=%s %s\n" % (self.count, reply.xid, state, whose, name)
        if reply.accepted:
            text += authentication(b"verf", reply.verifier)
        if reply.details:
            text += b" ".join(b"%s %d" % (word.encode(), number) for word, number in reply.details) + b"\n"
        if reply.body is not None:
            text += self.body(procedure and procedure.result, reply.body, b"results")
        return text

    def body(self, kind, data, label):
        """Arguments or results: as they stand where the type isn't known, or where it refuses them."""
        if kind is None:
            return raw(data)
        refused, lines = values.shown(kind, data, label)
        if refused:
            return self.refuse(fault(*refused) + raw(data))
        return b"".join(lines)

    def stream(self, found, ended):
        """The texts of the records of a stream, one after the other, and of its fault where it has one."""
        for record in found:
            yield self.message(record)
        if ended:
            yield self.refuse(fault(*ended))

    def value(self, name, data):
        kind = self.schema.type_named(name)
        refused, lines = values.shown(kind, data, name)
        if refused:
            return self.refuse(fault(*refused))
        return b"".join(lines)


class Stop(Exception):
    """The run can't be carried out: the line that says why, if one is told."""


def read_schema(path):
    """The text of the schema."""
    try:
        with open(path, "rb") as file:
            return file.read(rpcedit.GREATEST_TEXT + 1)
    except OSError:
        raise Stop(b"%s: cannot be read" % path) from None


def open_input(path):
    """Its descriptor. A directory can be opened too."""
    try:
        return os.open(path, os.O_RDONLY)
    except OSError:
        raise Stop(b"%s: cannot be read" % path) from None


def check_size(path, text):
    if len(text) > rpcedit.GREATEST_TEXT:
        raise Stop(b"%s: 2 TooLarge" % path)
    return text


def compile_schema(path, text, known_paths, takes_c_types):
    """The schema, or None where a text has faults, which are told."""
    try:
        files = ((known, check_size(known, read_schema(known))) for known in known_paths)
        known = before.known_of(files, takes_c_types)
    except before.Faulty as faulty:
        os.write(2, before.told_faults(*faulty.args))
        return None
    compilation = before.compiled(check_size(path, text), known, takes_c_types)
    if compilation.faults:
        os.write(2, before.told_faults(path or b"nfs2.x", compilation))
        return None
    return values.Schema(compilation)


def read_input(descriptor, most=None):
    """All that can be read, or so much of it, and whether no read failed."""
    pieces, length = [], 0
    while most is None or length < most:
        try:
            pieces.append(os.read(descriptor, 2 ** 20 if most is None else min(2 ** 20, most - length)))
        except OSError:
            return b"".join(pieces), False
        if not pieces[-1]:
            break
        length += len(pieces[-1])
    return b"".join(pieces), True


def write_texts(texts):
    out = rpcedit.standard_output()
    try:
        for text in texts:
            out.write(text)
            out.flush()
    except BrokenPipeError:
        raise Stop from None
    except OSError:
        raise Stop(b"output cannot be written") from None


def run(schema_path, before_it, bare, type_name, path):
    """The status. What can go wrong is asked for in this order."""
    text = read_schema(schema_path or os.fsencode(BUILT_IN))
    descriptor = open_input(path)
    schema = compile_schema(schema_path, text, *before_it)
    if schema is None:
        return 1
    if type_name is not None and schema.type_named(type_name) is None:
        raise Stop(b"no type %s" % type_name)
    dump = Dump(schema)
    if bare or type_name is not None:
        data, whole = read_input(descriptor, rpcedit.GREATEST_TEXT + 1)
        if not whole:
            raise Stop(b"%s: cannot be read" % path)
        if len(data) > rpcedit.GREATEST_TEXT:
            raise Stop(b"%s: 2 TooLarge" % path)
        write_texts([dump.message(data) if bare else dump.value(type_name, data)])
    else:
        data, whole = read_input(descriptor)
        found, ended = records.records_of(data)
        # A read that fails says nothing of the stream's end, but a header that makes a record too long is one.
        unread = not whole and (ended is None or ended[0] != 60)
        write_texts(dump.stream(found, None if unread else ended))
        if unread:
            raise Stop(b"%s: cannot be read" % path)
    return 1 if dump.refused else 0


class Asked(Exception):
    """The help or the version is asked for: its text."""


class Refused(Exception):
    """The words are no command line: what is wrong."""


class CommandLine:
    """The letters and the file of a command line, read from the left to the right."""

    def __init__(self, words):
        self.given = {}
        self.known = []
        self.files = []
        self.words = list(words)
        while self.words:
            word = self.words.pop(0)
            if word == "--":
                self.files += self.words
                self.words = []
            elif word.startswith("--"):
                self.read_long(word)
            elif word.startswith("-") and word != "-":
                self.read_letters(word[1:])
            else:
                self.files.append(word)
            if len(self.files) > 1:
                raise Refused(f"unexpected argument '{self.files[1]}' found")
        if not self.files:
            raise Refused("FILE is missing")

    def read_long(self, word):
        name, equals, value = word[2:].partition("=")
        if name in VALUE_NAMES and len(name) > 1:
            self.take(name, "--" + name, equals + value)
            return
        if name not in ASKED:
            raise Refused(f"unexpected argument '--{name}' found")
        if equals:
            raise Refused(f"unexpected value '{value}' for '--{name}' found; no more were expected")
        raise Asked(ASKED[name])

    def read_letters(self, letters):
        while letters:
            letter, letters = letters[0], letters[1:]
            if letter not in VALUE_NAMES:
                raise Refused(f"unexpected argument '-{letter}' found")
            joined = letters if VALUE_NAMES[letter] else ""
            self.take(letter, f"-{letter}", joined)
            if VALUE_NAMES[letter]:
                return

    def take(self, name, shown, joined):
        """An option, and its value if it has one, which may be joined to it."""
        value = True
        if VALUE_NAMES[name]:
            shown += f" <{VALUE_NAMES[name]}>"
            value = joined.removeprefix("=")
            if not value:
                if not self.words or self.words[0].startswith("-") and self.words[0] != "-":
                    raise Refused(f"a value is required for '{shown}' but none was supplied")
                value = self.words.pop(0)
        elif joined:
            raise Refused(f"unexpected value '{joined[1:]}' for '{shown}' found; no more were expected")
        if name == "known":
            self.known.append(os.fsencode(value))
        elif name in self.given:
            raise Refused(f"the argument '{shown}' cannot be used multiple times")
        self.given[name] = value


def main(words):
    def stop(*reasons):
        for reason in reasons:
            os.write(2, b"rpcdump: %s\n" % reason)
        return 2
    try:
        line = CommandLine(words)
        if "b" in line.given and "t" in line.given:
            raise Stop(b"-b and -t exclude each other")
        names = [os.fsencode(line.given[letter]) if letter in line.given else None for letter in "xt"]
        before_it = line.known, "c-types" in line.given
        return run(names[0], before_it, "b" in line.given, names[1], os.fsencode(line.files[0]))
    except Asked as text:
        try:
            write_texts([text.args[0].encode()])
        except Stop as reason:
            return stop(*reason.args)
        return 0
    except Refused as reason:
        return stop(f"{reason}\nusage: {USAGE}\ntry 'rpcdump --help'".encode())
    except Stop as reason:
        return stop(*reason.args)


if __name__ == "__main__":
    sys.exit(main(sys.argv[1:]))
