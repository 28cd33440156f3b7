#!/usr/bin/env python3
"""Makes nfs2.stream: a client of NFS version 2 looks up a file, reads it and lists its folder (RFC 1094).

    make_nfs2_stream.py >nfs2.stream

Both directions in the order of time, as `rpcdump` reads them: each message is a record of one fragment (RFC 5531,
section 11), but for the listing, whose record has two.
"""
import struct
import sys

PROGRAM, VERSION = 100003, 2
GETATTR, LOOKUP, READ, READDIR = 1, 4, 6, 16
OK, NO_ENTRY = 0, 2
REGULAR_FILE, FOLDER = 1, 2
CALL, REPLY, RPC_VERSION = 0, 1, 2
LAST_FRAGMENT = 0x80000000


def words(*numbers):
    return struct.pack(f">{len(numbers)}I", *numbers)


def counted(data):
    """A string or an opaque of any length: its length, its bytes, and zero bytes up to a whole word."""
    return words(len(data)) + data + bytes(-len(data) % 4)


def handle(number):
    """A file handle, which says nothing to a client: the server's number of the file, and zero bytes."""
    return words(number).ljust(32, b"\0")


NOBODY = words(0, 0)
USER = words(1) + counted(words(0) + counted(b"desk") + words(1000, 100, 0))


def call(xid, procedure, arguments):
    return words(xid, CALL, RPC_VERSION, PROGRAM, VERSION, procedure) + USER + NOBODY + arguments


def reply(xid, results):
    return words(xid, REPLY, 0) + NOBODY + words(0) + results


def attributes(kind, mode, size, number):
    """Type, mode, links, owner, group, size, block size, device, blocks, file system, number; three times."""
    return words(kind, mode, 1, 1000, 100, size, 4096, 0, 1, 7, number) + 3 * words(1704067200, 0)


def entry(number, name, cookie):
    return words(1, number) + counted(name) + words(cookie)


def record(*fragments):
    marks = [0] * (len(fragments) - 1) + [LAST_FRAGMENT]
    return b"".join(words(mark | len(data)) + data for mark, data in zip(marks, fragments))


HOME, NOTES = handle(2), handle(42)
ABOUT_NOTES = attributes(REGULAR_FILE, 0o100644, 14, 42)
LISTING = reply(104, words(OK) + entry(2, b".", 1) + entry(42, b"notes.txt", 2) + words(0, 1))

RECORDS = [
    record(call(100, LOOKUP, HOME + counted(b"notes.txt"))),
    record(reply(100, words(OK) + NOTES + ABOUT_NOTES)),
    # The client waits for neither of these before it sends the other.
    record(call(101, READ, NOTES + words(0, 4096, 0))),
    record(call(102, GETATTR, HOME)),
    record(reply(102, words(OK) + attributes(FOLDER, 0o40755, 4096, 2))),
    record(reply(101, words(OK) + ABOUT_NOTES + counted(b"milk\nbread\njam"))),
    record(call(103, LOOKUP, HOME + counted(b"notes.bak"))),
    record(reply(103, words(NO_ENTRY))),
    record(call(104, READDIR, HOME + words(0, 4096))),
    record(LISTING[:40], LISTING[40:]),
]

sys.stdout.buffer.write(b"".join(RECORDS))
