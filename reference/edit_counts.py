#!/usr/bin/env python3
"""edit_counts FILE: of each edit that the lines of standard input ask for, how many tokens are lexed, how many items
parsed and checked, and how many entries move. The text is compiled anew at each edit."""
import sys

sys.dont_write_bytecode = True

import rpcedit
import work


def main(words):
    with open(words[0], "rb") as file:
        session = rpcedit.Session(b"t.x", file.read())
    reading = work.Reading(session.text)
    seats = work.seats_of(reading)
    for line in rpcedit.script_lines(sys.stdin.buffer.read()):
        match = rpcedit.EDIT.fullmatch(line)
        if match is None:
            continue
        answer = session.answer(line)
        if answer.startswith(b"refused"):
            print(answer.decode(), end="")
            continue
        new = work.Reading(session.text)
        edit = int(match[1]), int(match[2]), bytes.fromhex((match[3] or b"").decode())
        took = work.work_of(reading, edit, new, seats)
        print(work.line_of(took))
        reading, seats = new, took.seats


if __name__ == "__main__":
    main(sys.argv[1:])
