#!/usr/bin/env python3
"""Makes of a TCP connection what rpcdump reads: each record of either direction, where its end was recorded.

    tshark -r CAPTURE -q -z follow,tcp,raw,NUMBER | stream_of_follow.py >STREAM

tshark prints the bytes in the order of the capture, in lines of hexadecimal digits, those of the second direction
behind a tab. Where a client sends a call while an answer is on its way, a record of one direction may stand between
two parts of one of the other; here each is kept whole (RFC 5531, section 11). What is left at the end of each direction
comes last.
"""
import re
import sys


def record_end(data):
    """Where the record at the front ends, or None where it is not whole."""
    end, last = 0, False
    while not last:
        if end + 4 > len(data):
            return None
        header = int.from_bytes(data[end:end + 4], "big")
        last = header >= 0x80000000
        end += 4 + header % 0x80000000
    return end if end <= len(data) else None


left = {"": b"", "\t": b""}
for line in sys.stdin:
    if found := re.fullmatch("(\t?)([0-9a-f]+)\n", line):
        left[found[1]] += bytes.fromhex(found[2])
        while end := record_end(left[found[1]]):
            sys.stdout.buffer.write(left[found[1]][:end])
            left[found[1]] = left[found[1]][end:]
sys.stdout.buffer.write(left[""] + left["\t"])
