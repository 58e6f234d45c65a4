#!/usr/bin/env python3
"""Makes a message file of the `entry` lines of a history, for workstations whose file a case reads. docs/FILES.md shows
the bytes.

Usage: trials/messages.py OWNER < LINES > NAME.msg   OWNER is the number of the workstation; other lines are left out.
"""
import sys


def main():
    if len(sys.argv) != 2:
        sys.exit(__doc__)
    out = sys.stdout.buffer
    out.write(b"TWSM\x00\x01" + int(sys.argv[1]).to_bytes(2, "big"))
    for line in sys.stdin:
        word, _, digits = line.strip().partition(" ")
        if word == "entry":
            body = bytes.fromhex(digits)
            out.write(b"\x01" + len(body).to_bytes(4, "big") + body)
    out.write(b"\x00")


main()
