#!/usr/bin/env python3
"""Puts the entries of all message files of a network into one history, causes first, as `entry` lines for `tws audit`.

An entry stands behind all that the workstation that made it kept before. An entry of another's stands where its maker
kept it. docs/FILES.md shows the bytes.

Usage: trials/causes.py FILE..   one file of each workstation. It ends with 1, and says why, where a file is none, or
                                 holds an entry that its maker's file lacks, or has otherwise, or kept only later.
"""
import sys

HEAD = b"TWSM\x00\x01"


def bodies_of(path):
    """The number of the file's workstation, and the bodies behind open gates."""
    with open(path, "rb") as file:
        data = file.read()
    if data[:6] != HEAD:
        sys.exit(f"{path} is no message file")
    bodies, at = [], 8
    while data[at : at + 1] == b"\x01":
        end = at + 5 + int.from_bytes(data[at + 1 : at + 5], "big")
        bodies.append(data[at + 5 : end])
        at = end
    return int.from_bytes(data[6:8], "big"), bodies


def place_of(body):
    """The feed and the place of an entry: behind its version stand the kind of its feed, one workstation or two, and the
    place in four bytes."""
    return body[1 : 8 if body[1] == 0 else 10]


def maker_of(body):
    return int.from_bytes(body[2:4], "big")


def main():
    if len(sys.argv) < 2:
        sys.exit(__doc__)
    files = dict(bodies_of(path) for path in sys.argv[1:])
    told, reached = {}, dict.fromkeys(files, 0)
    moved = True
    while moved:
        moved = False
        for owner, bodies in files.items():
            while reached[owner] < len(bodies):
                body = bodies[reached[owner]]
                if maker_of(body) == owner:
                    print("entry", body.hex())
                    told[place_of(body)] = body
                elif place_of(body) not in told:
                    break
                elif told[place_of(body)] != body:
                    sys.exit(f"workstation {owner} has another entry than its maker at {place_of(body).hex()}")
                reached[owner] += 1
                moved = True
    for owner, bodies in files.items():
        if reached[owner] < len(bodies):
            sys.exit(f"workstation {owner} has an entry that its maker lacks: {bodies[reached[owner]].hex()}")


main()
