#!/usr/bin/env python3
"""A node whose message file is full.

It makes the file of a network of one workstation with orders that wait, so large that the next entry of 16 bytes still
fits and no other does, and starts a node over it. The node keeps that it declines the first order, cannot keep its
answer to the second one, and ends with status 10 and the line `limit: file 2147483648`. Then a second node ends so at
once. After each the file has every byte that it had, the entry that fitted, and nothing of one that did not.
docs/FILES.md shows the bytes.

Usage: trials/full_file.py [FOLDER]   FOLDER is where the file is made, and is emptied of it at the end; without it a new
                                      one. TWS may name another program, from the top folder on. It ends with 0, or with 1
                                      and what is not so.
It is run by hand; the gate does not run it. The file takes 2.2 GB of the disk, and a node, which holds all of its
entries, takes more than that of memory. All takes some minutes.
"""
import os
import shutil
import subprocess
import sys
import tempfile
import time

TOP = os.path.dirname(os.path.dirname(os.path.abspath(__file__)))
TWS = os.path.join(TOP, os.environ.get("TWS", "crates/tws_program/out/tws_program"))

LONGEST_FILE = 2147483648
LONGEST_TEXT = 4096
HEAD = b"TWSM\x00\x01\x00\x00"
OPEN, CLOSED = b"\x01", b"\x00"
# version, feed of events of workstation 0, place, kind, issuer and place of the order, and why it is declined
ANSWER_SIZE = 16
WANTED = "limit: file 2147483648\n"

DEFINITIONS = """CPUNAME MDM OS UNIX NODE 127.0.0.1 TCPADDR 1 DOMAIN MASTERDM FOR MAESTRO TYPE MANAGER END
DOMAIN MASTERDM MANAGER MDM ISMASTER END
SCHEDULE MDM#S ON EVERYDAY :
J DOCOMMAND "true"
END
"""


def number(n, width):
    return n.to_bytes(width, "big")


def order_front(place, text_length):
    """An order of workstation 0 for itself, up to its text: stream 1 is to get a prompt of its own."""
    feed = b"\x01" + number(0, 2) + number(0, 2)
    stream, prompt = b"\x01" + number(1, 4), b"\x05" + number(text_length, 2)
    return b"\x01" + feed + number(place, 4) + b"\x0f" + b"\x01" + stream + prompt


FRONT_SIZE = len(order_front(1, 0))


def orders_up_to(gate):
    """The lengths of the texts of orders whose records fill a file from its head up to this gate."""
    left = gate - len(HEAD)
    whole = 5 + FRONT_SIZE + LONGEST_TEXT
    lengths = [LONGEST_TEXT] * (left // whole - 1)
    left -= whole * len(lengths)
    # two more share what is left, so that neither is too long or has no room for its front
    first = left // 2
    return lengths + [first - 5 - FRONT_SIZE, left - first - 5 - FRONT_SIZE]


def record_fronts(lengths):
    """Each record up to its text, with its place and that of its end."""
    at = len(HEAD)
    for place, length in enumerate(lengths, 1):
        front = order_front(place, length)
        front = OPEN + number(len(front) + length, 4) + front
        end = at + len(front) + length
        yield at, front, end
        at = end


def write_file(path, lengths, gate):
    with open(path, "wb") as file:
        file.write(HEAD)
        for at, front, end in record_fronts(lengths):
            file.seek(at)
            file.write(front)
        if end != gate:
            sys.exit(f"the last gate stands at {end}, and not at {gate}")
        file.seek(gate)
        file.write(CLOSED)


def check_front(path, lengths, gate):
    """All that was written before the last gate is there."""
    zeros = bytes(LONGEST_TEXT)
    with open(path, "rb") as file:
        if file.read(len(HEAD)) != HEAD:
            sys.exit("the head of the file has changed")
        for at, front, end in record_fronts(lengths):
            if file.read(end - at) != front + zeros[: end - at - len(front)]:
                sys.exit(f"the record at {at} has changed")
        if file.tell() != gate:
            sys.exit("the file is too short")


def tail_of(path, gate):
    with open(path, "rb") as file:
        file.seek(gate)
        return file.read()


def check_answer(tail):
    """Behind the old gate, which is open now, stand the answer to the first order and a closed gate, and nothing more."""
    answer = b"\x01\x00" + number(0, 2) + number(1, 4) + b"\x0e" + number(0, 2) + number(1, 4)
    begins = OPEN + number(ANSWER_SIZE, 4) + answer
    if not tail.startswith(begins) or len(tail) != 5 + ANSWER_SIZE + 1 or tail[-1:] == OPEN:
        sys.exit(f"behind the orders stands {tail[:64].hex()}, {len(tail)} bytes, and not one answer alone")


def serve(folder):
    began = time.time()
    words = [TWS, "node", "MDM", "100"]
    ran = subprocess.run(words, cwd=folder, input=DEFINITIONS, stdout=subprocess.PIPE, stderr=subprocess.STDOUT, text=True)
    if (ran.returncode, ran.stdout) != (10, WANTED):
        sys.exit(f"the node ended with {ran.returncode} and wrote {ran.stdout!r}, and not with 10 and {WANTED!r}")
    print(f"a node ended with 10 and wrote {WANTED.strip()!r} after {time.time() - began:.0f} s", flush=True)


def try_in(folder):
    path = os.path.join(folder, "MDM.msg")
    if os.path.exists(path):
        sys.exit(f"{path} is there already")
    gate = LONGEST_FILE - 1 - 5 - ANSWER_SIZE
    lengths = orders_up_to(gate)
    try:
        write_file(path, lengths, gate)
        print(f"{len(lengths)} orders fill {gate} bytes", flush=True)
        serve(folder)
        check_front(path, lengths, gate)
        tail = tail_of(path, gate)
        check_answer(tail)
        if os.path.getsize(path) != LONGEST_FILE:
            sys.exit(f"the file has {os.path.getsize(path)} bytes")
        serve(folder)
        check_front(path, lengths, gate)
        if tail_of(path, gate) != tail:
            sys.exit("the second node changed the end of the file")
    finally:
        if os.path.exists(path):
            os.remove(path)
    print("the file kept every byte, and the entry that fitted")


def main():
    if len(sys.argv) > 2 or sys.argv[1:2] in (["-h"], ["--help"]):
        sys.exit(__doc__)
    if not os.access(TWS, os.X_OK):
        sys.exit(f"there is no program {TWS}")
    if len(sys.argv) == 2:
        try_in(sys.argv[1])
        return
    folder = tempfile.mkdtemp()
    try:
        try_in(folder)
    finally:
        shutil.rmtree(folder)


main()
