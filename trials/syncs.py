#!/usr/bin/env python3
"""What a node keeps is synced before anything of it goes out: a real node runs one job under strace, which must be
installed. In the trace of its calls it must see, for the node's message file: a write or a cut, and then a sync that
succeeded, before the next byte to any socket; the folder synced before the first such byte; in a second start on the
file, its last bytes written anew and synced before anything else is written; and of the job, a fork, and one file of
its own in NAME.out. It ends with 0, or with 1 and what it saw. It takes some five seconds.

Usage: trials/syncs.py [PROGRAM]. PROGRAM is named from the top folder on, as out/quick/tws.
"""
import os
import re
import shutil
import subprocess
import sys

from nodes import Room, program_of

CALLS = "openat,pread64,pwrite64,ftruncate,fsync,fdatasync,sendto,write,socket,accept4,clone,clone3,fork,vfork"


def calls_of_node(lines):
    """Each call of the process that the trace begins with, whole, by the number of the line where it ended. Its jobs have
    numbers of files of their own; while one of them calls too, strace cuts a call of the node in two lines."""
    node, begun = None, ""
    for number, line in enumerate(lines, 1):
        process, text = re.match(r"(?:(\d+) +)?(.*)", line).groups()
        node = node or process
        if process != node:
            continue
        if text.endswith("<unfinished ...>"):
            begun = text.removesuffix("<unfinished ...>")
            continue
        resumed = re.match(r"<\.\.\. \w+ resumed>(.*)", text)
        yield number, begun + resumed[1] if resumed else text
        begun = ""


class Trace:
    """What a trace of calls tells of the message file, in order."""

    def __init__(self, path):
        self.file = self.folder = None
        self.sockets = set()
        self.dirty, self.named = 0, False
        self.writes = self.syncs = self.out = self.forks = 0
        self.first = None
        self.faults = []
        with open(path, errors="replace", encoding="utf-8") as lines:
            for number, text in calls_of_node(lines):
                match = re.match(r"(\w+)\((.*)", text)
                if match:
                    self.take(number, match[1], match[2].strip())

    def take(self, number, call, rest):
        answer = re.search(r"= (-?\d+)", rest.rsplit(")", 1)[-1])
        answer = int(answer[1]) if answer else -1
        place = rest.split(",")[0].split(")")[0].strip()
        if call == "openat" and answer >= 0:
            self.take_open(rest, str(answer))
        elif call in ("accept4", "socket") and answer >= 0:
            self.sockets.add(str(answer))
        elif call in ("clone", "clone3", "fork", "vfork"):
            self.forks += 1
        elif call in ("pwrite64", "ftruncate") and place == self.file:
            self.first = self.first or rest
            self.dirty, self.writes = number, self.writes + 1
        elif call in ("fsync", "fdatasync") and answer == 0:
            if place == self.file:
                self.dirty, self.syncs = 0, self.syncs + 1
            if place == self.folder:
                self.named = True
        elif call in ("sendto", "write") and place in self.sockets:
            self.out += 1
            if self.dirty:
                self.faults.append(f"line {number}: bytes go out while the write of line {self.dirty} is not synced")
            if not self.named:
                self.faults.append(f"line {number}: bytes go out and the folder is not synced")

    def take_open(self, rest, number):
        name = re.search(r'"([^"]*)"', rest)
        if name and name[1].endswith(".msg"):
            self.file = number
        elif name and name[1] == ".":
            self.folder = number
        elif number in self.sockets:
            self.sockets.discard(number)

    def __str__(self):
        return f"{self.writes} writes, {self.syncs} syncs, {self.out} times bytes went out, {self.forks} forks"


def traced(room, name):
    """A node under strace; the path of its trace."""
    plain = room.program
    wrapper = room.path(name)
    with open(wrapper, "w", encoding="utf-8") as file:
        file.write(f'#!/bin/sh\nexec strace -f -qq -s 16 -e trace={CALLS} -o {room.path(name + ".trace")} {plain} "$@"\n')
    subprocess.run(["chmod", "755", wrapper], check=True)
    room.program = wrapper
    node = room.start("A1")
    room.program = plain
    return node, room.path(name + ".trace")


def main(words):
    program, _ = program_of(words)
    if shutil.which("strace") is None:
        print("strace is not installed: nothing was tried", file=sys.stderr)
        return 0
    with Room(program) as room:
        room.define()
        room.start("MDM")
        node, first = traced(room, "first")
        if room.until_answers("A1") is None or room.ask("MDM", "jnextplan 12/01/2026")[0] != 0:
            print("the nodes do not answer", file=sys.stderr)
            return 1
        ran = room.until(lambda: "SUCC" in room.ask("A1", "showschedules")[1], 30)
        room.ask("A1", "shutdown")
        node.wait()
        outputs = os.listdir(room.path("A1", "A1.out")) if ran is not None else []
        node, second = traced(room, "second")
        answers = room.until_answers("A1")
        room.ask("A1", "shutdown")
        node.wait()
        one, two = Trace(first), Trace(second)
    print(f"first start: {one}; second start: {two}, beginning with {two.first}")
    faults = one.faults + two.faults
    if ran is None or answers is None:
        faults.append("the job did not run")
    elif outputs != ["1.1"]:
        faults.append(f"the job has not one file of its own: {outputs}")
    if one.syncs == 0 or one.out == 0 or one.forks == 0:
        faults.append("the trace has no syncs, nothing that went out, or no fork")
    if two.first is None or '"TWSM' not in two.first:
        faults.append("the second start does not write the file's last bytes anew first")
    for fault in faults:
        print(fault, file=sys.stderr)
    return 1 if faults else 0


if __name__ == "__main__":
    sys.exit(main(sys.argv[1:]))
