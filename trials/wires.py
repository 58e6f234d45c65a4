#!/usr/bin/env python3
"""Wires that are cut and names that nobody knows, for real nodes in a network of their own, which `unshare` makes. Each
trial prints what it saw, and the program ends with 1 where one of them saw something else than it must:

  cut    the wire between two nodes without a key passes nothing any more, while one of them has something to send and the
         other one is silent: each tells the end of the link within 25 seconds. Once the wire is mended the link comes
         again by itself, and what was kept back comes over.
  known  a node whose manager is known by its name alone looks this name up once for a link that lasts; the nodes whose
         addresses are digits look up nothing.
  silent a server of names that never answers costs a node at most a tenth of its time: within 30 seconds it is asked
         for the name of the manager three times at most, and an honest client waits 3 seconds longer than usual at most.

It is run by hand and takes some two minutes. Usage: trials/wires.py [PROGRAM [TRIAL..]]. PROGRAM is named from the top folder
on, as out/quick/tws. It needs `unshare` and `ip`, and a system that lets the user make networks; elsewhere nothing is tried.
"""
import os
import re
import shutil
import socket
import subprocess
import sys
import threading
import time

from nodes import Room, definitions, program_of

INSIDE = "TWS_INSIDE"
NAME = "manager.test"


def wire(state):
    subprocess.run(["ip", "link", "set", "lo", state], check=True)


class Names:
    """The server of names: it answers by the loopback's address, or not at all, and counts the look-ups of each name."""

    def __init__(self, answers, folder):
        self.answers, self.asked = answers, {}
        self.socket = socket.socket(socket.AF_INET, socket.SOCK_DGRAM)
        self.socket.bind(("127.0.0.1", 53))
        self.socket.settimeout(0.2)
        self.open = True
        with open(os.path.join(folder, "resolv.conf"), "w", encoding="utf-8") as file:
            file.write("nameserver 127.0.0.1\noptions timeout:1 attempts:1\n")
        subprocess.run(["mount", "--bind", file.name, "/etc/resolv.conf"], check=True)
        self.server = threading.Thread(target=self.serve, daemon=True)
        self.server.start()

    def __enter__(self):
        return self

    def __exit__(self, *_):
        subprocess.run(["umount", "/etc/resolv.conf"], check=True)
        self.open = False
        self.server.join()
        self.socket.close()

    def serve(self):
        while self.open:
            try:
                question, caller = self.socket.recvfrom(512)
            except TimeoutError:
                continue
            name, behind = [], 12
            while question[behind]:
                name.append(question[behind + 1:behind + 1 + question[behind]].decode())
                behind += 1 + question[behind]
            kind = question[behind + 1:behind + 3]
            if kind == b"\0\1":
                asked = self.asked.setdefault(".".join(name), [])
                asked.append(time.time())
            if self.answers:
                self.socket.sendto(self.answer(question[:behind + 5], kind), caller)

    @staticmethod
    def answer(question, kind):
        """The address of the loopback to who asks for one of four bytes, and nothing else to others."""
        count = b"\0\1" if kind == b"\0\1" else b"\0\0"
        row = b"\xc0\x0c\0\1\0\1\0\0\0\x3c\0\4\x7f\0\0\1" if kind == b"\0\1" else b""
        return question[:2] + b"\x81\x80\0\1" + count + b"\0\0\0\0" + question[12:] + row


def ended(log, ws):
    """When the log tells the end of this link, and why."""
    for line in log.splitlines():
        found = re.match(rf"(\S+) down ws={ws} .* why=(.+)$", line)
        if found:
            return found[1], found[2]
    return None


def cut(program):
    with Room(program) as room:
        room.define('J DOCOMMAND "until test -e ../go; do sleep 0.1; done"\n')
        room.start("MDM")
        room.start("A1")
        if room.until_answers("MDM") is None or room.ask("MDM", "jnextplan 12/01/2026")[0] != 0:
            return "the master makes no plan"
        if room.until(lambda: " EXEC 1" in room.ask("MDM", "showjobs")[1], 20) is None:
            return "the job does not begin"
        wire("down")
        with open(room.path("go"), "w", encoding="utf-8"):
            pass
        gone = room.until(lambda: ended(room.log("MDM"), 1) and ended(room.log("A1"), 0), 60)
        ends = ended(room.log("MDM"), 1), ended(room.log("A1"), 0)
        wire("up")
        came = room.until(lambda: " SUCC 1" in room.ask("MDM", "showjobs")[1], 30)
    print(f"cut: both ends had let go after {gone} s, {ends}; the end of the job came {came} s after the wire was mended")
    if gone is None or gone > 25:
        return "an end of a link that passes nothing is not told within 25 seconds"
    if came is None:
        return "what was kept back does not come over a wire that was mended"
    return None


def by_name(room):
    """Definitions by which the agent finds its manager by a name, and all others find both by digits."""
    text = definitions(room.master, room.agent, 'J DOCOMMAND "true"\n')
    with open(room.path("of-agent.txt"), "w", encoding="utf-8") as file:
        file.write(text.replace("NODE 127.0.0.1", f"NODE {NAME}", 1))
    room.define()


def known(program):
    with Room(program) as room, Names(True, room.folder) as names:
        by_name(room)
        room.start("MDM")
        if room.until_answers("MDM") is None:
            return "the master does not answer"
        room.start("A1", "of-agent.txt")
        if room.until_answers("A1") is None or room.ask("MDM", "jnextplan 12/01/2026")[0] != 0:
            return "the master makes no plan"
        ran = room.until(lambda: "SUCC" in room.ask("MDM", "showschedules")[1], 20)
        time.sleep(8)
        asked = {name: len(times) for name, times in names.asked.items()}
    print(f"known: the job ran after {ran} s, and these names were looked up: {asked}")
    if ran is None or asked != {NAME: 1}:
        return "a name that is known is looked up otherwise than once"
    return None


def silent(program):
    with Room(program) as room, Names(False, room.folder) as names:
        by_name(room)
        room.start("A1", "of-agent.txt")
        if room.until_answers("A1") is None:
            return "the agent does not answer"
        took, end = [], time.time() + 30
        while time.time() < end:
            status, _, seconds = room.ask("A1", "showcpus")
            took.append(seconds if status == 0 else 60)
            time.sleep(0.2)
        asked = len(names.asked.get(NAME, []))
    took.sort()
    print(
        f"silent: {asked} look-ups in 30 s; of {len(took)} questions half were answered within {took[len(took) // 2]:.2f} s "
        f"and each within {took[-1]:.2f} s"
    )
    if not 1 <= asked <= 3 or took[-1] > 3 + took[len(took) // 2]:
        return "a server of names that does not answer holds a node up"
    return None


TRIALS = {"cut": cut, "known": known, "silent": silent}


def enter(words):
    """Runs this program in a network and with file names of its own; the status that it ended with."""
    for make in (["unshare", "--user", "--map-root-user", "--net", "--mount"], ["unshare", "--net", "--mount"]):
        if shutil.which("unshare") and shutil.which("ip") and subprocess.run([*make, "true"], check=False).returncode == 0:
            return subprocess.run([*make, sys.executable, *words], env={**os.environ, INSIDE: "1"}, check=False).returncode
    print("no network of its own can be made: nothing was tried")
    return 0


def main(words):
    if INSIDE not in os.environ:
        return enter(words)
    program, names = program_of(words[1:])
    wire("up")
    faults = []
    for name in names or TRIALS:
        fault = TRIALS[name](program)
        if fault:
            faults.append(f"{name}: {fault}")
    for fault in faults:
        print(fault, file=sys.stderr)
    return 1 if faults else 0


if __name__ == "__main__":
    sys.exit(main(sys.argv))
