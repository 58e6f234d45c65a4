#!/usr/bin/env python3
"""Peers of a real node that misbehave, on loopback ports. Each trial prints what it saw, and the program ends with 1
where one of them saw something else than it must:

  readers   12 clients read 64 bytes of a long listing each half second, and 40 more never read: an honest client is
            answered while their listings are made, one a turn; once they are made, in time each time; and the
            node takes less than 300 megabytes.
  port      a node whose port is taken says so in its log, calls nobody, and listens within 4 seconds once it is free.
  wire      a peer that greets as the agent and never reads is let go after some 10 seconds, and the log says why;
            meanwhile an honest client is answered in time.
  slow      a peer that greets as the agent and reads 50,000 bytes a second of a plan of 3.5 megabytes keeps its link, and
            an honest client is answered in time.
  halfopen  a proxy holds both connections and passes nothing: under a key the agent is called again within 30 seconds.

In time is within 3 seconds and three times as long as a client waits where nobody else is there.

Usage: trials/peers.py [PROGRAM [TRIAL..]]. PROGRAM is named from the top folder on, as out/quick/tws. Without a TRIAL
it does `readers` and `port`, as the gate does; `wire` and `slow` take some 20 seconds and `halfopen` 40, and are run by hand.
It needs /proc.
"""
import socket
import sys
import threading
import time

from nodes import SECRET, Room, frame, free_port, program_of

MOST_SECONDS = 3.0
MOST_MEMORY = 300 * 1024 * 1024


def worst_answer(room, times):
    """How long an honest client waits at most, and whether each question was answered."""
    answers = [room.ask("MDM", "showcpus") for _ in range(times)]
    return max(took for _, _, took in answers), all(status == 0 for status, _, _ in answers)


def bound(room):
    """How long an honest client may wait, by how long it waits where nobody else is there."""
    return MOST_SECONDS + 3 * worst_answer(room, 3)[0]


def small_reader(room):
    stream = socket.socket()
    stream.setsockopt(socket.SOL_SOCKET, socket.SO_RCVBUF, 2048)
    stream.connect(("127.0.0.1", room.master))
    stream.sendall(b"TWS1\xff\xff" + frame(3, b"sj"))
    return stream


def trickle(streams, stop, count=64, pause=0.5):
    """Reads so many bytes of each stream, with so many seconds in between."""
    while not stop.wait(pause):
        for stream in streams:
            try:
                stream.setblocking(False)
                stream.recv(count)
            except OSError:
                pass


def readers(program):
    jobs = "".join(f'LONGNAME-OF-A-JOB-THAT-FILLS-LINES-{i:04d} DOCOMMAND "true"\n' for i in range(400))
    with Room(program) as room:
        room.define(jobs, name="of-node.txt")
        room.define()
        node = room.start("MDM", "of-node.txt")
        if room.until_answers("MDM") is None or room.ask("MDM", "jnextplan 12/01/2026")[0] != 0:
            return "the master makes no plan"
        _, listing, alone = room.ask("MDM", "sj")
        usual = room.ask("MDM", "showcpus")[2]
        most = bound(room)
        slow = [small_reader(room) for _ in range(12)]
        stop = threading.Event()
        threading.Thread(target=trickle, args=(slow, stop), daemon=True).start()
        silent = [small_reader(room) for _ in range(40)]
        first, _ = worst_answer(room, 1)
        made = room.until(lambda: room.ask("MDM", "showcpus")[2] < 1 + usual, most + 104 * alone)
        worst, answered = worst_answer(room, 8)
        memory = room.memory(node)
        stop.set()
        for stream in slow + silent:
            stream.close()
    print(
        f"readers: a listing of {len(listing)} bytes alone took {alone:.2f} s; behind 52 of them an honest client waited "
        f"{first:.2f} s; they were made after {made} s, and then it waited {worst:.2f} s at most, and the node held "
        f"{memory >> 20} megabytes"
    )
    if not answered or made is None or first > most + 104 * alone or worst > most or memory > MOST_MEMORY:
        return "clients that do not read hold the node up"
    return None


def port(program):
    with Room(program) as room, socket.socket() as other:
        room.define()
        other.setsockopt(socket.SOL_SOCKET, socket.SO_REUSEADDR, 1)
        other.bind(("127.0.0.1", room.master))
        other.listen()
        room.start("MDM")
        told = room.until(lambda: " deaf ws=0 " in room.log("MDM"), 10)
        other.close()
        listens = room.until(lambda: " listening ws=0 " in room.log("MDM"), 10)
        answers = room.until_answers("MDM")
    print(f"port: taken was told after {told} s; once it was free the node listened after {listens} s")
    if told is None or listens is None or listens > 4 or answers is None:
        return "a node whose port was taken does not listen once it is free"
    return None


def wire(program):
    jobs = "".join(f'J{i} DOCOMMAND "{"x" * 4000}"\n' for i in range(100))
    with Room(program) as room:
        room.define(jobs, name="of-node.txt")
        room.define()
        room.start("MDM", "of-node.txt")
        if room.until_answers("MDM") is None or room.ask("MDM", "jnextplan 12/01/2026")[0] != 0:
            return "the master makes no plan"
        most = bound(room)
        stream = socket.socket()
        stream.setsockopt(socket.SOL_SOCKET, socket.SO_RCVBUF, 2048)
        stream.connect(("127.0.0.1", room.master))
        stream.sendall(b"TWS1\x00\x01")
        worst, answered = worst_answer(room, 4)
        gone = room.until(lambda: " down ws=1 " in room.log("MDM"), 30)
        why = [line for line in room.log("MDM").splitlines() if " down ws=1 " in line]
        stream.close()
    print(f"wire: who reads nothing was let go after {gone} s; an honest client waited {worst:.2f} s at most; {why[:1]}")
    if gone is None or not answered or worst > most or " why=stalled" not in why[0]:
        return "a workstation that does not read holds the node up"
    return None


def slow(program):
    jobs = "".join(f'J{i} DOCOMMAND "{"x" * 4000}"\n' for i in range(870))
    with Room(program) as room:
        room.define(jobs, name="of-node.txt")
        room.define()
        room.start("MDM", "of-node.txt")
        if room.until_answers("MDM", 300) is None or room.ask("MDM", "jnextplan 12/01/2026", 300)[0] != 0:
            return "the master makes no plan"
        most = bound(room)
        stream = socket.socket()
        stream.setsockopt(socket.SOL_SOCKET, socket.SO_RCVBUF, 8192)
        stream.connect(("127.0.0.1", room.master))
        stream.sendall(b"TWS1\x00\x01")
        stop = threading.Event()
        threading.Thread(target=trickle, args=([stream], stop, 5_000, 0.1), daemon=True).start()
        worst, answered = worst_answer(room, 40)
        held = " down ws=1 " not in room.log("MDM")
        stop.set()
        stream.close()
    print(f"slow: beside a workstation that reads 50,000 bytes a second an honest client waited {worst:.2f} s at most")
    if not answered or not held or worst > most:
        return "a workstation that reads slowly holds the node up, or is let go"
    return None


class Proxy:
    """Passes what comes to a port on to another one, until it is told to hold its connections and pass nothing."""

    def __init__(self, to):
        self.to, self.port, self.held, self.count = to, free_port(), set(), 0
        self.streams = []
        listener = socket.socket()
        listener.setsockopt(socket.SOL_SOCKET, socket.SO_REUSEADDR, 1)
        listener.bind(("127.0.0.1", self.port))
        listener.listen()
        threading.Thread(target=self.serve, args=(listener,), daemon=True).start()

    def serve(self, listener):
        while True:
            come, _ = listener.accept()
            try:
                gone = socket.create_connection(("127.0.0.1", self.to))
            except OSError:
                come.close()
                continue
            self.count += 1
            self.streams += [come, gone]
            for a, b in ((come, gone), (gone, come)):
                threading.Thread(target=self.pump, args=(a, b), daemon=True).start()

    def pump(self, a, b):
        while True:
            try:
                data = a.recv(65536)
                if not data:
                    b.close()
                    return
                if id(a) not in self.held:
                    b.sendall(data)
            except OSError:
                return

    def hold(self):
        self.held |= {id(stream) for stream in self.streams}


def halfopen(program):
    with Room(program, SECRET) as room:
        to_master, to_agent = Proxy(room.master), Proxy(room.agent)
        room.define(agent=to_agent.port, name="of-master.txt")
        room.define(master=to_master.port, name="of-agent.txt")
        room.define()
        room.start("MDM", "of-master.txt")
        room.start("A1", "of-agent.txt")
        up = room.until(lambda: " up ws=0 " in room.log("A1"), 20)
        count = to_master.count + to_agent.count
        to_master.hold()
        to_agent.hold()
        again = room.until(lambda: to_master.count + to_agent.count > count, 60)
        planned = room.ask("MDM", "jnextplan 12/01/2026")[0]
        came = room.until(lambda: "SUCC" in room.ask("A1", "showschedules")[1], 30)
    print(f"halfopen: up after {up} s; called again {again} s after the hold; the plan ran {came} s after it was made")
    if up is None or again is None or again > 30 or planned != 0 or came is None:
        return "a link that a proxy holds does not come again"
    return None


TRIALS = {"readers": readers, "port": port, "wire": wire, "slow": slow, "halfopen": halfopen}


def main(words):
    program, names = program_of(words)
    faults = []
    for name in names or ["readers", "port"]:
        fault = TRIALS[name](program)
        if fault:
            faults.append(f"{name}: {fault}")
    for fault in faults:
        print(fault, file=sys.stderr)
    return 1 if faults else 0


if __name__ == "__main__":
    sys.exit(main(sys.argv[1:]))
