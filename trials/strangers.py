#!/usr/bin/env python3
"""A stranger at the port of a real node, with his own implementation of the wire.

With a key he tries: the old greeting, no greeting, a wrong key, a wrong number, a whole connection again, a changed, a
repeated, a dropped, an exchanged and a cut record, his own bytes back, the answer of another node, slow greetings, and
many connections. None of it may get a byte of the plan out or an entry in: each is closed, the log says why, the file
of the node stays as it was, and the node takes less than 100 megabytes. While the many connections come, the agent keeps
its link, and of an honest client's questions at least half are answered, each within six seconds. Who holds the key is let
in. Then he stands at the port that a node calls, and says nothing, or answers by a cut, a wrong, an old or another node's
answer: no proof and no byte of the plan comes. `tws ask` without the key, or with one that others may read, is not
answered.

Without a key it shows what the key is for: the same greeting brings the plan to the stranger.

It prints what each try came to and ends with 0, or with 1 where one came to something else. It takes about a minute;
the gate runs it. Usage: trials/strangers.py [PROGRAM [MANY]]. PROGRAM is named from the top folder on, as
out/quick/tws. MANY is how many connections are made at the end, 10,000 without it.
"""
import hashlib
import hmac
import os
import socket
import struct
import sys
import threading
import time

from nodes import SECRET, Room, frame, program_of

MOST_MEMORY = 100 * 1024 * 1024
MOST_SECONDS = 6.0
MASTER, AGENT, CLIENT = 0, 1, 65535


def code(key, *parts):
    return hmac.new(key, b"".join(parts), hashlib.sha256).digest()


def key_of(secret):
    return code(secret, b"N", b"TWS2")


def hello(caller, called, nonce):
    return b"TWS2" + struct.pack(">HH", caller, called) + nonce


def taken(stream, count):
    """So many bytes, or fewer where the connection ends or nothing comes for ten seconds."""
    data = b""
    try:
        while len(data) < count:
            more = stream.recv(count - len(data))
            if not more:
                break
            data += more
    except OSError:
        pass
    return data


def is_closed(stream, seconds=8):
    """Whether the other end closes the connection, and sends nothing before."""
    stream.settimeout(seconds)
    try:
        return stream.recv(65536) == b""
    except ConnectionError:
        return True
    except socket.timeout:
        return False


def is_ended(stream, seconds=8):
    """Whether the other end closes the connection, whatever it sends before."""
    end = time.time() + seconds
    stream.settimeout(seconds)
    try:
        while time.time() < end:
            if stream.recv(65536) == b"":
                return True
    except ConnectionError:
        return True
    except socket.timeout:
        pass
    return False


class Holder:
    """One who knows the key, up to the first record. What it sends and takes is kept, for whoever tries it again."""

    def __init__(self, stream, caller, called, key=key_of(SECRET), nonce=None):
        self.stream = stream
        greeting = hello(caller, called, nonce or os.urandom(32))
        stream.sendall(greeting)
        self.answer = taken(stream, 68)
        talk = greeting + self.answer[4:36]
        self.knows = len(self.answer) == 68 and code(key, b"A", talk) == self.answer[36:]
        self.to, self.from_ = code(key, b"C", talk), code(key, b"R", talk)
        self.count = self.heard = 0
        self.sent = greeting + code(key, b"P", talk)
        if len(self.answer) == 68:
            stream.sendall(code(key, b"P", talk))

    def record(self, data):
        length = struct.pack(">H", len(data))
        made = length + data + code(self.to, struct.pack(">Q", self.count), length, data)
        self.count += 1
        return made

    def send(self, data):
        made = self.record(data)
        self.sent += made
        self.stream.sendall(made)

    def take(self):
        """The bytes of the next record, or None where none comes under the key."""
        front = taken(self.stream, 2)
        if len(front) < 2:
            return None
        data = taken(self.stream, struct.unpack(">H", front)[0])
        wanted = code(self.from_, struct.pack(">Q", self.heard), front, data)
        self.heard += 1
        return data if taken(self.stream, 32) == wanted else None


def a_second_later():
    """The log tells of one refused caller a second, so what it must tell of comes a second after the one before."""
    time.sleep(1.1)


def greetings(room):
    """Each greeting that must be closed without a byte, by its name."""
    for name, words in (
        ("the old greeting of the agent", b"TWS1\0\1" + b"\0" * 40),
        ("the old greeting of a client", b"TWS1\xff\xff" + frame(3, b"showcpus") + b"\0" * 40),
        ("a browser", b"GET / HTTP/1.1\r\nHost: localhost\r\nUser-Agent: x\r\n\r\n"),
        ("a greeting to another number", hello(AGENT, 3, b"n" * 32)),
        ("a greeting by the node's own number", hello(MASTER, MASTER, b"n" * 32)),
        ("nothing for six seconds", b""),
        ("half a greeting", b"TWS2\0\1"),
    ):
        if name == "a greeting to another number":
            a_second_later()
        stream = room.call()
        stream.sendall(words)
        yield name, is_closed(stream)


def without_key(room):
    """What one without the key tries behind a right greeting."""
    a_second_later()
    stream = room.call()
    wrong = Holder(stream, AGENT, MASTER, key_of(b"x" * 32))
    yield "a wrong key", not wrong.knows and is_closed(stream)
    stream = room.call()
    greeting = hello(AGENT, MASTER, b"n" * 32)
    stream.sendall(greeting)
    answer = taken(stream, 68)
    stream.sendall(answer[36:68])
    yield "the answer's own code as the proof", len(answer) == 68 and is_closed(stream)
    stream = room.call()
    stream.sendall(greeting)
    answer = taken(stream, 68)
    stream.sendall(answer[4:36])
    yield "the answer's number as the proof", is_closed(stream)
    # the answer of the master to a greeting of the agent, given to the agent as if the master had been called
    stream, other = room.call(), room.call(room.agent)
    stream.sendall(hello(AGENT, MASTER, b"m" * 32))
    other.sendall(hello(MASTER, AGENT, b"m" * 32))
    theirs = taken(stream, 68)
    taken(other, 68)
    other.sendall(theirs[36:68])
    yield "the answer of another node", is_closed(other)


def with_key(room):
    """What one tries who could once listen to a holder of the key, or sits on the wire."""
    client = Holder(room.call(), CLIENT, MASTER)
    client.send(frame(3, b"showcpus"))
    said = client.take()
    yield "a holder of the key is answered", client.knows and said is not None and b"cpu MDM" in said
    stream = room.call()
    stream.sendall(client.sent)
    taken(stream, 68)
    yield "the whole connection once more", is_closed(stream)
    a_second_later()
    for name, change in (
        ("a changed record", lambda one, two: [bytes([one[0], one[1], one[2] ^ 1]) + one[3:]]),
        ("a changed code", lambda one, two: [one[:-1] + bytes([one[-1] ^ 1])]),
        ("a repeated record", lambda one, two: [one, one]),
        ("a dropped record", lambda one, two: [two]),
        ("exchanged records", lambda one, two: [two, one]),
        ("a record of 16385 bytes", lambda one, two: [struct.pack(">H", 16385) + b"\0" * 17000]),
    ):
        holder = Holder(room.call(), CLIENT, MASTER)
        records = change(holder.record(b"\0\0\0\x09\x03show"), holder.record(b"cpus"))
        holder.stream.sendall(b"".join(records))
        yield name, is_closed(holder.stream)
    holder = Holder(room.call(), CLIENT, MASTER)
    holder.stream.sendall(holder.record(frame(3, b"showcpus"))[:-1])
    yield "a cut record", is_closed(holder.stream)
    # the agent itself is away, so that it does not take its link back
    room.ask("A1", "shutdown")
    holder = Holder(room.call(), AGENT, MASTER)
    front = taken(holder.stream, 2)
    come = front + taken(holder.stream, struct.unpack(">H", front)[0] + 32) if len(front) == 2 else b""
    holder.stream.sendall(come)
    yield "the node's own record back", len(come) >= 34 and is_ended(holder.stream)
    room.start("A1")
    yield "the agent has its link again", room.until(lambda: room.log("MDM").count(" up ws=1 ") > 2, 20) is not None


def flood(room, count, made):
    """So many connections, one behind the other: each second one greets, and none goes on. Two hundred are held at a time."""
    held = []
    for i in range(count):
        try:
            stream = socket.create_connection(("127.0.0.1", room.master), 5)
            held.append(stream)
            if i % 2:
                stream.sendall(hello(AGENT, MASTER, b"n" * 32))
        except OSError:
            continue
        made.append(i)
        if len(held) > 200:
            held.pop(0).close()
    for stream in held:
        stream.close()


def many(room, node, count):
    """Many connections from two sides at once. An honest client asks all the while, and the agent keeps its link."""
    made, answers, memory = [], [], 0
    downs = room.log("MDM").count(" down ws=1 ")
    sides = [threading.Thread(target=flood, args=(room, count // 2, made), daemon=True) for _ in range(2)]
    began = time.time()
    for side in sides:
        side.start()
    while any(side.is_alive() for side in sides):
        answers.append(room.ask("MDM", "showcpus"))
        memory = max(memory, room.memory(node))
    took = time.time() - began
    good = [seconds for status, _, seconds in answers if status == 0]
    print(
        f"{len(made)} connections came in {took:.1f} s. Meanwhile an honest client asked {len(answers)} times, was answered "
        f"{len(good)} times, each within {max(good, default=0):.1f} s, and the node held {memory >> 20} megabytes"
    )
    yield "many connections", len(made) >= count * 9 // 10 and memory < MOST_MEMORY
    yield "an honest client under many connections", len(good) * 2 >= len(answers) > 0 and max(good) < MOST_SECONDS
    yield "the agent's link under many connections", room.log("MDM").count(" down ws=1 ") == downs


def clients(room):
    yield "a client with the key", room.ask("MDM", "showcpus")[0] == 0
    os.rename(room.path("tws.key"), room.path("away"))
    yield "a client without the key", room.ask("MDM", "showcpus")[0] == 12
    os.rename(room.path("away"), room.path("tws.key"))
    os.chmod(room.path("tws.key"), 0o644)
    yield "a client whose key others may read", room.ask("MDM", "showcpus")[0] == 12
    os.chmod(room.path("tws.key"), 0o600)


def under_a_key(program, count):
    faults = []
    with Room(program, SECRET) as room:
        room.define()
        node = room.start("MDM")
        room.start("A1")
        if room.until(lambda: " up ws=1 " in room.log("MDM"), 20) is None:
            return ["no link came up under the key"]
        room.ask("MDM", "jnextplan 12/01/2026")
        ran = room.until(lambda: "SUCC" in room.ask("MDM", "showschedules")[1], 20)
        with open(room.path("MDM", "MDM.msg"), "rb") as file:
            before = file.read()
        for tries in (greetings(room), without_key(room), with_key(room), many(room, node, count), clients(room)):
            for name, good in tries:
                print(f"{name}: {'as it must be' if good else 'NOT SO'}", flush=True)
                if not good:
                    faults.append(name)
        with open(room.path("MDM", "MDM.msg"), "rb") as file:
            if file.read() != before or ran is None:
                faults.append("the file of the node has changed")
        refused = [line for line in room.log("MDM").splitlines() if " refused " in line]
        words = {line.split(" why=")[1].split()[0] for line in refused}
        count = sum(1 + int(line.split(" passed=")[1]) for line in refused)
        seconds = [line[:19] for line in refused]
        print(f"the log tells of {count} callers that were refused:", *sorted(words))
        if not {"greeting", "number", "proof", "record", "patience"} <= words or count < 20:
            faults.append("the log does not say why callers were refused")
        if len(set(seconds)) < len(seconds):
            faults.append("the log tells of more than one refused caller in a second")
    return faults


def answers(room, old):
    """What one without the key answers to the greeting of a node, by its name."""

    def of_another(greeting):
        with room.call(room.agent) as other:
            other.sendall(hello(MASTER, AGENT, greeting[8:]))
            return taken(other, 68)

    yield "no answer", lambda greeting: b""
    yield "a cut answer", lambda greeting: old[:67]
    yield "a wrong answer", lambda greeting: old[:4] + os.urandom(64)
    yield "an answer by a wrong key", lambda greeting: answer_by(key_of(b"x" * 32), old, greeting)
    yield "an old answer", lambda greeting: old
    yield "the caller's own answer", of_another


def answer_by(key, old, greeting):
    return old[:36] + code(key, b"A", greeting + old[4:36])


def called(listener, answer):
    """The next call of a node, its greeting, and the connection behind this answer to it."""
    stream, _ = listener.accept()
    stream.settimeout(10)
    greeting = taken(stream, 40)
    stream.sendall(answer(greeting))
    return stream, greeting


def at_the_called_end(program):
    """A stranger at the port of the master, whom an agent calls that has a plan."""
    faults = []
    with Room(program, SECRET) as room:
        room.define()
        room.start("MDM")
        room.start("A1")
        if room.until(lambda: " up ws=1 " in room.log("MDM"), 20) is None:
            return ["no link came up under the key"]
        room.ask("MDM", "jnextplan 12/01/2026")
        if room.until(lambda: "SUCC" in room.ask("MDM", "showschedules")[1], 20) is None:
            return ["the agent has no plan"]
        with room.call() as stream:
            stream.sendall(hello(AGENT, MASTER, b"n" * 32))
            old = taken(stream, 68)
        room.ask("MDM", "shutdown")
        room.nodes[0].wait(20)
        with socket.create_server(("127.0.0.1", room.master)) as listener:
            listener.settimeout(20)
            for name, answer in answers(room, old):
                stream, greeting = called(listener, answer)
                with stream:
                    good = greeting[:8] == hello(AGENT, MASTER, b"") and is_closed(stream)
                print(f"{name}: {'as it must be' if good else 'NOT SO'}", flush=True)
                if not good:
                    faults.append(name)
            stream, greeting = called(listener, lambda greeting: answer_by(key_of(SECRET), old, greeting))
            with stream:
                if taken(stream, 32) != code(key_of(SECRET), b"P", greeting + old[4:36]):
                    faults.append("a called end that holds the key has no proof")
        told = {line.split(" why=")[1].split()[0] for line in room.log("A1").splitlines() if " unproved " in line}
        print("the log of the caller tells of called ends without the key:", *sorted(told))
        if not {"answer", "patience"} <= told:
            faults.append("the log does not say why called ends were left")
    return faults


def without_a_key(program):
    """What the key is for."""
    with Room(program) as room:
        room.define()
        room.start("MDM")
        if room.until_answers("MDM") is None or room.ask("MDM", "jnextplan 12/01/2026")[0] != 0:
            return ["the master makes no plan"]
        stream = room.call()
        stream.sendall(b"TWS1\0\1")
        end, data = time.time() + 10, b""
        while b"true" not in data and time.time() < end:
            data += stream.recv(65536)
    print(f"without a key a stranger greets as the agent and has {len(data)} bytes of the plan")
    return [] if b"true" in data else ["without a key the old greeting brings nothing"]


def main(words):
    program, rest = program_of(words)
    faults = without_a_key(program) + at_the_called_end(program)
    faults += under_a_key(program, int(rest[0]) if rest else 10_000)
    for fault in faults:
        print(fault, file=sys.stderr)
    return 1 if faults else 0


if __name__ == "__main__":
    sys.exit(main(sys.argv[1:]))
