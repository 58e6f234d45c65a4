#!/usr/bin/env python3
"""Nights that can be read, for the word night of the program probes: what it is asked, and what it has to answer.

A night is read from standard input. It has the lines of a network, `$QUESTIONS`, and then entries and questions in
their order. A line that is empty or begins with `#` is skipped.

    ws NAME HOP MANAGER FULL       a workstation, with `manager` and `full`, or `-` in their places; the master's HOP is `-`
    res W NAME TOTAL, prompt NAME TEXT, carry yes (or no, all)
    M 2 released 1 seen M:1        an entry, as a report has it
    is-released 1 = yes            a question, and what has to be answered
    listing                        a question whose answer has more lines
    = plan 1
    node P = restored              the lines that are indented below a question are its entries or drafts
      M 1 clock 5
    $NIGHT                         another night
    $AGAIN                         another night, which has the network and the first entries of the one before

Streams and their jobs stand indented below the entry that brings them, as `stream NO W NAME` and `job NO W NAME` with
`prio N`, `limit N` and `carry` behind, and without NO where they are drafts; below each stands what it has:
`do "TEXT"`, `script "TEXT"`, `logon "TEXT"`, `recovery rerun` (or continue), and its dependencies. These are as a report
has them, and in a draft also `follows W#STREAM` and `follows W#STREAM.JOB`.

The bytes of entries are written here from the format of entries alone, without the program's own code.

Usage: trials/entries.py questions    writes what the program reads
       trials/entries.py answers      writes what it has to answer
"""
import re
import sys

UNTIL = {"suppr": 0, "cont": 1, "canc": 2}
RECOVERY = {"stop": 0, "continue": 1, "rerun": 2}
WHY = {
    "NotMine": 1, "NotThere": 2, "Running": 3, "NotRunning": 4, "NotEnded": 5,
    "Ended": 6, "AlreadyThere": 7, "OutOfRange": 8, "NotMaster": 9, "NotBuilt": 10,
}
YES = {"no": 0, "yes": 1}


def number(size, value):
    return int(value).to_bytes(size, "big")


def text(value):
    data = value.encode()
    return number(2, len(data)) + data


def quoted(value):
    """The text that stands in quotes."""
    if len(value) < 2 or value[0] != '"' or value[-1] != '"':
        raise ValueError(f"no text in quotes: {value}")
    return re.sub(r'\\(["\\])', r"\1", value[1:-1])


def counted(items):
    return number(4, len(items)) + b"".join(items)


class Line:
    """A line with the lines that are indented below it."""

    def __init__(self, line):
        self.text = line
        self.below = []

    def words(self):
        return self.text.split(" ")


def lines_of(source):
    """The lines of a text, each with those below it."""
    top = []
    open_lines = []
    for line in source.split("\n"):
        bare = line.lstrip(" ")
        if not bare or bare.startswith("#"):
            continue
        depth = len(line) - len(bare)
        found = Line(bare)
        while open_lines and open_lines[-1][0] >= depth:
            open_lines.pop()
        (open_lines[-1][1].below if open_lines else top).append(found)
        open_lines.append((depth, found))
    return top


class Network:
    """The numbers of workstations by their names."""

    def __init__(self, names):
        self.numbers = {name: place for place, name in reversed(list(enumerate(names)))}

    def ws(self, name):
        """The bytes of a workstation, which may be given by its number."""
        return number(2, self.numbers.get(name, name))

    def feed(self, name):
        """The bytes of a feed."""
        if ">" in name:
            issuer, to = name.split(">")
            return b"\1" + self.ws(issuer) + self.ws(to)
        return b"\0" + self.ws(name)

    def seen(self, word):
        """The bytes of counts of events, as `M:1,P:2`."""
        counts = [] if word == "-" else [item.split(":") for item in word.split(",")]
        return counted([self.ws(w) + number(4, count) for w, count in counts])

    def is_feed(self, word):
        return all(name in self.numbers or name.isdigit() for name in word.split(">"))


def object_bytes(words):
    """The bytes of `job 1` or `stream 1`."""
    return number(1, {"job": 0, "stream": 1}[words[0]]) + number(4, words[1])


def dependency(net, words):
    """The bytes of a dependency, and whether it is a DEADLINE."""
    kind, rest = words[0], words[1:]
    if kind == "follows" and "#" in rest[0]:
        ws, name = rest[0].split("#")
        stream, _, job = name.partition(".")
        behind = b"\1" + text(job) if job else b"\0"
        return b"\0" + net.ws(ws) + text(stream) + behind, False
    if kind == "follows":
        return number(1, {"job": 1, "stream": 2}[rest[0]]) + number(4, rest[1]), False
    if kind == "needs":
        return b"\3" + number(2, rest[0]) + number(2, rest[1]), False
    if kind == "prompt" and rest[0].isdigit():
        return b"\4" + number(2, rest[0]), False
    if kind == "prompt":
        return b"\5" + text(quoted(" ".join(rest))), False
    if kind == "at":
        return b"\6" + number(8, rest[0]), False
    if kind == "until":
        return b"\7" + number(8, rest[0]) + number(1, UNTIL[rest[1]]), False
    if kind == "outside":
        return b"\10" + text(quoted(" ".join(rest))), False
    if kind == "deadline":
        return b"\11" + number(8, rest[0]), True
    raise ValueError(f"no dependency: {' '.join(words)}")


class Document:
    """A stream or a job, of a plan or of a draft, field by field."""

    def __init__(self, net, line, is_draft):
        words = line.words()
        self.kind = words[0]
        if not is_draft:
            self.front = number(4, words[1]) + net.ws(words[2])
            words = words[3:]
        else:
            self.front = net.ws(words[1])
            words = words[2:]
        self.front += text(words[0])
        self.priority, self.limit, self.carry = 10, None, False
        self.read_marks(words[1:])
        self.work, self.logon, self.recovery = b"\0" + text(""), "", 0
        self.deps, self.is_second = [], False
        for below in line.below:
            self.read_part(net, below.words())

    def read_marks(self, words):
        while words:
            if words[0] == "carry":
                self.carry, words = True, words[1:]
            elif words[0] == "prio":
                self.priority, words = words[1], words[2:]
            elif words[0] == "limit":
                self.limit, words = words[1], words[2:]
            else:
                raise ValueError(f"no mark: {' '.join(words)}")

    def read_part(self, net, words):
        rest = " ".join(words[1:])
        if words[0] in ("do", "script"):
            self.work = number(1, words[0] == "script") + text(quoted(rest))
        elif words[0] == "logon":
            self.logon = quoted(rest)
        elif words[0] == "recovery":
            self.recovery = RECOVERY[rest]
        else:
            dep, is_deadline = dependency(net, words)
            self.deps.append(dep)
            self.is_second = self.is_second or is_deadline

    def bytes_with(self, jobs):
        if self.kind == "job":
            middle = self.work + text(self.logon) + b"\0" + number(1, self.recovery)
            return self.front + number(1, self.priority) + middle + counted(self.deps)
        limit = b"\0" if self.limit is None else b"\1" + number(2, self.limit)
        middle = limit + number(1, self.carry)
        return self.front + number(1, self.priority) + middle + counted(self.deps) + counted(jobs)


def streams(net, lines, is_draft=False):
    """The bytes of streams, each with the jobs that follow it, and whether one of them has a DEADLINE."""
    documents = [Document(net, line, is_draft) for line in lines]
    groups = []
    for document in documents:
        if document.kind == "stream":
            groups.append((document, []))
        else:
            groups[-1][1].append(document.bytes_with([]))
    is_second = any(document.is_second for document in documents)
    return [stream.bytes_with(jobs) for stream, jobs in groups], is_second


def command(net, words, below):
    """The bytes of a command, and whether it brings a DEADLINE."""
    kind, rest = words[0], words[1:]
    if kind == "adddep":
        dep, is_second = dependency(net, rest[2:])
        return b"\1" + object_bytes(rest) + dep, is_second
    if kind == "submit":
        drafts, is_second = streams(net, below, is_draft=True)
        return b"\21" + b"".join(drafts), is_second
    if kind == "deldep":
        return b"\2" + object_bytes(rest) + number(2, rest[2]), False
    if kind in ("release", "cancel"):
        return number(1, {"release": 3, "cancel": 5}[kind]) + object_bytes(rest), False
    if kind == "altpri":
        return b"\4" + object_bytes(rest) + number(1, rest[2]), False
    if kind in ("confirm", "kill", "rerun"):
        return number(1, {"confirm": 6, "kill": 7, "rerun": 8}[kind]) + number(4, rest[1]), False
    if kind == "fence":
        return b"\11" + number(1, rest[0]), False
    if kind == "limit" and rest[0] == "stream":
        return b"\13" + number(4, rest[1]) + number(2, rest[2]), False
    if kind == "limit":
        return b"\12" + number(2, rest[0]), False
    if kind == "total":
        return b"\14" + number(2, rest[0]) + number(2, rest[1]), False
    if kind == "reply" and rest[0] == "prompt":
        return b"\15" + number(2, rest[1]) + number(1, YES[rest[2]]), False
    if kind == "reply":
        return b"\16" + object_bytes(rest) + number(2, rest[2]) + number(1, YES[rest[3]]), False
    if kind in ("start", "stop"):
        return number(1, {"start": 15, "stop": 16}[kind]), False
    if kind == "switchmgr":
        return b"\22" + net.ws(rest[0]), False
    raise ValueError(f"no command: {' '.join(words)}")


def body(net, words, below):
    """The bytes of what an entry says, and whether only version 2 has it."""
    kind, rest = words[0], words[1:]
    if kind == "newplan":
        docs, is_second = streams(net, below)
        carried = [] if rest[4] == "-" else [number(4, no) for no in rest[4].split(",")]
        return b"\1" + number(4, rest[0]) + net.seen(rest[2]) + counted(carried) + counted(docs), is_second
    if kind == "added":
        docs, is_second = streams(net, below)
        return b"\2" + net.ws(rest[0]) + number(4, rest[1]) + b"".join(docs), is_second
    if kind == "clock":
        return b"\3" + number(8, rest[0]), False
    if kind in ("released", "streamended"):
        return number(1, {"released": 4, "streamended": 5}[kind]) + number(4, rest[0]) + net.seen(rest[2]), False
    if kind == "untilpassed":
        return b"\6" + object_bytes(rest) + number(2, rest[3]) + number(1, UNTIL[rest[4]]), False
    if kind == "launched":
        return b"\7" + number(4, rest[0]) + number(4, rest[1]) + net.seen(rest[3]), False
    if kind in ("started", "failed", "lost"):
        return number(1, {"started": 8, "failed": 9, "lost": 11}[kind]) + number(4, rest[0]) + number(4, rest[1]), False
    if kind == "ended":
        good = {"good": 1, "bad": 0}[rest[4]]
        code = int(rest[3]).to_bytes(4, "big", signed=True)
        return b"\12" + number(4, rest[0]) + number(4, rest[1]) + code + number(1, good), False
    if kind == "fulfilled":
        return b"\14" + object_bytes(rest) + number(2, rest[3]), False
    if kind == "obeyed":
        cmd, is_second = command(net, rest[2:], below)
        return b"\15" + net.ws(rest[0]) + number(4, rest[1]) + cmd, is_second
    if kind == "declined":
        return b"\16" + net.ws(rest[0]) + number(4, rest[1]) + number(1, WHY[rest[2]]), False
    if kind == "order":
        cmd, is_second = command(net, rest, below)
        return b"\17" + cmd, is_second
    if kind == "late":
        return b"\20" + object_bytes(rest) + number(2, rest[3]), True
    raise ValueError(f"no entry: {' '.join(words)}")


def entry(net, line):
    """The digits of an entry."""
    words = line.words()
    said, is_second = body(net, words[2:], line.below)
    return (number(1, 2 if is_second else 1) + net.feed(words[0]) + number(4, words[1]) + said).hex()


def brought(net, lines):
    """The digits of the entries below a question, and those of orders that submit its drafts."""
    found = []
    for line in lines:
        if line.words()[0] == "stream":
            found.append([line])
        elif line.words()[0] == "job":
            found[-1].append(line)
        else:
            found.append(entry(net, line))
    for place, draft in enumerate(found):
        if isinstance(draft, list):
            order = Line("0>0 1 order submit")
            order.below = draft
            found[place] = entry(net, order)
    return found


class Night:
    """What is asked, and what has to be answered."""

    def __init__(self):
        self.asked = []
        self.answers = []

    def begin(self, names):
        self.net, self.front, self.is_open, self.is_asked = Network(names), [], False, False

    def add_net_line(self, words):
        numbers = self.net.numbers
        if words[0] == "ws":
            words = words[:2] + [str(numbers.get(words[2], words[2]))] + words[3:]
        if words[0] == "res":
            words = words[:1] + [str(numbers.get(words[1], words[1]))] + words[2:]
        self.front.append(" ".join(words))

    def add_question(self, line):
        asked, is_told, answer = line.text.partition(" = ")
        words = asked.split(" ")
        known = 2 if words[0] == "type" else len(words)
        numbers = self.net.numbers
        words = [str(numbers.get(word, word)) if 0 < i < known else word for i, word in enumerate(words)]
        self.asked.append(" ".join(words + brought(self.net, line.below)))
        self.is_asked = True
        if is_told:
            self.answers.append(answer)

    def read(self, line):
        words = line.words()
        if line.text == "$NIGHT":
            self.asked.append(line.text)
        elif line.text == "$AGAIN":
            self.asked += ["$NIGHT"] + self.front
            self.is_asked = False
        elif line.text.startswith("= "):
            self.answers.append(line.text[2:])
        elif line.text == "=":
            self.answers.append("")
        elif line.text == "$QUESTIONS":
            self.front.append(line.text)
            self.asked += self.front
            self.is_open = True
        elif not self.is_open:
            self.add_net_line(words)
        elif len(words) > 2 and self.net.is_feed(words[0]) and words[1].isdigit():
            self.add_entry("entry " + entry(self.net, line))
        else:
            self.add_question(line)

    def add_entry(self, line):
        self.asked.append(line)
        if not self.is_asked:
            self.front.append(line)


def nights_of(lines):
    """The lines of each night."""
    nights = [[]]
    for line in lines:
        if line.text == "$NIGHT":
            nights.append([])
        nights[-1].append(line)
    return nights


def main():
    if sys.argv[1:] not in (["questions"], ["answers"]):
        print(__doc__.split("\n\n")[-1], file=sys.stderr, end="")
        return 2
    night = Night()
    for lines in nights_of(lines_of(sys.stdin.read())):
        night.begin([line.words()[1] for line in lines if line.text.startswith("ws ")])
        for line in lines:
            night.read(line)
    for line in night.asked if sys.argv[1] == "questions" else night.answers:
        print(line)
    return 0


sys.exit(main())
