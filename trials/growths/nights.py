#!/usr/bin/env python3
"""Asks the program probes about nights of cases/, each time with another growth of memory refused.

Usage: nights.py PROGRAM REFUSER [NAME..]. The nights are those of the cases night_* that make a node or a
network, or of the cases named. A growth that is refused meets
- a call of a node or of a network, which is answered with want of memory. The question is asked again then, and between
  the two the program tells what it tells where the question is not refused; or
- what else the program does. It writes `no memory` alone then, and the run shows nothing; or
- a call that goes on without that memory.
But for the one answer, what is written is as where nothing is refused and the same is asked. It prints a line for each
run that is wrong and one of sums for each night. The last line is `growths: N refused, M wrong`, and the status is 1
where M is not 0.
"""
import os
import re
import subprocess
import sys
from concurrent.futures import ThreadPoolExecutor

SECONDS = 300
OWN_WANT = b"no memory\n"
# What its first growths end with, which read its word and its input.
NO_START = b"it ends with status 1 and says Error: Kind(OutOfMemory)"
# A question that the program does not know. Its answers part those of the others.
PART, PARTED = "part", b"no such question\n"
# What is asked before a question that is refused, and what behind it.
BEFORE = ["remember"]
BEHIND = ["is-unchanged", "counts", "live", "node-present", "node-listing", "streams", "jobs", "members", "run"]
BEHIND += ["has-plan", "last-stream", "last-job", "global-reply 1"]
OF_STATION = "holds now fence limit is-stopped open filed-jobs filed-streams late-due has-issued event-count"
OF_STREAM = "is-member is-released is-ended stream-limit stream-state stream-document"
OF_JOB = "launches reruns open-launch last-outcome is-due is-good last-end job-state job-document"
for words, numbers in ((OF_STATION, range(3)), (OF_STREAM, range(1, 5)), (OF_JOB, range(1, 7))):
    BEHIND += [f"{word} {number}" for number in numbers for word in words.split(" ")]


class Night:
    def __init__(self, program, refuser, name, lines):
        self.program, self.refuser, self.name = program, refuser, name
        place = lines.index("$QUESTIONS") + 1
        self.front, self.asked = lines[:place], lines[place:]
        # Each input has this length, filled up with empty lines, so that it is read by the same growths.
        self.length = 2 * sum(len(line) + 1 for line in lines) + 16384
        self.again = self.own = self.went_on = self.wrong = 0

    def ask(self, asked, number=0):
        """What is written, the status in its place where that is not 0, and how many growths were counted."""
        text = "".join(f"{line}\n" for line in self.front + asked).encode()
        env = {"LD_PRELOAD": self.refuser, "GROWTHS_FROM": "start", "GROWTHS_REFUSED": str(number)}
        how = {"capture_output": True, "env": env, "timeout": SECONDS, "check": False, "close_fds": False}
        try:
            ran = subprocess.run([self.program, "night"], input=text.ljust(self.length, b"\n"), **how)
        except subprocess.TimeoutExpired:
            return b"it does not end\n", 0
        said = re.fullmatch(rb"growths (\d+) refused ([01]) begun 0\n", ran.stderr)
        if ran.returncode or not said or (number and said[2] != b"1"):
            return b"it ends with status %d and says %s\n" % (ran.returncode, ran.stderr[-200:]), 0
        return ran.stdout, int(said[1])

    def prepare(self):
        """The whole night, and what is answered up to each question."""
        self.text, self.growths = self.ask(self.asked)
        parted = [line for question in self.asked for line in (question, PART)]
        answers = self.ask(parted)[0].split(PARTED)
        self.answers = answers[: len(self.asked)]
        return b"".join(self.answers) == self.text

    def place_of(self, text):
        """The first question whose answer is another one."""
        start = 0
        for place, answer in enumerate(self.answers):
            if text[start : start + len(answer)] != answer:
                return place, start
            start += len(answer)
        return None, start

    def judge(self, number):
        """What came of a growth, and what is wrong with it."""
        text, _ = self.ask(self.asked, number)
        if text == self.text:
            return "went_on", None
        if text == OWN_WANT or text.startswith(NO_START) or b"no such line" in text:
            return "own", None
        place, start = self.place_of(text)
        if place is None:
            return "wrong", "more is written"
        answer = text[start:].split(b"\n")[0] + b"\n"
        if b"NoMemory" not in answer:
            return "wrong", f"{self.asked[place][:60]!r} is answered {answer[:120]!r}"
        front, question, rest = self.asked[:place], self.asked[place], self.asked[place + 1 :]
        # what is asked before the question has growths of its own
        more = self.ask(front + BEFORE)[1] - self.ask(front)[1]
        refused, _ = self.ask(front + BEFORE + [question] + BEHIND + [question] + rest + BEHIND, number + more)
        first = self.ask(front + BEFORE)[0]
        due = self.ask(front + BEFORE + BEHIND + [question] + rest + BEHIND)[0]
        if refused != first + answer + due[len(first) :]:
            return "wrong", f"behind {question[:60]!r}, refused and asked again, something else is told"
        return "again", None

    def try_all(self, pool):
        if not self.prepare():
            self.wrong += 1
            print(f"{self.name}: its answers are not parted: {self.text[-200:]!r}")
            return
        every, first = int(os.environ.get("EVERY") or 1), int(os.environ.get("SHIFT") or 0) + 1
        numbers = range(first, self.growths + 1, every)
        for number, (kind, why) in zip(numbers, pool.map(self.judge, numbers)):
            setattr(self, kind, getattr(self, kind) + 1)
            if why:
                print(f"{self.name}: growth {number}: {why}", flush=True)
        met = f"{self.again} in a call that was made again, {self.went_on} in one that went on, {self.own} in other work"
        print(f"{self.name}: {self.growths} growths: {met}, {self.wrong} wrong", flush=True)


def nights_of(program, refuser, name):
    """The nights of a case, one after the other."""
    made = subprocess.run(["bash", "make-stdin"], cwd=f"cases/{name}", capture_output=True, check=True)
    for text in made.stdout.decode().split("$NIGHT\n"):
        lines = [line for line in text.split("\n") if line]
        if "$QUESTIONS" in lines:
            yield Night(program, refuser, name, lines)


def makes_something(name):
    """Whether a case is of a night, and makes a node or a network."""
    path = f"cases/{name}/night"
    if not os.path.isfile(path):
        return False
    with open(path, encoding="utf-8") as file:
        return re.search(r"^(world|node [^ ]+) = (done|restored)$", file.read(), re.M) is not None


def main():
    program, refuser, *names = sys.argv[1:]
    program, refuser = os.path.abspath(program), os.path.abspath(refuser)
    os.chdir(os.environ.get("TOP") or os.path.dirname(os.path.dirname(os.path.dirname(os.path.abspath(__file__)))))
    names = names or [name for name in sorted(os.listdir("cases")) if makes_something(name)]
    nights = [night for name in names for night in nights_of(program, refuser, name)]
    with ThreadPoolExecutor(os.cpu_count()) as pool:
        for night in nights:
            night.try_all(pool)
    refused = sum(it.again + it.went_on + it.own + it.wrong for it in nights)
    wrong = sum(it.wrong for it in nights)
    print(f"growths: {refused} refused, {wrong} wrong")
    sys.exit(1 if wrong else 0)


main()
