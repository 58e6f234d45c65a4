#!/usr/bin/env python3
"""Runs the program on small cases of cases/, each time with another growth of memory refused, from its start to its end.

Usage: words.py PROGRAM REFUSER. A run has to end with status 9 and to write nothing, or with the status and the text of the
run in which nothing is refused. It prints a line for each run that does neither, and a line of sums for each word. The last
line is `growths: N refused, M wrong`, and the status is 1 where M is not 0.
"""
import os
import re
import subprocess
import sys
from concurrent.futures import ThreadPoolExecutor

# The most cases of a word, the most growths that a case has, and the most seconds that a run takes.
MOST_CASES, MOST_GROWTHS, SECONDS = 36, 1500, 60
NO_MEMORY = 9


def text_of(path):
    try:
        with open(path, "rb") as file:
            return file.read()
    except FileNotFoundError:
        return b""


class Case:
    def __init__(self, name, program, refuser):
        self.name, self.program, self.refuser = name, program, refuser
        folder = f"cases/{name}"
        self.words = text_of(f"{folder}/args").decode().splitlines()
        self.input = text_of(f"{folder}/stdin")
        self.status, self.text, self.growths, _ = self.run(0)

    def run(self, number):
        """The status of a run and what it wrote, how many growths were counted, and how many refused."""
        env = {"LD_PRELOAD": self.refuser, "GROWTHS_FROM": "start", "GROWTHS_REFUSED": str(number)}
        how = {"capture_output": True, "env": env, "timeout": SECONDS, "check": False, "close_fds": False}
        try:
            ran = subprocess.run([self.program, *self.words], input=self.input, **how)
        except subprocess.TimeoutExpired:
            return "no end", b"", 0, 0
        said = re.search(rb"^growths (\d+) refused (\d+) begun 0\n\Z", ran.stderr, re.M)
        counted, refused = (int(said[1]), int(said[2])) if said else (0, 0)
        return ran.returncode, ran.stdout, counted, refused


class Word:
    def __init__(self, name):
        self.name, self.cases = name, []
        self.ended = self.went_on = self.wrong = 0

    def chosen(self):
        """So many of the small cases, from the smallest to the largest."""
        small = sorted((it for it in self.cases if 0 < it.growths <= MOST_GROWTHS), key=lambda it: it.growths)
        step = max(1, -(-len(small) // MOST_CASES))
        return small[::step]

    def judge(self, case, number, ran):
        status, text, _, refused = ran
        if refused != 1:
            why = f"it ends with {status}, and no growth was refused"
        elif status == NO_MEMORY and not text:
            self.ended += 1
            return
        elif (status, text) == (case.status, case.text):
            self.went_on += 1
            return
        else:
            shown = text[:80].decode(errors="replace")
            why = f"it ends with {status} and writes {len(text)} bytes, {shown!r}; otherwise it ends with {case.status}"
        self.wrong += 1
        print(f"{case.name}: growth {number} of {case.growths}: {why}", flush=True)

    def try_all(self, pool):
        chosen = self.chosen()
        for case in chosen:
            numbers = range(1, case.growths + 1)
            for number, ran in zip(numbers, pool.map(case.run, numbers)):
                self.judge(case, number, ran)
        refused = self.ended + self.went_on + self.wrong
        met = f"{self.ended} ended with status {NO_MEMORY}, {self.went_on} as without a refusal, {self.wrong} wrong"
        print(f"{self.name}: {len(chosen)} cases, {refused} growths refused: {met}", flush=True)


def main():
    program, refuser = map(os.path.abspath, sys.argv[1:])
    os.chdir(os.path.dirname(os.path.dirname(os.path.dirname(os.path.abspath(__file__)))))
    names = sorted(it for it in os.listdir("cases") if os.path.isfile(f"cases/{it}/args"))
    names = [it for it in names if not os.path.exists(f"cases/{it}/program") and not os.path.exists(f"cases/{it}/make-stdin")]
    words = {}
    with ThreadPoolExecutor(os.cpu_count()) as pool:
        for case in pool.map(lambda name: Case(name, program, refuser), names):
            name = case.words[0] if case.words else "no word"
            words.setdefault(name, Word(name)).cases.append(case)
        for name in sorted(words):
            words[name].try_all(pool)
    refused = sum(it.ended + it.went_on + it.wrong for it in words.values())
    wrong = sum(it.wrong for it in words.values())
    print(f"growths: {refused} refused, {wrong} wrong")
    sys.exit(1 if wrong or not refused else 0)


main()
