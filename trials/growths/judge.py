#!/usr/bin/env python3
"""Runs the program of trials/growths.sh, each time with another growth of memory refused, and judges what it tells.

Usage: judge.py PROGRAM REFUSER PART.. REFUSER is what trials/growths/refuse.c was compiled to. For each part it prints a
line for each run that is wrong, and one of sums. The last line is `growths: N refused, M wrong`, and the status is 1
where M is not 0.
"""
import os
import re
import subprocess
import sys
from concurrent.futures import ThreadPoolExecutor

# The most seconds that a run may take.
SECONDS = 300


class Run:
    """A run of the program: how it ended, how many growths were counted and refused, and what it told."""

    def __init__(self, program, refuser, words, number):
        self.status, self.counted, self.refused = "no end", None, None
        self.calls, self.refusals, self.shown, self.odd = [], [], [], []
        env = {"LD_PRELOAD": refuser, "GROWTHS_REFUSED": str(number)}
        how = {"capture_output": True, "env": env, "timeout": SECONDS, "check": False, "close_fds": False}
        try:
            ran = subprocess.run([program], input=words.encode(), **how)
        except subprocess.TimeoutExpired:
            return
        self.status = f"status {ran.returncode}"
        said = re.fullmatch(rb"growths (\d+) refused (\d+) begun [1-9]\d*\n", ran.stderr)
        if said:
            self.counted, self.refused = int(said[1]), int(said[2])
        for line in ran.stdout.decode(errors="replace").splitlines():
            self.read(line, line.split("|"))

    def read(self, line, words):
        """Each line has its place: how many calls were made before."""
        kind, thing, call, given, state = words if len(words) == 5 else ("none", "", "", "", "")
        if kind == "call":
            self.calls.append((thing, call, given, state))
        elif kind == "refused":
            self.refusals.append((len(self.calls), thing, call, state))
        elif kind == "shows":
            self.shown.append((len(self.calls), thing, state))
        else:
            self.odd.append(line)


class Whole:
    """The run in which nothing is refused, and in which objects show all that they are behind each call."""

    def __init__(self, run):
        self.run = run
        self.states, self.shown = {}, {}
        for place, (thing, _, _, state) in enumerate(run.calls):
            self.states.setdefault(thing, []).append((place + 1, state))
        for place, thing, number in run.shown:
            self.shown.setdefault(thing, []).append((place, number))

    @staticmethod
    def last(found, thing, place):
        """What was told of a thing last at that place."""
        numbers = [number for at, number in found.get(thing, []) if at <= place]
        return numbers[-1] if numbers else None

    def blames(self, run):
        """What is wrong with a run, nothing where it is right."""
        if run.status != "status 0":
            return run.status
        if run.odd:
            return run.odd[0]
        for place, thing, call, state in run.refusals:
            if self.run.calls[place : place + 1] and self.run.calls[place][:2] != (thing, call):
                return f"{thing}: {call} was refused in place of {self.run.calls[place][1]}"
            if state != (self.last(self.states, thing, place) or "0"):
                return f"{thing}: changed by a refused call, {call}, call {place}"
        for one, other in zip(run.calls, self.run.calls):
            if one != other:
                what = "is in another state behind" if one[:3] == other[:3] else "gives something else by"
                return f"{one[0]}: it {what} {one[1]}"
        if len(run.calls) != len(self.run.calls):
            return f"{len(run.calls)} calls in place of {len(self.run.calls)}"
        for place, thing, number in run.shown:
            if number != self.last(self.shown, thing, place):
                return f"{thing}: it shows something else before call {place}"
        return None


class Part:
    def __init__(self, name):
        self.name, self.refused, self.again, self.wrong = name, 0, 0, 0

    def blame(self, what, why):
        self.wrong += 1
        print(f"{self.name}: {what}: {why}", flush=True)

    def whole(self, program, refuser):
        """The run without a refusal, or none where it is wrong."""
        run, plain = Run(program, refuser, f"{self.name} whole\n", 0), Run(program, refuser, f"{self.name}\n", 0)
        whole = Whole(run)
        why = whole.blames(run) or whole.blames(plain)
        if not why and (run.counted != plain.counted or not run.counted):
            why = f"it counts {plain.counted} growths, and {run.counted} where objects show what they are"
        if not why and (run.refusals or plain.refusals):
            why = "a call is refused"
        if why:
            self.blame("nothing is refused", why)
            return None
        return whole

    def judge(self, whole, number, run):
        self.refused += 1
        why = whole.blames(run)
        if not why and run.refused != 1:
            why = "no growth was refused"
        if why:
            self.blame(f"growth {number}", why)
        elif run.refusals:
            self.again += 1

    def try_all(self, pool, program, refuser):
        whole = self.whole(program, refuser)
        if not whole:
            return
        every, first = int(os.environ.get("EVERY") or 1), int(os.environ.get("SHIFT") or 0) + 1
        numbers = range(first, whole.run.counted + 1, every)
        runs = pool.map(lambda number: Run(program, refuser, f"{self.name}\n", number), numbers)
        for number, run in zip(numbers, runs):
            self.judge(whole, number, run)
        if not self.again and not self.wrong:
            self.blame("all growths", "no call was made again, so the runs show nothing")
        went_on = self.refused - self.again - self.wrong
        told = f"{len(whole.run.calls)} calls, {whole.run.counted} growths"
        met = f"{self.again} in a call that was made again, {went_on} in one that went on"
        print(f"{self.name}: {told}, {self.refused} of them refused: {met}, {self.wrong} wrong", flush=True)


def main():
    program, refuser, *names = sys.argv[1:]
    parts = [Part(name) for name in names]
    with ThreadPoolExecutor(os.cpu_count()) as pool:
        for part in parts:
            part.try_all(pool, program, refuser)
    refused, wrong = sum(it.refused for it in parts), sum(it.wrong for it in parts)
    print(f"growths: {refused} refused, {wrong} wrong")
    sys.exit(1 if wrong else 0)


main()
