#!/usr/bin/env python3
"""Plays a record on until its network is at rest, and prints it with the lines that this takes.

It brings up both ends of each link over which something goes, and then adds rounds: a turn of each workstation that does
something, a `flow` for what was sent, and one for the acknowledgements. A round in which no turn does anything is not
written, and ends the work. crates/rest_laws says why that comes: where nothing comes from outside and turns have room,
at most so many rounds are possible as the world at the end of the record decides. All turns have one reading of the
clock. A launch whose end no line tells stays open: that is said, and is for who writes the record.

Usage: trials/rest.py RECORD [READING]    READING is that of the last turn of the record, or 1, where it is left out.
                                          TWS may name another program, from the top folder on. It ends with 1 where the
                                          record, or a step that is due, is refused.
"""
import os
import re
import subprocess
import sys

TOP = os.path.dirname(os.path.dirname(os.path.abspath(__file__)))
TWS = os.path.join(TOP, os.environ.get("TWS", "crates/tws_program/out/tws_program"))


def replay(lines):
    """The report of these lines; the program ends, and says why, where it is refused."""
    text = "\n".join(lines) + "\n"
    ran = subprocess.run([TWS, "replay"], input=text, stdout=subprocess.PIPE, stderr=subprocess.STDOUT, encoding="utf-8")
    if ran.returncode:
        sys.exit(ran.stdout.strip() or f"the program ended with {ran.returncode}")
    return ran.stdout


def sent_in(report):
    """How many packets each workstation sent to each."""
    return {(a, b): int(n) for a, b, n in re.findall(r"^packets (\S+) (\S+) (\d+)$", report, re.M)}


def turns_of(lines, report, stations, reading):
    """The lines with the turns that do something, and the report of them."""
    for station in stations:
        longer = lines + [f"turn {station} {reading}"]
        told = replay(longer)
        if told != report:
            lines, report = longer, told
    return lines, report


def play_on(lines, stations, reading):
    """The lines with the rounds that lead to rest, their report, and how many rounds these are."""
    report, arrived, rounds = replay(lines), {}, 0
    while True:
        longer, report = turns_of(lines, report, stations, reading)
        rounds += longer != lines
        lines = longer
        due = [pair for pair, sent in sent_in(report).items() if sent > arrived.get(pair, 0)]
        if not due:
            return lines, report, rounds
        # what was sent, and then the answers to it
        while due:
            arrived.update((pair, sent_in(report)[pair]) for pair in due)
            lines = lines + [f"flow {a} {b}" for a, b in due]
            report = replay(lines)
            due = [pair for pair, sent in sent_in(report).items() if sent > arrived.get(pair, 0)]


def open_launches(report):
    """The launches of the history that no entry ends."""
    launched = re.findall(r"^(\S+) \d+ launched (\d+ \d+) ", report, re.M)
    ended = set(re.findall(r"^(\S+) \d+ (?:ended|failed|lost) (\d+ \d+)\b", report, re.M))
    return [launch for launch in launched if launch not in ended]


def main():
    if len(sys.argv) not in (2, 3):
        sys.exit(__doc__)
    with open(sys.argv[1], encoding="utf-8") as file:
        record = file.read().split("\n")
    while record and not record[-1]:
        record.pop()
    readings = re.findall(r"^turn \S+ (\d+)$", "\n".join(record), re.M)
    reading = sys.argv[2] if len(sys.argv) == 3 else readings[-1] if readings else "1"
    stations = re.findall(r"^node (\S+)$", replay(record), re.M)
    links = [(a, b) for a in stations for b in stations if a != b]
    whole, report, rounds = play_on(record + [f"link {a} {b}" for a, b in links], stations, reading)
    # a link over which nothing went was not needed
    used = sent_in(report)
    idle = {f"link {a} {b}" for a, b in links if not used.get((a, b)) and not used.get((b, a))}
    added = [line for line in whole[len(record) :] if line not in idle]
    if replay(record + added) != report:
        sys.exit("the links that nothing went over were needed: this is a fault of this script")
    print("\n".join(record + added))
    print(f"at rest after {rounds} rounds and {len(added)} lines more", file=sys.stderr)
    for station, launch in open_launches(report):
        print(f"{station} still runs job and launch {launch}", file=sys.stderr)


main()
