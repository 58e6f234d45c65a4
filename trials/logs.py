#!/usr/bin/env python3
"""The log of a real node. Each trial prints what it saw, and the program ends with 1 where one of them saw something else
than it must:

  full    a log of 16 megabytes is renamed, no line is lost by that, and only one such log is kept.
  closed  a log that cannot be written costs nothing else: the plan is made and its job runs.
  failed  a job whose output cannot be opened is not run: it is in FAIL, and the log has the call that failed and its cause.
  lines   each line has the time in UTC to the millisecond, a word, and fields; the words are in order for a node whose job
          runs, and the manual's table of the log has each of them.

It takes some five seconds; the gate runs it. Usage: trials/logs.py [PROGRAM]. PROGRAM is named from the top folder on, as
out/quick/tws.
"""
import os
import re
import sys

from nodes import TOP, Room, program_of

MOST_BYTES = 16_777_216
LINE = re.compile(r"20\d\d-[01]\d-[0-3]\dT[0-2]\d:[0-5]\d:[0-6]\d\.\d{3}Z ([a-z]+)((?: [a-z]+=[^ =]+)*)")


def served(room, end="SUCC"):
    """Whether a master that is started in the room takes the job of a plan to this end, and ends with its shutdown."""
    node = room.start("MDM")
    if room.until_answers("MDM") is None:
        return False
    if room.ask("MDM", "showjobs")[1] == "":
        room.ask("MDM", "jnextplan 12/01/2026")
    ran = room.until(lambda: f"MDM#T.K {end} 1" in room.ask("MDM", "showjobs")[1], 20)
    room.ask("MDM", "shutdown")
    return ran is not None and node.wait(20) == 0


def one_job(program):
    """A room whose master has a job of its own."""
    room = Room(program)
    room.define('J DOCOMMAND "true"\nEND\nSCHEDULE MDM#T ON EVERYDAY :\nK DOCOMMAND "true"\n')
    return room


def full(program):
    with one_job(program) as room:
        kept = []
        for fill in (b"first\n", b"other\n"):
            os.makedirs(room.path("MDM"), exist_ok=True)
            with open(room.path("MDM", "MDM.log"), "wb") as file:
                file.write(fill * (MOST_BYTES // len(fill) + 1))
            if not served(room):
                return "a node whose log is full does not run its job"
            with open(room.path("MDM", "MDM.log.1"), "rb") as file:
                former = file.read()
            told = (former[len(former) // 6 * 6 - 6000:].decode() + room.log("MDM")).splitlines()
            kept.append(former.startswith(fill) and MOST_BYTES < len(former) < MOST_BYTES + 1000)
            kept.append([line.split()[1] for line in told if " " in line][:2] == ["start", "listening"])
        names = sorted(name for name in os.listdir(room.path("MDM")) if name.startswith("MDM.log"))
    print(f"full: {names}")
    if not all(kept) or names != ["MDM.log", "MDM.log.1"]:
        return "a log that is full is not renamed, or more than one is kept"
    return None


def closed(program):
    with one_job(program) as room:
        os.makedirs(room.path("MDM", "MDM.log"))
        good = served(room)
        wrote = os.listdir(room.path("MDM", "MDM.log"))
    print(f"closed: the node {'ran its job' if good else 'did not run its job'} without a log")
    return None if good and wrote == [] else "a log that cannot be written holds a node up"


def failed(program):
    with one_job(program) as room:
        os.makedirs(room.path("MDM"))
        with open(room.path("MDM", "MDM.out"), "w", encoding="utf-8"):
            pass
        good = served(room, "FAIL")
        told = [line for line in room.log("MDM").splitlines() if " failed call=start cause=" in line]
    print(f"failed: the job {'is in FAIL' if good else 'is not in FAIL'}; {told}")
    return None if good and len(told) == 1 else "a job whose output cannot be opened is not told as one that failed to start"


def manual_words():
    """The words that stand in the first column of the manual's table of the log."""
    with open(os.path.join(TOP, "docs", "RUNNING.md"), encoding="utf-8") as page:
        part = page.read().split("\n## The log\n", 1)[1].split("\n## ", 1)[0]
    rows = [line.split("|")[1] for line in part.splitlines() if line.startswith("|`")]
    return {word for row in rows for word in re.findall(r"`([a-z]+)`", row)}


def lines(program):
    with one_job(program) as room:
        good = served(room)
        told = room.log("MDM").splitlines()
    wrong = [line for line in told if LINE.fullmatch(line) is None]
    words = [line.split()[1] for line in told if line not in wrong]
    due = ["start", "listening", "kept", "started", "kept", "ended", "kept"]
    place = 0
    for word in words:
        place += place < len(due) and word == due[place]
    strange = set(words) - manual_words()
    print(f"lines: {len(told)} lines with the words {sorted(set(words))}")
    if not good or wrong or place < len(due):
        return f"a line has another form, or is missing: {wrong[:3]}"
    return f"the manual has no row for {sorted(strange)}" if strange else None


def main(words):
    program, _ = program_of(words)
    faults = []
    for trial in (full, closed, failed, lines):
        fault = trial(program)
        if fault:
            faults.append(f"{trial.__name__}: {fault}")
    for fault in faults:
        print(fault, file=sys.stderr)
    return 1 if faults else 0


if __name__ == "__main__":
    sys.exit(main(sys.argv[1:]))
