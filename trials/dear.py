#!/usr/bin/env python3
"""Tells what each function of a crate costs to prove, in processor seconds, the dearest first.

It checks the crate from nothing over the libraries that are kept, as over.py does, with one job. A function's seconds are
those between the end of the proof before it and its own, so what antt reads in between counts with it. `first` is all
before the first function: libraries, the front end, lemmas. `last` is all behind the last one. As the check goes on, each
function is told on the stream of errors.

Usage: trials/dear.py NAME [FLAG..]    the flags are those of `rt check`, as --test
"""
import os
import re
import subprocess
import sys

sys.dont_write_bytecode = True
from kit import crates_here, libraries_that_lack, rt_of_kit

ENDED = re.compile(r"checked (.+), \d+ of \d+")
TICKS = os.sysconf("SC_CLK_TCK")


def spent_by(process):
    """The processor seconds of a process that still runs, or was not waited for."""
    with open(f"/proc/{process}/stat", encoding="utf-8", errors="replace") as file:
        fields = file.read().rpartition(")")[2].split()
    return (int(fields[11]) + int(fields[12])) / TICKS


def costs_of(rt, crate, flags):
    """What was checked, with its seconds, in the order of the check, and how the check ended."""
    words = [rt.rtlib.RATTLE, "check", *crate.words(["--jobs", "1", *flags], keeps=False), "--progress"]
    how = {"stdin": subprocess.DEVNULL, "stdout": subprocess.PIPE, "stderr": subprocess.STDOUT, "text": True, "errors": "replace"}
    costs, before, last = [], 0.0, ""
    with subprocess.Popen([*rt.rtlib.guarded(), *words], cwd=crate.folder, **how) as check:
        for line in check.stdout:
            last, ended = line.strip(), ENDED.match(line)
            if ended:
                now = spent_by(check.pid)
                costs.append((ended.group(1) if costs else f"first, and {ended.group(1)}", now - before))
                before = now
                print(f"{costs[-1][1]:8.1f} {costs[-1][0]}", file=sys.stderr, flush=True)
        _, _, used = os.wait4(check.pid, 0)
        check.returncode = 0
    return [*costs, ("last", used.ru_utime + used.ru_stime - before)], last


def main():
    if len(sys.argv) < 2 or sys.argv[1].startswith("-"):
        sys.exit(__doc__)
    name, *flags = sys.argv[1:]
    rt = rt_of_kit()
    crates = crates_here(rt)
    if name not in crates:
        sys.exit(f"crates.txt has no crate {name}")
    lacking = libraries_that_lack(rt, crates[name], crates)
    if lacking:
        print("not kept yet:", *lacking)
        return 4
    costs, last = costs_of(rt, crates[name], flags)
    print(f"{sum(seconds for _, seconds in costs):8.1f} {name}: {last}")
    for what, seconds in sorted(costs, key=lambda cost: -cost[1]):
        print(f"{seconds:8.1f} {what}")
    return 0


if __name__ == "__main__":
    sys.exit(main())
