#!/usr/bin/env python3
"""Says whether crates compile, over the sources of all crates below them. It proves nothing, so it takes half a minute.

Errors of names, types and borrows come within some 35 seconds of one processor. A crate that told none in its time is
stopped, since the check would go on with its proofs: on a quiet machine it compiles. Crates whose names end with _tests
are compiled with their tests.

Usage: trials/compiles.py NAME..   SECONDS in the environment says how long a crate may take, 60 without it.
                                   It ends with 1 where a crate does not compile.
"""
import os
import subprocess
import sys

sys.dont_write_bytecode = True
from kit import crates_here, rt_of_kit


def errors_of(rt, crate, seconds):
    tests = ["--test"] if crate.name.endswith("_tests") else []
    # no item has this name, so nothing is proved
    words = crate.words(["--jobs", "1", "--only", "", *tests], as_source=True)
    how = {"stdin": subprocess.DEVNULL, "stdout": subprocess.PIPE, "stderr": subprocess.STDOUT}
    try:
        ran = subprocess.run(
            [*rt.rtlib.guarded(), rt.rtlib.RATTLE, "check", *words], cwd=crate.folder, errors="replace", timeout=seconds, **how
        )
    except subprocess.TimeoutExpired:
        return None
    lines = ran.stdout.split("\n")
    return ["\n".join(lines[at : at + 6]) for at, line in enumerate(lines) if "error" in line][:20]


def main():
    if len(sys.argv) < 2:
        sys.exit(__doc__)
    rt = rt_of_kit()
    crates, status = crates_here(rt), 0
    for name in sys.argv[1:]:
        if name not in crates:
            sys.exit(f"crates.txt has no crate {name}")
        seconds = os.environ.get("SECONDS", "60")
        errors = errors_of(rt, crates[name], float(seconds))
        told = f"no error in {seconds} s" if errors is None else "it does not compile" if errors else "it compiles"
        print(f"{name}: {told}", *(errors or []), sep="\n", flush=True)
        status |= bool(errors)
    return status


sys.exit(main())
