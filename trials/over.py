#!/usr/bin/env python3
"""Checks a crate over the libraries that `rt ci` proved on this machine, so that nothing below it is proved again.

`rt ci NAME` proves NAME and all below it from nothing and keeps the libraries beside the kit, by the sums of all that
they were made of. So a library is given to this checkout only where its files, and those below it, are those that were
proved. Where one is not kept, the script names it and ends with 4: `rt ci` proves it first.
What the check proved stays in crates/NAME/out/incremental, so the next check proves only what changed since. It is no
gate, and nothing of it counts there. Two such checks of one crate never run at once in one checkout.

Usage: trials/over.py NAME [FLAG..]          checks the crate; the flags are those of `rt check`, as --only PATH or
                                             --allow-holes. Without --jobs it takes one processor.
       trials/over.py NAME --must-fail [FILE..]   tries the crate's must-fail edits, or these files in the form of one,
                                             over what the last check proved. It ends with 1 where one is not refused.
"""
import os
import sys

sys.dont_write_bytecode = True
from kit import begun_of, check, crates_here, libraries_that_lack, rt_of_kit


def try_edits(rt, crate, files):
    status = 0
    for file in files or rt.edits_of(crate)[0]:
        kind, said = rt.must_fail(crate, file, ["--jobs", "1"], begun_of(crate))
        print(said, flush=True)
        status |= kind != rt.REFUSED
    return status


def main():
    if len(sys.argv) < 2 or sys.argv[1].startswith("-"):
        sys.exit(__doc__)
    name, *flags = sys.argv[1:]
    files = [os.path.abspath(flag) for flag in flags[1:]] if flags[:1] == ["--must-fail"] else []
    rt = rt_of_kit()
    crates = crates_here(rt)
    if name not in crates:
        sys.exit(f"crates.txt has no crate {name}")
    crate = crates[name]
    lacking = libraries_that_lack(rt, crate, crates)
    if lacking:
        print("not kept yet:", *lacking)
        return 4
    if flags[:1] == ["--must-fail"]:
        return try_edits(rt, crate, files)
    return check(rt, crate, flags)


sys.exit(main())
