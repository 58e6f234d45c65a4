#!/usr/bin/env python3
"""Prints how many bytes a second a link between two real nodes carries, without a key and with one. It judges nothing.

The master makes PLANS plans of some 3.5 megabytes each, in which nothing is due. Then the agent is started; the time goes
on from the beginning of the link until the agent has kept them all, by its log. So it counts all that nodes do with what
they send: frames, syncs, facts. Usage: bench/links.py [PROGRAM [PLANS]]. PROGRAM is named from the top folder on; PLANS is
8 without it.
"""
import os
import sys
from datetime import datetime

TOP = os.path.dirname(os.path.dirname(os.path.abspath(__file__)))
sys.path.insert(0, os.path.join(TOP, "trials"))
sys.dont_write_bytecode = True
from nodes import SECRET, Room, program_of

JOBS = "".join(f'J{i} DOCOMMAND "true {"x" * 4000}" AT 2359\n' for i in range(870))


def moments(log, word):
    """When each line with this word was written."""
    lines = [line.split() for line in log.splitlines()]
    return [datetime.strptime(line[0], "%Y-%m-%dT%H:%M:%S.%fZ") for line in lines if line[1] == word]


def carried(program, key, plans):
    """How many bytes of plans came over, and in how many seconds. None where they did not come within five minutes."""
    with Room(program, key) as room:
        room.define(JOBS, name="of-node.txt")
        room.define()
        room.start("MDM", "of-node.txt")
        if room.until_answers("MDM", 300) is None:
            raise SystemExit("the master does not answer")
        for _ in range(plans):
            status, said, _ = room.ask("MDM", "jnextplan 12/01/2030", 300)
            if status != 0 or not said.startswith("plan "):
                raise SystemExit(f"the master makes no plan: {said}")
        made = os.path.getsize(room.path("MDM", "MDM.msg"))
        room.start("A1")
        if room.until(lambda: len(moments(room.log("A1"), "kept")) >= plans, 300) is None:
            return None
        log = room.log("A1")
        took = moments(log, "kept")[plans - 1] - moments(log, "up")[0]
    return made, took.total_seconds()


def main(words):
    program, rest = program_of(words)
    plans = int(rest[0]) if rest else 8
    for name, key in (("without a key", None), ("with a key", SECRET)):
        came = carried(program, key, plans)
        if came is None:
            print(f"{name}: the plans did not come")
        else:
            count, took = came
            print(f"{name}: {count} bytes in {took:.2f} s, {count / took / 1e6:.1f} MB/s", flush=True)
    return 0


if __name__ == "__main__":
    sys.exit(main(sys.argv[1:]))
