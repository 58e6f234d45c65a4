#!/usr/bin/env python3
"""What the manual tells an operator to do, done with real nodes of three workstations on loopback ports:

  a key is made by the manual's own line and put into the folder of each node and of the clients; all links come up under it;
  the key is changed while a plan is at work: no job is lost by that or runs twice, and who has the former key is not
  answered;
  an agent is retired whose disk is lost while its job ran: what waits for it elsewhere is let go, its streams go to a
  workstation with a new name at the end of the definitions, and in the next plan they run there.

It prints each step and ends with 0, or with 1 where one of them does not come to what the manual says. It takes some
twenty seconds; it is run by hand. Usage: trials/operators.py [PROGRAM]. PROGRAM is named from the top folder on, as
out/quick/tws.
"""
import os
import re
import shutil
import stat
import subprocess
import sys

from nodes import TOP, Room, free_port, program_of

NODES = ("MDM", "A1", "A2")


class Wrong(Exception):
    """A step does not come to what the manual says."""


def key_line():
    """The line of the manual that makes a key."""
    with open(os.path.join(TOP, "docs", "RUNNING.md"), encoding="utf-8") as page:
        found = re.search(r"`([^`\n]*/dev/urandom[^`\n]*> tws\.key[^`\n]*)`", page.read())
    if found is None:
        raise Wrong("the manual has no line that makes a key")
    return found[1]


class Network(Room):
    """Three workstations, or four once an agent is retired."""

    def __init__(self, program):
        super().__init__(program)
        self.ports = {name: free_port() for name in (*NODES, "A3")}
        self.running = {}

    def write(self, names, streams):
        """Writes the definitions of these workstations, in this order."""
        text = ""
        for name in names:
            kind = "MANAGER" if name == "MDM" else "FTA"
            text += f"CPUNAME {name} OS UNIX NODE 127.0.0.1 TCPADDR {self.ports[name]} DOMAIN MASTERDM FOR MAESTRO "
            text += f"TYPE {kind} END\n"
        with open(self.path("defs.txt"), "w", encoding="utf-8") as file:
            file.write(text + "DOMAIN MASTERDM MANAGER MDM ISMASTER END\n" + streams)

    def make_key(self):
        """Makes a key in the folder of the clients by the manual's line, and copies it to the nodes as `cp -p` does."""
        subprocess.run(["sh", "-c", key_line()], cwd=self.folder, check=True)
        for name in self.ports:
            os.makedirs(self.path(name), exist_ok=True)
            shutil.copy2(self.path("tws.key"), self.path(name, "tws.key"))

    def start_all(self, names):
        for name in names:
            self.running[name] = self.start(name)
        for name in names:
            self.sees(f"{name} answers under the key", lambda name=name: self.ask(name, "sc")[0] == 0)
            if re.search(r" listening .* key=yes$", self.log(name), re.M) is None:
                raise Wrong(f"the log of {name} does not say that it listens under a key")

    def shut_down(self, names):
        for name in names:
            if self.ask(name, "shutdown")[1] != "shutdown\n" or self.running.pop(name).wait(20) != 0:
                raise Wrong(f"{name} does not shut down")

    def sees(self, what, holds, seconds=30):
        took = self.until(holds, seconds)
        if took is None:
            raise Wrong(f"{what}: not within {seconds} s; the jobs are: {self.jobs()}")
        print(f"{what}: after {took:.1f} s", flush=True)

    def order(self, line, reply):
        said = self.ask("MDM", line)[1]
        if not said.startswith(reply):
            raise Wrong(f"{line} is answered '{said}'")
        print(f"{line}: {said.strip()}", flush=True)

    def jobs(self):
        return self.ask("MDM", "sj")[1]

    def has(self, text):
        return text in self.jobs()

    def touch(self, name):
        with open(self.path(name), "w", encoding="utf-8"):
            pass

    def ran(self):
        with open(self.path("ran.txt"), encoding="utf-8") as file:
            return sorted(file.read().split())


def of_two(agent):
    """The streams, where the second one is on this workstation."""
    return (
        'SCHEDULE A1#ONE ON EVERYDAY :\nFIRST DOCOMMAND "echo FIRST >> ../ran.txt"\n'
        'LATER DOCOMMAND "echo LATER >> ../ran.txt" FOLLOWS FIRST OPENS "../go"\nEND\n'
        f"SCHEDULE {agent}#TWO ON EVERYDAY CARRYFORWARD :\n"
        'LONG DOCOMMAND "echo LONG$TWS_NODE >> ../ran.txt; until test -e ../end; do sleep 0.1; done"\nEND\n'
        f"SCHEDULE MDM#CLOSE ON EVERYDAY FOLLOWS {agent}#TWO FOLLOWS A1#ONE :\n"
        'REPORT DOCOMMAND "echo REPORT >> ../ran.txt"\nEND\n'
    )


def set_a_key(room):
    room.write(NODES, of_two("A2"))
    room.make_key()
    if stat.S_IMODE(os.stat(room.path("tws.key")).st_mode) & 0o077:
        raise Wrong("the manual's line makes a key that others may read")
    room.start_all(NODES)
    room.sees("both links are up", lambda: " up ws=1 " in room.log("MDM") and " up ws=2 " in room.log("MDM"))


def change_the_key(room):
    """The plan is at work: LONG runs, and LATER waits for a file."""
    room.order("jnextplan 12/26/2003", "plan 1")
    room.sees("the job of A2 runs", lambda: room.has("A2#TWO.LONG EXEC 1"))
    for name in NODES:
        room.order(f"stop {name}", f"kept MDM>{name} ")
    room.touch("end")
    room.sees("no job runs", lambda: room.has("A2#TWO.LONG SUCC 1") and not re.search(r" (INTRO|EXEC) ", room.jobs()))
    room.shut_down(NODES)
    shutil.copy2(room.path("tws.key"), room.path("former.key"))
    room.make_key()
    room.start_all(NODES)
    for name in NODES:
        room.order(f"start {name}", f"kept MDM>{name} ")
    shutil.copy2(room.path("tws.key"), room.path("new.key"))
    shutil.copy2(room.path("former.key"), room.path("tws.key"))
    if room.ask("MDM", "sj")[0] != 12:
        raise Wrong("who has the former key is answered")
    shutil.copy2(room.path("new.key"), room.path("tws.key"))
    room.touch("go")
    room.sees("the plan has ended", lambda: room.has("MDM#CLOSE.REPORT SUCC 1"))
    if room.ran() != ["FIRST", "LATER", "LONGA2", "REPORT"]:
        raise Wrong(f"the jobs that ran are {room.ran()}")


def retire(room):
    """In the next plan LONG runs again, and the disk of its agent is lost meanwhile."""
    os.remove(room.path("end"))
    room.order("jnextplan 12/27/2003", "plan 2")
    room.sees("the job of A2 runs again", lambda: room.has("A2#TWO.LONG EXEC 1"))
    node = room.running.pop("A2")
    node.kill()
    node.wait()
    os.rename(room.path("A2"), room.path("lost"))
    room.touch("end")
    room.order("dds MDM#CLOSE;follows=A2#TWO", "kept MDM>MDM ")
    room.sees("what waits for A2 goes on", lambda: room.has("MDM#CLOSE.REPORT SUCC 1"))
    room.shut_down(("MDM", "A1"))
    room.write((*NODES, "A3"), of_two("A3"))
    room.start_all(("MDM", "A1", "A3"))
    room.order("jnextplan 12/28/2003", "plan 3")
    room.sees("the plan with A3 has ended", lambda: room.has("MDM#CLOSE.REPORT SUCC 1") and room.has("A3#TWO.LONG SUCC 1"))
    if not room.has("A2#TWO.LONG EXEC 1"):
        raise Wrong("the unfinished stream of A2 is not in the plan")
    room.shut_down(("MDM", "A1", "A3"))
    twice = ["FIRST", "LATER", "LONGA2", "REPORT"] * 2
    if room.ran() != sorted([*twice, "FIRST", "LATER", "LONGA3", "REPORT"]):
        raise Wrong(f"the jobs that ran are {room.ran()}")
    is_sound(room)


def is_sound(room):
    """What all four kept is a sound history. Here alone the lost file is read."""
    files = [room.path(name, f"{name}.msg") for name in ("MDM", "A1", "A3")] + [room.path("lost", "A2.msg")]
    causes = os.path.join(TOP, "trials", "causes.py")
    entries = subprocess.run([causes, *files], capture_output=True, text=True, check=True).stdout
    network = "".join(f"ws {name} MDM\n" for name in ("A1", "A2", "A3"))
    text = f"$NETWORK\nws MDM\n{network}$HISTORY\n{entries}"
    judged = subprocess.run([room.program, "audit"], input=text, capture_output=True, text=True, check=False).stdout
    print(f"the history of all files: {judged.strip()}")
    if not judged.startswith("sound "):
        raise Wrong("what is kept is no sound history")


def main(words):
    program, _ = program_of(words)
    try:
        with Network(program) as room:
            set_a_key(room)
            change_the_key(room)
            retire(room)
    except Wrong as wrong:
        print(wrong, file=sys.stderr)
        return 1
    return 0


if __name__ == "__main__":
    sys.exit(main(sys.argv[1:]))
