#!/usr/bin/env python3
"""A real node whose every system call of a kind is, in turn, its last one, or fails once. strace must be installed.

For each kind of call and each number N a node of one workstation with three jobs is started anew and asked for a plan,
and its Nth such call kills it or fails. Then it is started again without faults, what was lost is confirmed where its
work is done and rerun where it is not, and this must hold: all jobs end as SUCC, each ran exactly once and no more often
than it was launched, what was acknowledged before is in the file, and the file is not refused. A log that cannot be
written costs nothing of that; a launch that cannot be noted waits until it can. Each kind of call must come at least once.

It is run by hand and takes some ten minutes on a quiet machine; with the word `few` it takes one case of each kind, and
does not ask whether each kind came. It prints each case that is not as it must be, and a last line with the numbers, and
ends with 0 or 1.

Usage: trials/crashes.py [PROGRAM [WORKERS [few]]]. PROGRAM is named from the top folder on, as out/quick/tws.
"""
import os
import re
import shutil
import signal
import subprocess
import sys
import tempfile
import time
from concurrent.futures import ThreadPoolExecutor

from nodes import free_port, program_of

DEFINITIONS = """CPUNAME MDM OS UNIX NODE 127.0.0.1 TCPADDR {port} DOMAIN MASTERDM FOR MAESTRO TYPE MANAGER END
DOMAIN MASTERDM MANAGER MDM ISMASTER END
SCHEDULE MDM#S ON EVERYDAY :
A DOCOMMAND "echo A >> ran.txt"
B DOCOMMAND "echo B >> ran.txt" FOLLOWS A
C DOCOMMAND "echo C >> ran.txt" FOLLOWS B
END
"""
# the kind of call, what becomes of it, and up to which number
PLANS = [
    ("pwrite64", "signal=KILL", 26), ("fsync", "signal=KILL", 28), ("clone3", "signal=KILL", 3),
    ("sendto", "signal=KILL", 4), ("accept4", "signal=KILL", 12), ("recvfrom", "signal=KILL", 10),
    ("wait4", "signal=KILL", 3), ("write", "signal=KILL", 24), ("openat", "signal=KILL", 24),
    ("unlink", "signal=KILL", 3), ("unlinkat", "signal=KILL", 3), ("mkdir", "signal=KILL", 1),
    ("mkdirat", "signal=KILL", 1),
    ("pwrite64", "error=EIO", 26), ("fsync", "error=EIO", 28), ("pwrite64", "error=ENOSPC", 26),
    ("clone3", "error=EAGAIN", 3), ("sendto", "error=EPIPE", 4), ("accept4", "error=EMFILE", 8),
    ("fsync", "error=EINTR", 8), ("pwrite64", "error=EINTR", 8), ("flock", "error=EAGAIN", 1),
    ("openat", "error=EACCES", 24), ("openat", "error=EMFILE", 24),
    ("write", "error=ENOSPC", 24), ("mkdir", "error=EACCES", 1), ("mkdirat", "error=EACCES", 1),
    ("unlink", "error=EACCES", 3), ("unlinkat", "error=EACCES", 3), ("getrandom", "error=EAGAIN", 2),
]


class Case:
    def __init__(self, program, kind, how, number):
        self.program, self.kind, self.how, self.number = program, kind, how, number
        self.room = tempfile.mkdtemp(prefix="tws-")
        self.said, self.came = [], False
        with open(f"{self.room}/defs.txt", "w", encoding="utf-8") as file:
            file.write(DEFINITIONS.format(port=free_port()))
        with open(f"{self.room}/ran.txt", "w", encoding="utf-8"):
            pass

    def ask(self, line, limit=20):
        with open(f"{self.room}/defs.txt", encoding="utf-8") as text:
            try:
                ran = subprocess.run(
                    [self.program, "ask", "MDM", line],
                    stdin=text, capture_output=True, text=True, timeout=limit, cwd=self.room,
                )
            except subprocess.TimeoutExpired:
                return 99, ""
        return ran.returncode, ran.stdout.strip()

    def node(self, *before):
        with open(f"{self.room}/defs.txt", encoding="utf-8") as text, open(f"{self.room}/said", "w") as said:
            return subprocess.Popen(
                [*before, self.program, "node", "MDM", "4000000"],
                stdin=text, stdout=said, stderr=subprocess.STDOUT, cwd=self.room,
            )

    def jobs(self):
        status, text = self.ask("sj")
        if status != 0:
            return None
        return {m[1]: (m[2], int(m[3])) for m in re.finditer(r"MDM#S\.(\w) (\w+) (\d+)", text)}

    def ran(self):
        with open(f"{self.room}/ran.txt", encoding="utf-8") as file:
            return file.read().split()

    def kept(self):
        """The bodies of the records in the message file."""
        try:
            with open(f"{self.room}/MDM.msg", "rb") as file:
                data = file.read()
        except FileNotFoundError:
            return []
        bodies, at = [], 8
        while at + 5 <= len(data) and data[at] == 1:
            size = int.from_bytes(data[at + 1:at + 5], "big")
            bodies.append(data[at + 5:at + 5 + size])
            at += 5 + size
        return bodies

    @staticmethod
    def are_done(jobs):
        return bool(jobs) and len(jobs) == 3 and all(state == "SUCC" for state, _ in jobs.values())

    def shut_down(self, node):
        if node.poll() is None:
            self.ask("shutdown")
            try:
                node.wait(10)
            except subprocess.TimeoutExpired:
                node.kill()
                self.said.append("does not shut down")
        return node.wait()

    def has_no_links(self):
        """Whether the node could not read its key: then it has no links, as it must, and nobody can ask it anything."""
        try:
            with open(f"{self.room}/MDM.log", encoding="utf-8") as file:
                return " nokey " in file.read()
        except FileNotFoundError:
            return False

    @staticmethod
    def end_traced(tracer):
        """Ends the node that this strace runs, which then ends by itself."""
        with open(f"/proc/{tracer.pid}/task/{tracer.pid}/children", encoding="utf-8") as file:
            for process in file.read().split():
                os.kill(int(process), signal.SIGKILL)
        tracer.wait()

    def plan(self):
        """Asks for a plan, where the node says that there is none: a second order would be a second plan."""
        jobs = self.jobs()
        if jobs is None:
            return False
        if jobs:
            return True
        status, text = self.ask("jnextplan 12/26/2003")
        return status == 0 and text.startswith("plan")

    def first_run(self):
        """The run with the fault. Whether a plan was acknowledged, and whether the node ended by itself."""
        inject = f"inject={self.kind}:{self.how}:when={self.number}"
        node = self.node("strace", "-qq", "-o", f"{self.room}/calls", "-e", f"trace={self.kind}", "-e", inject)
        planned, end = False, time.time() + 6
        while node.poll() is None and time.time() < end:
            if self.has_no_links():
                self.end_traced(node)
            elif not planned:
                planned = self.plan()
            elif self.are_done(self.jobs()):
                break
            time.sleep(0.05)
        hit = node.poll() is not None
        status = self.shut_down(node)
        with open(f"{self.room}/calls", encoding="utf-8", errors="replace") as calls:
            self.came = hit or "(INJECTED" in calls.read()
        if self.how.startswith("error") and self.kind in ("fsync", "pwrite64") and hit and status not in (6, 0):
            self.said.append(f"status {status} after a failed {self.kind}")
        return planned, hit

    def second_run(self, planned):
        """The run without faults, up to the end of all jobs."""
        node = self.node()
        end, done, acted = time.time() + 25, None, {}
        while time.time() < end and node.poll() is None and done is None:
            if not planned:
                planned = self.plan()
                continue
            jobs = self.jobs() or {}
            if self.are_done(jobs):
                done = jobs
            for job, (state, launches) in jobs.items():
                if state in ("ABEND", "FAIL") and acted.get(job) != launches:
                    acted[job] = launches
                    self.ask(f"conf MDM#S.{job};succ" if job in self.ran() else f"rr MDM#S.{job}")
            time.sleep(0.1)
        if node.poll() is not None:
            self.said.append(f"the node that was started again ended with {node.poll()}")
        elif done is None:
            self.said.append(f"not done: {self.jobs()}")
        for job in "ABC":
            count = self.ran().count(job)
            if count != 1:
                self.said.append(f"{job} ran {count} times")
            if done and count > done[job][1]:
                self.said.append(f"{job} ran more often than it was launched")
        self.shut_down(node)

    def whole(self):
        try:
            planned, hit = self.first_run()
            before = self.kept()
            if planned and not before:
                self.said.append("an acknowledged plan is lost")
            time.sleep(0.15)
            self.second_run(planned)
            if self.kept()[:len(before)] != before:
                self.said.append("what was kept has changed")
            return hit
        finally:
            shutil.rmtree(self.room, ignore_errors=True)


def main(words):
    program, rest = program_of(words)
    if shutil.which("strace") is None:
        print("strace is not installed: nothing was tried")
        return 0
    workers = int(rest[0]) if rest else 3
    few = "few" in rest[1:]
    specs = [
        (kind, how, number)
        for kind, how, most in PLANS
        for number in ([(most + 1) // 2] if few else range(1, most + 1))
    ]

    def tried(spec):
        case = Case(program, *spec)
        return spec, case.whole(), case

    hits = bad = 0
    # a kind of call, by either of its names, and what becomes of it
    came = {(kind.removesuffix("at"), how): few for kind, how, _ in PLANS}
    with ThreadPoolExecutor(workers) as pool:
        for (kind, how, number), hit, case in pool.map(tried, specs):
            hits += hit
            came[kind.removesuffix("at"), how] |= case.came
            if case.said:
                bad += 1
                print(kind, how, number, "|", "; ".join(case.said), flush=True)
    for (kind, how), has_come in came.items():
        if not has_come:
            bad += 1
            print(kind, how, "| no such call came", flush=True)
    print(f"{len(specs)} cases, {hits} ended the node, {bad} not as they must be")
    return 1 if bad else 0


if __name__ == "__main__":
    sys.exit(main(sys.argv[1:]))
