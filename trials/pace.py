#!/usr/bin/env python3
"""How fast a real node runs jobs that do nothing, beside bare syncs in the same folder.

One node runs COUNT jobs `true`, all free or each behind the one before. It prints jobs a second, and how many bare syncs
of 32 bytes the folder takes in the time of a job. An entry takes two syncs and a job at least three entries, so six is
the least. It ends with 0 where a job takes no more than nine bare syncs, or than six and 8 milliseconds, and else with 1.
It is run by hand, on a machine with nothing else to do.

Usage: trials/pace.py [PROGRAM [COUNT [free | chain]]]. PROGRAM is named from the top folder on; COUNT is 300 without it.
"""
import os
import subprocess
import sys
import tempfile
import time

from nodes import free_port, program_of


def bare_sync():
    """How many seconds a sync of 32 bytes takes here."""
    file = os.open("bare", os.O_RDWR | os.O_CREAT)
    began = time.time()
    for i in range(100):
        os.pwrite(file, b"x" * 32, i * 32)
        os.fsync(file)
    os.close(file)
    return (time.time() - began) / 100


def main(words):
    program, rest = program_of(words)
    count = int(rest[0]) if rest else 300
    chain = rest[1:] == ["chain"]
    with tempfile.TemporaryDirectory(prefix="tws-") as room:
        os.chdir(room)
        sync = bare_sync()
        jobs = "".join(
            f'J{i} DOCOMMAND "true"' + (f" FOLLOWS J{i - 1}" if chain and i else "") + "\n" for i in range(count)
        )
        with open("defs.txt", "w", encoding="utf-8") as file:
            file.write(
                f"CPUNAME MDM OS UNIX NODE 127.0.0.1 TCPADDR {free_port()} DOMAIN MASTERDM FOR MAESTRO TYPE MANAGER END\n"
                f"DOMAIN MASTERDM MANAGER MDM ISMASTER END\nSCHEDULE MDM#S ON EVERYDAY :\n{jobs}END\n"
            )

        def ask(line):
            with open("defs.txt", encoding="utf-8") as text:
                return subprocess.run([program, "ask", "MDM", line], stdin=text, capture_output=True, text=True)

        with open("defs.txt", encoding="utf-8") as text:
            node = subprocess.Popen([program, "node", "MDM", "4000000"], stdin=text)
        try:
            while ask("sc").returncode:
                time.sleep(0.05)
            ask("limit cpu MDM;100")
            began = time.time()
            ask("jnextplan 12/26/2003")
            while "SUCC" not in ask("ss").stdout:
                time.sleep(0.2)
            took = time.time() - began
            ask("shutdown")
            node.wait(20)
        finally:
            if node.poll() is None:
                node.kill()
            node.wait()
        os.chdir("/")
    each = took / count
    print(
        f"{count} jobs, {'each behind the one before' if chain else 'all free'}: {took:.2f} s, {1 / each:.0f} jobs a second, "
        f"{each / sync:.1f} bare syncs a job (a sync takes {sync * 1000:.1f} ms)"
    )
    return 0 if each <= max(9 * sync, 6 * sync + 0.008) else 1


if __name__ == "__main__":
    sys.exit(main(sys.argv[1:]))
