"""Real nodes on loopback ports, for the trials that are written in Python. It is no trial itself.

A Room is a folder of its own with definitions of a master MDM and an agent A1, and with the nodes that were started in
it. At the end of a `with` each node that still runs is ended by its own number, and the folder is removed.
"""
import os
import shutil
import socket
import struct
import subprocess
import tempfile
import time

TOP = os.path.dirname(os.path.dirname(os.path.abspath(__file__)))
PROGRAM = "crates/tws_program/out/tws_program"
SECRET = b"0123456789abcdef0123456789abcdef"


def program_of(words):
    """The program that the first word names, from the top folder on, or the proved one; and the other words."""
    rest = list(words)
    name = rest.pop(0) if rest else PROGRAM
    path = os.path.join(TOP, name)
    if not os.access(path, os.X_OK):
        raise SystemExit(f"there is no program {name}")
    return path, rest


def free_port():
    """A port of this machine on which nobody listens."""
    with socket.socket() as probe:
        probe.bind(("127.0.0.1", 0))
        return probe.getsockname()[1]


def frame(kind, content):
    """A frame of the stream between nodes: 2 is an acknowledgement, 3 a command."""
    return struct.pack(">IB", 1 + len(content), kind) + content


def definitions(master, agent, jobs):
    return (
        f"CPUNAME MDM OS UNIX NODE 127.0.0.1 TCPADDR {master} DOMAIN MASTERDM FOR MAESTRO TYPE MANAGER END\n"
        f"CPUNAME A1 OS UNIX NODE 127.0.0.1 TCPADDR {agent} DOMAIN MASTERDM FOR MAESTRO TYPE FTA FULLSTATUS ON END\n"
        "DOMAIN MASTERDM MANAGER MDM ISMASTER END\n"
        f"SCHEDULE A1#S ON EVERYDAY :\n{jobs}END\n"
    )


class Room:
    def __init__(self, program, key=None):
        self.program = program
        self.folder = tempfile.mkdtemp(prefix="tws-")
        self.master, self.agent = free_port(), free_port()
        self.nodes = []
        self.key = key
        self.write_key("", key)

    def __enter__(self):
        return self

    def __exit__(self, *_):
        for node in self.nodes:
            if node.poll() is None:
                node.kill()
            node.wait()
        shutil.rmtree(self.folder, ignore_errors=True)

    def path(self, *names):
        return os.path.join(self.folder, *names)

    def write_key(self, name, key, mode=0o600):
        """Puts the key into the folder of a node, or of the clients."""
        if key is not None:
            os.makedirs(self.path(name), exist_ok=True)
            with open(os.open(self.path(name, "tws.key"), os.O_CREAT | os.O_WRONLY | os.O_TRUNC, mode), "wb") as file:
                file.write(key + b"\n")

    def define(self, jobs='J DOCOMMAND "true"\n', master=None, agent=None, name="defs.txt"):
        """Writes the definitions, where other ports than those of the nodes may stand in them."""
        with open(self.path(name), "w", encoding="utf-8") as file:
            file.write(definitions(master or self.master, agent or self.agent, jobs))

    def start(self, name, definitions_of="defs.txt"):
        """Starts a node in a folder of its own."""
        os.makedirs(self.path(name), exist_ok=True)
        self.write_key(name, self.key)
        with open(self.path(definitions_of), encoding="utf-8") as text, open(self.path(name, "said"), "a") as said:
            node = subprocess.Popen(
                [self.program, "node", name, "4294967295"],
                cwd=self.path(name), stdin=text, stdout=said, stderr=subprocess.STDOUT,
            )
        self.nodes.append(node)
        return node

    def ask(self, name, line, wait=60):
        """The status and the text of a reply, and how many seconds it took."""
        began = time.time()
        with open(self.path("defs.txt"), encoding="utf-8") as text:
            try:
                ran = subprocess.run(
                    [self.program, "ask", name, line],
                    cwd=self.folder, stdin=text, capture_output=True, text=True, timeout=wait,
                )
            except subprocess.TimeoutExpired:
                return None, "", time.time() - began
        return ran.returncode, ran.stdout, time.time() - began

    def until_answers(self, name, seconds=30):
        return self.until(lambda: self.ask(name, "showcpus")[0] == 0, seconds)

    @staticmethod
    def until(holds, seconds):
        """After how many seconds it holds, or None where it does not within so many."""
        began = time.time()
        while time.time() - began < seconds:
            if holds():
                return time.time() - began
            time.sleep(0.1)
        return None

    def log(self, name):
        try:
            with open(self.path(name, f"{name}.log"), encoding="utf-8") as file:
                return file.read()
        except FileNotFoundError:
            return ""

    def call(self, port=None):
        stream = socket.create_connection(("127.0.0.1", port or self.master), 10)
        stream.settimeout(10)
        return stream

    @staticmethod
    def memory(node):
        """How many bytes of memory a node holds."""
        with open(f"/proc/{node.pid}/statm", encoding="utf-8") as file:
            return int(file.read().split()[1]) * os.sysconf("SC_PAGE_SIZE")
