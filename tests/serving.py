"""What trials of `serve` over real sockets share: the program, its clients, and the verdicts.

Each trial starts the program on a port of its own, and kills it if it hasn't ended by itself. A line is printed
for each: `right NAME`, or `wrong NAME WHY`, with tabs between them. Nothing is waited for without an end, so that
a program that doesn't answer is told of as any other that is wrong.

usage: serving.py

Prints a port at which nobody listens.
"""

import contextlib
import random
import select
import signal
import socket
import struct
import subprocess
import sys
import threading
import time

SECONDS = 30
# (a reply that must not come is looked for so long; no trial fails where this is short)
GLANCE = 0.3
HOST = "127.0.0.1"
DONE = 0
DOOR_FAULT = 6

TWO_ROUTERS = ["LOAD", "link a b 5", "END"]
TWO_LOADED = "LOADED routers 2 links 1"

# What is raised where a reply has other words than are looked for.
MISREAD = (ValueError, LookupError)


class Wrong(Exception):
    """The program did something else than it should."""


def same(what, got, wanted):
    if got != wanted:
        raise Wrong(f"{what} is {got!r}, and should be {wanted!r}")


def free_port():
    """A port at which nobody listens, below those that the system gives to connections by itself."""
    while True:
        port = random.randrange(20000, 32000)
        with socket.socket() as probe, contextlib.suppress(OSError):
            probe.bind((HOST, port))
            return port


class Server:
    """A running program that serves a port."""

    def __init__(self, program, port, desks, sessions, workers):
        self.port = port
        words = ["serve", f"--port={port}", f"--desks={desks}", f"--sessions={sessions}", f"--workers={workers}"]
        self.process = subprocess.Popen(
            [program, *words], stdin=subprocess.DEVNULL, stdout=subprocess.PIPE, stderr=subprocess.PIPE
        )

    def ended(self, sessions, versions, status=DONE):
        """Waits for the end of the program, which tells these numbers in its one line."""
        output, errors = self.process.communicate(timeout=SECONDS)
        same("what the program wrote", output.decode(), f"served {sessions} versions {versions}\n")
        same("what it wrote to standard error", errors, b"")
        same("its status", self.process.returncode, status)


@contextlib.contextmanager
def serving(program, desks, sessions, port=None, workers=1):
    """A server, which is gone at the end of the block, whatever happens in it."""
    server = Server(program, port or free_port(), desks, sessions, workers)
    try:
        yield server
    finally:
        server.process.kill()
        server.process.communicate()


def connection_to(port):
    """A connection, or None where nobody listens yet. (One whose own port happens to be this one meets itself.)"""
    with contextlib.suppress(ConnectionRefusedError):
        connection = socket.create_connection((HOST, port), SECONDS)
        if connection.getsockname() != connection.getpeername():
            return connection
        connection.close()
    return None


class Client:
    """A connection to a server, which may still be on its way to listen."""

    def __init__(self, port):
        deadline = time.monotonic() + SECONDS
        while (connection := connection_to(port)) is None:
            if time.monotonic() > deadline:
                raise Wrong(f"nobody listens at port {port}")
            time.sleep(0.01)
        self.connection = connection
        self.connection.setsockopt(socket.IPPROTO_TCP, socket.TCP_NODELAY, 1)
        self.replies = connection.makefile("rb")

    def __enter__(self):
        return self

    def __exit__(self, *_):
        self.replies.close()
        self.connection.close()

    def reset(self):
        """Breaks the connection off, so that the server is told of a fault and not of an end."""
        self.connection.setsockopt(socket.SOL_SOCKET, socket.SO_LINGER, struct.pack("ii", 1, 0))
        self.__exit__()

    def send(self, *lines):
        self.connection.sendall("".join(f"{line}\n" for line in lines).encode())

    def line(self):
        line = self.replies.readline()
        if not line.endswith(b"\n"):
            raise Wrong(f"the session ended where a line should be; behind the last one stands {line!r}")
        return line.decode().removesuffix("\n")

    def receives(self, *lines):
        for wanted in lines:
            same("a line of a reply", self.line(), wanted)

    def gets_nothing(self):
        """Looks for a while whether something comes, which shouldn't."""
        if select.select([self.connection], [], [], GLANCE)[0]:
            raise Wrong(f"a reply that should not have come is {self.line()!r}")

    def is_left(self):
        """Waits for the end of the session, before which nothing comes."""
        same("what comes behind the last reply", self.replies.read(), b"")

    def leaves(self, version):
        """Asks for the end of the session, behind which nothing comes."""
        self.send("BYE")
        self.receives(f"@{version} BYE")
        self.is_left()


def verdict(program, name, attempt):
    try:
        attempt(program)
        return f"right\t{name}"
    except (Wrong, subprocess.SubprocessError, OSError, *MISREAD, threading.BrokenBarrierError) as wrong:
        return f"wrong\t{name}\t{type(wrong).__name__}: {' '.join(str(wrong).split())}"


def run(trials):
    """Tries each of these, pairs of a name and a function, with the program that the command line names."""
    # (so that a run that is ended from outside ends its servers, too)
    signal.signal(signal.SIGTERM, lambda *_: sys.exit(1))
    for name, attempt in trials:
        print(verdict(sys.argv[1], name, attempt), flush=True)


if __name__ == "__main__":
    print(free_port())
