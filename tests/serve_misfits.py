"""Tries `serve` with clients that break off, dawdle, or send too much, beside others that lose nothing by it.

usage: serve_misfits.py PROGRAM
"""

import contextlib
import socket
import threading
import time

import serving
from serving import TWO_LOADED, TWO_ROUTERS, Client, same

# How often a long reply is asked for: some 99 MB, which no buffers of a connection hold.
MANY = 10_000

# How many seconds a system that holds small pieces back does so at least, on Linux: until the other end tells that
# it has the piece before, which it puts off for 40 ms.
HELD = 0.03


def dawdle(client, *lines):
    """Sends these lines a byte at a time."""
    for byte in "".join(f"{line}\n" for line in lines).encode():
        client.connection.sendall(bytes([byte]))
        time.sleep(0.001)


def try_bytes(program):
    with serving.serving(program, 2, 1) as server, Client(server.port) as slow, Client(server.port) as other:
        dawdle(slow, "CUT a b", "LOAD")
        slow.receives("@0 NO 6")
        goes_on(other, 1)
        dawdle(slow, "link a b 5", "END", "CUT a b", "BYE")
        slow.receives(f"@2 {TWO_LOADED}", "@2 CUT 5 side a", "@2 BYE")
        slow.is_left()
        server.ended(2, 2)


def try_reset(program):
    with serving.serving(program, 2, 1) as server, Client(server.port) as staying, Client(server.port) as leaving:
        staying.send("CUT a b")
        staying.receives("@0 NO 6")
        leaving.send("CUT a b", "LOAD", "link a b 7")
        leaving.receives("@0 NO 6")
        leaving.reset()
        staying.send(*TWO_ROUTERS, "CUT a b")
        staying.receives(f"@1 {TWO_LOADED}", "@1 CUT 5 side a")
        staying.leaves(1)
        server.ended(2, 1)


def try_next_after_reset(program):
    with serving.serving(program, 1, 2) as server:
        with Client(server.port) as leaving:
            leaving.send("LOAD", "link a b 7")
            leaving.reset()
        with Client(server.port) as client:
            client.send(*TWO_ROUTERS, "CUT a b")
            client.receives(f"@1 {TWO_LOADED}", "@1 CUT 5 side a")
            client.leaves(1)
        server.ended(2, 1)


def try_closing(program):
    with serving.serving(program, 1, 3) as server:
        with Client(server.port):
            pass
        with Client(server.port) as ending:
            ending.send("CUT a b")
            ending.connection.shutdown(socket.SHUT_WR)
            ending.receives("@0 NO 6")
            ending.is_left()
        with Client(server.port) as client:
            client.send(*TWO_ROUTERS)
            client.receives(f"@1 {TWO_LOADED}")
            client.leaves(1)
        server.ended(3, 1)


def try_long_line(program):
    with serving.serving(program, 2, 1) as server, Client(server.port) as client, Client(server.port) as other:
        client.connection.sendall(b"a" * 2**20)
        goes_on(other, 1)
        client.send("", *TWO_ROUTERS, "CUT a b")
        client.receives("@1 NO 2", f"@2 {TWO_LOADED}", "@2 CUT 5 side a")
        client.leaves(2)
        server.ended(2, 2)


def long_star():
    """A star of 300 leaves: its text, and the lines of a reply to NET behind the version."""
    leaves = [f"leaf{number}" for number in range(300)]
    text = [f"link h {leaf} {number + 1}" for number, leaf in enumerate(leaves)]
    lines = [*(f"router {name}" for name in ["h", *leaves]), *text, "END"]
    return text, [f"NET {len(lines)}", *lines]


def goes_on(client, version):
    """Loads a network, asks a hundred times, and leaves; all replies are right."""
    client.send("LOAD", "link a b 7", "END", *["CUT a b"] * 100)
    client.receives(f"@{version} {TWO_LOADED}", *[f"@{version} CUT 7 side a"] * 100)
    client.leaves(version)


def trickle(client, is_over):
    """Sends on, a byte at a time, until this is over or nobody takes it any more."""
    with contextlib.suppress(ConnectionError):
        while not is_over.wait(0.05):
            client.connection.sendall(b"x")


def try_trickling(program):
    is_over = threading.Event()
    with serving.serving(program, 1, 2) as server, Client(server.port) as first, Client(server.port) as second:
        first.leaves(0)
        sender = threading.Thread(target=trickle, args=(first, is_over))
        sender.start()
        try:
            second.leaves(0)
        finally:
            is_over.set()
            sender.join()
        server.ended(2, 0)


def try_sending_on(program):
    text, net = long_star()
    with serving.serving(program, 1, 1) as server, Client(server.port) as client:
        client.send("LOAD", *text, "END")
        client.receives("@1 LOADED routers 301 links 300")
        client.send(*["NET"] * 20, "BYE", "x" * 200_000)
        # (so the connection is closed while most of the replies are on their way)
        server.ended(1, 1)
        for _ in range(20):
            client.receives(f"@1 {net[0]}", *net[1:])
        client.receives("@1 BYE")
        client.is_left()


def quickest_pair(client, times):
    """Asks two things at once, so many times, and tells how soon both replies were there in the quickest case."""
    quickest = serving.SECONDS
    for _ in range(times):
        # (so that what comes is told of only with what is sent, or after a while)
        client.connection.setsockopt(socket.IPPROTO_TCP, socket.TCP_QUICKACK, 0)
        begun = time.monotonic()
        client.send("CUT a b", "CUT a b")
        client.receives("@0 NO 6", "@0 NO 6")
        quickest = min(quickest, time.monotonic() - begun)
    return quickest


def try_pairs(program):
    with serving.serving(program, 1, 1) as server, Client(server.port) as client:
        quickest = quickest_pair(client, 20)
        if quickest > HELD:
            raise serving.Wrong(f"a second reply came {quickest:.3f} s behind the requests")
        client.leaves(0)
        server.ended(1, 0)


def begin_unread(client):
    """Loads the long star, and asks far more than anyone holds for a client that doesn't read."""
    text, _ = long_star()
    client.send("LOAD", *text, "END")
    client.receives("@1 LOADED routers 301 links 300")
    client.send(*["NET"] * MANY)


def try_never_reading(program):
    with serving.serving(program, 2, 2) as server:
        with Client(server.port) as silent:
            begin_unread(silent)
            with Client(server.port) as first:
                goes_on(first, 2)
            with Client(server.port) as second:
                goes_on(second, 3)
            waiting = Client(server.port)
            waiting.send("BYE")
            waiting.gets_nothing()
        with waiting:
            same("the reply behind it", waiting.line().split(" ")[1:], ["BYE"])
        server.ended(4, 3)


def try_late_reading(program):
    # (behind the other client's LOAD, NET tells its network: each reply is that of its version)
    nets = {"@1": long_star()[1], "@2": ["NET 4", "router a", "router b", "link a b 7", "END"]}
    with serving.serving(program, 2, 1) as server, Client(server.port) as late:
        begin_unread(late)
        with Client(server.port) as other:
            goes_on(other, 2)
        late.connection.shutdown(socket.SHUT_WR)
        for _ in range(MANY):
            version, head = late.line().split(" ", 1)
            same("a late reply", [head, *(late.line() for _ in nets[version][1:])], nets[version])
        late.is_left()
        server.ended(2, 2)


def try_silent_at_one_desk(program):
    with serving.serving(program, 1, 2) as server:
        with Client(server.port) as silent:
            silent.send("CUT a b", "LOAD", "link a")
            silent.receives("@0 NO 6")
            waiting = Client(server.port)
            waiting.send(*TWO_ROUTERS, "CUT a b")
            waiting.gets_nothing()
        with waiting:
            waiting.receives(f"@1 {TWO_LOADED}", "@1 CUT 5 side a")
            waiting.leaves(1)
        server.ended(2, 1)


def try_silent_beside(program):
    with serving.serving(program, 2, 2) as server:
        with Client(server.port) as silent:
            silent.send("CUT a b")
            silent.receives("@0 NO 6")
            for version in (1, 2):
                with Client(server.port) as client:
                    goes_on(client, version)
            waiting = Client(server.port)
            waiting.send("BYE")
            waiting.gets_nothing()
        with waiting:
            same("the reply behind it", waiting.line().split(" ")[1:], ["BYE"])
        server.ended(4, 2)


TRIALS = [
    ("a client that sends one byte at a time, beside another one", try_bytes),
    ("a client that breaks off within a text, beside one that goes on", try_reset),
    ("a client that breaks off within a text, before another one", try_next_after_reset),
    ("a client that closes at once, and one that ends its side alone", try_closing),
    ("2^20 bytes without a line feed, beside another client", try_long_line),
    ("a client that sends on and on behind its BYE, before another one", try_trickling),
    ("a client that has sent more behind its BYE gets all its replies", try_sending_on),
    ("a second small reply isn't held back until the first one is taken", try_pairs),
    ("a client that never reads, beside others and before another one", try_never_reading),
    ("a client that reads late gets all its replies", try_late_reading),
    ("a client that goes silent, and one that waits for its desk", try_silent_at_one_desk),
    ("a client that goes silent, beside others at another desk", try_silent_beside),
]

if __name__ == "__main__":
    serving.run(TRIALS)
