"""Asks a server, as `planner serve` is one, and prints its replies.

usage: client.py [--load FILE] [--seconds NUMBER] [--wait NUMBER] HOST PORT [REQUEST..]

Loads the network text of FILE first, if one is named; its END may be missing. Then it asks each REQUEST,
which is a line as docs/PROTOCOL.md tells, such as 'CUT a b', and prints each reply before it asks the next:

    client.py --load network.txt 127.0.0.1 4000 'CUT a b' TREE

The status is 0 where each request was answered, 1 where one was refused, and 2 where the words are wrong or a
reply is missing. A server whose desks are all busy answers when one is free, so a reply may be waited for;
it is given up after so many seconds, 60 where no number is named. Where nobody listens yet, it tries to connect
for the seconds of --wait, and for none where they aren't named.
"""

import argparse
import re
import socket
import sys
import time

# The first line of a reply that goes on over several lines, and tells how many follow.
OF_LINES = re.compile(rb"@[0-9]+ (?:PATH|TREE|RUN|NET|WITNESS|CERTIFICATE) ([0-9]+)\n")

MOST_LINE_BYTES = 512
END = re.compile(rb"[ \t]*END[ \t]*\r?")


class NoReply(Exception):
    """There is no whole reply; the text tells why."""


def network_lines(text):
    """The lines of a network text up to its END, which is added where it is missing."""
    lines = text.removesuffix(b"\n").split(b"\n")
    for count, line in enumerate(lines, start=1):
        if len(line) <= MOST_LINE_BYTES and END.fullmatch(line):
            return lines[:count]
    return [*lines, b"END"]


def request_line(word):
    """The bytes of a request of the command line. It must be one that gets just one reply on its own."""
    line = word.encode("utf-8", "surrogateescape")
    first = line.strip(b" \t\r")
    if b"\n" in line or not first or first.startswith(b"#"):
        raise argparse.ArgumentTypeError(f"{word!r} is no line of a request")
    if first == b"LOAD":
        raise argparse.ArgumentTypeError("a network is loaded by --load FILE")
    return line


def follow(head):
    """How many lines follow the first line of a reply."""
    of_lines = OF_LINES.fullmatch(head)
    return int(of_lines[1]) if of_lines else 0


def next_line(stream):
    line = stream.readline()
    if not line.endswith(b"\n"):
        raise NoReply("the server ended the session")
    return line


def print_reply(stream):
    """Prints the next reply, line by line, and tells whether it is a refusal."""
    head = next_line(stream)
    if not head.startswith(b"@"):
        raise NoReply(f"this is no reply: {head!r}")
    sys.stdout.buffer.write(head)
    for _ in range(follow(head)):
        sys.stdout.buffer.write(next_line(stream))
    sys.stdout.buffer.flush()
    return head.split()[1:2] == [b"NO"]


def ask(connection, requests):
    """Asks one request after another, and tells whether one was refused."""
    refused = False
    with connection.makefile("rb") as stream:
        for lines in requests:
            connection.sendall(b"".join(line + b"\n" for line in lines))
            refused |= print_reply(stream)
    return refused


def connect(words):
    """A connection. Where nobody listens, it is tried again, since the server may have been started just now."""
    deadline = time.monotonic() + words.wait
    while True:
        try:
            connection = socket.create_connection((words.host, words.port), max(words.seconds, 0.001))
            # (one whose own port happens to be that at which nobody listens meets itself)
            if connection.getsockname() != connection.getpeername():
                return connection
            connection.close()
        except ConnectionRefusedError:
            if time.monotonic() >= deadline:
                raise
        time.sleep(0.05)


def port_number(word):
    if not word.isdecimal() or not 0 < int(word) < 65536:
        raise argparse.ArgumentTypeError("a port is a number from 1 to 65535")
    return int(word)


def seconds(word):
    if not 0 <= float(word) <= 10**6:
        raise argparse.ArgumentTypeError("seconds are a number from 0 to a million")
    return float(word)


def read_words():
    parser = argparse.ArgumentParser(description="Asks a server of cut trees, and prints its replies.")
    parser.add_argument("--load", metavar="FILE", help="a network text, which is loaded first")
    parser.add_argument("--seconds", type=seconds, default=60, help="how long a reply is waited for")
    parser.add_argument("--wait", type=seconds, default=0, help="how long it waits until somebody listens")
    parser.add_argument("host")
    parser.add_argument("port", type=port_number)
    parser.add_argument("requests", metavar="REQUEST", nargs="*", type=request_line)
    return parser.parse_args()


def main():
    words = read_words()
    requests = [[line] for line in words.requests]
    try:
        if words.load is not None:
            with open(words.load, "rb") as file:
                requests.insert(0, [b"LOAD", *network_lines(file.read())])
        with connect(words) as connection:
            return 1 if ask(connection, requests) else 0
    except TimeoutError:
        why = f"no reply came in {words.seconds:g} seconds"
    except (OSError, OverflowError, ValueError, NoReply) as error:
        why = str(error)
    except KeyboardInterrupt:
        return 130
    print(f"client.py: {why}", file=sys.stderr)
    return 2


if __name__ == "__main__":
    sys.exit(main())
