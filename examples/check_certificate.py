"""Checks a certificate of a cut tree, with no trust in who made it.

usage: check_certificate.py < CERTIFICATE

Writes `accepted routers N links M` and ends with 0, or `refused FAULT line LINE` and ends with 7, as the
section on certificates of docs/PROTOCOL.md says, from which alone this was written. The status is 5 where
2^30 bytes tell neither a fault nor an end.
"""

import re
import sys
from collections import namedtuple

MOST_BYTES = 2**30
MOST_LINE_BYTES = 512
MOST_ROUTERS = 1024
MOST_LINKS = 8192
MOST_CAPACITY = 10**12

WORD = re.compile(rb"[^ \t]+")
NAME = re.compile(rb"[A-Za-z0-9._-]{1,32}")
NUMBER = re.compile(rb"[0-9]+")
SIGNED_NUMBER = re.compile(rb"-?[0-9]+")

# An edge of the tree: its lower end, the router above, the width, and the number of its line.
Edge = namedtuple("Edge", "child above width line")


class Fault(Exception):
    """The first fault of a certificate: its number, and the line of which it is told."""


class Undecided(Exception):
    """The bytes that may be read tell neither a fault nor an end."""


class Lines:
    """The lines of a stream, counted from 1. Those that are passed over are counted, and not told."""

    def __init__(self, stream):
        self.stream = stream
        self.number = 0
        self.taken = 0

    def take(self, at_end):
        """The next line, or None for one that is too long. At the end of the input the fault is `at_end`."""
        line = self.stream.readline()
        self.number += 1
        self.taken += len(line)
        if self.taken > MOST_BYTES or (self.taken == MOST_BYTES and not line.endswith(b"\n")):
            raise Undecided
        if not line:
            raise Fault(at_end, self.number)
        line = line.removesuffix(b"\n")
        return line if len(line) <= MOST_LINE_BYTES else None

    def words(self, at_end=30):
        """The words of the next line that isn't passed over; of one that is too long, none."""
        while True:
            line = self.take(at_end)
            if line is None:
                return []
            words = WORD.findall(line.removesuffix(b"\r"))
            is_head = self.number == 1 and line.startswith(b"@")
            if words and not words[0].startswith(b"#") and not is_head:
                return words

    def fault(self, number):
        return Fault(number, self.number)

    def behind(self, word, count):
        """The words behind this one, so many, in the next line."""
        first, *words = self.words() or [None]
        if first != word or len(words) != count:
            raise self.fault(30)
        return words


class Network:
    """Routers by their names, which have the numbers from 0 on, and links: two routers and a capacity."""

    def __init__(self):
        self.numbers = {}
        self.links = []

    def add(self, words):
        """Takes in a line of a network text. Tells whether it was right."""
        first, *names = words
        capacity = names.pop() if first == b"link" and names else None
        if len(names) != {b"router": 1, b"link": 2}.get(first) or not all(map(NAME.fullmatch, names)):
            return False
        if capacity is not None and not (NUMBER.fullmatch(capacity) and int(capacity) <= MOST_CAPACITY):
            return False
        ends = [self.numbers.setdefault(name, len(self.numbers)) for name in names]
        if first == b"link":
            self.links.append((*ends, int(capacity)))
        return len(self.numbers) <= MOST_ROUTERS and len(self.links) <= MOST_LINKS

    def cost(self, side):
        """The sum of the capacities of the links with just one end on the side."""
        return sum(capacity for a, b, capacity in self.links if (a in side) != (b in side))


def take_network(lines):
    network = Network()
    while (words := lines.words(at_end=31)) != [b"END"]:
        if not words or not network.add(words):
            raise lines.fault(31)
    if not network.numbers:
        raise lines.fault(31)
    return network


def take_router(lines, network, name):
    if name not in network.numbers:
        raise lines.fault(32)
    return network.numbers[name]


def take_flow(lines, network):
    """A value for each link, none above the link's capacity; what leaves each router, less what arrives."""
    leaving = [0] * len(network.numbers)
    for a, b, capacity in network.links:
        (word,) = lines.behind(b"on", 1)
        if not SIGNED_NUMBER.fullmatch(word):
            raise lines.fault(34)
        value = int(word)
        if abs(value) > capacity:
            raise lines.fault(35)
        leaving[a] += value
        leaving[b] -= value
    return leaving


def take_edge(lines, network, wanted):
    """The edge of the router that is wanted next, with a flow that is as great as the edge is wide."""
    name, name_above, width = lines.behind(b"edge", 3)
    child = take_router(lines, network, name)
    above = take_router(lines, network, name_above)
    if child != wanted or above == child:
        raise lines.fault(33)
    if not NUMBER.fullmatch(width):
        raise lines.fault(34)
    edge = Edge(child, above, int(width), lines.number)
    leaving = take_flow(lines, network)
    if any(amount for router, amount in enumerate(leaving) if router not in (child, above)):
        raise Fault(36, edge.line)
    if leaving[child] != edge.width:
        raise Fault(37, edge.line)
    return edge


def routers_below(top, hanging):
    """A router, and all those whose way up passes it."""
    below = [top]
    for router in below:
        below += hanging[router]
    return set(below)


def check_tree(lines, network, root, edges):
    """All routers are below the root, and below each other one is a cut that costs its edge's width."""
    hanging = [[] for _ in network.numbers]
    for edge in edges:
        hanging[edge.above].append(edge.child)
    if len(routers_below(root, hanging)) < len(network.numbers):
        raise lines.fault(38)
    for edge in edges:
        if network.cost(routers_below(edge.child, hanging)) != edge.width:
            raise Fault(39, edge.line)


def check(stream):
    """The network of a certificate that is right. Raises Fault or Undecided."""
    lines = Lines(stream)
    if lines.words() != [b"cut", b"tree", b"1"]:
        raise lines.fault(30)
    network = take_network(lines)
    root = take_router(lines, network, *lines.behind(b"root", 1))
    edges = [take_edge(lines, network, child) for child in range(len(network.numbers)) if child != root]
    lines.behind(b"DONE", 0)
    check_tree(lines, network, root, edges)
    return network


def main():
    try:
        network = check(sys.stdin.buffer)
    except Fault as fault:
        print("refused %d line %d" % fault.args)
        return 7
    except Undecided:
        return 5
    print("accepted routers %d links %d" % (len(network.numbers), len(network.links)))
    return 0


if __name__ == "__main__":
    sys.exit(main())
