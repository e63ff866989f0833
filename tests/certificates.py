"""Tries `check` on certificates of every kind, and the certificates and witnesses that sessions write.

usage: certificates.py PROGRAM LATE

PROGRAM is the planner, and LATE the program whose peer isn't ready at chosen calls. Prints a line for each
trial: `right`, a tab and its name, or `wrong`, these two, another tab and what is wrong.

What `check` should say of a certificate stands beside it, by the rules of docs/PROTOCOL.md, or follows from
how it was made. Besides, `examples/check_certificate.py`, which was written from that page alone, says the
same of each, fault and line.
"""

import io
import itertools
import os
import random
import subprocess
import sys
import tempfile
from concurrent.futures import ProcessPoolExecutor
from pathlib import Path

TOP = Path(__file__).resolve().parent.parent
sys.path[:0] = [str(TOP / "tests"), str(TOP / "examples")]

import check_certificate  # noqa: E402
import check_replies  # noqa: E402
from check_replies import Wrong  # noqa: E402

SECONDS = 120
MOST_BYTES = 2**30
MOST_LINE_BYTES = 512

# Of larger networks the replies are not computed here, and their certificates not taken apart.
MOST_ROUTERS_TO_COMPUTE = 100
MOST_LINES_TO_COMPARE = 2_000_000

SIX_ROUTERS = [
    b"link r0 r1 1",
    b"link r0 r2 7",
    b"link r1 r2 1",
    b"link r1 r3 3",
    b"link r1 r4 2",
    b"link r2 r4 4",
    b"link r3 r4 1",
    b"link r3 r5 6",
    b"link r4 r5 2",
]

# Three routers in a row: the certificate by which most is tried. Its places are those of its lines.
ROW = (TOP / "examples/three_routers.certificate").read_bytes().splitlines()
ROW_ACCEPTED = "accepted routers 3 links 2"
NETWORK_OF_ROW = range(1, 7)

program, late = sys.argv[1:3] if len(sys.argv) > 2 else (None, None)


def text_of(lines):
    return b"".join(line + b"\n" for line in lines)


# ---- what is said of a certificate


def run(words, given):
    """What a program writes, and its status. It writes nothing to standard error."""
    ended = subprocess.run(words, input=given, capture_output=True, timeout=SECONDS, check=False)
    if ended.stderr:
        raise Wrong("it wrote to standard error: %s" % ended.stderr[:200])
    return ended.stdout, ended.returncode


def said_by_program(certificate):
    """The one line that `check` writes. Its status fits it."""
    written, status = run([program, "check"], certificate)
    fitting = {b"accepted": 0, b"refused": 7}.get(written.split(b" ")[0])
    if status != fitting or written.count(b"\n") != 1 or not written.endswith(b"\n"):
        raise Wrong("check ended with %d and wrote %s" % (status, written[:200]))
    return written[:-1].decode()


def said_by_checker(certificate):
    try:
        network = check_certificate.check(io.BytesIO(certificate))
    except check_certificate.Fault as fault:
        return refused(*fault.args)
    return accepted(len(network.numbers), len(network.links))


def accepted(routers, links):
    return "accepted routers %d links %d" % (routers, links)


def refused(fault, line):
    return "refused %d line %d" % (fault, line)


def try_certificate(certificate, wanted):
    """The program and the checker say what is wanted; where that is None, they say the same."""
    by_checker = said_by_checker(certificate)
    by_program = said_by_program(certificate)
    wanted = wanted or by_checker
    if by_program != wanted:
        raise Wrong("check says %s, and should say %s" % (by_program, wanted))
    if by_checker != wanted:
        raise Wrong("check_certificate.py says %s, and should say %s" % (by_checker, wanted))


# ---- certificates made by hand


def row_with(changes):
    """The row with other lines at these line numbers."""
    return [changes.get(number, line) for number, line in enumerate(ROW, 1)]


def changed_rows():
    """Changes of the row, by line numbers, and what is said of each."""
    yield {}, ROW_ACCEPTED
    yield from changed_titles()
    yield from changed_networks()
    yield from changed_roots()
    yield from changed_edges()
    yield from changed_values()
    yield from changed_trees()


def changed_titles():
    for title in [b"cut tree", b"cut tree 1 1", b"cut tree 2", b"cut tree 01", b"Cut tree 1", b"tree 1"]:
        yield {1: title}, refused(30, 1)
    yield {1: b"\tcut  tree \t 1\r"}, ROW_ACCEPTED
    yield {1: b" @cut tree 1"}, refused(30, 1)


def changed_networks():
    for line in [b"routers b", b"router", b"router b c", b"router b/", b"link a b 5", b"link a b five"]:
        yield {3: line}, None
    for line in [b"edge a b 5", b"link a b", b"link a b/ 5", b"link a b -5", b"link a b 1000000000001", b"END 5"]:
        yield {5: line}, refused(31, 5)
    yield {2: b"END"}, refused(31, 2)
    yield {2: b"#", 3: b"", 4: b"END"}, refused(31, 4)
    yield {7: b"end"}, refused(31, 7)
    yield {5: b"link a b 0000000000000000000000000000005"}, ROW_ACCEPTED


def changed_roots():
    for line in [b"root", b"root a a", b"Root a", b"edge a", b"END", b"router a", b"DONE"]:
        yield {8: line}, refused(30, 8)
    for line in [b"root d", b"root A", b"root a/", b"root 0"]:
        yield {8: line}, refused(32, 8)
    yield {8: b"root b"}, refused(33, 9)
    yield {8: b"root c"}, refused(33, 9)
    yield {8: b"root c", 9: b"edge a b 5", 10: b"on 5", 12: b"edge b c 4", 14: b"on 4"}, ROW_ACCEPTED


def changed_edges():
    yield {9: b"edge b a 6"}, refused(37, 9)
    for line in [b"edge b a", b"edge b a 5 5", b"edges b a 5", b"flow b a 5", b"on -5", b"DONE", b"root a"]:
        yield {9: line}, refused(30, 9)
    for line in [b"edge d a 5", b"edge b d 5", b"edge d d x", b"edge B a 5", b"edge c d x", b"edge b b/ 5"]:
        yield {9: line}, refused(32, 9)
    for line in [b"edge c a 5", b"edge a b 5", b"edge b b 5", b"edge c b x", b"edge b b x", b"edge a a -1"]:
        yield {9: line}, refused(33, 9)
    for width in [b"-5", b"+5", b"-0", b"x", b"5.0", b"5x", b"0x5", b"-", b"5\r0"]:
        yield {9: b"edge b a " + width}, refused(34, 9)
    for width in [b"05", b"0" * 400 + b"5"]:
        yield {9: b"edge b a " + width}, ROW_ACCEPTED
    for width in [2**32 + 5, 2**63, 2**64 + 5, 2**64 - 5, 2**128 + 5, 10**100, 10**400, 4, 0]:
        yield {9: b"edge b a %d" % width}, refused(37, 9)
    yield {12: b"edge b a 5"}, refused(33, 12)
    yield {12: b"DONE"}, refused(30, 12)


def changed_values():
    yield {11: b"on -1"}, refused(36, 9)
    for line in [b"on", b"on -5 0", b"On -5", b"edge c b 4", b"DONE", b"-5", b"on - 5"]:
        yield {10: line}, refused(30, 10)
    for value in [b"+5", b"--5", b"-", b"5-", b"-x", b"5.0", b"0x5", b"-5,0", b"five", b"-5\r0"]:
        yield {10: b"on " + value}, refused(34, 10)
    for value in [b"-05", b"-" + b"0" * 400 + b"5"]:
        yield {10: b"on " + value}, ROW_ACCEPTED
    for value in [b"-0", b"00", b"-000", b"0" * 100, b"-" + b"0" * 100]:
        yield {11: b"on " + value}, ROW_ACCEPTED
    large = [2**31, 2**32 - 5, 2**63 - 5, -(2**63), 2**64 - 5, -(2**64) - 5, 2**128 - 5, 10**100, -(10**400)]
    for value in [6, -6, *large]:
        yield {10: b"on %d" % value}, refused(35, 10)
    yield {10: b"on 5"}, refused(37, 9)
    yield {10: b"on 0", 11: b"on -4"}, refused(36, 9)
    yield {10: b"on 0", 11: b"on 4"}, refused(36, 9)
    yield {9: b"edge b a 0", 10: b"on 0"}, refused(39, 9)
    yield {13: b"on 1"}, refused(36, 12)
    yield {13: b"on -5"}, refused(36, 12)


def changed_trees():
    yield {12: b"edge c a 4", 13: b"on -4"}, refused(39, 9)
    yield {9: b"edge b c 4", 10: b"on 0", 11: b"on 4"}, refused(38, 15)
    yield {9: b"edge b c 4", 10: b"on 0", 11: b"on 4", 12: b"edge c a 4", 13: b"on -4"}, refused(39, 9)
    for line in [b"DONE 1", b"done", b"END", b"edge c b 4", b"on 0"]:
        yield {15: line}, refused(30, 15)
    yield {15: b" \tDONE\t\r"}, ROW_ACCEPTED


def hand_made():
    """Certificates by their names, and what is said of each."""
    for changes, wanted in changed_rows():
        name = ", ".join("%d: %s" % (number, line[:40].decode()) for number, line in changes.items())
        yield "the row with " + (name or "no change"), text_of(row_with(changes)), wanted
    yield from made_heads()
    yield from small_networks()
    yield from networks_of_the_most_routers()
    yield from networks_of_the_most_links()
    yield from made_flows()


def made_heads():
    """First lines that are passed over, and such that aren't."""
    row = text_of(ROW)
    spoilt = text_of(row_with({10: b"on -6"}))
    for head in [b"@", b"@1 CERTIFICATE 15", b"@anything at all", b"@\r", b"@" * MOST_LINE_BYTES]:
        yield "a first line that begins with @", head + b"\n" + row, ROW_ACCEPTED
        yield "a first line that begins with @, and a fault", head + b"\n" + spoilt, refused(35, 11)
    yield "a first line with @ that is too long", b"@" * 513 + b"\n" + row, refused(30, 1)
    yield "two lines with @", b"@1\n@1\n" + row, refused(30, 2)
    yield "a remark before a line with @", b"# @\n@1\n" + row, refused(30, 2)
    yield "an empty line before a line with @", b"\n@1\n" + row, refused(30, 2)
    yield "a blank before @", b" @1\n" + row, refused(30, 1)
    yield "nothing", b"", refused(30, 1)
    yield "one empty line", b"\n", refused(30, 2)
    yield "a blank without a line feed", b" ", refused(30, 2)
    yield "a line with @ alone", b"@1 CERTIFICATE 15", refused(30, 2)
    yield "remarks alone", b"# a\n\n#b\n", refused(30, 4)
    yield "the row without its last line feed", row[:-1], ROW_ACCEPTED
    yield "the row that ends in a carriage return", row[:-1] + b"\r", ROW_ACCEPTED
    for behind in [b"X\n", b"DONE\n", b"y" * 600, b"\0\n\n", row, b"edge" * 300000]:
        yield "the row with something behind it", row + behind, ROW_ACCEPTED
        yield "a spoilt row with something behind it", spoilt + behind, refused(35, 10)


def small_networks():
    yield "one router", b"cut tree 1\nrouter a\nEND\nroot a\nDONE\n", accepted(1, 0)
    yield "one router and an edge", b"cut tree 1\nrouter a\nEND\nroot a\nedge a a 0\nDONE\n", refused(30, 5)
    yield "one router, linked to itself", b"cut tree 1\nlink a a 9\nEND\nroot a\nDONE\n", accepted(1, 1)
    without = b"cut tree 1\nrouter a\nrouter b\nrouter c\nEND\nroot %s\n%sDONE\n"
    yield "no links", without % (b"a", b"edge b a 0\nedge c b 0\n"), accepted(3, 0)
    yield "no links, from the middle", without % (b"b", b"edge a c 0\nedge c b 0\n"), accepted(3, 0)
    yield "no links, and a width", without % (b"a", b"edge b a 0\nedge c b 1\n"), refused(37, 8)
    yield "no links, and a circle", without % (b"a", b"edge b c 0\nedge c b 0\n"), refused(38, 9)
    yield "no links, and a value", without % (b"a", b"edge b a 0\non 0\nedge c b 0\n"), refused(30, 8)
    yield "no links, and an edge too few", without % (b"a", b"edge b a 0\n"), refused(30, 8)
    yield "no links, and an edge too many", without % (b"a", b"edge b a 0\nedge c a 0\nedge d a 0\n"), refused(30, 9)
    yield "routers with the words of lines as names", text_of(
        [b"cut tree 1", b"link END DONE 1", b"link on edge 2", b"router root", b"END", b"root edge"]
        + [b"edge END edge 0", b"on 0", b"on 0", b"edge DONE END 1", b"on -1", b"on 0"]
        + [b"edge on edge 2", b"on 0", b"on 2", b"edge root DONE 0", b"on 0", b"on 0", b"DONE"]
    ), accepted(5, 2)


def networks_of_the_most_routers():
    names = [b"r%d" % i for i in range(1025)]
    most = [b"cut tree 1", *(b"router " + name for name in names[:1024]), b"END", b"root r1023"]
    edges = [b"edge %s r1023 0" % name for name in names[:1023]]
    yield "the most routers", text_of([*most, *edges, b"DONE"]), accepted(1024, 0)
    yield "the most routers in a chain", text_of(
        [*most, *(b"edge %s %s 0" % (names[i], names[i + 1]) for i in range(1023)), b"DONE"]
    ), accepted(1024, 0)
    yield "the most routers, of which the last two hang from each other", text_of(
        [*most, *edges[:1021], b"edge r1021 r1022 0", b"edge r1022 r1021 0", b"DONE"]
    ), refused(38, 2051)
    yield "one router too many", text_of([*most[:1025], b"router r1024"]), refused(31, 1026)


def networks_of_the_most_links():
    links = [b"link a b 1000000000000"] * 8192
    full = [b"cut tree 1", *links, b"END", b"root b", b"edge a b 8192000000000000"]
    values = [b"on 1000000000000"] * 8192
    yield "the widest edge", text_of([*full, *values, b"DONE"]), accepted(2, 8192)
    wider = [*full[:-1], b"edge a b 8192000000000001"]
    yield "the widest edge and one more", text_of([*wider, *values]), refused(37, 8196)
    yield "the widest edge, turned", text_of([*full, *[b"on -1000000000000"] * 8192]), refused(37, 8196)
    yield "one link too many", text_of([*full[:8193], b"link a b 0"]), refused(31, 8194)


def made_flows():
    """Flows with circles, over links from a router to itself, and with faults that come at once."""
    front = [b"cut tree 1", b"link a b 5", b"link b c 4", b"link c b 3", b"link b b 9", b"END", b"root a"]

    def flows(first, second, edges=(b"edge b a 5", b"edge c b 7")):
        blocks = [[edge, *(b"on %d" % value for value in flow)] for edge, flow in zip(edges, (first, second))]
        return text_of([*front, *blocks[0], *blocks[1], b"DONE"])

    right = (0, -4, 3, 0)
    yield "parallel links", flows((-5, 0, 0, 0), right), accepted(3, 4)
    yield "a flow that goes round", flows((-5, 3, 3, 0), right), accepted(3, 4)
    yield "a flow that goes round the other way", flows((-5, -2, -2, 0), right), accepted(3, 4)
    yield "a flow that goes round in part", flows((-5, 3, 2, 0), right), refused(36, 8)
    for value in [9, -9, 1, -1]:
        yield "a flow from a router to itself", flows((-5, 0, 0, value), (0, -4, 3, -value)), accepted(3, 4)
    yield "too great a flow from a router to itself", flows((-5, 0, 0, 10), right), refused(35, 12)
    yield "too great a flow from a router to itself, turned", flows((-5, 0, 0, 0), (0, -4, 3, -10)), refused(35, 17)
    yield "a flow that leaks at its second edge", flows((-5, 0, 0, 0), (1, -4, 3, 0)), refused(36, 13)
    yield "a flow that is smaller than the edge", flows((-5, 0, 0, 0), (0, -4, 2, 0)), refused(37, 13)
    yield "flows that are right for the other edge", flows(right, (-5, 0, 0, 0)), refused(36, 8)
    yield "flows with the sign turned", flows((5, 0, 0, 0), (0, 4, -3, 0)), refused(37, 8)
    yield "two wrong cuts", flows((-5, 0, 0, 0), (-7, -4, 3, 0), (b"edge b a 5", b"edge c a 7")), refused(35, 14)
    yield "flows of edges that are narrower than their cuts", flows(
        (-4, 0, 0, 0), (0, -3, 3, 0), (b"edge b a 4", b"edge c b 6")
    ), refused(39, 8)
    yield "a flow of an edge that is narrower than its cut", flows(
        (-5, 0, 0, 0), (0, -3, 3, 0), (b"edge b a 5", b"edge c b 6")
    ), refused(39, 13)
    yield "a narrow edge below a circle", flows(
        (0, 1, 0, 0), (0, -1, 0, 0), (b"edge b c 1", b"edge c b 1")
    ), refused(38, 18)


# ---- changes of the row at each of its places


def fault_of_form(number):
    """The fault of a line of this number that hasn't the form of its place."""
    return 31 if number - 1 in NETWORK_OF_ROW else 30


def passed_lines():
    """Lines that are passed over, everywhere."""
    return [b"", b" \t", b"\r", b"#", b"# note", b" \t#x y\r", b"#" * MOST_LINE_BYTES, b" " * MOST_LINE_BYTES]


def each_line_changed():
    """The row with one of its lines, or one place between them, changed."""
    for number in range(1, len(ROW) + 1):
        before, line, behind = ROW[: number - 1], ROW[number - 1], ROW[number:]
        yield "cut before line %d" % number, text_of(before), refused(fault_of_form(number), number)
        for what, lines, wanted in changes_of_line(number, line):
            yield "line %d %s" % (number, what), text_of([*before, *lines, *behind]), wanted


def changes_of_line(number, line):
    """What may stand in the place of a line, and what is said of it."""
    bad_form = refused(fault_of_form(number), number)
    yield "with a carriage return", [line + b"\r"], ROW_ACCEPTED
    yield "with two carriage returns", [line + b"\r\r"], None
    yield "of 512 bytes", [line.ljust(512)], ROW_ACCEPTED
    yield "of 513 bytes", [line.ljust(513)], bad_form
    yield "of 600 bytes, most of them digits", [line.ljust(600, b"0")], bad_form
    yield "with a word more", [line + b" x"], bad_form
    yield "in capitals", [line.upper()], None
    yield "in small letters", [line.lower()], None
    yield "doubled", [line, line], None
    yield "dropped", [], None
    yield "as a remark", [b"#" + line], None
    for other, taken in enumerate(ROW, 1):
        yield "as line %d" % other, [taken], None
    for passed in passed_lines():
        yield "behind one that is passed over", [passed, line], ROW_ACCEPTED
    for long in [b"#" * 513, b" " * 513, b"#" + b" " * 5000]:
        yield "behind one that is too long", [long, line], bad_form


def lines_swapped():
    for one, other in itertools.combinations(range(len(ROW)), 2):
        lines = list(ROW)
        lines[one], lines[other] = lines[other], lines[one]
        yield "lines %d and %d swapped" % (one + 1, other + 1), text_of(lines), None


def each_byte_changed():
    """The row cut at each byte, and with one byte taken out, put in or changed at each place."""
    row = text_of(ROW)
    for place in range(len(row)):
        yield "cut at byte %d" % place, row[:place], None
        yield "without byte %d" % place, row[:place] + row[place + 1 :], None
        for byte in [b"0", b"7", b"-", b" ", b"\n", b"\r", b"#", b"@", b"b", b"\0", b"\xff", b"\t"]:
            yield "byte %d as %s" % (place, byte), row[:place] + byte + row[place + 1 :], None
        for byte in [b"9", b"-", b"\n", b" "]:
            yield "byte %d behind %s" % (place, byte), row[:place] + byte + row[place:], None


def faults_behind_passed_lines():
    """Spoilt rows with lines that are passed over before some of their lines, which count."""
    draw = random.Random(7)
    for changes, _ in changed_rows():
        lines = []
        for line in row_with(changes):
            lines += draw.choices(passed_lines(), k=draw.choice([0, 0, 0, 1, 2])) + [line]
        yield "a changed row among lines that are passed over: %s" % sorted(changes), text_of(lines), None


# ---- certificates of drawn networks


def flow_between(network, s, t):
    """A greatest flow from s to t: a value for each link."""
    left, _, _ = check_replies.greatest_flow(network, s, t)
    return parted_flow(network, left)


def parted_flow(network, left):
    """What flows between each two routers, parted among the links that join them."""
    sent = {}
    for arc in range(0, len(network.heads), 2):
        sent[network.heads[arc + 1], network.heads[arc]] = network.capacities[arc] - left[arc]
    flow = []
    for a, b, capacity in network.links:
        pair = (min(a, b), max(a, b))
        value = max(-capacity, min(capacity, sent.get(pair, 0)))
        if a != b:
            sent[pair] -= value
        flow.append(value if a <= b else -value)
    return flow


class Drawn:
    """A network that is drawn, a cut tree of it that hangs from a drawn root, and a flow for each edge."""

    def __init__(self, draw):
        count = draw.choice([1, 2, 3, 3, 4, 5, 6])
        self.names = [b"r%d" % i for i in draw.sample(range(100), count)]
        self.links = [(a, b, draw.choice([0, 1, 2, 3, 7])) for a, b in self.pairs(draw, count)]
        lines = [b"router %s" % name for name in self.names]
        lines += [b"link %s %s %d" % (self.names[a], self.names[b], c) for a, b, c in self.links]
        self.network = check_replies.network_in(lines, True)
        self.root = draw.randrange(count)
        self.edges = self.rooted(check_replies.Tree(self.network, range(1, count)))
        self.flows = {child: self.flow(draw, child) for child in self.edges}

    @staticmethod
    def pairs(draw, count):
        return [(draw.randrange(count), draw.randrange(count)) for _ in range(draw.randrange(9))]

    def rooted(self, tree):
        """The router above and the width for each router but the root, where the tree hangs from it."""
        beside = {router: {} for router in range(len(self.names))}
        for child in range(1, len(self.names)):
            beside[child][tree.up[child]] = beside[tree.up[child]][child] = tree.width[child]
        edges = {}
        order = [self.root]
        for router in order:
            for child, width in beside[router].items():
                if child != self.root and child not in edges:
                    edges[child] = [router, width]
                    order.append(child)
        return edges

    def flow(self, draw, child):
        """A flow of an edge, with any values on the links from a router to itself."""
        flow = flow_between(self.network, child, self.edges[child][0])
        return [draw.randint(-c, c) if a == b else f for f, (a, b, c) in zip(flow, self.links)]

    def text(self):
        lines = [b"cut tree 1", *self.network.text(), b"root %s" % self.names[self.root]]
        for child, (above, width) in sorted(self.edges.items()):
            lines.append(b"edge %s %s %d" % (self.names[child], self.names[above], width))
            lines += [b"on %d" % value for value in self.flows[child]]
        return text_of([*lines, b"DONE"])

    def change(self, draw):
        """Changes something that is told."""
        child = draw.choice(sorted(self.edges))
        kind = draw.choice(["width", "above", "value", "value", "capacity", "hung", "swapped"])
        if kind == "width":
            self.edges[child][1] += draw.choice([-1, 1, 5]) if self.edges[child][1] else 1
        elif kind == "above":
            self.edges[child][0] = draw.randrange(len(self.names))
        elif kind == "hung":
            self.hang(draw, child)
        elif kind == "swapped":
            other = draw.choice(sorted(self.edges))
            self.flows[child], self.flows[other] = self.flows[other], self.flows[child]
        elif self.links and kind == "value":
            self.flows[child][draw.randrange(len(self.links))] += draw.choice([-1, 1, 3])
        elif self.links:
            place = draw.randrange(len(self.network.links))
            a, b, capacity = self.network.links[place]
            self.network.links[place] = (a, b, capacity + 1)

    def hang(self, draw, child):
        """Hangs a router from another one, with a right flow between the two."""
        above = draw.choice([router for router in range(len(self.names)) if router != child])
        value, _ = check_replies.least_cut(self.network, child, above)
        self.edges[child] = [above, value]
        self.flows[child] = self.flow(draw, child)


def drawn_certificates():
    draw = random.Random(7)
    for place in range(250):
        drawn = Drawn(draw)
        yield "a drawn certificate", drawn.text(), accepted(len(drawn.names), len(drawn.links))
        for _ in range(2 if drawn.edges else 0):
            drawn.change(draw)
            yield "drawn certificate %d with changes" % place, drawn.text(), None


# ---- sessions


def replies_to(session, workers=1):
    """The replies to a session, each the text of its lines."""
    written, status = run([program, "plan", "--workers=%d" % workers], session)
    if status != 0 or not written.startswith(b"@"):
        raise Wrong("plan ended with %d and wrote %s" % (status, written[:200]))
    first, *others = written.split(b"\n@")
    return [reply.removesuffix(b"\n") + b"\n" for reply in [first, *(b"@" + reply for reply in others)]]


def load(network):
    return text_of([b"LOAD", *network])


def lines_behind_head(reply):
    return reply.split(b"\n", 1)[1]


def blocks_in(certificate, links):
    """The values behind each edge of a certificate."""
    lines = lines_behind_head(certificate).splitlines()
    edges = [place for place, line in enumerate(lines) if line.startswith(b"edge ")]
    return {lines[place]: lines[place + 1 : place + 1 + links] for place in edges}


def try_network(lines):
    """The certificate of a network is accepted, and tells the same flows whenever it is asked for."""
    network = check_replies.network_in(lines[:-1], True)
    routers, links = len(network.names), len(network.links)
    _, certificate, again, tree = replies_to(load(lines) + b"CERTIFICATE\nCERTIFICATE\nTREE\n")
    head = b"@1 CERTIFICATE %d\n" % (routers + links + 4 + (routers - 1) * (links + 1))
    if not certificate.startswith(head):
        raise Wrong("the first line is %s" % certificate[:100])
    try_certificate(certificate, accepted(routers, links))
    if again != certificate:
        raise Wrong("the second certificate of a session differs from the first")
    if routers * links > MOST_LINES_TO_COMPARE:
        return
    *_, later = replies_to(busy_session(lines, network.names))
    if lines_behind_head(later) != lines_behind_head(certificate):
        raise Wrong("the certificate behind other requests differs")
    _, other, other_tree = replies_to(load(lines) + b"CERTIFICATE\nTREE\n", workers=4)
    if other_tree == tree and other != certificate:
        raise Wrong("the certificate by 4 workers differs, and the tree is the same")
    ours, theirs = blocks_in(certificate, links), blocks_in(other, links)
    if any(ours[edge] != theirs[edge] for edge in ours.keys() & theirs.keys()):
        raise Wrong("4 workers tell another flow of an edge")
    try_certificate(other, accepted(routers, links))


def busy_session(lines, names):
    """A session that asks for much, of another network too, before it asks for the certificate of this one."""
    asked = [b"CERTIFICATE", b"WITNESS r5 r0", b"TREE", b"LOAD", *lines, b"WEAKEST", b"RUN"]
    for a, b in itertools.islice(itertools.combinations(names, 2), 5):
        asked += [b"CUT %s %s" % (a, b), b"WITNESS %s %s" % (b, a), b"PATH %s %s" % (b, a)]
    return load([*SIX_ROUTERS, b"END"]) + text_of([*asked, b"CERTIFICATE"])


def try_witnesses(lines, pairs):
    """Witnesses tell flows along the path, which are those of the certificate, and none below the cut's value."""
    asked = [b"%s %s %s" % (word, *pair) for pair in pairs for word in (b"WITNESS", b"CUT")]
    session = load(lines) + text_of([b"RUN", *asked, b"CERTIFICATE", *asked[:2]])
    replies = replies_to(session)
    check_replies.check(session, b"".join(replies))
    for witness, cut in zip(replies[2:-3:2], replies[3:-3:2]):
        widths = [int(line.split(b" ")[3]) for line in witness.splitlines() if line.startswith(b"flow ")]
        if min(widths) != int(cut.split(b" ")[2]):
            raise Wrong("the narrowest flow isn't as great as the cut: %s" % cut[:100])


def try_six_routers():
    """The lines of a witness and of the certificate of six routers that are known."""
    session = load([*SIX_ROUTERS, b"END"]) + b"WITNESS r0 r5\nCERTIFICATE\n"
    _, witness, certificate = replies_to(session)
    lines = witness.splitlines()
    flows = [b"flow r2 r0 8", b"flow r4 r2 6", b"flow r1 r4 7", b"flow r3 r1 6", b"flow r5 r3 8"]
    if lines[0] != b"@1 WITNESS 50" or len(lines) != 51 or lines[1::10] != flows:
        raise Wrong("the witness is %s" % lines)
    if not certificate.startswith(b"@1 CERTIFICATE 69\n") or certificate.count(b"\n") != 70:
        raise Wrong("the certificate is %s" % certificate)
    try_certificate(certificate, accepted(6, 9))


def try_late(words):
    """A peer that isn't ready at some calls gets the same witnesses and certificate."""
    names = [b"r%d" % i for i in range(6)]
    asked = [b"WITNESS %s %s" % pair for pair in itertools.permutations(names, 2)]
    session = load([*SIX_ROUTERS, b"END"]) + text_of([b"CERTIFICATE", *asked, b"CERTIFICATE", b"BYE"])
    written, status = run([late, *words, "0", "33554432"], session)
    if status != 0 or written != b"".join(replies_to(session)):
        raise Wrong("the status is %d, or the replies differ" % status)


def try_star():
    """The largest star: its certificate has more than eight million lines."""
    links = [b"link h r%d 1" % (k % 1023 + 1) for k in range(8192)]
    session = load([*links, b"END"]) + b"CERTIFICATE\n"
    with tempfile.TemporaryFile() as given, tempfile.TemporaryFile() as kept:
        given.write(session)
        given.seek(0)
        subprocess.run([program, "plan"], stdin=given, stdout=kept, timeout=SECONDS, check=True)
        kept.seek(0)
        if kept.readline() != b"@1 LOADED routers 1024 links 8192\n":
            raise Wrong("the star isn't loaded")
        if kept.readline() != b"@1 CERTIFICATE 8390659\n":
            raise Wrong("the certificate of the star has another number of lines")
        os.lseek(kept.fileno(), len(b"@1 LOADED routers 1024 links 8192\n"), os.SEEK_SET)
        said = subprocess.run([program, "check"], stdin=kept, capture_output=True, timeout=SECONDS, check=False)
        if said.stdout != b"accepted routers 1024 links 8192\n" or said.returncode != 0:
            raise Wrong("check says %s" % said.stdout)


def networks_of_cases():
    """The networks that are accepted in cases, each once, by the name of its first case."""
    found = {}
    for case in sorted((TOP / "tests/cases").iterdir()):
        words = (case / "args").read_bytes().split() if (case / "args").exists() else []
        if words[:1] != [b"plan"] or not (case / "stdin").exists():
            continue
        for _, what, ended in check_replies.items_of((case / "stdin").read_bytes()):
            network = None if ended is None else check_replies.network_in(what, ended)
            if isinstance(network, check_replies.Network):
                found.setdefault(tuple(network.text()), (case.name, network))
    return found.items()


# ---- inputs of 2^30 bytes


def pieces_of_remarks(count):
    """So many bytes of remarks, and of an empty line where that is what is left."""
    remarks = (b"#" * 511 + b"\n") * 2048
    while count > len(remarks):
        yield remarks
        count -= len(remarks)
    yield remarks[-count:]


def try_long(front, back, wanted):
    """An input of 2^30 bytes, of which all but the front and the back are remarks."""
    with subprocess.Popen([program, "check"], stdin=subprocess.PIPE, stdout=subprocess.PIPE) as running:
        for piece in [front, *pieces_of_remarks(MOST_BYTES - len(front) - len(back)), back]:
            running.stdin.write(piece)
        running.stdin.close()
        written = running.stdout.read()
    if (running.returncode, written) != wanted:
        raise Wrong("check ended with %d and wrote %s" % (running.returncode, written[:200]))


def long_inputs():
    row = text_of(ROW)
    front, done = row[: -len(b"DONE\n")], b"DONE\n"
    yield "2^30 bytes that end in the last line", try_long, front, done, (0, ROW_ACCEPTED.encode() + b"\n")
    yield "2^30 bytes of remarks", try_long, b"", b"#\n", (5, b"")
    yield "2^30 bytes that lack the last line", try_long, front, b"#\n", (5, b"")


# ---- the run


def verdict(trial):
    name, attempt, *given = trial
    try:
        attempt(*given)
        return "right\t%s" % name
    except (Wrong, subprocess.SubprocessError, OSError, ValueError) as wrong:
        return "wrong\t%s\t%s: %s" % (name, type(wrong).__name__, " ".join(str(wrong).split()))


def trials_of_certificates():
    makers = [hand_made, each_line_changed, lines_swapped, each_byte_changed, faults_behind_passed_lines]
    seen = set()
    for name, certificate, wanted in itertools.chain.from_iterable(make() for make in [*makers, drawn_certificates]):
        if certificate not in seen or wanted:
            seen.add(certificate)
            yield name, try_certificate, certificate, wanted


def trials_of_networks():
    draw = random.Random(7)
    for lines, (case, network) in networks_of_cases():
        name = "%s, %d routers" % (case, len(network.names))
        yield "the certificate of " + name, try_network, list(lines)
        pairs = list(itertools.permutations(network.names, 2)) if len(network.names) <= MOST_ROUTERS_TO_COMPUTE else []
        if pairs:
            pairs = draw.sample(pairs, min(12, len(pairs)))
            yield "witnesses of " + name, try_witnesses, list(lines), pairs


def trials_of_sessions():
    yield "a witness and the certificate of six routers", try_six_routers
    names = [b"r%d" % i for i in range(6)]
    yield "all witnesses of six routers", try_witnesses, [*SIX_ROUTERS, b"END"], list(itertools.permutations(names, 2))
    for words in [("1", "2", "2"), ("7", "1", "3"), ("64", "3", "5"), ("4096", "2", "2")]:
        yield "six routers over a peer that is late: %s" % " ".join(words), try_late, words


def main():
    sys.setrecursionlimit(10 * check_replies.MOST_ROUTERS)
    with ProcessPoolExecutor(os.cpu_count()) as pool:
        long = [("the certificate of the largest star", try_star), *trials_of_networks(), *long_inputs()]
        verdicts = pool.map(verdict, [*long, *trials_of_sessions()])
        for line in itertools.chain(verdicts, pool.map(verdict, trials_of_certificates(), chunksize=20)):
            print(line)


if __name__ == "__main__":
    main()
