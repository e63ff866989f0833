"""Checks what sessions wrote where the order of the commits shows in it.

usage: check_replies.py draw FOLDER COUNT
       check_replies.py ask FOLDER CASE..
       check_replies.py judge FOLDER

`draw` writes so many drawn sessions to the folder, as files NAME.stdin. `ask` writes the inputs of these
cases there, with a RUN behind each accepted network that has none. `judge` takes each NAME.stdin there
with what the program wrote, as files NAME.WORKERS.stdout, and prints a line for each: `right`, a tab, NAME
and WORKERS, or `wrong`, these two, and what is wrong.

All of it stands on docs/PROTOCOL.md alone: texts, refusals, cuts by a flow of its own, and Gusfield's method
with least sides. Only the order in which the routers were taken is read from the program's replies to RUN.
With that order every byte of the other replies is known, and is compared; but for the values on links that
WITNESS and CERTIFICATE tell, which must be a flow of their edge, and the same one as often as it is told.
"""

import random
import re
import sys
from pathlib import Path

MOST_ROUTERS = 1024
MOST_LINKS = 8192
MOST_CAPACITY = 10**12
MOST_NETWORKS = 256

# Of larger networks no tree is made: each cut is checked by a flow between its two routers.
MOST_ROUTERS_OF_A_TREE = 400

NAME = re.compile(rb"[A-Za-z0-9._-]{1,32}")
NUMBER = re.compile(rb"[0-9]+")
WRITTEN_VALUE = re.compile(rb"on (0|-?[1-9][0-9]*)")

REQUESTS = [b"LOAD", b"CUT", b"PATH", b"WEAKEST", b"TREE", b"RUN", b"NET", b"WITNESS", b"CERTIFICATE", b"BYE"]
OF_TWO_ROUTERS = [b"CUT", b"PATH", b"WITNESS"]


class Wrong(Exception):
    """What is wrong with a reply."""


# ---- lines and items


def lines_of(session):
    """The lines of a session, without their line feeds."""
    lines = session.split(b"\n")
    return lines if lines[-1] else lines[:-1]


def is_long(line):
    return len(line) > 512


def words_of(line):
    return re.findall(rb"[^ \t]+", line[:-1] if line.endswith(b"\r") else line)


def is_passed_over(line):
    words = words_of(line)
    return not is_long(line) and (not words or words[0].startswith(b"#"))


def is_just(line, word):
    return not is_long(line) and words_of(line) == [word]


def items_of(session):
    """The items, each with the place behind its last line: requests, and texts with whether END came."""
    lines = lines_of(session)
    place = 0
    while place < len(lines):
        line = lines[place]
        place += 1
        if is_passed_over(line):
            continue
        if not is_just(line, b"LOAD"):
            yield place, line, None
            if is_just(line, b"BYE"):
                return
            continue
        begun = place
        while place < len(lines) and not is_just(lines[place], b"END"):
            place += 1
        text = lines[begun:place]
        ended = place < len(lines)
        place += ended
        yield place, text, ended


# ---- networks


class Network:
    """Named routers and links, as a text tells them."""

    def __init__(self):
        self.names = []
        self.number = {}
        self.links = []

    def name(self, name):
        if name not in self.number:
            self.number[name] = len(self.names)
            self.names.append(name)
        return self.number[name]

    def fault_in(self, line):
        """The number of a line's fault, if any. A line without one is taken in."""
        if is_long(line):
            return 13
        first, *words = words_of(line)
        if first not in (b"router", b"link", b"END"):
            return 10
        if len(words) != {b"router": 1, b"link": 3}.get(first):
            return 12
        if not all(NAME.fullmatch(name) for name in words[:2]):
            return 11
        if first == b"link":
            if not NUMBER.fullmatch(words[2]):
                return 14
            if int(words[2].lstrip(b"0")[:20] or b"0") > MOST_CAPACITY:
                return 15
        new = {name for name in words[:2] if name not in self.number}
        if len(self.names) + len(new) > MOST_ROUTERS:
            return 16
        if first == b"link" and len(self.links) == MOST_LINKS:
            return 17
        ends = [self.name(name) for name in words[:2]]
        if first == b"link":
            self.links.append((*ends, int(words[2])))
        return None

    def close(self):
        """Makes the arcs for flows, two for each two routers that links join, at places 2 i and 2 i + 1."""
        together = {}
        for a, b, capacity in self.links:
            if a != b:
                pair = (min(a, b), max(a, b))
                together[pair] = together.get(pair, 0) + capacity
        self.heads = []
        self.capacities = []
        self.arcs = [[] for _ in self.names]
        for (a, b), capacity in together.items():
            self.arcs[a].append(len(self.heads))
            self.arcs[b].append(len(self.heads) + 1)
            self.heads += [b, a]
            self.capacities += [capacity, capacity]

    def cost(self, side):
        return sum(capacity for a, b, capacity in self.links if (a in side) != (b in side))

    def leaving(self, flow):
        """What leaves each router by a flow, less what arrives there."""
        leaving = [0] * len(self.names)
        for (a, b, _), value in zip(self.links, flow):
            leaving[a] += value
            leaving[b] -= value
        return leaving

    def check_flow(self, flow, child, above, width):
        """Raises Wrong where the values on the links are no flow of this width from a router to another."""
        if len(flow) != len(self.links):
            raise Wrong("a block has %d values on %d links" % (len(flow), len(self.links)))
        if any(abs(value) > capacity for value, (_, _, capacity) in zip(flow, self.links)):
            raise Wrong("a value is above the capacity of its link")
        leaving = self.leaving(flow)
        if leaving[child] != width:
            raise Wrong("a flow of %d leaves the end of an edge of %d" % (leaving[child], width))
        if any(amount for router, amount in enumerate(leaving) if router not in (child, above)):
            raise Wrong("a flow isn't kept at a router")

    def text(self):
        lines = [b"router %s" % name for name in self.names]
        lines += [b"link %s %s %d" % (self.names[a], self.names[b], c) for a, b, c in self.links]
        return lines + [b"END"]


def network_in(text, ended):
    """The network of a text, or the number of its fault and the line."""
    network = Network()
    for number, line in enumerate(text, 1):
        fault = None if is_passed_over(line) else network.fault_in(line)
        if fault:
            return fault, number
    if not ended:
        return 19, len(text) + 1
    if not network.names:
        return 18, len(text) + 1
    network.close()
    return network


# ---- least cuts and trees


def greatest_flow(network, s, t):
    """What a greatest flow from s to t leaves on each arc, its value, and the routers that s reaches then
    (Dinic, 1970)."""
    left = network.capacities[:]
    value = 0
    while True:
        level = {s: 0}
        queue = [s]
        for router in queue:
            for arc in network.arcs[router]:
                head = network.heads[arc]
                if left[arc] and head not in level:
                    level[head] = level[router] + 1
                    queue.append(head)
        if t not in level:
            return left, value, set(queue)
        value += send(network, left, level, s, t)


def least_cut(network, s, t):
    """The value of a least cut of s from t, and the least side."""
    _, value, side = greatest_flow(network, s, t)
    return value, side


def send(network, left, level, s, t):
    """Sends flow along the levels until no way is left; the sum that arrived."""
    cursor = [0] * len(network.names)

    def pass_on(router, amount):
        if router == t:
            return amount
        sent = 0
        arcs = network.arcs[router]
        while cursor[router] < len(arcs):
            arc = arcs[cursor[router]]
            head = network.heads[arc]
            if left[arc] and level.get(head) == level[router] + 1:
                passed = pass_on(head, min(amount - sent, left[arc]))
                left[arc] -= passed
                left[arc ^ 1] += passed
                sent += passed
                if sent == amount:
                    break
            cursor[router] += 1
        return sent

    return pass_on(s, MOST_LINKS * MOST_CAPACITY)


class Tree:
    """The tree that Gusfield's method makes (1990), taking the routers in this order."""

    def __init__(self, network, order):
        self.network = network
        self.up = [0] * len(network.names)
        self.width = [0] * len(network.names)
        self.commits = [self.commit(router) for router in order]

    def commit(self, s):
        t = self.up[s]
        value, side = least_cut(self.network, s, t)
        for router in side:
            if router != s and self.up[router] == t:
                self.up[router] = s
        self.width[s] = value
        if self.up[t] in side:
            self.up[s], self.up[t] = self.up[t], s
            self.width[s], self.width[t] = self.width[t], value
        return s, t, value

    def way_up(self, router):
        way = [router]
        while way[-1]:
            way.append(self.up[way[-1]])
        return way

    def path(self, a, b):
        """The lower ends of the edges from a to b, in their order."""
        up_from_a, up_from_b = self.way_up(a), self.way_up(b)
        up = [router for router in up_from_a if router not in up_from_b]
        down = [router for router in up_from_b if router not in up_from_a]
        return up + down[::-1]

    def below(self, child):
        return {router for router in range(len(self.up)) if child in self.way_up(router)}

    def least(self, children):
        return min(children, key=lambda child: (self.width[child], child))

    def side_holding(self, child, a):
        below = self.below(child)
        return below if a in below else set(range(len(self.up))) - below

    def edge_line(self, child):
        names = self.network.names
        return b"%s %s %d" % (names[child], names[self.up[child]], self.width[child])


# ---- replies


def replies_in(output):
    """The replies of an output, each as the list of its lines."""
    if output and not output.endswith(b"\n"):
        raise Wrong("its last line has no line feed")
    replies = []
    for line in output.split(b"\n")[:-1]:
        if line.startswith(b"@"):
            replies.append([line])
        elif replies:
            replies[-1].append(line)
        else:
            raise Wrong("its first line is no first line of a reply")
    return replies


def values_in(lines):
    """The values that these lines of a block tell."""
    found = [WRITTEN_VALUE.fullmatch(line) for line in lines]
    if None in found:
        raise Wrong("this is no line of a value: %s" % shown([lines[found.index(None)]]))
    return [int(value[1]) for value in found]


class Session:
    """A session that is answered by the rules, with the orders that its replies to RUN tell."""

    def __init__(self, replies):
        self.networks = []
        self.trees = {}
        self.runs = {}
        self.flows = {}
        for head, *lines in replies:
            if re.match(rb"@[0-9]+ RUN ", head):
                self.runs.setdefault(int(head[1:].split()[0]), lines)

    def version(self):
        return len(self.networks)

    def order(self):
        """The routers in the order in which they were taken for the tree of the last network."""
        network = self.networks[-1]
        lines = self.runs.get(self.version())
        if lines is None:
            if len(network.names) > 2:
                raise Wrong("nothing tells the run of version %d" % self.version())
            return range(1, len(network.names))
        order = [network.number.get(line.split(b" ")[0]) for line in lines]
        if None in order or sorted(order) != list(range(1, len(network.names))):
            raise Wrong("the run of version %d doesn't take each router once" % self.version())
        return order

    def tree(self):
        version = self.version()
        if version not in self.trees:
            if len(self.networks[-1].names) > MOST_ROUTERS_OF_A_TREE:
                raise Wrong("the network of version %d is too large for a tree" % version)
            self.trees[version] = Tree(self.networks[-1], self.order())
        return self.trees[version]

    def head(self, words):
        return b"@%d %s" % (self.version(), words)

    def refusal(self, number):
        return [self.head(b"NO %d" % number)]

    def listed(self, word, lines):
        return [self.head(b"%s %d" % (word, len(lines))), *lines]

    def load(self, text, ended):
        made = network_in(text, ended)
        if isinstance(made, tuple):
            return [self.head(b"NO %d line %d" % made)]
        if self.version() == MOST_NETWORKS:
            return self.refusal(20)
        self.networks.append(made)
        return [self.head(b"LOADED routers %d links %d" % (len(made.names), len(made.links)))]

    def cut_reply(self, word, value, side):
        names = [name for router, name in enumerate(self.networks[-1].names) if router in side]
        return [self.head(b" ".join([word, b"%d" % value, b"side", *names]))]

    def fault_of(self, line):
        """The number of the refusal of a request, if any."""
        if is_long(line):
            return 2
        word, *words = words_of(line)
        if word not in REQUESTS:
            return 1
        if len(words) != (2 if word in OF_TWO_ROUTERS else 0):
            return 3
        if word in (b"LOAD", b"BYE"):
            return None
        if not self.networks:
            return 6
        network = self.networks[-1]
        if not all(name in network.number for name in words):
            return 4
        if words and words[0] == words[1]:
            return 5
        if word == b"WEAKEST" and len(network.names) == 1:
            return 8
        return None

    def answer(self, line, written):
        """The reply to a request; one to CUT in a network that is too large for a tree is the one that was
        written, if it is right, and so are the values of flows."""
        fault = self.fault_of(line)
        if fault:
            return self.refusal(fault)
        word, *words = words_of(line)
        if word == b"BYE":
            return [self.head(b"BYE")]
        network = self.networks[-1]
        ends = [network.number[name] for name in words]
        if word == b"NET":
            return self.listed(word, network.text())
        if word == b"CUT" and len(network.names) > MOST_ROUTERS_OF_A_TREE:
            return self.checked_cut(*ends, written)
        tree = self.tree()
        if word == b"TREE":
            return self.listed(word, [tree.edge_line(c) for c in range(1, len(network.names))])
        if word == b"RUN":
            names = network.names
            return self.listed(word, [b"%s %s %d" % (names[s], names[t], k) for s, t, k in tree.commits])
        if word == b"WITNESS":
            return self.listed(word, self.blocks(b"flow", tree.path(*ends), written[1:]))
        if word == b"CERTIFICATE":
            return self.listed(word, self.certificate(written[1:]))
        if word == b"PATH":
            return self.listed(word, [tree.edge_line(child) for child in tree.path(*ends)])
        if word == b"CUT":
            child = tree.least(tree.path(*ends))
            return self.cut_reply(word, tree.width[child], tree.side_holding(child, ends[0]))
        child = tree.least(range(1, len(network.names)))
        return self.cut_reply(word, tree.width[child], tree.below(child))

    def blocks(self, word, children, written):
        """The lines that tell the edges above these routers with their flows, which are those that were written."""
        tree = self.tree()
        size = 1 + len(tree.network.links)
        lines = []
        for place, child in enumerate(children):
            values = written[place * size + 1 : (place + 1) * size]
            self.check_block(child, values_in(values))
            lines += [b"%s %s" % (word, tree.edge_line(child)), *values]
        return lines

    def check_block(self, child, flow):
        """Raises Wrong where this is no flow of the edge above a router, or another one than was told before."""
        tree = self.tree()
        tree.network.check_flow(flow, child, tree.up[child], tree.width[child])
        if self.flows.setdefault((self.version(), child), flow) != flow:
            raise Wrong("another flow of an edge is told than before")

    def certificate(self, written):
        """The lines of a certificate; the flows are those that were written."""
        network = self.networks[-1]
        front = [b"cut tree 1", *network.text(), b"root %s" % network.names[0]]
        edges = self.blocks(b"edge", range(1, len(network.names)), written[len(front) :])
        return [*front, *edges, b"DONE"]

    def checked_cut(self, a, b, written):
        network = self.networks[-1]
        value, _ = least_cut(network, a, b)
        side = {network.number.get(name) for name in written[0].split(b" ")[4:]}
        if None in side or a not in side or b in side or network.cost(side) != value:
            raise Wrong("this is no least cut: %s" % shown(written))
        return self.cut_reply(b"CUT", value, side)


def shown(reply):
    text = b"|".join(reply).decode("latin-1")
    return text if len(text) < 200 else text[:200] + ".."


def check(session, output):
    """Raises Wrong where the output isn't the replies to the session."""
    replies = replies_in(output)
    answering = Session(replies)
    count = 0
    for _, what, ended in items_of(session):
        if count == len(replies):
            raise Wrong("there are %d replies, and items are left" % count)
        written = replies[count]
        count += 1
        wanted = answering.answer(what, written) if ended is None else answering.load(what, ended)
        if written != wanted:
            raise Wrong("reply %d is %s, and should be %s" % (count, shown(written), shown(wanted)))
    if count < len(replies):
        raise Wrong("there are %d replies to %d items" % (len(replies), count))


# ---- sessions


def with_runs(session):
    """The session with a RUN behind each accepted network of more than two routers."""
    lines = lines_of(session)
    asked = []
    taken = 0
    accepted = 0
    for place, what, ended in items_of(session):
        if ended is None:
            continue
        network = network_in(what, ended)
        if isinstance(network, tuple) or accepted == MOST_NETWORKS:
            continue
        accepted += 1
        if 2 < len(network.names) <= MOST_ROUTERS_OF_A_TREE:
            asked += lines[taken:place] + [b"RUN"]
            taken = place
    if not asked:
        return session
    asked += lines[taken:]
    return b"\n".join(asked) + (b"\n" if session.endswith(b"\n") or taken == len(lines) else b"")


def drawn_links(draw, routers):
    """Links among so many routers: in a ring, about the first, in a row of rings, or anywhere; with
    capacities that are often the same, or none."""
    kind = draw.choice(["ring", "star", "row", "any", "any", "any"])
    pairs = []
    if kind == "ring":
        pairs = [(i, (i + 1) % routers) for i in range(routers)]
    elif kind == "star":
        pairs = [(0, i) for i in range(1, routers)]
    elif kind == "row":
        pairs = [(i, i + 1) for i in range(routers - 1)] + [(i, i + 2) for i in range(0, routers - 2, 2)]
    count = draw.randrange(3 * routers) if kind == "any" else draw.randrange(3)
    pairs += [(draw.randrange(routers), draw.randrange(routers)) for _ in range(count)]
    draw.shuffle(pairs)
    most = draw.choice([1, 3, 12, 1000, MOST_CAPACITY])
    return [(a, b, draw.randrange(most + 1)) for a, b in pairs]


def drawn_requests(draw, names):
    """Requests about routers of these names, some of them refused."""
    requests = ["RUN", "TREE", "WEAKEST"]
    for _ in range(6):
        a, b = draw.choice(names), draw.choice(names)
        requests += ["CUT %s %s" % (a, b), "PATH %s %s" % (a, b), "CUT %s %s" % (b, a)]
        requests += ["WITNESS %s %s" % (a, b)]
    requests += draw.sample(["NET", "TREE", "RUN", "CUT nobody %s" % names[0], "RUN now", "END"], 2)
    requests += draw.sample(["CERTIFICATE", "CERTIFICATE", "WITNESS nobody %s" % names[0], "CERTIFICATE now"], 2)
    draw.shuffle(requests)
    return requests


def drawn_session(draw, place):
    lines = []
    for _ in range(draw.choice([1, 1, 2, 3])):
        routers = draw.randrange(40, 80) if place % 20 == 0 else draw.choice([1, 2, 3, 5, 8, 8, 12, 12, 16])
        names = ["r%d" % i for i in range(routers)]
        draw.shuffle(names)
        # (a text that is refused leaves the network, and the tree, as they were)
        faulty = ["LOAD", "link a b c", "END"] if draw.randrange(4) == 0 else []
        lines += faulty + ["LOAD"]
        lines += ["router %s" % name for name in names]
        lines += ["link %s %s %d" % (names[a], names[b], c) for a, b, c in drawn_links(draw, routers)]
        lines += ["END"] + drawn_requests(draw, names) + faulty
    return "\n".join(lines + ["BYE", ""]).encode()


# ---- commands


def draw_sessions(folder, count):
    draw = random.Random(7)
    for place in range(int(count)):
        Path(folder, "drawn_%03d.stdin" % place).write_bytes(drawn_session(draw, place))


def ask_for_runs(folder, *cases):
    for case in cases:
        session = Path(case, "stdin").read_bytes()
        Path(folder, Path(case).name + ".stdin").write_bytes(with_runs(session))


def judge(folder):
    for written in sorted(Path(folder).glob("*.*.stdout")):
        name, workers, _ = written.name.split(".")
        try:
            check(Path(folder, name + ".stdin").read_bytes(), written.read_bytes())
            print("right", name, workers, sep="\t")
        except Wrong as wrong:
            print("wrong", name, workers, wrong, sep="\t")


def main(command=None, *words):
    sys.setrecursionlimit(10 * MOST_ROUTERS)
    {"draw": draw_sessions, "ask": ask_for_runs, "judge": judge}[command](*words)


if __name__ == "__main__":
    main(*sys.argv[1:])
