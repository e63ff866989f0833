"""Tries `serve` with clients that keep to the protocol.

usage: serve_clients.py PROGRAM
"""

import contextlib
import signal
import socket
import threading
from concurrent.futures import ThreadPoolExecutor

import serving
from serving import DOOR_FAULT, HOST, SECONDS, TWO_LOADED, TWO_ROUTERS, Client, free_port, same


def begins_beside_others(client, met):
    """Gets a first reply, and waits until the others have theirs: each of them has a desk of its own then."""
    client.send("TREE")
    client.receives("@0 NO 6")
    met.wait(SECONDS)


def load_and_cut(client, capacities):
    """Loads a network of each of these capacities and asks for its cut. Tells the version of each LOADED, and
    pairs of version and value of the cuts."""
    loaded, cuts = [], []
    for capacity in capacities:
        client.send("LOAD", f"link a b {capacity}", "END", "CUT a b")
        version, rest = client.line().split(" ", 1)
        same("a reply to LOAD", rest, TWO_LOADED)
        loaded.append(int(version[1:]))
        version, *rest = client.line().split(" ")
        same("a reply to CUT", [rest[0], *rest[2:]], ["CUT", "side", "a"])
        cuts.append((int(version[1:]), int(rest[1])))
    client.send("BYE")
    same("the end of the session", client.line().split(" ")[1:], ["BYE"])
    return loaded, cuts


def judge_cuts(versions, cuts, capacity_of):
    """No version falls in a session, and each cut is that of its version."""
    same("a session's versions", versions, sorted(versions))
    for version, value in cuts:
        same(f"the cut of version {version}", value, capacity_of[version])


def try_eight(program):
    clients, networks = 8, 12
    met = threading.Barrier(clients)

    def one(number):
        with Client(server.port) as client:
            begins_beside_others(client, met)
            capacities = [1 + number * networks + count for count in range(networks)]
            return capacities, *load_and_cut(client, capacities)

    with serving.serving(program, clients, 1) as server:
        with ThreadPoolExecutor(clients) as pool:
            told = list(pool.map(one, range(clients)))
        server.ended(clients, clients * networks)
    capacity_of = {version: capacity for each in told for capacity, version in zip(each[0], each[1])}
    same("the list of versions", sorted(capacity_of), list(range(1, clients * networks + 1)))
    for _, loaded, cuts in told:
        seen = [version for at_load, (at_cut, _) in zip(loaded, cuts) for version in (at_load, at_cut)]
        judge_cuts(seen, cuts, capacity_of)


def try_one_list(program):
    with serving.serving(program, 2, 1) as server, Client(server.port) as first, Client(server.port) as second:
        first.send(*TWO_ROUTERS, "CUT a b")
        first.receives(f"@1 {TWO_LOADED}", "@1 CUT 5 side a")
        second.send("LOAD", "link a b 7", "END", "CUT a b")
        second.receives(f"@2 {TWO_LOADED}", "@2 CUT 7 side a")
        first.send("CUT a b")
        first.receives("@2 CUT 7 side a")
        second.leaves(2)
        first.send("LOAD", "link a b 9", "END", "CUT a b")
        first.receives(f"@3 {TWO_LOADED}", "@3 CUT 9 side a")
        first.leaves(3)
        server.ended(2, 3)


def try_next_client(program):
    with serving.serving(program, 1, 2) as server:
        with Client(server.port) as first:
            first.send(*TWO_ROUTERS)
            first.receives(f"@1 {TWO_LOADED}")
            first.leaves(1)
        with Client(server.port) as second:
            second.send("CUT a b", "TREE")
            second.receives("@1 CUT 5 side a", "@1 TREE 1", "b a 5")
            second.leaves(1)
        server.ended(2, 1)


def try_taken_port(program):
    with socket.socket() as holder:
        holder.bind((HOST, 0))
        holder.listen()
        with serving.serving(program, 2, 3, holder.getsockname()[1]) as server:
            server.ended(0, 0, DOOR_FAULT)


def try_port_again(program):
    port = free_port()
    for _ in range(3):
        with serving.serving(program, 2, 1, port) as server:
            with Client(port) as first, Client(port) as second:
                first.leaves(0)
                second.leaves(0)
            server.ended(2, 0)


def star(number, count):
    """The capacities of a star with the hub h and these leaves. (No two leaves of a star have the same.)"""
    return {f"leaf{place}": 100 * number + (7 * place + count) % 11 + 1 for place in range(5 + count)}


def star_text(leaves):
    return [f"link h {leaf} {capacity}" for leaf, capacity in leaves.items()]


def star_cut(leaves, one, other):
    """Of two leaves that with the smaller capacity is cut from all others."""
    least = min(leaves[one], leaves[other])
    side = [one] if leaves[one] == least else [name for name in ["h", *leaves] if name != other]
    return [f"CUT {least} side {' '.join(side)}"]


def star_replies(leaves):
    """The requests, with the lines of their replies behind the version. Each leaf hangs from the hub."""
    tree = [f"{leaf} h {capacity}" for leaf, capacity in leaves.items()]
    net = [*(f"router {name}" for name in ["h", *leaves]), *star_text(leaves), "END"]
    return {
        "CUT leaf0 leaf4": star_cut(leaves, "leaf0", "leaf4"),
        "CUT leaf3 leaf1": star_cut(leaves, "leaf3", "leaf1"),
        "TREE": [f"TREE {len(tree)}", *tree],
        "NET": [f"NET {len(net)}", *net],
    }


def whole_reply(client):
    """The version of a reply, and its lines."""
    version, head = client.line().split(" ", 1)
    words = head.split(" ")
    count = int(words[1]) if words[0] in ("TREE", "NET") else 0
    return int(version[1:]), [head, *(client.line() for _ in range(count))]


def answer(client, request):
    """The next reply, which is that to this request: its version, the request, and its lines."""
    version, lines = whole_reply(client)
    return version, request, lines


def load_and_ask(client, stars):
    """Loads each star and asks about it. Tells the version of each star, and triples of a version, a request and
    its reply; a version may be that of another client's star."""
    loaded, told = [], []
    for leaves in stars:
        client.send("LOAD", *star_text(leaves), "END", *star_replies(leaves))
        version, lines = whole_reply(client)
        same("a reply to LOAD", lines, [f"LOADED routers {1 + len(leaves)} links {len(leaves)}"])
        loaded.append(version)
        told.append((version, None, None))
        told.extend(answer(client, request) for request in star_replies(leaves))
    client.send("BYE")
    version, lines = whole_reply(client)
    same("the end of the session", lines, ["BYE"])
    return loaded, [*told, (version, None, None)]


def judge_told(told, star_of):
    """No version falls in a session, and each reply is that of its version's star."""
    versions = [version for version, _, _ in told]
    same("a session's versions", versions, sorted(versions))
    for version, request, lines in told:
        if request is not None:
            same(f"{request} of version {version}", lines, star_replies(star_of[version])[request])


def try_stars(program, workers=1):
    clients, networks = 8, 6
    met = threading.Barrier(clients)

    def one(number):
        with Client(server.port) as client:
            begins_beside_others(client, met)
            stars = [star(number, count) for count in range(networks)]
            return stars, *load_and_ask(client, stars)

    with serving.serving(program, clients, 1, workers=workers) as server:
        with ThreadPoolExecutor(clients) as pool:
            all_told = list(pool.map(one, range(clients)))
        server.ended(clients, clients * networks)
    star_of = {version: leaves for stars, loaded, _ in all_told for version, leaves in zip(loaded, stars)}
    same("the list of versions", sorted(star_of), list(range(1, clients * networks + 1)))
    for _, _, told in all_told:
        judge_told(told, star_of)


def try_stars_of_workers(program):
    try_stars(program, workers=4)


def try_stopping(program):
    port = free_port()
    with serving.serving(program, 2, 1, port) as server, Client(port) as client:
        client.send(*TWO_ROUTERS)
        client.receives(f"@1 {TWO_LOADED}")
        server.process.terminate()
        output, errors = server.process.communicate(timeout=SECONDS)
        same("what a program that is stopped writes", (output, errors), (b"", b""))
        same("its status", server.process.returncode, -signal.SIGTERM)
    with serving.serving(program, 1, 1, port) as server, Client(port) as client:
        client.send("CUT a b")
        client.receives("@0 NO 6")
        client.leaves(0)
        server.ended(1, 0)


def try_other_addresses(program):
    # (127.0.0.2 is on the loopback as well, and leads to whoever listens on all addresses)
    with serving.serving(program, 1, 1) as server, Client(server.port) as client:
        with socket.socket() as other:
            other.settimeout(SECONDS)
            is_met = other.connect_ex(("127.0.0.2", server.port)) == 0
        same("whether somebody listens at another address", is_met, False)
        client.leaves(0)
        server.ended(1, 0)


def try_turned_away(program):
    with serving.serving(program, 1, 1) as server:
        with Client(server.port) as first, Client(server.port) as waiting:
            first.leaves(0)
            with contextlib.suppress(ConnectionError):
                waiting.is_left()
        server.ended(1, 0)


TRIALS = [
    ("eight clients at once, and each cut is that of its version", try_eight),
    ("two clients load into one list", try_one_list),
    ("a client asks the network of the one before", try_next_client),
    ("a port that is taken", try_taken_port),
    ("a port that was served just now", try_port_again),
    ("eight clients at once, and CUT, TREE and NET are those of their versions", try_stars),
    ("eight clients at once, and four workers at each desk", try_stars_of_workers),
    ("a program that is stopped by a signal, and its port behind it", try_stopping),
    ("a client that still waits when the program ends", try_turned_away),
    ("nobody listens on another address", try_other_addresses),
]

if __name__ == "__main__":
    serving.run(TRIALS)
