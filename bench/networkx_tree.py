"""The peer networkx: its `gomory_hu_tree`, which is Gusfield's method (1990).

usage: networkx_tree.py < SESSION

Its flows are by the method that it takes where none is named. In its favour, links that join the same
two routers are merged and those from a router to itself are left out.
"""

import sys

import networkx


def read_network(words):
    """The network of a text up to its END."""
    network = networkx.Graph()
    for word in words:
        if word == "END":
            return network
        first = next(words)
        network.add_node(first)
        if word == "link":
            second, capacity = next(words), int(next(words))
            network.add_node(second)
            if network.has_edge(first, second):
                network[first][second]["capacity"] += capacity
            elif first != second:
                network.add_edge(first, second, capacity=capacity)
    raise ValueError("not a network text")


def tree_lines(network):
    """A line for each router but the first: its name, that of the one above it, and the width."""
    edges = networkx.gomory_hu_tree(network)
    first = next(iter(network))
    up = dict(networkx.bfs_predecessors(edges, first))
    return "".join(f"{below} {up[below]} {edges[below][up[below]]['weight']}\n"
                   for below in network if below != first)


def answer_session():
    """Answers each TREE of the standard input by the tree of the network before it."""
    words = iter(sys.stdin.read().split())
    for word in words:
        if word == "LOAD":
            network = read_network(words)
        elif word == "TREE":
            sys.stdout.write(tree_lines(network))
        else:
            return


answer_session()
