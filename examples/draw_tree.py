"""Turns a reply to TREE into a drawing of the cut tree, in the language of Graphviz.

usage: draw_tree.py < REPLY

Lines before the reply are passed over, so the replies of a whole session will do, and the first reply to TREE
is drawn. What is written can be handed to `dot`:

    client.py --load network.txt 127.0.0.1 4000 TREE | draw_tree.py | dot -Tsvg > tree.svg

Each edge is labelled by its width. The status is 1 where no whole reply to TREE is there. A tree of one router
has no edge, and its reply no name, so its drawing is empty.
"""

import re
import sys

HEAD = re.compile(r"@[0-9]+ TREE ([0-9]+)\n")
EDGE = re.compile(r"([A-Za-z0-9._-]+) ([A-Za-z0-9._-]+) ([0-9]+)\n")


class NoTree(Exception):
    """There is no whole reply to TREE; the text tells why."""


def edge_count(lines):
    """How many edges the first reply to TREE has; its edges are the next lines then."""
    for line in lines:
        head = HEAD.fullmatch(line)
        if head:
            return int(head[1])
    raise NoTree("there is no reply to TREE")


def edges(lines):
    """The edges of the first reply to TREE: the router, the one above it, and the width."""
    found = []
    for _ in range(edge_count(lines)):
        line = next(lines, "")
        edge = EDGE.fullmatch(line)
        if not edge:
            raise NoTree(f"an edge is missing: {line!r} is none")
        found.append(edge.groups())
    return found


def read_tree(replies):
    """The edges of the first reply to TREE. All is read, so that who writes the replies isn't broken off."""
    tree = edges(replies)
    for _ in replies:
        pass
    return tree


def drawing(tree):
    """The text for Graphviz."""
    lines = [f'    "{above}" -- "{child}" [label="{width}"];\n' for child, above, width in tree]
    return "".join(["graph cut_tree {\n", *lines, "}\n"])


def main():
    try:
        sys.stdout.write(drawing(read_tree(sys.stdin or iter(()))))
        sys.stdout.flush()
    except (NoTree, OSError, UnicodeDecodeError) as error:
        print(f"draw_tree.py: {error}", file=sys.stderr)
        return 1
    except KeyboardInterrupt:
        return 130
    return 0


if __name__ == "__main__":
    sys.exit(main())
