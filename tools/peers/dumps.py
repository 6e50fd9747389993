"""What the readers of Yosys's and Verilator's dumps share."""
from collections import namedtuple

# A node of a dump: its word, what stands after that, and its children by group (Yosys has one group).
Node = namedtuple("Node", "word rest groups")


class Unread(Exception):
    """A form of a dump that no reader knows; it counts as another tree."""


def children(node, group=1):
    return node.groups.get(group, [])


def nested(lines):
    """The nodes of a dump from (depth, group, word, rest) of each line, under a root without a word."""
    root = Node("", "", {})
    open_nodes = [(-1, root)]
    for depth, group, word, rest in lines:
        while open_nodes[-1][0] >= depth:
            open_nodes.pop()
        node = Node(word, rest, {})
        open_nodes[-1][1].groups.setdefault(group, []).append(node)
        open_nodes.append((depth, node))
    return root
