#!/usr/bin/env python3
"""Makes certificates that are to be as dear to judge as can be, from a right one, each as long as a certificate may be.

    hostile_certificates.py SHAPE <RIGHT >TEXT

The shapes:

    right        the right one
    last_leaf    the last leaf says the contrary
    many_kids    the root has as many edges and kids as there is room for: its edges and leaves, over and over
    no_edges     the root has as many kids as there is room for, and no edge
    no_kids      the root has as many edges as there is room for, and no kid
    wide         half of the tree is right, and the next kid of the root has as many edges and kids as there is room for
    first_wide   the root is right, and its first kid has as many edges and kids as there is room for
    branches     half of the tree is right, and each later kid of the root has all edges of the root, and kids with nothing beneath
    chains       half of the tree is right, and each later kid of the root has all edges of the root, with branches one in the other
                 beneath each, down to the deepest that is read
    all_faults   half of the tree is right, and each later kid of the root has all faults as its edges, and a leaf for each
    nested       half of the tree is right, and in each later kid of the root branches stand one in the other, each the last kid of the
                 one above, and each has all faults as its edges
"""
import json
import sys

MOST_BYTES = 16_777_216
DEEPEST = 6  # branches that may stand one in the other
LEAF = '{"misses":false}'


def text(value):
    return json.dumps(value, separators=(",", ":"), sort_keys=True)


def branch(edges, kids, reach):
    """The text of a branch, of lists of texts."""
    return '{"edges":[%s],"kids":[%s],"reach":%s}' % (",".join(edges), ",".join(kids), reach)


def all_faults(nodes, steps):
    """All losses and crashes of a run, in order."""
    for step in range(1, steps + 1):
        for sender in range(nodes):
            for receiver in range(nodes):
                if sender != receiver:
                    yield '"omit %d>%d @%d"' % (sender, receiver, step)
        for node in range(nodes):
            yield '"crash %d @%d"' % (node, step)


def fitting(kids, room):
    """The first of the texts that fit into so much room, with commas behind, and the room that is left."""
    taken = []
    for kid in kids:
        if room <= len(kid):
            break
        taken.append(kid)
        room -= len(kid) + 1
    return taken, room


class Shapes:
    def __init__(self, right):
        self.right = right
        self.root = right["root"]
        self.reach = text(self.root["reach"])
        self.edges = [text(edge) for edge in self.root["edges"]]
        self.room = MOST_BYTES - len(self.tree(branch([], [], self.reach)))

    def tree(self, root):
        """The text of a tree with the answer of the right one."""
        return '{"answer":%s,"format":1,"root":%s}' % (text(self.right["answer"]), root)

    def wide(self, room):
        """A branch with the root's edges and a leaf for each, over and over, as often as they fit into so much room."""
        size = sum(len(edge) + len(LEAF) + 2 for edge in self.edges)
        times = (room - len(branch([], [], self.reach))) // size
        return branch(self.edges * times, [LEAF] * (len(self.edges) * times), self.reach)

    def beneath_root(self, share, later):
        """The tree whose root is right, with its first kids in a share of the room, and behind them others in what is left. `later` makes
        them, of the room."""
        room = self.room - sum(len(edge) + len(LEAF) + 2 for edge in self.edges)
        kids, left = fitting(map(text, self.root["kids"]), int(room * share))
        more, _ = fitting(later(room - int(room * share) + left), room - int(room * share) + left)
        kids = (kids + more)[: len(self.edges)]
        return self.tree(branch(self.edges, kids + [LEAF] * (len(self.edges) - len(kids)), self.reach))

    def each_later(self, kid):
        return self.beneath_root(0.5, lambda room: [kid] * len(self.edges))

    def shaped(self, shape):
        return getattr(self, "make_" + shape)()

    def make_right(self):
        return text(self.right)

    def make_last_leaf(self):
        whole = text(self.right)
        at = whole.rindex('{"misses"')
        turned = [("false", "true"), ("true", "false")][not whole.startswith(LEAF, at)]
        return whole[:at] + whole[at:].replace(*turned, 1)

    def make_many_kids(self):
        return self.tree(self.wide(self.room))

    def make_no_edges(self):
        return self.tree(branch([], [LEAF] * (self.room // (len(LEAF) + 1)), self.reach))

    def make_no_kids(self):
        return self.tree(branch(self.edges * (self.room // sum(len(edge) + 1 for edge in self.edges)), [], self.reach))

    def make_wide(self):
        return self.beneath_root(0.5, lambda room: [self.wide(room)])

    def make_first_wide(self):
        return self.beneath_root(0, lambda room: [self.wide(room)])

    def make_branches(self):
        return self.each_later(branch(self.edges, [branch([], [], self.reach)] * len(self.edges), self.reach))

    def make_chains(self):
        chain = LEAF
        for edge in self.edges[: DEEPEST - 2]:
            chain = branch([edge], [chain], self.reach)
        return self.each_later(branch(self.edges, [chain] * len(self.edges), self.reach))

    def make_all_faults(self):
        faults = list(all_faults(len(self.root["reach"]), max(self.root["reach"])))
        return self.each_later(branch(faults, [LEAF] * len(faults), self.reach))

    def make_nested(self):
        faults = list(all_faults(len(self.root["reach"]), max(self.root["reach"])))
        kid = LEAF
        for _ in range(DEEPEST - 1):
            kid = branch(faults, [LEAF] * (len(faults) - 1) + [kid], self.reach)
        return self.each_later(kid)


print(Shapes(json.load(sys.stdin)).shaped(sys.argv[1]), end="")
