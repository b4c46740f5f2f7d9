#!/usr/bin/env python3
"""Writes the long sample trials of this folder, NAME.hex with the text each gives, NAME.out: whole runs of a plan in some delivery order; and in
layout/ the plans to lay out, NAME.hex, with the plan that `desk layout DEPTH` makes of each, NAME.DEPTH.laid, and the text that gives, NAME.DEPTH.out.

Usage: trials/make.py        (writes the files anew; the same text each time)

The simulator here is the bench's rules once more, for writing samples: an action is taken where its needs are met, and a run goes on until
nothing can be taken. Which action comes next is the delivery order. Python's `round` of a fraction goes to the nearest whole number, a half to the
even one, which is document 02's rule.
"""
import os
import random
from fractions import Fraction

HERE = os.path.dirname(os.path.abspath(__file__))

(OUTPUT, PACKET_SENT, PACKET_DELIVERED, ACK_SENT, ACK_DELIVERED, OK, SUBTREE_OK_SENT, SUBTREE_OK_DELIVERED, CLUSTER_OK, DOWN_SENT,
 DOWN_DELIVERED, PREFERRED_SENT, PREFERRED_DELIVERED, UP_SENT, UP_DELIVERED, CLUSTER_GO, SUBTREE_GO_SENT, SUBTREE_GO_DELIVERED, GO,
 INPUT) = range(16, 36)

SENT_BEFORE = {PACKET_DELIVERED: PACKET_SENT, ACK_DELIVERED: ACK_SENT, SUBTREE_OK_DELIVERED: SUBTREE_OK_SENT, DOWN_DELIVERED: DOWN_SENT,
               PREFERRED_DELIVERED: PREFERRED_SENT, UP_DELIVERED: UP_SENT, SUBTREE_GO_DELIVERED: SUBTREE_GO_SENT}

OPEN = 255  # a parent that nobody filled in


class Run:
    """A plan and its state: rounds, nodes as (parent, start value), links as (a, b, flag)."""

    def __init__(self, rounds, nodes, links):
        self.rounds, self.nodes, self.links = rounds, nodes, sorted(links)
        self.values = [value for _, value in nodes]
        self.counts = {}
        self.queues = {}
        self.slots = {}
        self.near = [sorted({b for a, b, _ in links if a == p} | {a for a, b, _ in links if b == p}) for p in range(len(nodes))]
        self.preferred = [sorted({b for a, b, f in links if a == p and f} | {a for a, b, f in links if b == p and f}) for p in range(len(nodes))]
        self.children = [[q for q, (parent, _) in enumerate(nodes) if parent == p and q != p] for p in range(len(nodes))]
        self.all = self.actions()

    def actions(self):
        """Every action that the plan has, in order of kind and node numbers."""
        out = []
        for kind in range(OUTPUT, INPUT + 1):
            for p, (parent, _) in enumerate(self.nodes):
                root = parent == p
                if kind in (PACKET_SENT, PACKET_DELIVERED, ACK_SENT, ACK_DELIVERED):
                    out += [(kind, p, q) for q in self.near[p]]
                elif kind in (PREFERRED_SENT, PREFERRED_DELIVERED):
                    out += [(kind, p, q) for q in self.preferred[p]]
                elif kind in (CLUSTER_OK, CLUSTER_GO):
                    out += [(kind, p)] if root else []
                elif kind in (OUTPUT, OK, GO, INPUT):
                    out.append((kind, p))
                else:
                    out += [] if root else [(kind, p)]
        return out

    def count(self, *action):
        return self.counts.get(action, 0)

    def knows(self, p):
        return self.count(CLUSTER_OK if self.nodes[p][0] == p else DOWN_DELIVERED, p)

    def may_go(self, p):
        return self.count(CLUSTER_GO if self.nodes[p][0] == p else SUBTREE_GO_DELIVERED, p)

    def needs(self, kind, p, q=None):
        """The counts that have to be at least i."""
        parent = self.nodes[p][0]
        if kind in SENT_BEFORE:
            return [self.count(SENT_BEFORE[kind], *([p] if q is None else [p, q]))]
        if kind == PACKET_SENT:
            return [self.count(OUTPUT, p)]
        if kind == ACK_SENT:
            return [self.count(PACKET_DELIVERED, q, p)]
        if kind == OK:
            return [self.count(OUTPUT, p)] + [self.count(ACK_DELIVERED, r, p) for r in self.near[p]]
        if kind in (SUBTREE_OK_SENT, CLUSTER_OK):
            return [self.count(OK, p)] + [self.count(SUBTREE_OK_DELIVERED, c) for c in self.children[p]]
        if kind == DOWN_SENT:
            return [self.knows(parent)]
        if kind == PREFERRED_SENT:
            return [self.knows(p)]
        if kind in (UP_SENT, CLUSTER_GO):
            return ([self.knows(p)] + [self.count(UP_DELIVERED, c) for c in self.children[p]]
                    + [self.count(PREFERRED_DELIVERED, r, p) for r in self.preferred[p]])
        if kind == SUBTREE_GO_SENT:
            return [self.may_go(parent)]
        if kind == GO:
            return [self.may_go(p)]
        return [self.count(GO, p)]

    def enabled(self, action):
        i = self.count(*action) + 1
        kind, p = action[0], action[1]
        if kind == OUTPUT:
            return i <= self.rounds and self.count(INPUT, p) >= i - 1
        if any(have < i for have in self.needs(*action)):
            return False
        queue = self.queues.get(action[1:], [])
        if kind == PACKET_DELIVERED:
            return bool(queue) and queue[0] is not None
        if kind == ACK_DELIVERED:
            return bool(queue) and queue[0] is None
        return kind not in (PACKET_SENT, ACK_SENT) or len(queue) < 2

    def take(self, action):
        kind, p = action[0], action[1]
        i = self.counts[action] = self.count(*action) + 1
        if kind == PACKET_SENT:
            self.queues.setdefault(action[1:], []).append(self.values[p])
        elif kind == ACK_SENT:
            self.queues.setdefault(action[1:], []).append(None)
        elif kind == PACKET_DELIVERED:
            self.slots[action[1:] + (i % 2,)] = self.queues[action[1:]].pop(0)
        elif kind == ACK_DELIVERED:
            self.queues[action[1:]].pop(0)
        elif kind == INPUT:
            heard = [self.slots.get((q, p, i % 2), 0) for q in self.near[p]]
            self.values[p] = round(Fraction(self.values[p] + sum(heard), 1 + len(heard)))

    def go(self, choose):
        """Takes actions until none can be taken, each as `choose` picks it; answers them in order."""
        taken = []
        while True:
            able = [a for a in self.all if self.enabled(a)]
            if not able:
                return taken
            action = choose(self, able)
            self.take(action)
            taken.append(action)

    # ---- as text

    def plan_lines(self):
        out = ["01 %02X %02X          # rounds %d" % (self.rounds >> 8, self.rounds & 255, self.rounds)]
        for p, (parent, value) in enumerate(self.nodes):
            place = "a root" if parent == p else "parent left open" if parent == OPEN else "parent %d" % parent
            out.append("02 %02X %02X %02X %02X    # node %d, %s, starts at %d" % (p, parent, value >> 8, value & 255, p, place, value))
        for a, b, flag in self.links:
            out.append("03 %02X %02X %02X       # link %d-%d%s" % (a, b, flag, a, b, ", preferred" if flag else ""))
        return out + ["00                # end of plan"]

    def report(self, taken):
        length = 3 + 5 * len(self.nodes) + 4 * len(self.links) + 1 + sum(len(a) for a in taken)
        roots = sum(parent == p for p, (parent, _) in enumerate(self.nodes))
        out = ["plan %d %d %d %d" % (len(self.nodes), len(self.links), roots, self.rounds)]
        out += ["node %d %d %d %d" % (p, self.count(OUTPUT, p), self.count(INPUT, p), v) for p, v in enumerate(self.values)]
        return out + ["taken %d" % len(taken), "end 0 %d" % length]


def in_turn(run, able):
    """All of one kind before any of the next: everybody is in step."""
    return able[0]


def ahead(run, able):
    """The furthest round first, and in it the furthest kind: whoever may start the next round does, before the others end this one."""
    return max(able, key=lambda action: (run.count(*action), action[0]))


def shuffled(seed):
    """Any action that can be taken, by chance."""
    chance = random.Random(seed)
    return lambda run, able: chance.choice(able)


def write(name, words, run, choose):
    taken = run.go(choose)
    with open(os.path.join(HERE, name + ".hex"), "w") as f:
        for line in words:
            f.write("# " + line + "\n")
        f.write("\n".join(run.plan_lines()) + "\n# %d actions\n" % len(taken))
        row = ""
        for action in taken:
            record = " ".join("%02X" % b for b in action)
            if len(row) + len(record) > 118:
                f.write(row.rstrip() + "\n")
                row = ""
            row += record + "  "
        f.write(row.rstrip() + "\n")
    with open(os.path.join(HERE, name + ".out"), "w") as f:
        f.write("\n".join(run.report(taken)) + "\n")


def path():
    """Document 01's plan P with three rounds."""
    return Run(3, [(1, 0), (1, 10), (1, 5)], [(0, 1, 0), (1, 2, 0)])


def pair(a, b):
    """Plan T with other values and one round."""
    return Run(1, [(0, a), (1, b)], [(0, 1, 1)])


def star():
    """A hub at 0 and three leaves at 2, one cluster."""
    return Run(1, [(0, 0), (0, 2), (0, 2), (0, 2)], [(0, 1, 0), (0, 2, 0), (0, 3, 0)])


def branch():
    """Nine nodes on a branch duct: three clusters of three, each a root with two leaves, joined in a row by one preferred link each."""
    nodes = [(p // 3 * 3, 400 + 75 * p) for p in range(9)]
    inside = [(r, r + k, 0) for r in (0, 3, 6) for k in (1, 2)]
    return Run(2, nodes, inside + [(2, 3, 1), (1, 4, 0), (5, 6, 1), (4, 7, 0)])


def plant():
    """64 nodes and 128 links, the most that a plan has: an 8 by 8 grid with each row a cluster, and 16 links more along the diagonals."""
    at = lambda row, column: 8 * row + column
    nodes = [(at(p // 8, max(p % 8 - 1, 0)), 997 * p % 65536) for p in range(64)]
    links = {(at(r, c), at(r, c + 1)): 0 for r in range(8) for c in range(7)}
    links.update({(at(r, c), at(r + 1, c)): int(c == r) for r in range(7) for c in range(8)})
    links.update({(at(r, c), at(r + 1, c + 1)): 0 for r in range(4) for c in range(0, 8, 2)})
    return Run(2, nodes, [(a, b, flag) for (a, b), flag in links.items()])


def refused(name, words, records, text):
    with open(os.path.join(HERE, name + ".hex"), "w") as f:
        f.write("# " + words + "\n" + "\n".join(" ".join("%02X" % b for b in record) for record in records) + "\n")
    with open(os.path.join(HERE, name + ".out"), "w") as f:
        f.write(text + "\n")


write("p-three-rounds", ["Plan P: the path 0-1-2, one cluster, root 1. Three rounds to their end: 5 5 8, 5 6 6, 6 6 6."], path(), in_turn)
write("half-1-2", ["Two controllers at 1 and 2: the half between them goes to the even number, 2."], pair(1, 2), in_turn)
write("half-0-1", ["Two controllers at 0 and 1: the half between them goes to the even number, 0."], pair(0, 1), in_turn)
write("half-star", ["A star, one cluster: a hub at 0 and three leaves at 2. The hub's 6 / 4 goes to the even number, 2; a leaf has 2 / 2."], star(), in_turn)
BRANCH = "A branch of nine controllers, three clusters in a row, two rounds to their end."
write("branch-in-turn", [BRANCH, "Order: all of one kind before any of the next. Every order ends at the same values."], branch(), in_turn)
write("branch-ahead", [BRANCH, "Order: whoever may start the next round does, before the others end theirs. Every order ends at the same values."], branch(), ahead)
write("branch-shuffled", [BRANCH, "Order: by chance. Every order ends at the same values."], branch(), shuffled(588))
write("plant-64", ["The largest plant: 64 controllers in eight clusters, 128 links, two rounds to their end, in an order by chance."], plant(), shuffled(64))

ROOTS = [[2, p, p, 0, 100] for p in range(65)]
refused("refused-04-nodes", "A 65th node. Places count from 0: 3 bytes of rounds and 64 nodes of 5 bytes stand before it.", [[1, 0, 1]] + ROOTS + [[0]], "end 4 323")
PAIRS = [[3, a, b, 1] for a in range(64) for b in range(a + 1, 64)][:129]
refused("refused-04-links", "A 129th link, after 64 nodes and 128 links of 4 bytes.", [[1, 0, 1]] + ROOTS[:64] + PAIRS + [[0]], "end 4 835")


# ---- layouts

def claims(near, depth):
    """Who claims whom, by the rule read literally: the earliest claimed node that may still claim takes its lowest unclaimed neighbour, one node
    at a time; where none may, the lowest unclaimed node is a root. Answers each node's parent and the root of its cluster."""
    claimed, parent, deep = [], {}, {}
    while len(claimed) < len(near):
        able = [(x, y) for x in claimed if deep[x] < depth for y in near[x] if y not in parent]
        x, y = able[0] if able else (None, min(set(range(len(near))) - set(parent)))
        parent[y], deep[y] = (x, deep[x] + 1) if able else (y, 0)
        claimed.append(y)
    root = {}
    for p in claimed:
        root[p] = p if parent[p] == p else root[parent[p]]
    return parent, root


def laid_out(plan, depth):
    """The plan with its clusters laid out."""
    parent, root = claims(plan.near, depth)
    nodes = [(parent[p], start) for p, (_, start) in enumerate(plan.nodes)]
    pairs = [frozenset((root[a], root[b])) for a, b, _ in plan.links]
    links = [(a, b, int(len(pair) == 2 and pair not in pairs[:l])) for l, ((a, b, _), pair) in enumerate(zip(plan.links, pairs))]
    return Run(plan.rounds, nodes, links)


def lay_out(name, words, plan, depths):
    def write_plan(file, comment, lines):
        with open(os.path.join(HERE, "layout", file), "w") as f:
            f.write("# " + comment + "\n" + "\n".join(lines) + "\n")

    write_plan(name + ".hex", words, plan.plan_lines())
    for depth in depths:
        laid = laid_out(plan, depth)
        roots = sum(parent == p for p, (parent, _) in enumerate(laid.nodes))
        preferred = sum(flag for _, _, flag in laid.links)
        write_plan("%s.%d.laid" % (name, depth), "%s at depth %d: clusters %d, preferred links %d" % (name, depth, roots, preferred), laid.plan_lines())
        with open(os.path.join(HERE, "layout", "%s.%d.out" % (name, depth)), "w") as f:
            f.write("\n".join(laid.report([])) + "\n")


def wires(rounds, count, links):
    """A plan whose parents and flags nobody filled in."""
    return Run(rounds, [(OPEN, 100 * p + 100) for p in range(count)], [(a, b, 0) for a, b in links])


GRID = [(p, p + 1) for p in range(64) if p % 8 < 7] + [(p, p + 8) for p in range(56)]
lay_out("ring", "A ring of six, 0-1-5-4-3-2-0: node 5 is claimed before node 3, so at depth 3 it is 5 that claims node 4.",
        wires(1, 6, [(0, 1), (0, 2), (1, 5), (2, 3), (3, 4), (4, 5)]), [2, 3])
lay_out("joined-thrice", "At depth 1 three links join clusters 0 and 1: the first of them is preferred.",
        wires(1, 6, [(0, 3), (0, 4), (1, 2), (1, 4), (2, 3), (2, 4), (3, 5), (4, 5)]), [1])
lay_out("grid", "64 controllers, 8 by 8, each wired to those on its four sides.", wires(2, 64, GRID), [0, 1, 2, 14])
