#!/usr/bin/env python3
"""make.py NODES LINKS SEED [LENGTH]: a trial file on standard output: an accepted plan of that size and a complete run of it in a random
delivery order, as many rounds as fit into LENGTH bytes (65,536). With LENGTH 0: the plan alone, for as many rounds as fit into 65,536."""
import random
import sys


def make_plan(nodes, links, rnd):
    """Parents and links (a, b, flag): a tree of wires, cut into clusters; then more wires; one preferred link for each two joined clusters."""
    parent, ends = [0], set()
    for p in range(1, nodes):
        up = rnd.randrange(p)
        ends.add((up, p))
        parent.append(up if rnd.random() < 0.8 else p)
    while len(ends) < links:
        a, b = sorted(rnd.sample(range(nodes), 2))
        ends.add((a, b))

    def root(p):
        return p if parent[p] == p else root(parent[p])

    chosen = {}
    for a, b in rnd.sample(sorted(ends), len(ends)):
        if root(a) != root(b):
            chosen.setdefault(frozenset((root(a), root(b))), (a, b))
    return parent, [(a, b, int((a, b) in chosen.values())) for a, b in sorted(ends)]


class Bench:
    """Which actions can be taken, by counts and queues alone: what a value is does not matter here."""

    def __init__(self, parent, links):
        self.parent, self.nodes = parent, range(len(parent))
        self.neighbours, self.preferred = [[] for _ in self.nodes], [[] for _ in self.nodes]
        for a, b, flag in links:
            for p, q in ((a, b), (b, a)):
                self.neighbours[p].append(q)
                if flag:
                    self.preferred[p].append(q)
        self.children = [[c for c in self.nodes if parent[c] == p != c] for p in self.nodes]
        roots = [p for p in self.nodes if parent[p] == p]
        others = [p for p in self.nodes if parent[p] != p]
        pairs, preferred = ([(p, q) for p in self.nodes for q in some[p]] for some in (self.neighbours, self.preferred))
        self.actions = [(k, p) for k in (16, 21, 34, 35) for p in self.nodes]
        self.actions += [(k, p) for k in (24, 31) for p in roots] + [(k, p) for k in (22, 23, 25, 26, 29, 30, 32, 33) for p in others]
        self.actions += [(k, p, q) for k in (17, 18, 19, 20) for p, q in pairs] + [(k, p, q) for k in (27, 28) for p, q in preferred]
        self.needs = {action: self.needs_of(*action) for action in self.actions}

    def needs_of(self, kind, p, q=None):
        """Document 01's last column, but for output, whose input is of the round before."""
        knows = lambda x: (24 if self.parent[x] == x else 26, x)
        may_go = lambda x: (31 if self.parent[x] == x else 33, x)
        if kind in (22, 24):
            return [(21, p)] + [(23, c) for c in self.children[p]]
        if kind in (29, 31):
            return [knows(p)] + [(30, c) for c in self.children[p]] + [(28, x, p) for x in self.preferred[p]]
        if kind == 21:
            return [(16, p)] + [(20, x, p) for x in self.neighbours[p]]
        return [{
            16: (35, p), 17: (16, p), 18: (17, p, q), 19: (18, q, p), 20: (19, p, q), 23: (22, p), 25: knows(self.parent[p]), 26: (25, p),
            27: knows(p), 28: (27, p, q), 30: (29, p), 32: may_go(self.parent[p]), 33: (32, p), 34: may_go(p), 35: (34, p),
        }[kind]]

    def round_bytes(self):
        return sum(len(action) for action in self.actions)

    def wakes(self):
        """What may become possible by each action: itself again, what needs it, and the delivery behind the one that made room."""
        woken = {action: {action} for action in self.actions}
        for action in self.actions:
            for need in self.needs[action]:
                woken[need].add(action)
            if action[0] in (18, 20):
                woken[action].add((38 - action[0],) + action[1:])
        return {action: sorted(some) for action, some in woken.items()}

    def run(self, rnd, rounds):
        """Every action of every round, each time one by chance among those that may be possible."""
        count, queue, wakes = dict.fromkeys(self.actions, 0), {a[1:]: [] for a in self.actions if a[0] == 17}, self.wakes()
        may, known = list(self.actions), set(self.actions)
        while may:
            at = int(rnd.random() * len(may))
            action, may[at] = may[at], may[-1]
            may.pop()
            known.discard(action)
            kind, done = action[0], count[action]
            if done == rounds or any(count[need] + (kind == 16) <= done for need in self.needs[action]):
                continue
            if kind in (18, 20):
                if queue[action[1:]][:1] != [kind - 1]:
                    continue
                queue[action[1:]].pop(0)
            if kind in (17, 19):
                queue[action[1:]].append(kind)
            count[action] = done + 1
            yield bytes(action)
            may += [woken for woken in wakes[action] if woken not in known]
            known.update(wakes[action])
        assert set(count.values()) == {rounds}, "a run that stops early"


def trial(nodes, links, seed, length):
    rnd = random.Random(seed)
    parent, wires = make_plan(nodes, links, rnd)
    starts = [rnd.randrange(65536) for _ in parent]
    bench = Bench(parent, wires)
    size = 3 + 5 * nodes + 4 * len(wires) + 1
    rounds = max(1, min(10000, ((length or 65536) - size) // bench.round_bytes()))
    plan = bytes([1]) + rounds.to_bytes(2, "big")
    plan += b"".join(bytes([2, p, up]) + s.to_bytes(2, "big") for p, (up, s) in enumerate(zip(parent, starts)))
    plan += b"".join(bytes([3, a, b, flag]) for a, b, flag in wires) + b"\0"
    return plan + (b"".join(bench.run(rnd, rounds)) if length else b"")


if __name__ == "__main__":
    nodes, links, seed = (int(x) for x in sys.argv[1:4])
    sys.stdout.buffer.write(trial(nodes, links, seed, int(sys.argv[4]) if len(sys.argv) > 4 else 65536))
