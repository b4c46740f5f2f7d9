#!/usr/bin/env python3
"""differ.py BENCH PLAIN: the two programs on a thousand trials and more, long and short, valid and damaged; both must print the same lines, and
every answer of the program but 18, which none can give, must have come up."""
import random
import subprocess
import sys

from make import trial

LENGTH = {0: 1, 1: 3, 2: 5, 3: 4}
ANSWERS = set(range(20)) - {17, 18}


def damaged(data, rnd):
    """A few bytes changed, put in or lost anywhere."""
    data = bytearray(data)
    for _ in range(rnd.randrange(1, 4)):
        at = rnd.randrange(len(data) + 1)
        what = rnd.randrange(4)
        if what == 0 and at < len(data):
            data[at] = rnd.randrange(256)
        elif what == 1:
            del data[at:]
        elif what == 2:
            data[at:at] = bytes(rnd.randrange(40) for _ in range(rnd.randrange(1, 4)))
        elif at < len(data):
            del data[at]
    return bytes(data)


def miswired(data, rnd):
    """The plan's records in order, one of them wrong: a parent, a ring of parents, a flag, a lost link, too many nodes or links."""
    records, at = [], 0
    while data[at]:
        records.append(bytearray(data[at:at + LENGTH[data[at]]]))
        at += LENGTH[data[at]]
    nodes = [r for r in records if r[0] == 2]
    links = [r for r in records if r[0] == 3]
    what = rnd.randrange(6)
    if what == 0:
        rnd.choice(nodes)[2] = rnd.randrange(len(nodes) + 1)
    elif what == 1:
        child = rnd.choice(nodes)
        nodes[child[2]][2] = child[1]
    elif what == 2 and links:
        rnd.choice(links)[3] ^= 1
    elif what == 3 and links:
        links.remove(rnd.choice(links))
    elif what == 4:
        nodes += [bytearray([2, p, p, 0, 0]) for p in range(len(nodes), 65)]
    elif what == 5:
        links = [bytearray([3, a, b, 0]) for b in range(len(nodes)) for a in range(b)]
        links = sorted(links)[:129]
    return b"".join(records[:1] + nodes + links) + data[at:]


def trials():
    rnd = random.Random(588)
    yield b""
    for size in (65535, 65536, 65537, 70000):
        yield bytes(size)
    for seed in range(120):
        nodes = rnd.randrange(1, 65)
        links = min(128, nodes * (nodes - 1) // 2, nodes - 1 + rnd.randrange(0, 2 * nodes))
        data = trial(nodes, links, seed, rnd.choice((600, 2000, 6000, 20000, 65536)))
        yield data
        for _ in range(8):
            yield damaged(data, rnd)
            yield damaged(data[:len(data) // 8], rnd)
        for _ in range(6):
            yield miswired(data, rnd)


def main():
    seen, differ, longest = dict.fromkeys(ANSWERS, 0), 0, 0
    for number, data in enumerate(trials()):
        a, b = (subprocess.run([program], input=data, stdout=subprocess.PIPE).stdout for program in sys.argv[1:3])
        seen[int(a.split()[-2])] += 1
        longest = max(longest, len(data))
        if a != b:
            differ += 1
            print(f"trial {number} differs: {a[-40:]} {b[-40:]}")
    print(f"{number + 1} trials of 0 to {longest} bytes, {differ} differ; answers", " ".join(f"{k}:{n}" for k, n in sorted(seen.items())))
    sys.exit(differ != 0 or 0 in seen.values())


main()
