#!/usr/bin/env python3
"""table.py: the rows of the table of docs/SPEED.md, and how the cost grows, from lines `NODES, LINKS ACTIONS BENCH PLAIN NS NS`: instructions an
action, and nanoseconds of the whole list."""
import sys

rows = []
for line in sys.stdin:
    nodes, links, *numbers = line.split()
    taken, bench, plain, fast, slow = (float(x) for x in numbers)
    costs = (bench, plain, fast / taken, slow / taken)
    rows.append(costs)
    print(f"| {nodes} {links} | {taken:,.0f} | {costs[0]:.1f} | {costs[1]:.1f} | {costs[0] / costs[1]:.2f}"
          f" | {costs[2]:.1f} | {costs[3]:.1f} | {costs[2] / costs[3]:.2f} |", flush=True)
grown = [last / first for first, last in zip(rows[0], rows[-1])]
print(f"| 2 to 64 nodes | | × {grown[0]:.2f} | × {grown[1]:.2f} | | × {grown[2]:.2f} | × {grown[3]:.2f} | |")
