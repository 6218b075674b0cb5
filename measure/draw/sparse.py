"""Writes an STP file of a random connected network: sparse.py VERTICES LINKS TERMINALS SEED > FILE

Each vertex but the first is linked with one before it; the other links join random pairs. Costs are 1 to 10."""
import random
import sys


def main():
    vertices, links, terminals, seed = map(int, sys.argv[1:5])
    random.seed(seed)
    costs = {}
    for vertex in range(2, vertices + 1):
        costs[random.randrange(1, vertex), vertex] = random.randint(1, 10)
    while len(costs) < links:
        a, b = sorted(random.sample(range(1, vertices + 1), 2))
        if (a, b) not in costs:
            costs[a, b] = random.randint(1, 10)
    chosen = sorted(random.sample(range(1, vertices + 1), terminals))
    print("33D32945 STP File, STP Format Version 1.0")
    print(f"SECTION Graph\nNodes {vertices}\nEdges {links}")
    for (a, b), cost in costs.items():
        print(f"E {a} {b} {cost}")
    print(f"END\nSECTION Terminals\nTerminals {terminals}")
    for vertex in chosen:
        print(f"T {vertex}")
    print("END\nEOF")


main()
