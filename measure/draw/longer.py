"""Writes an STP file of a shape over which a search takes longer, by a seed:

longer.py cube DIMENSION SEED > FILE
longer.py incidence VERTICES LINKS TERMINALS SEED > FILE
longer.py grid WIDTH HEIGHT TERMINALS SEED > FILE

`cube`: the corners of a hypercube, each second one a terminal; a link costs 100 to 110. `incidence`: a random
connected network, in which a link costs about 100, and 100 more for each of its ends that is a terminal. Both
are shapes of SteinLib's sets (hc and i160, i320). `grid`: all links to the right and down, at 1 to 100."""
import random
import sys


def cube(dimension):
    corners = range(1 << dimension)
    pairs = [(corner, corner ^ 1 << place) for corner in corners for place in range(dimension)]
    links = {(a + 1, b + 1): random.randint(100, 110) for a, b in pairs if a < b}
    terminals = [corner + 1 for corner in corners if bin(corner).count("1") % 2 == 0]
    return len(corners), links, terminals


def incidence(vertices, links, terminals):
    chosen = sorted(random.sample(range(1, vertices + 1), terminals))
    pairs = {(random.randrange(1, vertex), vertex) for vertex in range(2, vertices + 1)}
    while len(pairs) < links:
        pairs.add(tuple(sorted(random.sample(range(1, vertices + 1), 2))))
    ends = set(chosen)
    means = {(a, b): 100 * (1 + (a in ends) + (b in ends)) for a, b in sorted(pairs)}
    return vertices, {pair: max(1, round(random.gauss(mean, 5))) for pair, mean in means.items()}, chosen


def grid(width, height, terminals):
    vertices = width * height
    links = {}
    for vertex in range(1, vertices + 1):
        if vertex % width:
            links[vertex, vertex + 1] = random.randint(1, 100)
        if vertex + width <= vertices:
            links[vertex, vertex + width] = random.randint(1, 100)
    return vertices, links, sorted(random.sample(range(1, vertices + 1), terminals))


def main():
    shape, *numbers, seed = sys.argv[1:]
    random.seed(int(seed))
    vertices, links, terminals = {"cube": cube, "incidence": incidence, "grid": grid}[shape](*map(int, numbers))
    print("33D32945 STP File, STP Format Version 1.0")
    print(f"SECTION Graph\nNodes {vertices}\nEdges {len(links)}")
    for (a, b), cost in links.items():
        print(f"E {a} {b} {cost}")
    print(f"END\nSECTION Terminals\nTerminals {len(terminals)}")
    for vertex in terminals:
        print(f"T {vertex}")
    print("END\nEOF")


main()
