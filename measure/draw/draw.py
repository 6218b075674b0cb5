"""Draws the network of an STP file and the best tree that the solver finds, as an SVG picture.

    python3 measure/draw/draw.py STEINER FILE [--out NAME.svg] [--moats] [--nodes N]

STEINER is the binary. Where the file has a section Coordinates (lines `DD v x y`), vertices stand there; else a layout is made
in which distances are as near as may be to what paths cost. Terminals are squares, vertices that pay are diamonds, others
circles; the tree is blue. With --moats the file is solved without its reduction, and where the log closes its first node the cuts are
drawn round their vertices, the first ones darkest: their values are the dual. A network of more than 400 vertices without coordinates is
refused, since the layout takes the square of their number.
"""
import argparse
import heapq
import math
import os
import random
import subprocess
import sys
import tempfile

LARGEST_LAYOUT = 400
TURNS = 60
SIDE = 640.0
MARGIN = 40.0


def lines_of(text):
    """The lines of a text as lists of words, without blank ones and remarks."""
    words = (line.split() for line in text.splitlines())
    return [line for line in words if line and not line[0].startswith('#')]


def read_file(name):
    """The number of vertices, cost by link, terminals, prize by vertex and place by vertex that a file states."""
    count, links, terminals, prizes, places, section = 0, {}, set(), {}, {}, ''
    for line in lines_of(open(name, encoding='utf-8', errors='replace').read()):
        word = line[0].upper()
        if word == 'SECTION':
            section = line[1].upper()
        elif word == 'END':
            section = ''
        elif section == 'GRAPH' and word == 'NODES':
            count = int(line[1])
        elif section == 'GRAPH' and word == 'E':
            u, v, cost = int(line[1]), int(line[2]), float(line[3])
            pair = (min(u, v), max(u, v))
            if u != v:
                links[pair] = min(cost, links.get(pair, cost))
        elif section == 'TERMINALS' and word in ('T', 'ROOTP'):
            terminals.add(int(line[1]))
        elif section == 'TERMINALS' and word == 'TP':
            prizes[int(line[1])] = float(line[2])
        elif section == 'COORDINATES' and word == 'DD':
            places[int(line[1])] = (float(line[2]), float(line[3]))
    return count, links, terminals, prizes, places


def solve(steiner, name, nodes, moats):
    """What the solver answers: the tree's vertices and edges, primal and dual, and the lines of the log's proof."""
    with tempfile.TemporaryDirectory() as folder:
        log = os.path.join(folder, 'log')
        words = [steiner, 'solve', name, '--nodes', str(nodes), '--log', log] + (['--plain'] if moats else [])
        answer = subprocess.run(words, capture_output=True, text=True)
        if answer.returncode not in (0, 3):
            sys.exit(f'{name}: {answer.stdout.strip()} (exit code {answer.returncode})')
        proof = lines_of(open(log).read())
    vertices, edges, costs = set(), set(), {}
    for line in lines_of(answer.stdout):
        if line[0] == 'V':
            vertices.add(int(line[1]))
        elif line[0] == 'E':
            edges.add((int(line[1]), int(line[2])))
        elif line[0] in ('Primal', 'Dual'):
            costs[line[0]] = line[1]
    return vertices, edges, costs, proof[proof.index(['PROOF']) + 1:]


def cuts_of(proof):
    """The sets of the cuts that close the first node, if it was closed at once."""
    if proof[0][0] != 'C':
        sys.exit('the first node was split: there is no one dual solution to be drawn')
    return [[int(word) for word in line[4:]] for line in proof if line[0] == 'U']


def distances(count, links):
    """The distance between each two vertices by what links cost, a dictionary by vertex of dictionaries; none is below a tenth of the mean."""
    near = {v: [] for v in range(1, count + 1)}
    floor = sum(links.values()) / max(1, len(links)) / 10 or 1.0
    for (u, v), cost in links.items():
        near[u].append((v, max(cost, floor)))
        near[v].append((u, max(cost, floor)))
    by_start = {}
    for start in near:
        done, waiting = {}, [(0.0, start)]
        while waiting:
            far, u = heapq.heappop(waiting)
            if u not in done:
                done[u] = far
                for v, cost in near[u]:
                    heapq.heappush(waiting, (far + cost, v))
        by_start[start] = done
    return by_start


def laid_out(count, links):
    """Places by stochastic descent on the stress of a layout (Zheng, Pawar and Goodman 2018)."""
    if count > LARGEST_LAYOUT:
        sys.exit(f'{count} vertices without coordinates: {LARGEST_LAYOUT} are the most that are laid out')
    draws = random.Random(count)
    pairs = [(u, v, far) for u, to in distances(count, links).items() for v, far in to.items() if u < v]
    longest = max((far for _, _, far in pairs), default=1.0)
    shortest = min((far for _, _, far in pairs), default=1.0)
    places = {v: [longest * draws.random(), longest * draws.random()] for v in range(1, count + 1)}
    for turn in range(TURNS):
        draws.shuffle(pairs)
        rate = longest ** 2 * (shortest / longest / 3) ** (2 * turn / TURNS)
        for u, v, wanted in pairs:
            x, y = places[u][0] - places[v][0], places[u][1] - places[v][1]
            length = math.hypot(x, y) or 1e-9
            share = min(1.0, rate / wanted ** 2) * (length - wanted) / 2 / length
            places[u][0] -= share * x
            places[u][1] -= share * y
            places[v][0] += share * x
            places[v][1] += share * y
    return places


def scaled(places):
    """Places within the picture, and its height."""
    xs, ys = [p[0] for p in places.values()], [p[1] for p in places.values()]
    wide, high = max(xs) - min(xs), max(ys) - min(ys)
    scale = SIDE / (max(wide, high) or 1.0)
    at = {v: (MARGIN + scale * (x - min(xs)), MARGIN + scale * (max(ys) - y)) for v, (x, y) in places.items()}
    return at, scale * wide + 2 * MARGIN, scale * high + 2 * MARGIN


def hull(points):
    """The corners of the convex hull of points, in order (Andrew 1979)."""
    points = sorted(set(points))
    if len(points) < 3:
        return points
    halves = []
    for row in (points, points[::-1]):
        half = []
        for p in row:
            while len(half) > 1 and (half[-1][0] - half[-2][0]) * (p[1] - half[-2][1]) <= (half[-1][1] - half[-2][1]) * (p[0] - half[-2][0]):
                half.pop()
            half.append(p)
        halves += half[:-1]
    return halves


def moat(at, vertices, width):
    """A cut as a rounded shape round its vertices."""
    points = [(x + turn, y) for x, y in (at[v] for v in vertices) for turn in (0.0, 0.1)]
    corners = ' '.join(f'{x:.1f},{y:.1f}' for x, y in hull(points))
    return (f'<polygon points="{corners}" fill="#e08a00" stroke="#e08a00" stroke-width="{width:.1f}" '
            'stroke-linejoin="round" opacity="0.16"/>')


def link(at, pair, in_tree, cost, shade):
    """A link, and its cost where there is room for it."""
    (a, b), (x, y) = at[pair[0]], at[pair[1]]
    look = 'stroke="#1f5fa8" stroke-width="5"' if in_tree else f'stroke="#b0b0b0" stroke-width="1.5" opacity="{shade:.2f}"'
    drawn = f'<line x1="{a:.1f}" y1="{b:.1f}" x2="{x:.1f}" y2="{y:.1f}" {look}/>'
    if cost is None:
        return drawn
    return drawn + f'<text x="{(a + x) / 2:.1f}" y="{(b + y) / 2 + 5:.1f}" class="cost">{cost:g}</text>'


def vertex(at, v, size, in_tree, is_terminal, prize):
    """A vertex by what it is."""
    x, y = at[v]
    fill = '#1f5fa8' if in_tree else '#ffffff'
    if is_terminal:
        shape = f'<rect x="{x - size:.1f}" y="{y - size:.1f}" width="{2 * size:.1f}" height="{2 * size:.1f}" fill="#b3261e"'
    elif prize:
        shape = (f'<rect x="{x - size:.1f}" y="{y - size:.1f}" width="{2 * size:.1f}" height="{2 * size:.1f}" '
                 f'transform="rotate(45 {x:.1f} {y:.1f})" fill="{fill}"')
    else:
        shape = f'<circle cx="{x:.1f}" cy="{y:.1f}" r="{size:.1f}" fill="{fill}"'
    return shape + f' stroke="#303030"><title>{v}{f", pays {prize:g}" if prize else ""}</title></{shape[1:].split()[0]}>'


def picture(network, answer, moats):
    """The text of the picture."""
    count, links, terminals, prizes, places = network
    vertices, edges, costs, proof = answer
    at, wide, high = scaled(places if len(places) == count else laid_out(count, links))
    size = max(2.5, min(11.0, 90.0 / math.sqrt(count)))
    shapes = []
    if moats:
        cuts = sorted(cuts_of(proof), key=len, reverse=True)
        shapes += [moat(at, inside, 2 * size + 14 + 3 * len(inside)) for inside in cuts]
    shown, shade = len(links) <= 60, min(1.0, 400 / max(1, len(links)))
    for pair in sorted(links, key=lambda pair: pair in edges):
        shapes.append(link(at, pair, pair in edges, links[pair] if shown else None, shade))
    shapes += [vertex(at, v, size, v in vertices, v in terminals, prizes.get(v)) for v in range(1, count + 1)]
    said = f'tree {costs["Primal"]}, bound {costs["Dual"]}'
    head = (f'<svg xmlns="http://www.w3.org/2000/svg" viewBox="0 0 {wide:.0f} {high + 30:.0f}" font-family="sans-serif">\n'
            '<style>.cost{font-size:15px;text-anchor:middle;fill:#303030;paint-order:stroke;stroke:#ffffff;stroke-width:4px}'
            '.said{font-size:18px;text-anchor:middle;fill:#303030}</style>\n'
            f'<rect width="{wide:.0f}" height="{high + 30:.0f}" fill="#ffffff"/>\n')
    return head + '\n'.join(shapes) + f'\n<text x="{wide / 2:.0f}" y="{high + 15:.0f}" class="said">{said}</text>\n</svg>\n'


def main():
    words = argparse.ArgumentParser(description=__doc__.splitlines()[0])
    words.add_argument('steiner')
    words.add_argument('file')
    words.add_argument('--out')
    words.add_argument('--moats', action='store_true')
    words.add_argument('--nodes', type=int, default=1000000)
    asked = words.parse_args()
    answer = solve(asked.steiner, asked.file, asked.nodes, asked.moats)
    out = asked.out or os.path.splitext(os.path.basename(asked.file))[0] + '.svg'
    with open(out, 'w', encoding='utf-8') as file:
        file.write(picture(read_file(asked.file), answer, asked.moats))
    print(out)


if __name__ == '__main__':
    main()
