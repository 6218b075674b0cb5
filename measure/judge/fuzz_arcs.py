"""Drawn and spoilt directed files against the program: fuzz_arcs.py STEINER RUNS [SEED]

As fuzz.py does with files of edges: a reader of its own says what `solve` has to answer, and that the commands which
read edges alone refuse the file; the least cost comes from a recursion over sets of vertices; the log is judged by a
checker of its own, as it is and spoilt, beside the program's `check`."""
import random
import sys
import tempfile

import fuzz
from fuzz import Log, Network, Reader, Refused, load

REASONS = fuzz.REASONS + ["NoRoot"]


class Digraph(Network):
    """Arcs in the place of links, and a root."""

    def __init__(self):
        super().__init__()
        self.root = None

    def link(self, a, b):
        return self.links.get((a, b))


class ArcReader(Reader):
    """Reads files of either kind; `directed` tells which, once a line has told it."""

    def __init__(self):
        super().__init__()
        self.network, self.directed = Digraph(), None

    def graph(self, at, key, words):
        if self.directed is None and key in (b"ARCS", b"A", b"EDGES", b"E"):
            self.directed = key == b"ARCS"
        if key in ((b"EDGES", b"E") if self.directed else (b"ARCS", b"A")):
            raise Refused(at, 13)
        if key == b"ARCS":
            if self.nodes is None or self.edges is not None or len(words) != 2:
                raise Refused(at, 2)
            reason, self.edges = fuzz.count_of(words[1], 4 * 10**6)
            self.refuse(at, {reason} - {0})
        elif key == b"A":
            self.arc(at, words)
        else:
            super().graph(at, key, words)

    def arc(self, at, words):
        if self.edges is None or len(words) != 4:
            raise Refused(at, 2)
        first, a = fuzz.vertex_of(words[1], self.nodes)
        second, b = fuzz.vertex_of(words[2], self.nodes)
        reasons, cost = fuzz.amount_of(words[3])
        self.refuse(at, self.scaled(({first, second} | reasons) - {0}, cost))
        self.edge_lines += 1
        if a != b:
            self.network.links[a, b] = min(cost, self.network.links.get((a, b), cost))

    def list(self, at, key, words):
        if not self.directed:
            super().list(at, key, words)
        elif key in (b"TP", b"ROOTP"):
            raise Refused(at, 2)
        elif self.terminals is not None and key == b"END" and len(words) == 1:
            reasons = {10} if self.terminals != self.terminal_lines else set()
            reasons |= {16} if not self.terminal_lines else set()
            reasons |= {19} if not self.roots else set()
            self.refuse(at, reasons)
            self.network.root, self.section = self.roots[0], None
            self.network.required.add(self.roots[0])
        else:
            super().list(at, key, words)


def least_cost(network):
    """What a least arborescence costs: over the sets that one reaches, arc by arc."""
    best, found = {frozenset([network.root]): 0}, None
    for _ in range(network.vertices):
        more = {}
        for members, cost in best.items():
            if network.required <= members:
                found = cost if found is None else min(found, cost)
            for (u, v), c in network.links.items():
                if u in members and v not in members:
                    new = members | {v}
                    more[new] = min(cost + c, more.get(new, cost + c))
        best = more
    return found


def is_tree(network, start, arcs):
    return start == network.root and fuzz.is_tree(network, start, arcs)


def fits(network, inside, outside, root, cuts):
    if (cuts and not root) or (root and root != network.root):
        return False
    for members, q, _ in cuts:
        if root in members or q not in members or q in outside or members[-1] > network.vertices:
            return False
        if q not in network.required | inside:
            return False
    return all(load(cuts, u, v) <= cost for (u, v), cost in network.links.items() if not {u, v} & outside)


def judge(network, log):
    """What `check` prints."""
    every = set(range(1, network.vertices + 1))
    if log.primal is None:
        wall = set(log.wall)
        leaves = any(a in wall and b not in wall for a, b in network.links)
        if not wall <= every or network.root not in wall or network.required <= wall or leaves:
            raise Refused(3, 10)
        return "no tree\n"
    if not is_tree(network, log.start, log.arcs):
        raise Refused(3, 3)
    if sum(network.link(u, v) for u, v in log.arcs) != log.primal:
        raise Refused(2, 4)
    if log.dual > log.primal:
        raise Refused(2, 5)
    if log.steps:
        raise Refused(log.steps[0][0], 6)
    branches = [(frozenset(), frozenset())]
    for line in log.proof:
        inside, outside = branches.pop()
        if line[1] == "C":
            if not fits(network, inside, outside, line[2], line[3]):
                raise Refused(line[0], 8)
            if sum(y for _, _, y in line[3]) < log.dual:
                raise Refused(line[0], 9)
        elif line[1] == "L" or line[2] not in every - network.required - inside - outside:
            raise Refused(line[0], 7)
        else:
            branches += [(inside, outside | {line[2]}), (inside | {line[2]}, outside)]
    primal = network.spelled(log.primal)
    return f"optimal {primal}\n" if log.dual == log.primal else f"bound {network.spelled(log.dual)} {primal}\n"


def drawn(draw):
    """The lines of a small directed file."""
    n = draw.randint(1, 9)
    places = draw.randint(1, 6) if draw.random() < 0.5 else 0
    greatest = draw.choice([1, 3, 9, 100])
    arcs = [(draw.randint(1, n), draw.randint(1, n), draw.randint(0, greatest)) for _ in range(draw.randint(0, 3 * n))]
    root = draw.randint(1, n)
    if draw.random() < 0.8:
        order = [root] + draw.sample([v for v in range(1, n + 1) if v != root], n - 1)
        arcs += [(order[draw.randrange(k)], order[k], draw.randint(0, greatest)) for k in range(1, n)]
    draw.shuffle(arcs)
    arcs = [(a, b, fuzz.written(draw, places, cost)) for a, b, cost in arcs]
    share = draw.choice([0.2, 0.4, 0.7])
    terminals = [("T", v) for v in range(1, n + 1) if draw.random() < share] or [("T", draw.randint(1, n))]
    counted = len(terminals)
    draw.shuffle(terminals)
    if draw.random() < 0.95:
        terminals.insert(draw.randint(0, len(terminals)), ("Root", root))
    rows = [(fuzz.MAGIC, "STP", "File,", "STP", "Format", "Version", "1.0"), ("SECTION", "Graph"), ("Nodes", n)]
    rows += [("Arcs", len(arcs))] + [("A",) + arc for arc in arcs] + [("END",)]
    rows += [("SECTION", "Terminals"), ("Terminals", counted)] + terminals + [("END",), ("EOF",)]
    return [" ".join(map(str, row)) for row in rows]


class Run(fuzz.Run):
    def once(self):
        draw = self.draw
        text = fuzz.spelt(draw, drawn(draw))
        if draw.random() < 0.4:
            text = fuzz.spoilt(draw, text)
        self.save(self.stp, text)
        self.plain(text)
        reader = ArcReader()
        try:
            network = reader.read(text)
        except Refused as fault:
            wanted = f"refused stp {fault.line} {fault.number} {REASONS[fault.number - 1]}\n"
            self.want("solve", self.call("solve", self.stp), (5, wanted))
            return
        if reader.directed and network.vertices <= 9:
            self.solve(network, least_cost(network))

    def plain(self, text):
        """What a command that reads edges alone has to say."""
        try:
            Reader().read(text)
        except Refused as fault:
            wanted = f"refused stp {fault.line} {fault.number} {REASONS[fault.number - 1]}\n"
            self.want("few", self.call("few", self.stp), (5, wanted))

    def solve(self, network, best):
        draw = self.draw
        words = ["--log", self.log] + [flag for flag in ("--plain", "--links") if draw.random() < 0.5]
        budget = draw.choice([None, None, 0, 1, 2, 3])
        words += [] if budget is None else ["--nodes", str(budget)]
        status, answer = self.call("solve", self.stp, *words)
        with open(self.log, "rb") as file:
            text = file.read()
        if best is None:
            self.want("solve", (status, answer), (4, "infeasible\n"))
        else:
            self.found(network, status, answer, best, budget)
        self.check(network, text, status)
        for _ in range(5):
            self.check(network, fuzz.nudged(draw, text), None)
            self.check(network, fuzz.spoilt(draw, text), None)

    def found(self, network, status, answer, best, budget):
        numbers, vertices, arcs = {}, set(), []
        for line in answer.splitlines():
            key, *rest = line.split(" ")
            if key in ("Dual", "Primal"):
                whole, _, decimals = rest[0].partition(".")
                numbers[key] = (int(whole) * 10**6 + int((decimals + "000000")[:6])) // network.unit
                self.want("spelling", network.spelled(numbers[key]), rest[0])
            elif key == "V":
                vertices.add(int(rest[0]))
            elif key == "E":
                arcs.append(tuple(map(int, rest)))
        dual, primal = numbers["Dual"], numbers["Primal"]
        self.want("status", status, 0 if dual == primal else 3)
        if not dual <= best <= primal or (budget is None and primal != best):
            self.want("bounds", (dual, primal), best)
        self.want("order", arcs, sorted(arcs))
        grown, left = [], list(arcs)
        reached = {network.root}
        while any(u in reached for u, _ in left):
            arc = next(arc for arc in left if arc[0] in reached)
            left.remove(arc)
            grown.append(arc)
            reached.add(arc[1])
        self.want("tree", (reached, left, is_tree(network, network.root, grown)), (vertices, [], True))
        self.want("cost", sum(network.link(u, v) for u, v in arcs), primal)

    def check(self, network, text, status):
        self.save(self.log, text)
        try:
            wanted = judge(network, Log(text))
            code = {"o": 0, "b": 3, "n": 4}[wanted[0]]
        except Refused as fault:
            wanted, code = f"refused log {fault.line} {fault.number} {fuzz.KINDS[fault.number]}\n", 6
        if status is not None:
            self.want("status of the log", code, status)
        self.want("check", self.call("check", self.stp, self.log), (code, wanted))


def main():
    steiner, runs = sys.argv[1], int(sys.argv[2])
    seed = int(sys.argv[3]) if len(sys.argv) > 3 else 1
    room = tempfile.mkdtemp()
    for k in range(runs):
        Run(steiner, room, random.Random(seed * 1_000_003 + k), 1).once()
    print(f"{runs} runs without a difference")


if __name__ == "__main__":
    main()
