"""Drawn and spoilt texts against the program: fuzz.py STEINER RUNS [SEED [WORKERS]]

Each run draws a small network, writes it as an STP file in one of many spellings, in half of the runs with
decimals and in a third with a line RootP, and may spoil the text.
A reader of its own says what the program has to answer: the line and the reason of a refusal, or an
instance, whose least cost a search over all sets of vertices tells: `solve` and, where nobody pays, `few` have
to answer it, and `verify` that what they send is a tree. The log that the program saves is judged by a checker
of its own, as it is, with splits at links above its proof, and spoilt, beside the program's `check`. The first difference ends the script, and leaves
the texts in a folder that it names."""
import itertools
import os
import random
import subprocess
import sys
import tempfile

REASONS = [
    "NoHeader", "BadLine", "UnknownSection", "RepeatedSection", "GraphFirst", "BadNumber", "Fraction",
    "OutOfRange", "VertexRange", "CountMismatch", "RepeatedPrize", "RootNotTerminal", "Directed",
    "Unclosed", "NoGraph", "NoTerminals", "NoVertices", "ScaleRange",
]
KINDS = {
    1: "BadLine", 2: "EndsEarly", 3: "NotTree", 4: "WrongCost", 5: "DualAbovePrimal", 6: "BadStep",
    7: "BadSplit", 8: "BadPacking", 9: "TooLight", 10: "BadWall",
}
MAGIC = "33D32945"
DIGITS = set(b"0123456789")


class Refused(Exception):
    """A text is refused at a line, for a reason or a kind."""

    def __init__(self, line, number):
        super().__init__(line, number)
        self.line, self.number = line, number


# ---------------------------------------------------------------- STP files


class Network:
    def __init__(self):
        self.vertices, self.links, self.required, self.pays = 0, {}, set(), {}
        self.unit = 10**6  # in millionths

    def link(self, a, b):
        return self.links.get((min(a, b), max(a, b)))

    def around(self, v):
        return [a + b - v for a, b in self.links if v in (a, b)]

    def pay(self, v):
        return 0 if v in self.required else self.pays.get(v, 0)

    def copy(self):
        other = Network()
        other.vertices, other.links = self.vertices, dict(self.links)
        other.required, other.pays, other.unit = set(self.required), dict(self.pays), self.unit
        return other

    def spelled(self, cost):
        """How the program writes a cost of so many units."""
        whole, rest = divmod(cost * self.unit, 10**6)
        return f"{whole}.{rest:06d}".rstrip("0") if rest else str(whole)


def cut_lines(text):
    lines = text.split(b"\n")
    if lines[-1] == b"":
        lines.pop()
    return [line[:-1] if line.endswith(b"\r") else line for line in lines]


def words_of(line):
    return line.replace(b"\t", b" ").split(b" ") if line.strip(b" \t") else []


def count_of(word, most):
    if not word or not set(word) <= DIGITS:
        return 6, 0
    return (0, int(word)) if int(word) <= most else (8, 0)


def vertex_of(word, last):
    if not word or not set(word) <= DIGITS:
        return 6, 0
    return (0, int(word)) if 1 <= int(word) <= last else (9, 0)


def amount_of(word):
    """Why a word is no amount, and its millionths."""
    whole, _, rest = word.partition(b".")
    if not whole or not set(whole) <= DIGITS or not set(rest) <= DIGITS:
        return {6}, 0
    reasons = set()
    if set(rest[6:]) - {ord("0")}:
        reasons.add(7)
    if int(whole) > 10**12:
        reasons.add(8)
    return reasons, int(whole) * 10**6 + int((rest + b"000000")[:6])


class Reader:
    """Reads an STP file line by line."""

    def __init__(self):
        self.network = Network()
        self.begun, self.section, self.seen = False, None, set()
        self.nodes = self.edges = self.terminals = None
        self.edge_lines = self.terminal_lines = 0
        self.roots, self.pinned, self.prized, self.listed = [], [], set(), set()
        self.amounts = []

    def scaled(self, reasons, amount):
        """The reasons of a line with this amount, and that of the scale."""
        amounts = self.amounts + [amount]
        fine = any(x % 10**6 for x in amounts)
        if not reasons and fine and any(x > 10**12 for x in amounts):
            return {18}
        if not reasons:
            self.amounts = amounts
        return reasons

    def refuse(self, line, reasons):
        if reasons:
            raise Refused(line, min(reasons))

    def read(self, text):
        lines = cut_lines(text)
        end = len(lines) + 1
        for at, line in enumerate(lines, 1):
            words = [word for word in words_of(line) if word]
            if not words or words[0].startswith(b"#"):
                continue
            if self.take(at, words):
                end = at
                break
        if not self.begun:
            raise Refused(end, 1)
        if self.section is not None:
            raise Refused(end, 14)
        if "GRAPH" not in self.seen:
            raise Refused(end, 15)
        if "TERMINALS" not in self.seen:
            raise Refused(end, 16)
        for v in self.listed | set(self.pinned):
            self.network.required.add(v)
        if any(x % 10**6 for x in self.amounts):
            self.network.unit = 1
        unit = 10**6 // self.network.unit
        for table in (self.network.links, self.network.pays):
            for key, x in table.items():
                table[key] = x * unit // 10**6
        return self.network

    def take(self, at, words):
        """Takes a line; whether it is the last."""
        key = words[0].upper()
        if not self.begun:
            self.begun = True
            if MAGIC.encode() in [word.upper() for word in words]:
                return False
            if key != b"SECTION":
                raise Refused(at, 1)
        if self.section is None:
            return self.outside(at, key, words)
        if self.section == "PASSED":
            if len(words) == 1 and key == b"END":
                self.section = None
        elif key == b"SECTION" or (key == b"EOF" and len(words) == 1):
            raise Refused(at, 14)
        elif self.section == "GRAPH":
            self.graph(at, key, words)
        else:
            self.list(at, key, words)
        return False

    def outside(self, at, key, words):
        if key == b"EOF" and len(words) == 1:
            return True
        if key != b"SECTION" or len(words) != 2:
            raise Refused(at, 2)
        name = words[1].upper().decode("latin-1")
        if name in ("COMMENT", "COMMENTS", "COORDINATES", "TREE"):
            self.section = "PASSED"
        elif name in ("GRAPH", "TERMINALS"):
            reasons = set()
            if name in self.seen:
                reasons.add(4)
            if name == "TERMINALS" and "GRAPH" not in self.seen:
                reasons.add(5)
            self.refuse(at, reasons)
            self.seen.add(name)
            self.section = name
        else:
            raise Refused(at, 3)
        return False

    def graph(self, at, key, words):
        if key in (b"ARCS", b"A"):
            raise Refused(at, 13)
        if self.nodes is None and key == b"NODES" and len(words) == 2:
            reason, self.nodes = count_of(words[1], 10**6)
            self.refuse(at, {reason} - {0} or ({17} if self.nodes == 0 else set()))
            self.network.vertices = self.nodes
        elif self.nodes is not None and self.edges is None and key == b"EDGES" and len(words) == 2:
            reason, self.edges = count_of(words[1], 4 * 10**6)
            self.refuse(at, {reason} - {0})
        elif self.edges is not None and key == b"E" and len(words) == 4:
            first, a = vertex_of(words[1], self.nodes)
            second, b = vertex_of(words[2], self.nodes)
            reasons, cost = amount_of(words[3])
            self.refuse(at, self.scaled(({first, second} | reasons) - {0}, cost))
            self.edge_lines += 1
            if a != b:
                pair = (min(a, b), max(a, b))
                self.network.links[pair] = min(cost, self.network.links.get(pair, cost))
        elif self.edges is not None and key == b"END" and len(words) == 1:
            self.refuse(at, {10} if self.edge_lines != self.edges else set())
            self.section = None
        else:
            raise Refused(at, 2)

    def list(self, at, key, words):
        if self.terminals is None and key == b"TERMINALS" and len(words) == 2:
            reason, self.terminals = count_of(words[1], 2 * 10**6)
            self.refuse(at, {reason} - {0})
        elif key == b"ROOT" and len(words) == 2 and not self.roots:
            reason, v = vertex_of(words[1], self.nodes)
            self.refuse(at, {reason} - {0})
            self.roots.append(v)
        elif key == b"ROOTP" and len(words) == 2 and not self.pinned:
            reason, v = vertex_of(words[1], self.nodes)
            self.refuse(at, {reason} - {0})
            self.pinned.append(v)
        elif self.terminals is not None and key == b"T" and len(words) == 2:
            reason, v = vertex_of(words[1], self.nodes)
            self.refuse(at, {reason} - {0})
            self.terminal_lines += 1
            self.listed.add(v)
        elif self.terminals is not None and key == b"TP" and len(words) == 3:
            reason, v = vertex_of(words[1], self.nodes)
            reasons, pay = amount_of(words[2])
            self.refuse(at, self.scaled(({reason} | reasons | ({11} if not reason and v in self.prized else set())) - {0}, pay))
            self.terminal_lines += 1
            self.prized.add(v)
            self.network.pays[v] = pay
        elif self.terminals is not None and key == b"END" and len(words) == 1:
            reasons = set()
            if self.terminals - self.terminal_lines not in range(len(self.pinned) + 1):
                reasons.add(10)
            if set(self.roots) - self.listed - set(self.pinned):
                reasons.add(12)
            if self.terminal_lines + len(self.pinned) == 0:
                reasons.add(16)
            self.refuse(at, reasons)
            self.section = None
        else:
            raise Refused(at, 2)


# ---------------------------------------------------------------- the least cost


def tree_links(network, members):
    """What a least spanning tree of these vertices costs; None where they aren't connected."""
    reached, cost = {members[0]}, 0
    while len(reached) < len(members):
        best = None
        for (a, b), c in network.links.items():
            if a in members and b in members and (a in reached) != (b in reached) and (best is None or c < best[0]):
                best = (c, a, b)
        if best is None:
            return None
        cost += best[0]
        reached |= {best[1], best[2]}
    return cost


def least_cost(network):
    every = range(1, network.vertices + 1)
    best = None
    for size in range(1, network.vertices + 1):
        for members in itertools.combinations(every, size):
            if not network.required <= set(members):
                continue
            links = tree_links(network, members)
            if links is not None:
                cost = links + sum(network.pay(v) for v in every if v not in members)
                best = cost if best is None else min(best, cost)
    return best


# ---------------------------------------------------------------- logs


class Log:
    """The lines of a log, read by their one spelling."""

    def __init__(self, text):
        pieces = text.split(b"\n")
        self.rest, self.lines, self.at = pieces.pop(), pieces, 0
        self.read()

    def bad(self):
        return Refused(self.at, 1)

    def next(self):
        if self.at == len(self.lines):
            raise Refused(self.at + 1, 2)
        self.at += 1
        return self.lines[self.at - 1].split(b" ")

    def number(self, word, low=0, high=2**64 - 1):
        if not word or not set(word) <= DIGITS or (word[0] == ord("0") and word != b"0"):
            raise self.bad()
        if not low <= int(word) <= high:
            raise self.bad()
        return int(word)

    def vertex(self, word):
        return self.number(word, 1, 10**6)

    def form(self, words, key, length=None):
        key = key.split(b" ")
        if words[: len(key)] != key or (length is not None and len(words) != len(key) + length):
            raise self.bad()
        return words[len(key) :]

    def ascending(self, words, length):
        if len(words) != length or length < 1:
            raise self.bad()
        vertices = [self.vertex(word) for word in words]
        if any(a >= b for a, b in zip(vertices, vertices[1:])):
            raise self.bad()
        return vertices

    def read(self):
        self.version = self.number(self.form(self.next(), b"STEINERLOG", 1)[0], 1, 2)
        words = self.next()
        if words == [b"CLAIM", b"NONE"]:
            self.primal = None
            words = self.form(self.next(), b"WALL")
            self.wall = self.ascending(words[1:], self.number(words[0] if words else b""))
        else:
            self.found(words)
        self.form(self.next(), b"END", 0)
        if self.at < len(self.lines) or self.rest:
            raise Refused(self.at + 1, 1)

    def found(self, words):
        self.primal, self.dual = map(self.number, self.form(words, b"CLAIM TREE", 2))
        words = self.form(self.next(), b"TREE", 2)
        self.start, count = self.vertex(words[0]), self.number(words[1])
        self.arcs = []
        for _ in range(count):
            self.arcs.append(tuple(map(self.vertex, self.form(self.next(), b"A", 2))))
        self.steps = []
        count = self.number(self.form(self.next(), b"STEPS", 1)[0])
        for _ in range(count):
            self.step(self.next())
        self.form(self.next(), b"PROOF", 0)
        self.proof, left = [], 1
        while left:
            left += self.half(self.next())

    def step(self, words):
        kind = words[0]
        if kind in (b"P", b"H", b"F"):
            self.steps.append((self.at, kind, self.vertex(self.form(words, kind, 1)[0])))
            return
        words = self.form(words, b"D")
        if len(words) < 3:
            raise self.bad()
        a, b, count = self.vertex(words[0]), self.vertex(words[1]), self.number(words[2], 1)
        if len(words) != 3 + count:
            raise self.bad()
        self.steps.append((self.at, kind, a, b, [self.vertex(word) for word in words[3:]]))

    def half(self, words):
        if words[0] == b"S":
            self.proof.append((self.at, "S", self.vertex(self.form(words, b"S", 1)[0])))
            return 1
        if words[0] == b"L" and self.version == 2:
            a, b = map(self.vertex, self.form(words, b"L", 2))
            if a >= b:
                raise self.bad()
            self.proof.append((self.at, "L", a, b))
            return 1
        words = self.form(words, b"C", 2)
        at, root, count = self.at, self.number(words[0], 0, 10**6), self.number(words[1])
        cuts = []
        for _ in range(count):
            words = self.form(self.next(), b"U")
            if len(words) < 4:
                raise self.bad()
            q, y, size = self.vertex(words[0]), self.number(words[1]), self.number(words[2], 1)
            cuts.append((self.ascending(words[3:], size), q, y))
        self.proof.append((at, "C", root, cuts))
        return -1


def is_tree(network, start, arcs):
    if start > network.vertices:
        return False
    reached = {start}
    for u, v in arcs:
        if u not in reached or v in reached or network.link(u, v) is None:
            return False
        reached.add(v)
    return network.required <= reached


def tree_cost(network, start, arcs):
    reached = {start} | {v for _, v in arcs}
    unpaid = sum(network.pay(v) for v in range(1, network.vertices + 1) if v not in reached)
    return sum(network.link(u, v) for u, v in arcs) + unpaid


def is_detour(network, a, b, inner):
    limit = network.link(a, b)
    if limit is None:
        return False
    paid, walk = 0, [a] + inner + [b]
    for u, v in zip(walk, walk[1:]):
        if network.link(u, v) is None or {u, v} == {a, b}:
            return False
        paid += network.link(u, v)
        if paid > limit:
            return False
        if v in network.required:
            paid = 0
    return True


class State:
    """What steps leave of a network."""

    def __init__(self, network):
        self.network, self.gone, self.offset = network.copy(), set(), 0

    def remove(self, v):
        self.gone.add(v)
        self.network.links = {pair: c for pair, c in self.network.links.items() if v not in pair}

    def take(self, step):
        """Takes a step; whether it may be taken."""
        kind, v, net = step[1], step[2], self.network
        if kind == b"D":
            return self.detour(*step[2:])
        if v > net.vertices or v in self.gone:
            return False
        ends = net.around(v)
        if kind == b"F":
            if v not in net.required or len(ends) != 1 or len(net.required) < 2:
                return False
            self.offset += net.link(v, ends[0])
            net.required = (net.required - {v}) | {ends[0]}
            net.pays[v] = 0
        elif v in net.required or net.pay(v) > 0:
            return False
        elif kind == b"P":
            if len(ends) > 1 or len(self.gone) + 1 >= net.vertices:
                return False
        else:
            if len(ends) != 2:
                return False
            cost, old = sum(net.link(v, w) for w in ends), net.link(*ends)
            net.links[min(ends), max(ends)] = cost if old is None else min(cost, old)
        self.remove(v)
        return True

    def detour(self, a, b, inner):
        if not is_detour(self.network, a, b, inner):
            return False
        del self.network.links[min(a, b), max(a, b)]
        return True


class Branch:
    """Vertices to reach and to avoid, links to use and to do without."""

    def __init__(self, inside, outside, must, barred):
        self.inside, self.outside, self.must, self.barred = map(frozenset, (inside, outside, must, barred))

    def halves(self, line):
        """Those of a split at a vertex or a link."""
        at = frozenset(line[2:])
        inside, outside, must, barred = self.inside, self.outside, self.must, self.barred
        if line[1] == "S":
            return Branch(inside | at, outside, must, barred), Branch(inside, outside | at, must, barred)
        link = {tuple(line[2:])}
        return Branch(inside | at, outside, must | link, barred), Branch(inside, outside, must, barred | link)

    def may_split(self, network, line):
        if line[1] == "S":
            v = line[2]
            return v <= network.vertices and v not in network.required | self.inside | self.outside
        link = tuple(line[2:])
        return link in network.links and not self.outside & set(link) and link not in self.must | self.barred


def load(cuts, u, v):
    """What the cuts lay on an arc."""
    return sum(y for members, _, y in cuts if v in members and u not in members)


def fits(network, branch, root, cuts):
    last, certain = network.vertices, network.required | branch.inside
    if (cuts and not root) or (root and root not in certain):
        return False
    named = {}
    for members, q, y in cuts:
        if root in members or q not in members or q in branch.outside or members[-1] > last:
            return False
        named[q] = named.get(q, 0) + y
    for (a, b), cost in network.links.items():
        if {a, b} & branch.outside or (a, b) in branch.barred:
            continue
        if max(load(cuts, a, b), load(cuts, b, a)) > cost:
            return False
    return all(q in certain or most <= network.pay(q) for q, most in named.items())


def weight(network, branch, cuts):
    spared = sum(network.link(a, b) - max(load(cuts, a, b), load(cuts, b, a)) for a, b in branch.must)
    return sum(network.pay(v) for v in branch.outside) + sum(y for _, _, y in cuts) + spared


def judge(network, log):
    """What `check` prints."""
    every = set(range(1, network.vertices + 1))
    if log.primal is None:
        wall = set(log.wall)
        across = any((a in wall) != (b in wall) for a, b in network.links)
        if not wall <= every or not network.required & wall or not network.required - wall or across:
            raise Refused(3, 10)
        return "no tree\n"
    if not is_tree(network, log.start, log.arcs):
        raise Refused(3, 3)
    if tree_cost(network, log.start, log.arcs) != log.primal:
        raise Refused(2, 4)
    if log.dual > log.primal:
        raise Refused(2, 5)
    state = State(network)
    for step in log.steps:
        if not state.take(step):
            raise Refused(step[0], 6)
    branches = [Branch((), state.gone, (), ())]
    for line in log.proof:
        branch = branches.pop()
        if line[1] != "C":
            if not branch.may_split(state.network, line):
                raise Refused(line[0], 7)
            yes, no = branch.halves(line)
            branches += [no, yes]
        else:
            if not fits(state.network, branch, line[2], line[3]):
                raise Refused(line[0], 8)
            if weight(state.network, branch, line[3]) + state.offset < log.dual:
                raise Refused(line[0], 9)
    primal = network.spelled(log.primal)
    return f"optimal {primal}\n" if log.dual == log.primal else f"bound {network.spelled(log.dual)} {primal}\n"


# ---------------------------------------------------------------- drawn texts


def written(draw, places, amount):
    """An amount as a word, divided by a power of ten in half of the files."""
    if not places:
        return amount
    whole, rest = divmod(amount, 10**places)
    word = f"{whole}.{rest:0{places}d}"
    return word + "0" * draw.randint(0, 3) if draw.random() < 0.3 else word.rstrip("0") if rest else word


def drawn(draw):
    """The lines of a small file."""
    n = draw.randint(1, 9)
    places = draw.randint(1, 6) if draw.random() < 0.5 else 0
    greatest = draw.choice([1, 3, 9, 100])
    links = [(draw.randint(1, n), draw.randint(1, n), draw.randint(0, greatest)) for _ in range(draw.randint(0, 2 * n))]
    if draw.random() < 0.8:
        links += [(draw.randint(1, v - 1), v, draw.randint(0, greatest)) for v in range(2, n + 1)]
    draw.shuffle(links)
    links = [(a, b, written(draw, places, cost)) for a, b, cost in links]
    share = draw.choice([0.0, 0.3, 0.6])
    terminals = [("T", v) for v in range(1, n + 1) if draw.random() < share]
    if draw.random() < 0.6:
        pays = [(v, draw.randint(0, 2 * greatest)) for v in range(1, n + 1) if draw.random() < 0.5]
        terminals += [("TP", v, written(draw, places, pay)) for v, pay in pays]
    pinned = draw.randint(1, n) if draw.random() < 0.33 else 0
    if not terminals and not pinned:
        terminals = [("TP", draw.randint(1, n), draw.randint(0, greatest))]
    draw.shuffle(terminals)
    if draw.random() < 0.1 and any(line[0] == "T" for line in terminals):
        root = draw.choice([line[1] for line in terminals if line[0] == "T"])
        terminals.insert(draw.randint(0, len(terminals)), ("Root", root))
    counted = sum(line[0] != "Root" for line in terminals)
    if pinned:
        terminals.insert(draw.randint(0, len(terminals)), ("RootP", pinned))
        counted += draw.randint(0, 1)
    rows = [(MAGIC, "STP", "File,", "STP", "Format", "Version", "1.0")]
    if draw.random() < 0.3:
        rows += [("SECTION", "Comment"), ("Name", '"a"'), ("END",)]
    rows += [("SECTION", "Graph"), ("Nodes", n), ("Edges", len(links))] + [("E",) + link for link in links] + [("END",)]
    rows += [("SECTION", "Terminals"), ("Terminals", counted)] + terminals + [("END",), ("EOF",)]
    return [" ".join(map(str, row)) for row in rows]


def spelt(draw, lines):
    """The text of the lines, in one of many spellings."""
    out = []
    for line in lines:
        if draw.random() < 0.05:
            line = line.lower() if draw.random() < 0.5 else line.upper()
        if draw.random() < 0.05:
            line = "\t" + line.replace(" ", "   ") + " "
        if draw.random() < 0.03:
            out.append(draw.choice(["", "# a remark", "   "]))
        out.append(line + ("\r" if draw.random() < 0.05 else ""))
    end = "" if draw.random() < 0.1 else "\n"
    return ("\n".join(out) + end).encode()


WORDS = [b"0", b"1", b"2", b"9", b"10", b"007", b"1000000", b"1000001", b"1000000000000", b"1000000000001", b"5.0",
         b"5.5", b"0.0000005", b"0.5000000", b"1000000.5", b".5", b"RootP", b"-1", b"x", b"E", b"T", b"TP", b"END", b"EOF", b"SECTION", b"A", b"18446744073709551616", b"C", b"S",
         b"L", b"U", b"D", b"P", b"H", b"F", b""]


def spoilt(draw, text):
    """The text with a change or two."""
    for _ in range(draw.randint(1, 2)):
        how, lines = draw.randint(0, 7), text.split(b"\n")
        at = draw.randrange(len(lines))
        if how == 0:
            text = text[: draw.randint(0, len(text))]
            continue
        if how == 1:
            lines.insert(at, lines[draw.randrange(len(lines))])
        elif how == 2:
            del lines[at]
        elif how == 3:
            other = draw.randrange(len(lines))
            lines[at], lines[other] = lines[other], lines[at]
        elif how == 4 and text:
            place = draw.randrange(len(text))
            text = text[:place] + bytes([draw.randrange(256)]) + text[place + 1 :]
            continue
        else:
            words = lines[at].split(b" ")
            words[draw.randrange(len(words))] = draw.choice(WORDS)
            lines[at] = b" ".join(words)
        text = b"\n".join(lines)
    return text


def nudged(draw, lines):
    """These lines of a proof, one cut of which may have a value that is a little less or greater."""
    lines = lines.split(b"\n")
    cuts = [at for at, line in enumerate(lines) if line.startswith(b"U ")]
    if cuts and draw.random() < 0.7:
        at = draw.choice(cuts)
        words = lines[at].split(b" ")
        words[2] = b"%d" % max(0, int(words[2]) + draw.choice([-3, -2, -1, 1, 2, 3]))
        lines[at] = b" ".join(words)
    return b"\n".join(lines)


def linked(draw, text, links):
    """The log with its proof twice, below a split at one of these links: in its halves the proof holds as well, unless it splits at
    an end; with a cut of another value it may, by what the link spares or because it is barred."""
    head, proof, rest = text.partition(b"\nPROOF\n")
    if not proof or not links:
        return text
    lines = rest[: -len(b"END\n")]
    split = b"L %d %d\n" % draw.choice(sorted(links))
    return head + proof + split + nudged(draw, lines) + nudged(draw, lines) + b"END\n"


# ---------------------------------------------------------------- runs


class Run:
    def __init__(self, steiner, room, draw, workers):
        self.steiner, self.room, self.draw, self.workers = steiner, room, draw, workers
        self.stp, self.log = os.path.join(room, "a.stp"), os.path.join(room, "a.log")
        self.solution = os.path.join(room, "a.sol")

    def call(self, *words):
        done = subprocess.run([self.steiner] + list(words), stdout=subprocess.PIPE, check=False, timeout=60)
        return done.returncode, done.stdout.decode("latin-1")

    def want(self, what, got, wanted):
        if got != wanted:
            sys.exit(f"{what}: {got!r} in place of {wanted!r}; the texts are in {self.room}")

    def save(self, path, text):
        with open(path, "wb") as file:
            file.write(text)

    def once(self):
        draw = self.draw
        text = spelt(draw, drawn(draw))
        if draw.random() < 0.4:
            text = spoilt(draw, text)
        self.save(self.stp, text)
        try:
            network = Reader().read(text)
        except Refused as fault:
            wanted = f"refused stp {fault.line} {fault.number} {REASONS[fault.number - 1]}\n"
            for word in ("solve", "few"):
                self.want(word, self.call(word, self.stp), (5, wanted))
            return
        if network.vertices <= 9:
            best = least_cost(network)
            self.solve(network, best)
            self.few(network, best)

    def solve(self, network, best):
        draw = self.draw
        words = ["--log", self.log] + [flag for flag in ("--plain", "--links") if draw.random() < 0.5]
        budget = draw.choice([None, None, 0, 1, 2, 3])
        words += [] if budget is None else ["--nodes", str(budget)]
        words += ["--workers", str(self.workers)] if self.workers > 1 else []
        status, answer = self.call("solve", self.stp, *words)
        with open(self.log, "rb") as file:
            text = file.read()
        if best is None:
            self.want("solve", (status, answer), (4, "infeasible\n"))
        else:
            self.found(network, status, answer, best, budget)
        self.check(network, text, status)
        for _ in range(3):
            text = linked(draw, text, network.links)
            self.check(network, text, None)
            self.check(network, spoilt(draw, text), None)

    def few(self, network, best):
        status, answer = self.call("few", self.stp)
        if any(network.pay(v) for v in range(1, network.vertices + 1)):
            self.want("few", (status, answer), (11, "not few 2 Prizes\n"))
        elif best is None:
            self.want("few", (status, answer), (4, "infeasible\n"))
        else:
            self.found(network, status, answer, best, None)

    def found(self, network, status, answer, best, budget):
        numbers = {}
        vertices, edges = set(), []
        for line in answer.splitlines():
            key, *rest = line.split(" ")
            if key in ("Dual", "Primal"):
                whole, _, decimals = rest[0].partition(".")
                numbers[key] = (int(whole) * 10**6 + int((decimals + "000000")[:6])) // network.unit
                self.want("spelling", network.spelled(numbers[key]), rest[0])
            elif key == "V":
                vertices.add(int(rest[0]))
            elif key == "E":
                edges.append(tuple(map(int, rest)))
        dual, primal = numbers["Dual"], numbers["Primal"]
        self.want("status", status, 0 if dual == primal else 3)
        if not dual <= best <= primal or (budget is None and primal != best):
            self.want("bounds", (dual, primal), best)
        start, arcs, reached = min(vertices), [], {min(vertices)}
        left = list(edges)
        while True:
            arc = next(((u, v) for a, b in left for u, v in ((a, b), (b, a)) if u in reached and v not in reached), None)
            if arc is None:
                break
            arcs.append(arc)
            reached.add(arc[1])
            left.remove((min(arc), max(arc)))
        self.want("tree", (reached, left, is_tree(network, start, arcs)), (vertices, [], True))
        self.want("cost", tree_cost(network, start, arcs), primal)
        self.save(self.solution, answer.encode("latin-1"))
        self.want("verify", self.call("verify", self.stp, self.solution), (0, f"tree {network.spelled(primal)}\n"))

    def check(self, network, text, status):
        self.save(self.log, text)
        try:
            wanted = judge(network, Log(text))
            code = {"o": 0, "b": 3, "n": 4}[wanted[0]]
        except Refused as fault:
            wanted, code = f"refused log {fault.line} {fault.number} {KINDS[fault.number]}\n", 6
        if status is not None:
            self.want("status of the log", code, status)
        self.want("check", self.call("check", self.stp, self.log), (code, wanted))


def main():
    steiner, runs = sys.argv[1], int(sys.argv[2])
    seed = int(sys.argv[3]) if len(sys.argv) > 3 else 1
    workers = int(sys.argv[4]) if len(sys.argv) > 4 else 1
    room = tempfile.mkdtemp()
    for k in range(runs):
        Run(steiner, room, random.Random(seed * 1_000_003 + k), workers).once()
    print(f"{runs} runs without a difference")


if __name__ == "__main__":
    main()
