"""Solves files with and without reduction steps: reduced.py STEINER FILE ..

Writes a line of a table for each file: its name; its vertices, links and terminals, and those that the
steps of the log leave; the nodes, the time and the size of the log with `--plain` and without; and what
the steps take: the time without a budget, less that with `--plain`. Of times, each the middle one of
three runs. Both logs are checked."""
import os
import statistics
import subprocess
import sys
import tempfile
import time

RUNS = 3


def run(words):
    """What the command writes. It may end with code 3."""
    return subprocess.run(words, stdout=subprocess.PIPE, check=False).stdout.decode()


def milliseconds(words):
    """The middle one of its times."""
    times = []
    for _ in range(RUNS):
        begin = time.monotonic()
        run(words)
        times.append(time.monotonic() - begin)
    return 1000 * statistics.median(times)


def instance(path):
    """The links at each vertex, and the terminals."""
    links, terminals = {}, set()
    with open(path) as file:
        for line in file:
            words = line.split()
            if not words:
                continue
            key = words[0].upper()
            if key == "NODES":
                links = {v: {} for v in range(1, int(words[1]) + 1)}
            elif key == "E":
                a, b, cost = int(words[1]), int(words[2]), int(float(words[3]))
                if a != b:
                    cost = min(cost, links[a].get(b, cost))
                    links[a][b] = links[b][a] = cost
            elif key in ("T", "TP"):
                terminals.add(int(words[1]))
    return links, terminals


def drop(links, v):
    """Takes a vertex out, and answers where its links led."""
    ends = links.pop(v)
    for w in ends:
        del links[w][v]
    return ends


def take(links, terminals, words):
    """Takes the step that a line of a log says."""
    kind, v = words[0], int(words[1])
    if kind == "D":
        w = int(words[2])
        del links[v][w], links[w][v]
        return
    ends = drop(links, v)
    if kind == "H":
        (a, x), (b, y) = ends.items()
        cost = min(x + y, links[a].get(b, x + y))
        links[a][b] = links[b][a] = cost
    elif kind == "F":
        terminals.discard(v)
        terminals.add(next(iter(ends)))


def sizes(links, terminals):
    return f"{len(links)}, {sum(map(len, links.values())) // 2}, {len(terminals)}"


def solved(steiner, path, log, words):
    """The answer, and the lines of the log, which is checked."""
    answer = run([steiner, "solve", path, "--log", log] + words)
    cost = next(line.split()[1] for line in answer.splitlines() if line.startswith("Primal "))
    verdict = run([steiner, "check", path, log])
    if not verdict.startswith(("optimal " + cost, "bound ")):
        sys.exit(f"{path}: {verdict!r} of a tree of cost {cost}")
    with open(log) as file:
        return cost, [line.split() for line in file]


def row(steiner, path, room):
    log = os.path.join(room, "log")
    cells, costs = [], set()
    for words in (["--plain"], []):
        cost, lines = solved(steiner, path, log, words)
        costs.add(cost)
        nodes = sum(line[0] in ("S", "C") for line in lines)
        whole = milliseconds([steiner, "solve", path, "--log", log] + words)
        cells.append((nodes, whole, os.path.getsize(log)))
    links, terminals = instance(path)
    before = sizes(links, terminals)
    steps = next(k for k, line in enumerate(lines) if line[0] == "STEPS")
    for line in lines[steps + 1 : steps + 1 + int(lines[steps][1])]:
        take(links, terminals, line)
    begin = milliseconds([steiner, "solve", path, "--nodes", "0"])
    begin -= milliseconds([steiner, "solve", path, "--nodes", "0", "--plain"])
    (nodes, whole, size), (nodes_left, whole_left, size_left) = cells
    name = os.path.basename(path)
    print(
        f"| {name} | {before} | {sizes(links, terminals)} | {nodes} → {nodes_left} "
        f"| {whole:.0f} → {whole_left:.0f} ms | {max(begin, 0):.0f} ms | {size} → {size_left} |",
        flush=True,
    )
    if len(costs) != 1:
        sys.exit(f"{path}: costs {sorted(costs)}")


def main():
    steiner, paths = sys.argv[1], sys.argv[2:]
    print("| file | vertices, links, terminals | left | nodes | time | of steps | bytes of the log |")
    print("|---|---|---|---|---|---|---|")
    with tempfile.TemporaryDirectory() as room:
        for path in paths:
            row(steiner, path, room)


main()
