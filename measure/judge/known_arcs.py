"""Solves files of edges as directed ones: known_arcs.py STEINER SECONDS FILE ..

Each file in which nobody pays is written with both arcs of each edge, its first terminal as root, and has to come to the
same optimum. Writes a line of a table for each: its name, its vertices, arcs and terminals, the dual and the primal of
the directed file, the nodes, the time of `solve` and the size of its log, the time of `check`, and the times of `solve` and of
`solve --plain` of the file of edges. A run that takes longer than SECONDS is stopped, and no number stands for it."""
import os
import subprocess
import sys
import tempfile
import time


def run(words, seconds):
    """What the command writes and the milliseconds that it takes, if it ends in time."""
    begin = time.monotonic()
    try:
        done = subprocess.run(words, stdout=subprocess.PIPE, check=False, timeout=seconds)
    except subprocess.TimeoutExpired:
        return None, None
    return done.stdout.decode(), 1000 * (time.monotonic() - begin)


def directed(text):
    """The file with both arcs of each edge, and its first terminal as root; None where somebody pays."""
    lines, edges, terminals, nodes = text.splitlines(), [], [], 0
    for words in (line.split() for line in lines):
        if not words:
            continue
        if words[0] == "TP":
            return None
        if words[0] == "Nodes":
            nodes = int(words[1])
        elif words[0] == "E":
            edges.append(words[1:])
        elif words[0] == "T":
            terminals.append(words[1])
    out = [lines[0], "SECTION Graph", f"Nodes {nodes}", f"Arcs {2 * len(edges)}"]
    for a, b, cost in edges:
        out += [f"A {a} {b} {cost}", f"A {b} {a} {cost}"]
    out += ["END", "SECTION Terminals", f"Terminals {len(terminals)}", f"Root {terminals[0]}"]
    out += [f"T {v}" for v in terminals] + ["END", "EOF"]
    return "\n".join(out) + "\n", f"{nodes}, {2 * len(edges)}, {len(terminals)}"


def number(text, word):
    """The number after a word at the start of a line."""
    return next(line.split()[1] for line in text.splitlines() if line.startswith(word + " "))


def shown(milliseconds):
    return "" if milliseconds is None else f"{milliseconds:.1f} ms"


def row(steiner, seconds, path, room):
    stp, log = os.path.join(room, "a.stp"), os.path.join(room, "a.log")
    with open(path) as file:
        made = directed(file.read())
    if made is None:
        return None
    with open(stp, "w") as file:
        file.write(made[0])
    answer, took = run([steiner, "solve", stp, "--log", log], seconds)
    undirected, time_of_edges = run([steiner, "solve", path], seconds)
    _, time_of_plain = run([steiner, "solve", path, "--plain"], seconds)
    cells = [os.path.basename(path), made[1]]
    if answer is None:
        cells += ["", "", "", "", "", ""]
    else:
        dual, primal = number(answer, "Dual"), number(answer, "Primal")
        if undirected and number(undirected, "Dual") == number(undirected, "Primal") and dual == primal and primal != number(undirected, "Primal"):
            sys.exit(f"{path}: {primal} in place of {number(undirected, 'Primal')}")
        verdict, checked = run([steiner, "check", stp, log], seconds)
        wanted = f"optimal {primal}\n" if dual == primal else f"bound {dual} {primal}\n"
        if verdict is not None and verdict != wanted:
            sys.exit(f"{path}: {verdict!r} in place of {wanted!r}")
        with open(log) as file:
            nodes = sum(line.startswith(("S ", "C ")) for line in file)
        cells += [dual, primal, nodes, shown(took), f"{os.path.getsize(log) / 1000:.1f} kB", shown(checked)]
    cells += [shown(time_of_edges), shown(time_of_plain)]
    return "| " + " | ".join(str(cell) for cell in cells) + " |"


def main():
    steiner, seconds, paths = sys.argv[1], float(sys.argv[2]), sys.argv[3:]
    with tempfile.TemporaryDirectory() as room:
        for path in paths:
            line = row(steiner, seconds, path, room)
            if line is not None:
                print(line, flush=True)


main()
