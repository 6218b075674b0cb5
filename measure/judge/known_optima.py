"""Solves files and checks the logs: known_optima.py STEINER FILE ..

Writes a line of a table for each file: its name, its vertices, links and terminals, the cost of its first
tree, the bound after the first node, the dual and the primal at the end, the nodes, the time and the
peak memory of `solve`, the size of the log, and the time of `check`. Of times, each the middle one of five
runs; the memory is what GNU time tells."""
import os
import statistics
import subprocess
import sys
import tempfile
import time

RUNS = 5


def run(words):
    """What the command writes. It may end with code 3."""
    return subprocess.run(words, stdout=subprocess.PIPE, check=False).stdout.decode()


def milliseconds(words):
    """The middle one of its times."""
    times = []
    for _ in range(RUNS):
        begin = time.monotonic()
        run(words)
        times.append(time.monotonic() - begin)
    return 1000 * statistics.median(times)


def megabytes(words, room):
    """Its peak memory."""
    told = os.path.join(room, "memory")
    run(["/usr/bin/time", "-f", "%M", "-o", told] + words)
    with open(told) as file:
        return int(file.read().split()[-1]) / 1024


def number(text, word):
    """The number after a word at the start of a line."""
    return next(int(line.split()[1]) for line in text.splitlines() if line.startswith(word + " "))


def row(steiner, path, room):
    log = os.path.join(room, "log")
    with open(path) as file:
        stp = file.read()
    first = run([steiner, "solve", path, "--nodes", "0"])
    root = run([steiner, "solve", path, "--nodes", "1"])
    solve = [steiner, "solve", path, "--log", log]
    check = [steiner, "check", path, log]
    answer = run(solve)
    verdict = run(check)
    with open(log) as file:
        nodes = sum(line.startswith(("S ", "C ")) for line in file)
    dual, primal = number(answer, "Dual"), number(answer, "Primal")
    wanted = f"optimal {primal}\n" if dual == primal else f"bound {dual} {primal}\n"
    if verdict != wanted:
        sys.exit(f"{path}: {verdict!r} in place of {wanted!r}")
    cells = [
        os.path.basename(path),
        ", ".join(str(number(stp, word)) for word in ("Nodes", "Edges", "Terminals")),
        number(first, "Primal"),
        number(root, "Dual"),
        dual,
        primal,
        nodes,
        f"{milliseconds(solve):.1f} ms",
        f"{megabytes(solve, room):.1f} MB",
        f"{os.path.getsize(log) / 1000:.1f} kB",
        f"{milliseconds(check):.1f} ms",
    ]
    return "| " + " | ".join(str(cell) for cell in cells) + " |"


def main():
    steiner, paths = sys.argv[1], sys.argv[2:]
    with tempfile.TemporaryDirectory() as room:
        for path in paths:
            print(row(steiner, path, room), flush=True)


main()
