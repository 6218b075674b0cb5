"""Solves files by more and more workers: workers.py STEINER WORKERS,.. FILE ..

Writes a line of a table for each file: for each number of workers the dual and the primal, the lines of the
proof, the time by the clock, the lines a second, and the peak memory. Of times each is the least of three runs;
a run that doesn't end within 60 seconds is written as `open`. The memory is what GNU time tells."""
import os
import re
import subprocess
import sys
import tempfile
import time

RUNS = 3
SECONDS = 60


def run(words, told):
    """What it writes, and its time; None where it doesn't end in time."""
    begin = time.monotonic()
    try:
        done = subprocess.run(
            ["/usr/bin/time", "-f", "%M", "-o", told] + words, stdout=subprocess.PIPE, timeout=SECONDS, check=False
        )
    except subprocess.TimeoutExpired:
        return None
    return done.stdout.decode(), time.monotonic() - begin


def number(text, word):
    return int(re.search(rf"^{word} (\d+)$", text, re.MULTILINE).group(1))


def cell(steiner, path, workers, room):
    log, told = os.path.join(room, "log"), os.path.join(room, "memory")
    best = None
    for _ in range(RUNS):
        done = run([steiner, "solve", path, "--log", log, "--workers", str(workers)], told)
        if done is None:
            return "open"
        answer, seconds = done
        with open(log) as file:
            lines = sum(line.startswith(("S ", "C ")) for line in file)
        with open(told) as file:
            memory = int(file.read().split()[-1]) / 1024
        verdict = subprocess.run([steiner, "check", path, log], stdout=subprocess.PIPE, check=False).stdout.decode()
        dual, primal = number(answer, "Dual"), number(answer, "Primal")
        if verdict != (f"optimal {primal}\n" if dual == primal else f"bound {dual} {primal}\n"):
            sys.exit(f"{path}: {verdict!r}")
        if best is None or seconds < best[0]:
            best = seconds, lines, memory, dual, primal
    seconds, lines, memory, dual, primal = best
    return f"{dual}, {primal}; {lines} in {seconds:.2f} s, {lines / seconds:.0f} a second, {memory:.0f} MB"


def main():
    steiner, counts, paths = sys.argv[1], [int(word) for word in sys.argv[2].split(",")], sys.argv[3:]
    print("| file | " + " | ".join(f"{count} worker" + "s" * (count > 1) for count in counts) + " |")
    print("|---" * (len(counts) + 1) + "|")
    with tempfile.TemporaryDirectory() as room:
        for path in paths:
            cells = [cell(steiner, path, count, room) for count in counts]
            print(f"| {os.path.basename(path)} | " + " | ".join(cells) + " |", flush=True)


main()
