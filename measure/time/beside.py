"""Solves files beside other programs: beside.py [--processor] STEINER [OTHER ..] -- FILE ..

Writes a line of a table for each file: for each other program, a command that takes the file as its last
word, the time that it took and the cost that it said; for `steiner` the dual and the primal, the lines of
the proof, the time and the peak memory of `solve`, the size of the log, and the time of `check`. Of times each is the
least of three runs, by the clock or, with --processor, in seconds of a processor; a run that doesn't end within 60 seconds by
the clock is written as `open`. The memory
is what GNU time tells."""
import os
import re
import resource
import subprocess
import sys
import tempfile
import time

RUNS = 3
SECONDS = 60


def processor():
    """The seconds of a processor that all commands took that have ended."""
    usage = resource.getrusage(resource.RUSAGE_CHILDREN)
    return usage.ru_utime + usage.ru_stime


now = time.monotonic


def run(words):
    """What the command writes, and its time; None where it doesn't end in time."""
    begin = now()
    try:
        done = subprocess.run(words, stdout=subprocess.PIPE, timeout=SECONDS, check=False)
    except subprocess.TimeoutExpired:
        return None
    return done.stdout.decode(), now() - begin


def least(words):
    """What it writes, and the least of its times."""
    runs = [run(words)]
    if runs[0] is None:
        return None
    runs += [done for done in (run(words) for _ in range(RUNS - 1)) if done is not None]
    return runs[0][0], min(seconds for _, seconds in runs)


def number(text, word):
    return int(re.search(rf"^{word} (\d+)$", text, re.MULTILINE).group(1))


def other(command, path):
    done = least(command.split() + [path])
    if done is None:
        return "open"
    cost = re.search(r"(?:Primal|cost) (\d+)", done[0])
    return f"{cost.group(1) if cost else '?'}, {done[1]:.2f} s"


def ours(steiner, path, room):
    log, told = os.path.join(room, "log"), os.path.join(room, "memory")
    words = [steiner, "solve", path, "--log", log]
    done = least(words)
    if done is None:
        return "open | | | |"
    answer, seconds = done
    run(["/usr/bin/time", "-f", "%M", "-o", told] + words)
    with open(told) as file:
        memory = int(file.read().split()[-1]) / 1024
    with open(log) as file:
        lines = sum(line.startswith(("S ", "C ")) for line in file)
    verdict, checking = least([steiner, "check", path, log])
    dual, primal = number(answer, "Dual"), number(answer, "Primal")
    if verdict != (f"optimal {primal}\n" if dual == primal else f"bound {dual} {primal}\n"):
        sys.exit(f"{path}: {verdict!r}")
    size = os.path.getsize(log) / 1e6
    return f"{dual}, {primal}; {lines} | {seconds:.2f} s | {memory:.0f} MB | {size:.1f} MB | {checking:.2f} s"


def main():
    global now
    if sys.argv[1] == "--processor":
        now = processor
        del sys.argv[1]
    split = sys.argv.index("--")
    steiner, others, paths = sys.argv[1], sys.argv[2:split], sys.argv[split + 1 :]
    heads = [f"`{command}`" for command in others]
    heads += ["dual, primal; lines", "`solve`", "memory", "log", "`check`"]
    print("| file | " + " | ".join(heads) + " |")
    print("|---" * (len(heads) + 1) + "|")
    with tempfile.TemporaryDirectory() as room:
        for path in paths:
            cells = [other(command, path) for command in others] + [ours(steiner, path, room)]
            print(f"| {os.path.basename(path)} | " + " | ".join(cells) + " |", flush=True)


main()
