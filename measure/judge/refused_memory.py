"""Memory refused at every place: refused_memory.py STEINER

Builds measure/judge/refuse_memory.c and runs `solve` of the odd wheel with a log, plainly and with one or two
workers, `check` of a log of the triangle, `gen 1 3 3 2`, `few` of the odd wheel, and `verify` of a solution
of the triangle, once for each request for memory, which is refused. A run whose request is refused ends as one in which none is; or with code 9, nothing sent and no log
saved; or with code 8 where the request was standard output's own, and no more than a front was sent. What
differs is printed, and then a line for each command: how many requests there are, and how many runs ended
in which way. Code 1 where anything differs."""
import collections
import os
import subprocess
import sys
import tempfile

HEADER = "33D32945 STP File, STP Format Version 1.0"
TRIANGLE = (HEADER + " / SECTION Graph / Nodes 4 / Edges 6 / E 1 4 2 / E 2 4 2 / E 3 4 2 / E 1 2 4 / E 2 3 4 / E 1 3 4 / END"
            " / SECTION Terminals / Terminals 3 / T 1 / T 2 / T 3 / END / EOF")
WHEEL = (HEADER + " / SECTION Graph / Nodes 7 / Edges 9 / E 1 2 2 / E 1 3 2 / E 1 4 2 / E 5 2 2 / E 5 3 2 / E 6 3 2 / E 6 4 2"
         " / E 7 2 2 / E 7 4 2 / END / SECTION Terminals / Terminals 4 / T 1 / T 5 / T 6 / T 7 / END / EOF")
COMMANDS = [
    ["solve", "wheel.stp", "--log", "log", "--plain"],
    ["solve", "wheel.stp", "--log", "log", "--plain", "--workers", "2"],
    ["solve", "triangle.stp", "--log", "log"],
    ["check", "triangle.stp", "triangle.log"],
    ["gen", "1", "3", "3", "2"],
    ["few", "wheel.stp"],
    ["verify", "triangle.stp", "triangle.sol"],
]


def run(words, room, fail_at, shim):
    """How the command ends: its code, what it sends, the log that it saves, and the number of requests."""
    log, count = os.path.join(room, "log"), os.path.join(room, "count")
    for path in (log, count):
        if os.path.exists(path):
            os.remove(path)
    env = dict(os.environ, LD_PRELOAD=shim, COUNT_TO=count, FAIL_AT=str(fail_at))
    done = subprocess.run(words, cwd=room, env=env, stdout=subprocess.PIPE, stderr=subprocess.DEVNULL, check=False)
    saved = None
    if os.path.exists(log):
        with open(log, "rb") as file:
            saved = file.read()
    with open(count) as file:
        return done.returncode, done.stdout, saved, int(file.read())


def verdict(steiner, command, room):
    """What a check says of the file and the log that a command saved."""
    words = [steiner, "check", command[1], "log"]
    return subprocess.run(words, cwd=room, stdout=subprocess.PIPE, stderr=subprocess.DEVNULL, check=False).stdout


def way(end, whole, is_judged, judge):
    """Which of the ways a run may end this is, or None. Several workers may find another of the best trees and
    another proof, so that what they save is judged."""
    code, sent, saved, _ = end
    if (code, sent, saved) == whole[:3]:
        return "as without a refusal"
    if is_judged and code == whole[0] and saved is not None and judge() == b"optimal 10\n":
        return "with a log that is accepted"
    if code == 9 and not sent and saved is None:
        return "code 9, nothing sent and no log"
    if code == 8 and whole[1].startswith(sent):
        return "code 8"
    return None


def try_all(command, steiner, room, shim):
    """Runs the command with each request refused; whether all ended as they may."""
    words = [steiner] + command
    whole = run(words, room, 0, shim)
    requests = whole[3]
    ways = collections.Counter()
    for number in range(1, requests + 1):
        end = run(words, room, number, shim)
        found = way(end, whole, "--workers" in command, lambda: verdict(steiner, command, room))
        if found is None:
            print(f"{' '.join(command)}, request {number}: code {end[0]}, sent {end[1]!r}, log {end[2]!r}")
        ways[found] += 1
    told = ", ".join(f"{count} {name}" for name, count in ways.items())
    print(f"{' '.join(command)}: code {whole[0]}, {requests} requests: {told}")
    return None not in ways


def main():
    steiner = os.path.abspath(sys.argv[1])
    source = os.path.join(os.path.dirname(os.path.abspath(__file__)), "refuse_memory.c")
    with tempfile.TemporaryDirectory() as room:
        shim = os.path.join(room, "refuse.so")
        subprocess.run(["gcc", "-shared", "-fPIC", "-o", shim, source], check=True)
        for name, lines in (("triangle.stp", TRIANGLE), ("wheel.stp", WHEEL)):
            with open(os.path.join(room, name), "w") as file:
                file.write("".join(line + "\n" for line in lines.split(" / ")))
        with open(os.path.join(room, "triangle.sol"), "wb") as file:
            subprocess.run([steiner, "solve", "triangle.stp", "--log", "triangle.log"], cwd=room, stdout=file, check=True)
        right = [try_all(command, steiner, room, shim) for command in COMMANDS]
    sys.exit(0 if all(right) else 1)


main()
