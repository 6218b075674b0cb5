"""What a run of the merge check costs, crate by crate, in seconds of a processor.

    python3 measure/time/merge_check.py OUT &     while `rt ci` runs, in another shell
    python3 measure/time/merge_check.py --tell OUT

looks every second at the prover's processes of all runs of `rt ci` on this machine, until it is stopped, and writes what
each took into OUT; --tell sums that up: of each crate its proof (of a crate of tests: that of its tests), the base of its
edits, the edits, and in the last line all. What a process takes in its last second is missed.
"""
import collections
import json
import os
import re
import sys
import time

TICK = os.sysconf("SC_CLK_TCK")


def kind_of(words, folder):
    """Which part of the check a process is, or None where it is none of `rt ci`."""
    if "/rt-edit-" in folder:
        return "base" if re.search(r"/rt-edits-[^/]*/seed", words) else "edits"
    return None if "--incremental" in words else "proof"


def look(seen):
    for number in filter(str.isdigit, os.listdir("/proc")):
        try:
            with open(f"/proc/{number}/cmdline") as file:
                command = file.read().split("\0")
            if os.path.basename(command[0]) != "rattle":
                continue
            words, folder = " ".join(command[1:]), os.readlink(f"/proc/{number}/cwd")
            with open(f"/proc/{number}/stat") as file:
                parts = file.read().rsplit(")", 1)[1].split()
        except (OSError, IndexError):
            continue
        kind, name = kind_of(words, folder), re.search(r"--crate-name (\w+)", words)
        if kind and name:
            seen[f"{number} {parts[19]}"] = [name[1], kind, (int(parts[11]) + int(parts[12])) / TICK]


def tell(path):
    with open(path) as file:
        sums = collections.defaultdict(collections.Counter)
        for name, kind, seconds in json.load(file).values():
            sums[name][kind] += seconds
            sums["all"][kind] += seconds
    print(f"{'crate':22}{'proof':>8}{'base':>8}{'edits':>8}{'all':>8}")
    for name, parts in sorted(sums.items(), key=lambda item: item[1].total()):
        print(f"{name:22}" + "".join(f"{parts[kind]:8.0f}" for kind in ("proof", "base", "edits")) + f"{parts.total():8.0f}")


def main():
    if sys.argv[1:2] == ["--tell"]:
        return tell(sys.argv[2])
    seen = {}
    while True:
        look(seen)
        with open(sys.argv[1] + ".new", "w") as file:
            json.dump(seen, file)
        os.replace(sys.argv[1] + ".new", sys.argv[1])
        time.sleep(1)


main()
