"""Devices that fail: devices.py STEINER

Runs the program over files and outputs that fail: a file that is a folder, that isn't there or that may not be
read, a log under a name in a folder that isn't there or may not be written, or on a full disk, an output that is
full or whose reader is gone. Prints a line for each: the code, and whether a log stands under its name. Code 1
where one isn't as it has to be. (As root every file may be read and written; these rows are left out then.)"""
import os
import subprocess
import sys
import tempfile

FILE = ("33D32945 STP File, STP Format Version 1.0\nSECTION Graph\nNodes 2\nEdges 1\nE 1 2 5\nEND\n"
        "SECTION Terminals\nTerminals 2\nT 1\nT 2\nEND\nEOF\n")


def run(words, room, out=subprocess.DEVNULL):
    return subprocess.run(words, cwd=room, stdout=out, stderr=subprocess.DEVNULL, check=False).returncode


def run_closed(words, room):
    """The code of a run whose output nobody reads."""
    reader, writer = os.pipe()
    os.close(reader)
    try:
        return run(words, room, writer)
    finally:
        os.close(writer)


def rows(steiner, room):
    """What each row is called, its code, the code that it has to have, and the log that may not be there."""
    solve = [steiner, "solve", "a.stp"]
    yield "a file that isn't there", run([steiner, "solve", "none.stp"], room), 7, None
    yield "a file that is a folder", run([steiner, "solve", "folder"], room), 7, None
    yield "a log to check that is a folder", run([steiner, "check", "a.stp", "folder"], room), 7, None
    yield "a log in a folder that isn't there", run(solve + ["--log", "none/log"], room), 8, "none/log"
    yield "a log whose name is a folder's", run(solve + ["--log", "folder"], room), 8, None
    yield "a log on a full disk", run(solve + ["--log", "/dev/full"], room), 8, None
    with open("/dev/full", "w") as full:
        yield "an output that is full", run(solve, room, full), 8, None
    yield "an output whose reader is gone", run_closed(solve, room), 8, None
    if os.geteuid() != 0:
        yield "a file that may not be read", run([steiner, "solve", "closed.stp"], room), 7, None
        yield "a log in a folder that may not be written", run(solve + ["--log", "closed/log"], room), 8, "closed/log"


def main():
    steiner = os.path.abspath(sys.argv[1])
    right = True
    with tempfile.TemporaryDirectory() as room:
        for name in ("a.stp", "closed.stp"):
            with open(os.path.join(room, name), "w") as file:
                file.write(FILE)
        os.chmod(os.path.join(room, "closed.stp"), 0)
        os.mkdir(os.path.join(room, "folder"))
        os.mkdir(os.path.join(room, "closed"), 0o500)
        for name, code, wanted, log in rows(steiner, room):
            stands = log is not None and os.path.exists(os.path.join(room, log))
            told = "as it has to be" if code == wanted and not stands else f"but {wanted} is wanted, and no log"
            print(f"{name}: code {code}{', a log stands' if stands else ''}, {told}")
            right = right and code == wanted and not stands
        os.chmod(os.path.join(room, "closed"), 0o700)
    sys.exit(0 if right else 1)


main()
