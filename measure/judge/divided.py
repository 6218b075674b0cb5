#!/usr/bin/env python3
"""Drawn files with all amounts divided by 1, 10, .. 1000000: divided.py STEINER FILES [SEED]

Each of the seven texts of a file has to have the same best cost, divided as its amounts are and written with as
many decimals as it takes, and `check` has to accept the log that `solve` saves of it. The first difference ends the
script, and leaves the texts in a folder that it names."""
import os
import random
import subprocess
import sys
import tempfile

from fuzz import drawn

WORTH = 10**6


def divided(line, places):
    """A line of a file with its amount, if it has one, divided by a power of ten."""
    words = line.split(" ")
    if words[0] in ("E", "TP"):
        whole, rest = divmod(int(words[-1]), 10**places)
        words[-1] = f"{whole}.{rest:0{places}d}" if places else str(whole)
    return " ".join(words)


def spelled(millionths):
    whole, rest = divmod(millionths, WORTH)
    return f"{whole}.{rest:06d}".rstrip("0") if rest else str(whole)


class Program:
    def __init__(self, steiner, room):
        self.steiner, self.stp, self.log = steiner, os.path.join(room, "a.stp"), os.path.join(room, "a.log")

    def call(self, *words):
        done = subprocess.run([self.steiner, *words], stdout=subprocess.PIPE, check=False, timeout=60)
        return done.returncode, done.stdout.decode("latin-1")

    def answers(self, lines, places):
        """What `solve` says of a file that is divided so, as a word, and what `check` says of the log."""
        with open(self.stp, "w", encoding="ascii") as file:
            file.write("".join(divided(line, places) + "\n" for line in lines))
        status, answer = self.call("solve", self.stp, "--log", self.log)
        found = [line.split(" ")[1] for line in answer.splitlines() if line.startswith("Primal ")]
        return status, found[0] if found else answer, self.call("check", self.stp, self.log)


def whole_lines(draw):
    """The lines of a drawn file whose amounts are whole."""
    while True:
        lines = drawn(draw)
        if not any("." in line.split(" ")[-1] for line in lines if line.startswith(("E ", "TP "))):
            return lines


def main():
    files, seed = int(sys.argv[2]), int(sys.argv[3]) if len(sys.argv) > 3 else 1
    room = tempfile.mkdtemp()
    program, solved = Program(sys.argv[1], room), 0
    for k in range(files):
        lines = whole_lines(random.Random(seed * 1_000_003 + k))
        first = program.answers(lines, 0)
        solved += first[0] == 0
        for places in range(7):
            wanted = first
            if first[0] == 0:
                cost = spelled(int(first[1]) * WORTH // 10**places)
                wanted = 0, cost, (0, f"optimal {cost}\n")
            got = program.answers(lines, places)
            if got != wanted:
                sys.exit(f"divided by 10^{places}: {got!r} in place of {wanted!r}; the texts are in {room}")
    print(f"{files} files, {solved} of them with a tree, without a difference")


if __name__ == "__main__":
    main()
