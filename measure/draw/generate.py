"""Writes an STP file of random links and terminals: generate.py VERTICES LINKS TERMINALS [mixed] > FILE

With `mixed` every tenth line is followed by a remark, keywords stand in capitals or small letters by
turns, and every second line of the terminals gives a prize."""
import random
import sys


def main():
    vertices, links, terminals = map(int, sys.argv[1:4])
    mixed = len(sys.argv) > 4
    random.seed(7)

    def vertex():
        return random.randrange(vertices) + 1

    out = sys.stdout
    written = 0

    def line(text):
        nonlocal written
        written += 1
        out.write((text.lower() if mixed and written % 2 else text) + "\n")
        if mixed and written % 10 == 0:
            out.write("# a remark\n")

    out.write("33D32945 STP File, STP Format Version 1.0\n")
    line("SECTION Graph")
    line(f"Nodes {vertices}")
    line(f"Edges {links}")
    for _ in range(links):
        line(f"E {vertex()} {vertex()} {random.randrange(1000000)}")
    line("END")
    line("SECTION Terminals")
    line(f"Terminals {terminals}")
    for index in range(terminals):
        # Prizes go to vertices by turns, since no vertex may have two.
        line(f"TP {index // 2 + 1} {vertex()}" if mixed and index % 2 else f"T {vertex()}")
    line("END")
    line("EOF")


main()
