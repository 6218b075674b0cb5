"""Writes an STP file and a log that splits it DEPTH times deep: long_log.py DEPTH FILE LOG.

Nobody has to be reached and nobody pays, so each of the 2^DEPTH branches is closed without a cut. A depth of 23 gives
92 MB, and each more doubles them.
"""

import sys


def main():
    depth, file, log = int(sys.argv[1]), sys.argv[2], sys.argv[3]
    count = depth + 1
    with open(file, "w") as out:
        out.write("33D32945\nSECTION Graph\n")
        out.write(f"Nodes {count}\nEdges {depth}\n")
        for vertex in range(1, count):
            out.write(f"E {vertex} {vertex + 1} 1\n")
        out.write("END\nSECTION Terminals\nTerminals 1\nTP 1 0\nEND\nEOF\n")
    proof = "C 0 0\n"
    shallow = min(depth, 16)
    for vertex in range(count, count - shallow, -1):
        proof = f"S {vertex}\n{proof}{proof}"
    with open(log, "w") as out:
        out.write("STEINERLOG 1\nCLAIM TREE 0 0\nTREE 1 0\nSTEPS 0\nPROOF\n")
        for block in range(2 ** (depth - shallow)):
            first = depth - shallow if block == 0 else (block & -block).bit_length() - 1
            for level in range(depth - shallow - first, depth - shallow):
                out.write(f"S {level + 2}\n")
            out.write(proof)
        out.write("END\n")


main()
