"""The crates and what each does, as docs/CRATES.md has it.

    python3 measure/judge/crates.py > docs/CRATES.md

takes the order of the layers and of the crates in them from the table of docs/ARCHITECTURE.md, what each stands on from crates.txt, and
what it does from the `//!` lines at the head of its root file. Where that table lacks a crate, has one more, or says of one that it
stands on others than crates.txt says, this is printed on standard error, and the code is then 1. A row names the crates directly below:
what these stand on is left out.
"""
import os
import re
import sys

TOP = os.path.join(os.path.dirname(os.path.abspath(__file__)), "..", "..")
INTRO = """# Crates

What each crate does, and what its callers may rely on, as the head of its root file says. This file is made by
`python3 measure/judge/crates.py > docs/CRATES.md`. [ARCHITECTURE.md](ARCHITECTURE.md) says how the crates stand together, what is proved of each
and what is only tested or neither. [DEFINITIONS.md](DEFINITIONS.md) says what the words of the contracts mean, and [GLOSSARY.md](GLOSSARY.md) puts
them beside those of the field.

The edits that the prover must refuse, and the data of the programs of the merge check, stand in each crate's `must-fail/` and `data/`."""


def text_of(*names):
    with open(os.path.join(TOP, *names), encoding="utf-8") as file:
        return file.read()


def dependencies():
    """What each crate stands on, by crates.txt."""
    lines = (line.partition(":") for line in text_of("crates.txt").splitlines() if ":" in line and not line.startswith("#"))
    return {name.strip(): below.split() for name, _, below in lines}


def layers():
    """The rows of the table: a layer's name, or a crate with what it stands on."""
    for line in text_of("docs", "ARCHITECTURE.md").splitlines():
        layer = re.match(r"\| \*\*(\w+)\*\* \|", line)
        crate = re.match(r"\| `(\w+)` \| ([^|]*) \| [^|]* \| [^|]* \|$", line)
        if layer:
            yield layer[1], None
        elif crate:
            yield crate[1], re.findall(r"`(\w+)`", crate[2])


def all_below(names, below):
    """These crates, and all that they stand on."""
    return set(names).union(*(all_below(below.get(name, []), below) for name in names))


def wrong_rows(rows, below):
    crates = {name: named for name, named in rows if named is not None}
    libraries = {name for name in below if not name.startswith("checks_")}
    yield from (f"ARCHITECTURE.md has no row of {name}" for name in sorted(libraries - set(crates)))
    yield from (f"crates.txt has no {name}" for name in sorted(set(crates) - libraries))
    for name in sorted(libraries & set(crates)):
        if all_below(crates[name], below) != all_below(below[name], below):
            yield f"{name} stands on others than ARCHITECTURE.md says"


def head(name):
    """What stands at the head of a crate's root file."""
    root = next(root for root in ("lib.rt", "main.rt") if os.path.exists(os.path.join(TOP, "crates", name, "src", root)))
    lines = text_of("crates", name, "src", root).splitlines()
    return "\n".join(line[3:].removeprefix(" ") for line in lines if line.startswith("//!"))


def section(name, below):
    standing = ", ".join(f"`{other}`" for other in below[name])
    return f"\n### {name}\n\n{head(name)}\n" + (f"\nStands on {standing}." if standing else "\nStands on no other crate.")


def main():
    below, rows = dependencies(), list(layers())
    wrong = list(wrong_rows(rows, below))
    print(INTRO)
    for name, named in rows:
        print(f"\n## {name.capitalize()}" if named is None else section(name, below) if name in below else "")
    print("\n## Tests\n\nA crate of tests for each layer, over the libraries that it names.\n\n| crate | what it has |\n|---|---|")
    for name in sorted(name for name in below if name.startswith("checks_")):
        print(f"| `{name}` | {' '.join(head(name).split())} |")
    for said in wrong:
        print(said, file=sys.stderr)
    sys.exit(1 if wrong else 0)


main()
