"""Dead links and broken tables of the documents.

    python3 measure/judge/links.py [FILE.md ..]

looks at the named files, or at each .md file of the repository. A link has to lead to a file that is there, and behind a # to
one of its headings; so has a heading that is named in words, as docs/MEASURED.md, "The merge check". Each row of a table has as
many columns as its head. What is wrong is printed with its file and line, and the code is then 1.
"""
import os
import re
import sys

TOP = os.path.normpath(os.path.join(os.path.dirname(os.path.abspath(__file__)), "..", ".."))
LINK = re.compile(r"\]\(([^()\s]+)\)|src=\"([^\"]+)\"")
NAMED = re.compile(r"(?:docs/)?([A-Z]+\.md),\s((?:\"[^\"]+\"(?:\sand\s|,\s)?)+)")


def documents():
    """The .md files of the repository, but for what was built."""
    for folder, folders, files in os.walk(TOP):
        folders[:] = sorted(name for name in folders if name not in ("out", ".git"))
        yield from (os.path.join(folder, name) for name in sorted(files) if name.endswith(".md"))


def lines_of(path):
    """The lines outside of fenced blocks, with their numbers; those inside are blank."""
    fenced = False
    with open(path, encoding="utf-8") as file:
        for number, line in enumerate(file, 1):
            if line.startswith("```"):
                fenced = not fenced
                yield number, ""
            else:
                yield number, "" if fenced else line.rstrip("\n")


def headings(path):
    return [line.lstrip("#").strip() for _, line in lines_of(path) if re.match(r"#+ ", line)]


def anchor(heading):
    """What stands behind the # of a link to this heading."""
    words = re.sub(r"\[([^\]]*)\]\([^)]*\)", r"\1", heading).lower()
    return re.sub(r"[^\w\- ]", "", words).replace(" ", "-")


def columns(row):
    """How many cells a row has; a bar behind a \\ or in a piece of code parts none."""
    row = re.sub(r"`[^`]*`|\\\|", "x", row.strip())
    return row.strip("|").count("|") + 1


def wrong_links(path, line):
    for link in (one or other for one, other in LINK.findall(line)):
        if re.match(r"[a-z]+:", link):
            continue
        name, _, place = link.partition("#")
        target = os.path.normpath(os.path.join(os.path.dirname(path), name)) if name else path
        if not os.path.exists(target):
            yield f"no such file: {link}"
        elif place and place not in map(anchor, headings(target)):
            yield f"no such heading: {link}"


def wrong_names(text):
    """Headings that are named in words, with the place in the text where they are."""
    for found in NAMED.finditer(text):
        target = os.path.join(TOP, "docs", found[1])
        there = headings(target) if os.path.exists(target) else []
        for heading in re.findall(r"\"([^\"]+)\"", found[2]):
            if " ".join(heading.split()) not in there:
                yield found.start(), f"no such heading: {found[1]}, \"{heading}\""


def wrong_rows(lines):
    head = None
    for number, line in lines:
        if not line.startswith("|"):
            head = None
        elif head is None:
            head = columns(line)
        elif columns(line) != head:
            yield number, f"{columns(line)} columns under a head of {head}"


def wrong_in(path):
    lines = list(lines_of(path))
    yield from wrong_rows(lines)
    yield from ((number, said) for number, line in lines for said in wrong_links(path, line))
    text = "\n".join(line for _, line in lines)
    yield from ((text.count("\n", 0, at) + 1, said) for at, said in wrong_names(text))


def main():
    count = 0
    for path in [os.path.abspath(name) for name in sys.argv[1:]] or documents():
        for number, said in sorted(wrong_in(path)):
            print(f"{os.path.relpath(path, TOP)}:{number}: {said}")
            count += 1
    sys.exit(1 if count else 0)


main()
