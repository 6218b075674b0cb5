"""Which definitions a clause rests on, by their files.

    python3 measure/judge/believed.py [check | verify | solve | headline | CRATE/FILE:NAME ..]

follows the words and operators of each definition from those that are named, as cert_checker/Verdict:ConcludesIn, and tells
of each file of specs/ how many lines it has without imports and blank lines, and how many of these are the
definitions that are reached, with the comments above them; then the types of src/, and the words of the standard library
and of the kit's crates that are reached. `check`, which is what it does without words, begins at the clause `concludes`
of cert_checker's check_file; `verify` at the clause `tree` of solution_reader's verify; `headline` at the first clause of
steiner_top's run, and `solve` at what that says of the command of this name.
"""
import os
import re
import sys

CRATES = os.path.join(os.path.dirname(os.path.abspath(__file__)), "..", "..", "crates")
STARTS = {
    "check": ["cert_checker/Verdict:ConcludesIn", "stp_reader/Reads:ReadsFile"],
    "verify": ["solution_reader/Stated:IsStated", "solution_reader/Reads:ReadsSolution", "stp_reader/Reads:Reads"],
    "solve": ["steiner_top/Headline:SolvesFile", "command_line/Words:command_of"],
    "headline": ["steiner_top/Headline:Headline", "command_line/Words:command_of"],
}
KINDS = {"abbrev", "unfoldable", "pub", "record", "data"}


def file_of(crate, name):
    return os.path.join(CRATES, crate, "specs", name + ".antt")


def parsed(path):
    """What a file imports, words and modules, its definitions by name, and which of these each constructor is of."""
    imports, definitions, owner, comments, name = {}, {}, {}, [], None
    data, modules = set(), {}
    for line in open(path, encoding="utf-8").read().split("\n"):
        found = re.match(r"use Rattle\.(\w+)\.specs\.([\w.]+?)\.\{(.*)\}$", line)
        if found:
            for item in found.group(3).split(","):
                word = item.strip().split(" as ")
                imports[word[-1]] = (found.group(1), found.group(2), word[0])
        elif line.startswith("use "):
            name = None
            found = re.match(r"use Rattle\.(\w+)\.specs\.([\w.]+) as (\w+)$", line)
            if found:
                modules[found.group(3)] = (found.group(1), found.group(2))
        elif line.startswith("--"):
            comments.append(line)
            name = None
        elif line and not line[0].isspace():
            words = line.split()
            after = [word for word in words if word not in KINDS]
            if words[0] in KINDS:
                name = after[0]
                definitions[name] = comments + [line]
                comments = []
                if "data" in words:
                    data.add(name)
            elif words[0] in definitions:
                name = words[0]
                definitions[name].append(line)
            else:
                # An equation of an operator stands round its sign.
                name = next((sign for sign in definitions if "◌" in sign and has_sign(line, sign)), None)
                if name:
                    definitions[name].append(line)
        elif line.strip() and name:
            definitions[name].append(line)
            part = re.match(r"\s+(?:pub )?(\w+) :", line)
            if part and name in data:
                owner[part.group(1)] = name
    owner.update({each: each for each in definitions})
    return imports, modules, definitions, owner


def reached(starts):
    seen, types, files, kit = set(), set(), {}, {}
    waiting = [tuple(re.split("[/:]", start)) for start in starts]
    while waiting:
        crate, module, name = waiting.pop()
        if module.startswith("declared."):
            types.add((crate, module.split(".")[2]))
            continue
        path = file_of(crate, module)
        if not os.path.exists(path):
            kit.setdefault(crate, set()).add(name)
            continue
        if path not in files:
            files[path] = (parsed(path), set())
        (imports, modules, definitions, owner), used = files[path]
        name = owner.get(name, name)
        if name not in definitions or (path, name) in seen:
            continue
        seen.add((path, name))
        used.add(name)
        text = "\n".join(line for line in definitions[name] if not line.startswith("--"))
        words = set(re.findall(r"[\w'-]+", text)) | set(re.findall(r"[\w']+", text))
        words |= {sign for sign in [*imports, *owner] if "◌" in sign and has_sign(text, sign)}
        waiting += [imports[word] for word in words if word in imports]
        for part, word in re.findall(r"(\w+)\.(\w+)", text):
            if part in modules:
                waiting.append(modules[part] + (word,))
        waiting += [(crate, module, word) for word in words if word in owner]
    return files, types, kit


def has_sign(text, sign):
    """Whether an operator stands in a text, each part of it; a `do` block stands for `>>=`."""
    parts = [part for part in sign.split("◌") if part]
    if parts == [">>="] and re.search(r"\bdo\b", text):
        return True
    return all(re.search(r"(?<!\S)[(\[]*" + re.escape(part) + r"(?!\S)", text) for part in parts)


def main():
    words = sys.argv[1:] or ["check"]
    files, types, kit = reached([start for word in words for start in STARTS.get(word, [word])])
    all_lines = all_used = 0
    for path in sorted(files):
        (_, _, definitions, _), used = files[path]
        text = open(path, encoding="utf-8").read().split("\n")
        lines = sum(1 for line in text if line.strip() and not line.startswith("use "))
        needed = sum(len(definitions[name]) for name in used)
        all_lines += lines
        all_used += needed
        print(os.path.relpath(path, CRATES), lines, needed)
    print(len(files), "files,", all_lines, "lines,", all_used, "of them reached")
    print("types declared in src/:", ", ".join(sorted(crate + "::" + name for crate, name in types)))
    for crate in sorted(kit):
        print(f"words of {crate}:", " ".join(sorted(kit[crate])))


main()
