"""Spells the repository's own definitions and lemmas as the library does: words in snake case, types in upper camel case.

usage: python3 tools/spelling.py [--list]    at the top, once, after the scripts of the toolchain have turned the files

A name is one that a file of specs/ or a file of lemmas in proofs/ defines. Source names, strings, inputs, outputs and the names
of goals keep their spelling. With --list it only says what it would rename, and which names would fall together.
"""

import collections
import os
import re
import sys

DEF = re.compile(r"^\s*(?:(?:abbrev|unfoldable|opaque|pub|private)\s+)*(record|data)?\s*([^\s:(){},;.=|λ\[\]]+)((?:\s+(?:\((?:[^()]|\((?:[^()]|\([^()]*\))*\))*\)|\{[^{}]*\}))*)\s+:(\s+.*)?$")
WORD = re.compile(r"[^\s(){},;.:=\[\]\"`@]+")
# names that would fall together with another one of the same file, and plain ones for them
BY_HAND = {"entry-at": "entry_after"}
# one name in two crates, whose files never use both
APART = {"accelerator_at", "partition_at"}
# functions named after a Greek letter, or beside one: their lemmas join a name to theirs
LETTERS = {"Phi", "Psi", "Ahead"}
KEPT = {"Answers.antt", "Invariants.antt", "Proof.antt"}


def texts(root):
    for folder, dirs, files in os.walk(os.path.join(root, "crates")):
        dirs[:] = sorted(d for d in dirs if d != "out")
        for f in sorted(files):
            if f.endswith((".antt", ".rt", ".edit")):
                yield os.path.join(folder, f)


def read(path):
    with open(path, encoding="utf-8") as f:
        return f.read()


def defined(root):
    """Each name that is defined, with the lines that define it."""
    names = collections.defaultdict(list)
    for path in texts(root):
        if not path.endswith(".antt") or ("/proofs/" in path and os.path.basename(path) in KEPT):
            continue
        for line in read(path).split("\n"):
            if line.lstrip().startswith("--"):
                continue
            m = DEF.match(line)
            if m:
                names[m[2]].append((path, m[1] or "", line.strip()))
    return names


def spelled(name):
    if name in BY_HAND:
        return BY_HAND[name]
    if name[0].isupper():
        first, *rest = re.split("[-_]", name)
        if not rest or first in LETTERS:
            return name
        return first + "".join(w[:1].upper() + w[1:] for w in rest)
    return re.sub(r"(?<=[a-z0-9])([A-Z])", lambda m: "_" + m[1].lower(), name).replace("-", "_")


def turn(text, names):
    return WORD.sub(lambda m: names.get(m[0], m[0]), text)


def turn_answers(text, names):
    """The names of steps, as c.settle.new, are made from the source and stay."""
    return WORD.sub(lambda m: m[0] if re.search(r"(^|[^\w'.-])c\.$", text[max(0, m.start() - 3) : m.start()]) else names.get(m[0], m[0]), text)


def turn_page(text, names):
    """On a page only what stands in backquotes is a name."""
    return re.sub(r"`[^`\n]*`", lambda m: turn(m[0], names), text)


def turn_rt(text, names):
    """Comments stay."""
    out = []
    for line in text.split("\n"):
        at = line.find("//")
        code, note = (line, "") if at < 0 or '"' in line[:at] else (line[:at], line[at:])
        out.append(turn(code, names) + note)
    return "\n".join(out)


def main(argv):
    root = "."
    found = defined(root)
    names = {n: spelled(n) for n in found if spelled(n) != n}
    by = collections.defaultdict(set)
    for n in found:
        by[spelled(n)].add(n)
    together = {k: v for k, v in by.items() if len(v) > 1 and k not in APART}
    if "--list" in argv:
        for n in sorted(names):
            print(n, "->", names[n])
        for k, v in sorted(together.items()):
            print("fall together:", k, "from", ", ".join(sorted(v)))
        return 0
    if together:
        for k, v in sorted(together.items()):
            print("fall together:", k, "from", ", ".join(sorted(v)), file=sys.stderr)
        return 1
    pages = [os.path.join(d, f) for d in (root, os.path.join(root, "docs")) for f in sorted(os.listdir(d)) if f.endswith(".md")]
    for path in [*texts(root), *pages]:
        old = read(path)
        if path.endswith(".md"):
            new = turn_page(old, names)
        elif path.endswith((".rt", ".edit")):
            new = turn_rt(old, names)
        else:
            new = (turn_answers if os.path.basename(path) in KEPT else turn)(old, names)
        if new != old:
            with open(path, "w", encoding="utf-8") as f:
                f.write(new)
    return 0


if __name__ == "__main__":
    sys.exit(main(sys.argv[1:]))
