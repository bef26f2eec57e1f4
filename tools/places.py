#!/usr/bin/env python3
"""Where the sources read like an older language: a list for each point, by text alone.

    python3 tools/places.py [FOLDER]     the places below FOLDER/crates/*/src, with a count for each measure

What it lists is to be read: not each place listed is one to change.
"""
import collections
import glob
import re
import sys

ROOT = sys.argv[1] if len(sys.argv) > 1 else "."


def sources():
    for path in sorted(glob.glob(f"{ROOT}/crates/*/src/**/*.rt", recursive=True)):
        with open(path) as file:
            yield path[len(ROOT) + 1 :], file.read().split("\n")


def functions(lines):
    """(line number, name, head, clauses, body) of each function, each part as lines."""
    at = 0
    while at < len(lines):
        found = re.match(r"(\s*)(pub(\([a-z]+\))? )?(final )?fn (\w+)", lines[at])
        if not found:
            at += 1
            continue
        start, indent = at, found.group(1)
        head, clauses, body, part = [], [], [], "head"
        while at < len(lines):
            line = lines[at]
            if part == "head" and re.match(r"\s*(requires|ensures)\b", line):
                part = "clauses"
            (head if part == "head" else clauses if part == "clauses" else body).append(line)
            if part != "body" and (line.rstrip() == indent + "{" or (part == "head" and line.rstrip().endswith("{"))):
                part = "body"
            if line.rstrip().endswith(";") and part != "body" and line.startswith(indent) and not line.startswith(indent + " " * 8):
                break
            if line.rstrip() in (indent + "}", indent + "{}"):
                break
            at += 1
        yield start + 1, found.group(5), head, clauses, body
        at += 1


def listed(title, places):
    print(f"\n{title}: {len(places)}")
    for place in places:
        print("   ", place)


def by_line(pattern, also=lambda line: True):
    return [
        f"{path}:{n + 1}: {line.strip()}"
        for path, lines in sources()
        for n, line in enumerate(lines)
        if re.search(pattern, line) and also(line)
    ]


def enums():
    """Point 1."""
    found = []
    for path, lines in sources():
        for n, line in enumerate(lines):
            if re.match(r"\s*(pub(\([a-z]+\))? )?enum ", line):
                cases = []
                for case in lines[n + 1 :]:
                    if case.strip() == "}":
                        break
                    named = re.match(r"\s*(\w+)(\(.*\)| \{.*\})?,", case)
                    if named:
                        cases.append(named.group(0).strip(" ,"))
                found.append(f"{path}:{n + 1}: {line.strip()} {' | '.join(cases)} }}")
    listed("1. enums (read each for the shape of Option or Result)", found)
    listed("1. flags in structs and parameters", by_line(r"^\s+(pub )?\w+: bool,|\(.*\w+: bool[,)]"))
    listed("1. numbers that stand for none or for a kind", by_line(r"\bNO_[A-Z]+\b|=> 0,|else \{ 0 \}|^\s+0$|print_refusal\(\w+( \w+)*, \d+\)|; past "))


def normal(body):
    text = re.sub(r"//.*", "", " ".join(body))
    text = re.sub(r'b?"[^"]*"', "S", text)
    text = re.sub(r"\b\d[\d_]*\b", "N", text)
    text = re.sub(r"\b[A-Z]\w*(::[A-Z]\w*)*\b", "T", text)
    return re.sub(r"\s+", " ", text)


def twins():
    """Point 2."""
    groups = collections.defaultdict(list)
    for path, lines in sources():
        for n, name, head, _, body in functions(lines):
            if len([line for line in body if line.strip() not in ("", "{", "}")]) >= 1:
                groups[normal(body)].append(f"{path}:{n} {name}")
    alike = [members for members in groups.values() if len(members) > 1]
    listed("2. functions with the same body but for types, numbers and texts", [", ".join(m) for m in alike])
    print(f"    ({sum(len(m) for m in alike)} functions)")


def loops():
    """Point 3."""
    listed("3. while loops", by_line(r"^\s*while "))
    listed("3. for loops over a range", by_line(r"^\s*for \w+ in .*\.\."))


def by_hand():
    """Point 4."""
    listed("4. impls by hand of what can be derived", by_line(r"^impl.* (Clone|Copy|PartialEq|Eq|PartialOrd|Ord|Default|Hash|Debug) for"))
    listed("4. matches that hand an Ok or an Err on", by_line(r"^\s*(Ok\((\w+|\(\))\) => (Ok|Answer)|Err\(\w+\) => (Err|Answer))"))
    literals = []
    for path, lines in sources():
        text = "\n".join(lines)
        for found in re.finditer(r"(\w+) \{((?:\s*\w+: (?:0|false|None|Stage::Empty|\[0; \d+\]),){2,})\s*\}", text):
            literals.append(f"{path}:{text[: found.start()].count(chr(10)) + 1}: {found.group(1)}")
    listed("4. literals of zeros alone", literals)
    copies = []
    for path, lines in sources():
        text = "\n".join(lines)
        for found in re.finditer(r"(\w+) \{((?:\s*[^{}]*?,)+)\s*\}", text):
            same = re.findall(r"(\w+): (\w+)\.(\w+),", found.group(2))
            if len([s for s in same if s[0] == s[2]]) >= 3:
                copies.append(f"{path}:{text[: found.start()].count(chr(10)) + 1}: {found.group(1)}")
    listed("4. literals that copy three fields or more of another value", copies)
    listed("4. printing by hand", [f"{path}:{n} {name}" for path, lines in sources() for n, name, _, _, _ in functions(lines) if re.match(r"(print|tell|layer_name)", name)])


def together():
    """Point 5."""
    clauses = collections.defaultdict(set)
    runs = collections.defaultdict(set)
    for path, lines in sources():
        crate = path.split("/")[1]
        for n, name, head, conditions, _ in functions(lines):
            for line in conditions:
                found = re.match(r"\s*requires( \w+)? \{ (.*) \}", line)
                if found:
                    clauses[crate, found.group(2)].add(f"{name}")
                found = re.match(r"\s*ensures( \w+)? \{ (.*) \}", line)
                if found and "≡" not in found.group(2):
                    clauses[crate, "-> " + found.group(2)].add(f"{name}")
            parameters = re.findall(r"(\w+): (&?(?:mut )?[\w\[\]<>']+)", " ".join(head))
            for i, one in enumerate(parameters):
                for other in parameters[i + 1 :]:
                    runs[crate, one, other].add(name)
    listed("5. facts in the contracts of three functions or more", [f"{c}: {{ {fact} }} in {len(who)}: {', '.join(sorted(who))}" for (c, fact), who in sorted(clauses.items()) if len(who) > 2])
    listed("5. pairs of parameters in three functions or more", [f"{c}: {a[0]}, {b[0]} in {len(who)}: {', '.join(sorted(who))}" for (c, a, b), who in sorted(runs.items()) if len(who) > 2])


def buffers():
    """Point 6."""
    listed("6. arrays in structs", by_line(r"^\s+(pub )?\w+: \[[\w<>]+; \w+\],"))
    listed("6. counts in structs", by_line(r"^\s+(pub )?(len|count|\w+_count): \w+,"))
    listed("6. local tables that are filled", by_line(r"let mut \w+ = \[|^\s*\}; \d+\];"))


def steps():
    """Point 7."""
    listed("7. traits with their impls", by_line(r"^(pub )?trait |^impl.*\bfor "))
    listed("7. function pointers, dyn, closures", by_line(r"\bfn\(|\bdyn |[(=] ?(move )?\|[\w&*(), ]*\| |impl Fn|: Fn"))


def proofs():
    """Point 8."""
    rows = []
    for crate in sorted(glob.glob(f"{ROOT}/crates/*")):
        files = glob.glob(f"{crate}/proofs/**/*.antt", recursive=True)
        answers = [f for f in files if f.endswith("Answers.antt")]
        count = lambda fs: sum(open(f).read().count("\n") for f in fs)
        rows.append(f"{crate.split('/')[-1]}: {len(answers)} answers in {count(answers)} lines, {len(files) - len(answers)} other files in {count(set(files) - set(answers))} lines")
    listed("8. proof files", rows)


for point in (enums, twins, loops, by_hand, together, buffers, steps, proofs):
    point()
