#!/usr/bin/env python3
"""Runs the built runner and another program on random plans and scripts, good and damaged, and compares what they print.

usage: tools/compare.py RUNNER OTHER COUNT [SEED]
RUNNER is run in a folder with plan.txt and reads the script on standard input; OTHER is run as OTHER PLAN SCRIPT.
"""
import os
import random
import subprocess
import sys
import tempfile


def plan(rng):
    """A plan text that mostly keeps the rules."""
    tasks = rng.randint(1, rng.choice([2, 4, 16]))
    partitions = [(rng.randint(1, 4), rng.choice([1, 5, 10, 20, 40])) for _ in range(rng.randint(1, 4))]
    lines = [f"p {n * s + rng.choice([0, 0, 3])} {n} {s}" for n, s in partitions]
    fabric = sum(int(line.split()[1]) for line in lines) + rng.choice([0, 0, 7])
    count = rng.randint(1, rng.choice([3, 8, 32]))
    for _ in range(count):
        k = rng.randrange(len(partitions))
        lines.append(f"a {k} {rng.randrange(tasks)} {rng.randint(1, partitions[k][1])} {rng.randint(1, rng.choice([3, 20, 1000]))}")
    return f"c {fabric} {len(partitions)} {count} {tasks}\n" + "".join(line + "\n" for line in lines)


def damaged(rng, text):
    """The text with a few bytes changed, added or left out."""
    data = bytearray(text.encode())
    for _ in range(rng.randint(1, 3)):
        at = rng.randrange(len(data) + 1)
        kind = rng.randrange(4)
        if kind == 0 and at < len(data):
            data[at] = rng.choice(b"0123456789 \n\r\x00cpaiu\xff")
        elif kind == 1 and at < len(data):
            del data[at]
        elif kind == 2:
            data[at:at] = bytes([rng.choice(b"0123456789 \ncpa")])
        else:
            data = data[:at]
    return bytes(data)


def later(rng):
    """Lines that no runner reads, the last one now and then without byte 10."""
    lines = [rng.choice(["x 1", "", "t 1", "i 5", "r 0", "k 1", "7", " t", "d x"]) + "\n" for _ in range(rng.randint(0, 6))]
    text = "".join(lines)
    return text[:-1] if rng.random() < 0.2 else text


def script(rng):
    """Line one of a script, now and then a bad one."""
    rate = rng.choice([1, 3, 5, 10, 65535, 65536, 0, 4294967295, 4294967296, 99999999999])
    if rng.random() < 0.7:
        rate = rng.randint(1, 50)
    return f"{rng.choice('iu')} {rate}\n"


def main():
    runner, other, count = os.path.abspath(sys.argv[1]), os.path.abspath(sys.argv[2]), int(sys.argv[3])
    rng = random.Random(int(sys.argv[4]) if len(sys.argv) > 4 else 1)
    with tempfile.TemporaryDirectory() as folder:
        for n in range(count):
            p, s = plan(rng), script(rng)
            p = damaged(rng, p) if rng.random() < 0.3 else p.encode()
            s = (damaged(rng, s) if rng.random() < 0.2 else s.encode()) + later(rng).encode()
            with open(os.path.join(folder, "plan.txt"), "wb") as f:
                f.write(p)
            with open(os.path.join(folder, "script"), "wb") as f:
                f.write(s)
            ours = subprocess.run([runner], cwd=folder, input=s, stdout=subprocess.PIPE).stdout
            theirs = subprocess.run([other, os.path.join(folder, "plan.txt"), os.path.join(folder, "script")], stdout=subprocess.PIPE).stdout
            if ours != theirs:
                print("differs:", p, s, ours, theirs, sep="\n")
                sys.exit(1)
    print(count, "cases alike")


main()
