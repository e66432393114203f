#!/usr/bin/env python3
"""Holds a program to what request K1 says of two products, by its own answers.

    apart.py PROGRAM [SEEDS] [LINES]

Runs PROGRAM on the stored lists of crates/lists_try and on fresh ones of every
kind, each in four forms:
    exchanged   kinds 06 to 0a and 0b to 0f exchanged in the whole list
    early       without the forwarding frames behind the first flow
    struck      the same without one product's frames, once for each
    other       the same with that product's frames in another order, behind
                the last forwarding, once for each
The exchanged list has the same answers.  In the others each line that is kept
has the answer that it had; what is put in another order is not asked about.
Kinds 01 to 05 and 10 are no product's: but for forwarding behind the first
flow they are kept.
From the root of the repository:
    reference/apart.py target/bin/linkage
    reference/apart.py "python3 reference/generate.py answers"
  SEEDS  the seeds, with commas (1,2)
  LINES  lines in a list (5000)
Exits 1 on a difference.
"""

import os
import random
import shlex
import shutil
import subprocess
import sys

HERE = os.path.dirname(os.path.abspath(__file__))
STORED = os.path.join(HERE, "..", "crates", "lists_try")
KINDS = ["mixed", "reads", "edges", "versions", "noise", "turns"]
SERVER = [b"%02x" % k for k in range(6, 11)]
BANK = [b"%02x" % k for k in range(11, 16)]
LENGTH = dict(zip(SERVER + BANK, [4, 6, 22, 10, 6] * 2))
LIKE = dict(zip(SERVER + BANK, BANK + SERVER))


def is_frame(line, kinds):
    return (line[:2] in kinds and len(line) == LENGTH[line[:2]]
            and all(c in b"0123456789abcdef" for c in line))


def run(program, lines):
    got = subprocess.run(program, input=b"\n".join(lines), stdout=subprocess.PIPE).stdout
    return got.split(b"\n")[:-1]


def differs(title, lines, expected, got):
    """1 if an answer differs, and then tells the first one."""
    for i in range(max(len(expected), len(got))):
        x, y, frame = (z[i] if i < len(z) else b"nothing" for z in (expected, got, lines))
        if x != y:
            print("%s: line %d, frame %s" % (title, i + 1, repr(frame[:80])[1:]))
            print("    answer  %s\n    before  %s" % (y.decode(), x.decode()))
            return 1
    return 0


def check(program, title, lines, seed):
    """How many forms differ, and how many lines were held to an answer.  The
    last of the lines is what stands behind the last line feed."""
    answers = run(program, lines)
    whole = len(lines) - 1
    exchanged = [LIKE[x[:2]] + x[2:] if x[:2] in LIKE else x for x in lines]
    bad = differs(title + " exchanged", exchanged, answers, run(program, exchanged))
    held = len(answers)

    # A last line without its line feed is no frame: the other forms go without.
    pairs, added = [], False
    for line, answer in list(zip(lines, answers))[:whole]:
        if not (added and line[:2] == b"05"):
            pairs.append((line, answer))
        added = added or (answer[:2] == b"00" and line[:2] in (b"08", b"0d"))
    early = [x for x, _ in pairs]
    bad += differs(title + " early", early, [a for _, a in pairs], run(program, early + [b""]))
    held += len(early)

    for name, kinds in (("server", SERVER), ("bank", BANK)):
        kept = [(x, a) for x, a in pairs if not is_frame(x, kinds)]
        frames, expected = [x for x, _ in kept], [a for _, a in kept]
        bad += differs("%s struck %s" % (title, name), frames, expected,
                       run(program, frames + [b""]))
        struck = [x for x in early if is_frame(x, kinds)]
        r = random.Random("%s %s" % (title, seed))
        r.shuffle(struck)
        first = max([i + 1 for i, x in enumerate(frames) if x[:2] == b"05"], default=0)
        # Where the others go: each before one of the kept lines, or at the end.
        at = sorted(r.randint(first, len(frames)) for _ in struck)
        mixed, own = [], []
        for i in range(len(frames) + 1):
            while at and at[0] == i:
                mixed.append(struck.pop())
                at.pop(0)
            if i < len(frames):
                own.append(len(mixed))
                mixed.append(frames[i])
        got = run(program, mixed + [b""])
        bad += differs("%s other %s" % (title, name), frames, expected,
                       [got[i] for i in own if i < len(got)])
        held += 2 * len(frames)
    return bad, held


def main(argv):
    if not 2 <= len(argv) <= 4:
        sys.stderr.write(__doc__)
        return 2
    found = argv[1] if os.path.isfile(argv[1]) else shutil.which(argv[1])
    program = [os.path.abspath(found)] if found else shlex.split(argv[1])
    seeds = [s for s in (argv[2] if len(argv) > 2 else "1,2").split(",") if s]
    size = argv[3] if len(argv) > 3 else "5000"

    def lists():
        with open(os.path.join(STORED, "args")) as f:
            names = f.read().split()
        for name in names:
            with open(os.path.join(STORED, "data", name), "rb") as f:
                yield name, f.read(), 0
        for kind in KINDS:
            for seed in seeds:
                yield "%s %s" % (kind, seed), subprocess.run(
                    [sys.executable, os.path.join(HERE, "generate.py"), kind, seed, size],
                    stdout=subprocess.PIPE, check=True).stdout, seed

    bad = held = count = 0
    for title, data, seed in lists():
        b, h = check(program, title, data.split(b"\n"), seed)
        bad, held, count = bad + b, held + h, count + 1
        print("%-14s %s, %d lines" % (title, "DIFFERS" if b else "same", h))
        sys.stdout.flush()
    print("\n%d lists, %d lines held to an answer, %d forms differ" % (count, held, bad))
    return 1 if bad else 0


if __name__ == "__main__":
    sys.exit(main(sys.argv))
