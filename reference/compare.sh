#!/bin/sh
# compare.sh PROGRAM [SEEDS] [LINES]
#
# Runs PROGRAM and the model on the stored lists of crates/lists_try and holds
# both to the stored answers; then runs them on fresh lists of every kind and
# compares their answers.  Each list goes in once as a file and once through a
# pipe in pieces.  From the root of the repository:
#     reference/compare.sh target/bin/linkage
#   SEEDS  how many seeds are drawn (4), or the seeds themselves, with commas:
#          17,18  or  17,
#   LINES  lines in a list (20000)
# Prints "same N lines" or the first line that differs, then how often each
# answer number occurred: by kind of list, and by whose frames they were.  Exits
# 1 on a difference.  MODEL names a model that is built already; otherwise it is
# built into a temporary folder.
set -u
if [ $# -lt 1 ] || [ $# -gt 3 ]; then
    echo "usage: compare.sh PROGRAM [SEEDS] [LINES]" >&2
    exit 2
fi
here=$(CDPATH= cd -- "$(dirname -- "$0")" && pwd) || exit 2
tmp=$(mktemp -d) || exit 2
trap 'rm -rf "$tmp"' EXIT
trap 'exit 2' INT TERM HUP
model=${MODEL:-}
if [ ! -x "$model" ]; then
    model=$tmp/model
    cc -O2 -o "$model" "$here/model.c" || exit 2
fi
python3 - "$1" "${2:-4}" "${3:-20000}" "$model" "$here/generate.py" "$tmp" "$here/../crates/lists_try" <<'PYTHON'
import os, random, shlex, shutil, signal, subprocess, sys

name, seeds, lines, model, generate, tmp, stored = sys.argv[1:]
found = name if os.path.isfile(name) else shutil.which(name)
program = [os.path.abspath(found)] if found else shlex.split(name)
signal.signal(signal.SIGPIPE, signal.SIG_IGN)
KINDS = ["mixed", "reads", "edges", "versions", "noise", "turns"]
if "," in seeds:
    seeds = [s for s in seeds.split(",") if s]
else:       # remainders by four in turn: lists of kinds versions and turns go by that
    seeds = [str(random.SystemRandom().randrange(10 ** 6) * 4 + i % 4) for i in range(int(seeds))]

counts = {k: {} for k in KINDS}
differ = 0

# Whose frames: 01 to 05 and 10 are of the tables, 06 to 0a the server's, 0b to
# 0f the term bank's.  A line counts by its first two digits, malformed or not.
ROWS = 15
# Row 9 needs 4294967295 changes before it, so no list meets it.  It is tried by
# engines made at the limit, in a program crate `limit_try`.
LIMIT = 9
OWNERS = ["tables", "server", "bank", "no kind"]
POSSIBLE = {"tables": {0, 1, 2, 3, 4, 5, 15}, "no kind": {1}}
POSSIBLE["server"] = POSSIBLE["bank"] = {0, 1, 2, 3, 6, 7, 8, 10, 11, 12, 13, 14}
OWNER = {b"%02x" % k: OWNERS[(k - 1) // 5] for k in range(1, 16)}
OWNER[b"10"] = "tables"
owned = {x: {} for x in ("stored", "fresh")}


def count_owners(table, path, answers):
    """Adds up whose frames met which row, and whose first flow closed forwarding."""
    with open(path, "rb") as f:
        frames = f.read().split(b"\n")
    closer = None
    for frame, answer in zip(frames, answers.split(b"\n")[:-1]):
        owner, n = OWNER.get(frame[:2], "no kind"), int(answer[:2], 16)
        table[owner, n] = table.get((owner, n), 0) + 1
        if n == 5:
            table[closer, "closed"] = table.get((closer, "closed"), 0) + 1
        if n == 0 and frame[:2] in (b"08", b"0d"):
            closer = closer or owner


def by_file(command, path, out):
    with open(path, "rb") as f, open(out, "wb") as g:
        return subprocess.run(command, stdin=f, stdout=g).returncode


def by_pieces(command, path, out, seed):
    """Cut anywhere, so that reads end within lines."""
    with open(path, "rb") as f:
        data = f.read()
    r = random.Random(seed)
    cuts = sorted(r.randrange(len(data) + 1) for _ in range(300)) if data else []
    with open(out, "wb") as g:
        p = subprocess.Popen(command, stdin=subprocess.PIPE, stdout=g, bufsize=0)
        try:
            for a, b in zip([0] + cuts, cuts + [len(data)]):
                while a < b:
                    a += p.stdin.write(data[a:b])
            p.stdin.close()
        except OSError:
            pass
        return p.wait()


def compare(title, path, expected, got_path, status, by="model"):
    """True if the answers are the same; else tells the first that differs."""
    with open(got_path, "rb") as f:
        got = f.read()
    if got == expected and status >= 0:
        return True
    if status < 0:
        print("%s: ended by signal %d" % (title, -status))
    with open(path, "rb") as f:
        frames = f.read().split(b"\n")
    a, b = got.split(b"\n"), expected.split(b"\n")
    for i in range(max(len(a), len(b))):
        x = a[i] if i < len(a) else None
        y = b[i] if i < len(b) else None
        if x != y:
            show = lambda z: "nothing" if not z else z[:200].decode("latin-1")
            frame = frames[i] if i < len(frames) else b""
            print("%s: line %d, frame %s%s" % (title, i + 1, repr(frame[:80])[1:],
                                             " ..." if len(frame) > 80 else ""))
            print("    answer  %s" % show(x))
            print("    %-7s %s" % (by, show(y)))
            break
    return False


def stored_lists():
    """Names and answers of the stored lists: the answers stand in one file, in
    the order of the names, one for each line."""
    with open(os.path.join(stored, "args")) as f:
        names = f.read().split()
    with open(os.path.join(stored, "stdout"), "rb") as f:
        answers = f.read().split(b"\n")[:-1]
    for name in names:
        path = os.path.join(stored, "data", name)
        with open(path, "rb") as f:
            lines = f.read().split(b"\n")
        n = len(lines) if lines[-1] else len(lines) - 1
        yield name, path, b"".join(x + b"\n" for x in answers[:n])
        answers = answers[n:]
    if answers:
        print("%d stored answers belong to no list" % len(answers))
        sys.exit(2)


lists = 0
for name, path, expected in stored_lists():
    out = os.path.join(tmp, "out")
    lists += 1
    same = True
    for who, command in (("model", [model]), ("program", program)):
        title = "%-12s %s" % (name, who)
        same = same and compare(title, path, expected, out, by_file(command, path, out), "stored")
        same = same and compare(title + " in pieces", path, expected, out,
                                by_pieces(command, path, out, name), "stored")
    count_owners(owned["stored"], path, expected)
    if same:
        print("%-12s: same %d lines" % (name, expected.count(b"\n")))
    else:
        differ += 1
    sys.stdout.flush()
print()

for kind in KINDS:
    for seed in seeds:
        lists += 1
        title = "%-8s seed %s" % (kind, seed)
        path, out, ref = (os.path.join(tmp, x) for x in ("list", "program", "model.out"))
        with open(path, "wb") as f:
            if subprocess.run([sys.executable, generate, kind, seed, lines], stdout=f).returncode:
                sys.exit(2)
        if by_file([model], path, ref):
            print("%s: the model failed" % title)
            sys.exit(2)
        with open(ref, "rb") as f:
            expected = f.read()
        for answer in expected.split(b"\n")[:-1]:
            n = answer[:2].decode()
            counts[kind][n] = counts[kind].get(n, 0) + 1
        count_owners(owned["fresh"], path, expected)
        same = compare(title, path, expected, out, by_file(program, path, out))
        same = same and compare(title + " in pieces", path, expected, out,
                                by_pieces(program, path, out, seed))
        if same:
            print("%s: same %d lines" % (title, expected.count(b"\n")))
        else:
            differ += 1
        sys.stdout.flush()

print("\nanswer" + "".join("%10s" % k for k in KINDS) + "%10s" % "all")
for n in range(ROWS + 1):
    row = [counts[k].get("%02x" % n, 0) for k in KINDS]
    print("%02x    " % n + "".join("%10s" % (x if x or n != LIMIT else ".") for x in row + [sum(row)])
          + ("" if sum(row) or n == LIMIT else "   not reached"))
for where, table in owned.items():
    print("\n%-6s" % where + "".join("%10s" % x for x in OWNERS))
    for n in range(ROWS + 1):
        print("%02x    " % n + "".join(
            "%10s" % (table.get((x, n), 0) if n in POSSIBLE[x] else ".") for x in OWNERS)
            + "".join("   not reached: " + x for x in OWNERS
                      if n in POSSIBLE[x] and not table.get((x, n), 0)))
    print("05 after the server's first flow %d, after the term bank's %d"
          % tuple(table.get((x, "closed"), 0) for x in ("server", "bank")))
print("\n%d lists, %d differ" % (lists, differ))
sys.exit(1 if differ else 0)
PYTHON
