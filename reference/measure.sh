#!/bin/sh
# measure.sh PROGRAM [LINES]
#
# CPU time (user and system) of PROGRAM and of the model on a list of reads and
# a mixed list of LINES lines (1000000), in turn, RUNS runs each (9); medians
# and their ratio.  Then the user time for a peer that sends one frame and
# waits for its answer before it sends the next (PEER frames, 200000), what an
# addition and a question cost on lists that do little else, and what one read
# costs as users, roles, flows, sessions and products in use grow.
# Where REPLAY names the program that goes over recorded runs, that is measured
# too: on as much of each list with its answers as a recorded run may have,
# beside PROGRAM on the same frames, in turn.
# MODEL names a model that is built already; SEED gives other lists.  From the
# root of the repository:
#     reference/measure.sh target/bin/linkage
#     REPLAY=target/bin/replay reference/measure.sh target/bin/linkage
set -u
if [ $# -lt 1 ] || [ $# -gt 2 ]; then
    echo "usage: measure.sh PROGRAM [LINES]" >&2
    exit 2
fi
here=$(CDPATH= cd -- "$(dirname -- "$0")" && pwd) || exit 2
tmp=$(mktemp -d) || exit 2
trap 'rm -rf "$tmp"' EXIT
trap 'exit 2' INT TERM HUP
model=${MODEL:-}
if [ ! -x "$model" ]; then
    model=$tmp/model
    cc -O2 -o "$model" "$here/model.c" || exit 2
fi
lines=${2:-1000000}
for kind in reads mixed; do
    python3 "$here/generate.py" $kind "${SEED:-1}" "$lines" > "$tmp/$kind" || exit 2
done
python3 - "$1" "$lines" "$model" "$tmp" "${RUNS:-9}" <<'PYTHON'
import os, shlex, shutil, statistics, subprocess, sys

name, lines, model, tmp, runs = sys.argv[1:]
lines, runs = int(lines), max(7, int(runs))
found = name if os.path.isfile(name) else shutil.which(name)
programs = [("program", [os.path.abspath(found)] if found else shlex.split(name)),
            ("model", [model])]


def cpu(command, path):
    """CPU seconds of one run, output to /dev/null."""
    pid = os.posix_spawnp(command[0], command, os.environ, file_actions=[
        (os.POSIX_SPAWN_OPEN, 0, path, os.O_RDONLY, 0),
        (os.POSIX_SPAWN_OPEN, 1, os.devnull, os.O_WRONLY, 0)])
    _, status, use = os.wait4(pid, 0)
    if os.WIFSIGNALED(status) or os.WEXITSTATUS(status) == 127:
        sys.exit("%s failed" % command[0])
    return use.ru_utime + use.ru_stime


def medians(path, turns=runs):
    """The programs in turn, so that both meet the machine in the same states."""
    times = {n: [] for n, _ in programs}
    for i in range(turns + 1):
        for n, command in programs:
            t = cpu(command, path)
            if i:                           # the first round warms up
                times[n].append(t)
    return {n: statistics.median(t) for n, t in times.items()}


print("median CPU time of %d runs, in turn" % runs)
for kind in ("reads", "mixed"):
    path = os.path.join(tmp, kind)
    with open(path, "rb") as f:
        count = sum(block.count(b"\n") for block in iter(lambda: f.read(1 << 20), b""))
    m = medians(path)
    print("%-6s %d lines" % (kind, count), end="")
    for n, _ in programs:
        print("   %s %.4f s, %.1f million lines/s" % (n, m[n], count / max(m[n], 1e-9) / 1e6), end="")
    print("   program/model %.2f" % (m["program"] / max(m["model"], 1e-9)))
    sys.stdout.flush()


# A recorded run, as long as one may be, beside its frames alone.  The model's
# answers are the recorded ones, so none may differ.
def recorded(kind, replay, turns=101):
    path = os.path.join(tmp, kind)
    with open(path, "rb") as f:
        frames = f.read(1 << 20).split(b"\n")[:-1]
    got = subprocess.run([model], input=b"\n".join(frames) + b"\n", stdout=subprocess.PIPE).stdout.split(b"\n")
    size = pairs = 0
    for frame, answer in zip(frames, got):
        if size + len(frame) + len(answer) + 2 > 1 << 20:
            break
        size, pairs = size + len(frame) + len(answer) + 2, pairs + 1
    with open(path + ".frames", "wb") as f:
        f.write(b"".join(x + b"\n" for x in frames[:pairs]))
    with open(path + ".run", "wb") as f:
        f.write(b"".join(x + b"\n" + y + b"\n" for x, y in zip(frames[:pairs], got)))
    with open(path + ".run", "rb") as f:
        if subprocess.run([replay], stdin=f, stdout=subprocess.PIPE).stdout != b"0000000000000000\n":
            sys.exit("%s finds another answer in %s" % (replay, kind))
    times = [], []
    for i in range(turns + 1):
        for t, command, of in zip(times, ([replay], programs[0][1]), (".run", ".frames")):
            used = cpu(command, path + of)
            if i:
                t.append(used)
    over, run = map(statistics.median, times)
    print("%-6s %d pairs, %d bytes   replay %.4f s, program %.4f s   replay/program %.2f"
          % (kind, pairs, size, over, run, over / max(run, 1e-9)))
    sys.stdout.flush()


if os.environ.get("REPLAY"):
    for kind in ("reads", "mixed"):
        recorded(kind, os.path.abspath(os.environ["REPLAY"]))


# One frame at a time: each is a piece of input of its own.  Only user time is
# compared, since nearly all the rest is the system's pipes.
def peer(command, frames):
    p = subprocess.Popen(command, stdin=subprocess.PIPE, stdout=subprocess.PIPE, bufsize=0)
    put, got = p.stdin.fileno(), p.stdout.fileno()
    for line in (b"010100\n", b"030000\n", b"0600\n", b"0800000000000000000000\n"):
        os.write(put, line)
        os.read(got, 64)
    for _ in range(frames):
        os.write(put, b"0901000000\n")
        if os.read(got, 64) != b"00\n":
            sys.exit("%s answers a waiting peer wrongly" % command[0])
    p.stdin.close()
    _, status, use = os.wait4(p.pid, 0)
    p.returncode = status
    p.stdout.close()
    return use.ru_utime, use.ru_stime


frames = int(os.environ.get("PEER", "200000"))
waits = {n: [] for n, _ in programs}
for i in range(5):
    for n, command in programs:
        waits[n].append(peer(command, frames))
print("peer   %d frames, each answered before the next" % frames, end="")
user = {n: statistics.median(t[0] for t in waits[n]) for n, _ in programs}
for n, _ in programs:
    print("   %s %.4f s user, %.4f s system" % (n, user[n], statistics.median(t[1] for t in waits[n])), end="")
print("   user time, program/model %.2f" % (user["program"] / max(user["model"], 1e-9)))
sys.stdout.flush()


# A list, on which the model refuses nothing.
def write(path, lines):
    with open(path, "w") as f:
        f.write("".join(x + "\n" for x in lines))
    with open(path, "rb") as f:
        got = subprocess.run([model], stdin=f, stdout=subprocess.PIPE).stdout.split(b"\n")[:-1]
    if any(answer[:2] != b"00" for answer in got):
        sys.exit("a line of %s is refused" % os.path.basename(path))


# Additions and questions, all accepted.  256 users hold four roles each, two
# roles read each database, a record goes through four databases, and all
# sessions are open.  User 255 makes role 2 conflict, which every session's
# second flow denies.  An engine takes 256 additions, so that list is short and
# run often; the questions are asked of sessions with four flows.
def steps(base, asked):
    out = []
    for u in range(256):
        held = {u % 64, (7 * u + 3) % 64, (13 * u + 5) % 64, (29 * u + 11) % 64}
        out += ["01%02x%02x" % (u, r) for r in sorted(held | ({2, 0, 1, 3, 4} if u == 255 else set()))]
    for d in range(64):
        out += ["03%02x%02x" % (r, d) for r in sorted({d // 4 % 5, (11 * d + 6) % 64})]
    out += ["05%02x%02x" % (d, d + 1) for d in range(64) if d % 4 != 3]
    sessions = [(5 * p, s) for p in (0, 1) for s in range(16)]
    out += ["%02x%02x" % (6 + p, s) for p, s in sessions]
    adds = ["%02x%02x%02x%016x" % (8 + p, s, (9 * f + 4 * s + p) % 64, 4 if f == 1 else 0)
            for f in range(8) for p, s in sessions]
    write(base + ".set-up", out)
    write(base + ".additions", out + adds)
    write(base + ".half", out + adds[:128])
    ring, x = [], 1
    for _ in range(4096):
        x = (x * 1103515245 + 12345) % 2 ** 31
        ring.append("%02x%02x%02x" % (7 + 5 * (x >> 20 & 1), x >> 16 & 15, x >> 8 & 63))
    write(base + ".questions", out + adds[:128] + ring * max(1, asked // 4096))
    return len(adds), 4096 * max(1, asked // 4096)


base = os.path.join(tmp, "steps")
adds, asked = steps(base, lines // 10)
before, after = medians(base + ".set-up", 301), medians(base + ".additions", 301)
half, questions = medians(base + ".half"), medians(base + ".questions")
for title, cost in (("an addition", {n: (after[n] - before[n]) / adds * 1e9 for n, _ in programs}),
                    ("a question", {n: (questions[n] - half[n]) / asked * 1e9 for n, _ in programs})):
    print("ns %s: program %.0f, model %.0f   program/model %.2f"
          % (title, cost["program"], cost["model"], cost["program"] / max(cost["model"], 1e-9)))
sys.stdout.flush()


# Reads alone, all granted, of the flow added last (one user) or of all flows
# (many).  From two flows on every reader holds a role of the deny set and meets
# one role set: the longest way to a grant.  Role 2 is the denied one, role 10+f
# reads database f, the root of flow f; user 255 reads all and makes role 2
# conflict.  The term bank's kinds are five after the server's.
def reads(path, users, roles, flows, sessions, products, count):
    out = []
    for f in range(flows):
        out.append("03%02x%02x" % (10 + f, f))
        out.append("01ff%02x" % (10 + f))
    out.append("01ff02")
    for u in range(users):
        for r in [2, 10 + flows - 1 - u % flows] + list(range(20, 20 + roles)):
            out.append("01%02x%02x" % (u, r))
    for p in range(products):
        for s in range(sessions):
            out.append("%02x%02x" % (6 + 5 * p, s))
            for f in range(flows):
                out.append("%02x%02x%02x%016x" % (8 + 5 * p, s, f, 4 if f == 1 else 0))
    write(path + ".set-up", out)
    ring, x = [], 1
    for _ in range(4096):                   # in no order that a processor could learn
        x = (x * 1103515245 + 12345) % 2 ** 31
        u, s, p = (x >> 8) % users, (x >> 16) % sessions, (x >> 20) % products
        f = flows - 1 - u % flows
        ring.append("%02x%02x%02x%02x%02x" % (9 + 5 * p, u, s, f, f))
    write(path, out + ring * max(1, count // 4096))
    return max(1, count // 4096) * 4096


cases = [("1 user, 2 roles, 1 flow, 1 session", (1, 0, 1, 1, 1)), ("2 flows", (1, 0, 2, 1, 1)),
         ("8 flows", (1, 0, 8, 1, 1)), ("16 sessions", (1, 0, 1, 16, 1)),
         ("both products", (1, 0, 1, 1, 2)), ("255 users", (255, 0, 1, 1, 1)),
         ("46 roles each", (1, 44, 1, 1, 1)), ("all of these", (255, 44, 8, 16, 2))]
cost = {n: [] for n, _ in programs}
for title, case in cases:
    path = os.path.join(tmp, "only")
    count = reads(path, *case, lines)
    with_reads, without = medians(path), medians(path + ".set-up")
    for n, _ in programs:
        cost[n].append("%s %.1f" % (title, (with_reads[n] - without[n]) / count * 1e9))
for n, _ in programs:
    print("ns a read, %s: %s" % (n, "; ".join(cost[n])))
PYTHON
