#!/usr/bin/env python3
"""Holds the program that goes over a recorded run to request K5.

    replay.py REPLAY
    replay.py stored

The first runs REPLAY on many recorded runs and compares the line that it writes,
and its status, with what this script works out from the model's answers: the stored runs of
crates/traces_try; the stored lists of crates/lists_try with their answers, and
each with single bytes changed; the worked run with each byte changed, deleted
or doubled, with a byte put in at each place, and cut at each place; runs at the
greatest length; runs of random lines.  Some go in as a file, some through a
pipe in pieces of 1 byte, of 7 bytes and of many sizes, where each piece is a
read of its own.  Prints how many of each agree, and exits 1 on a difference.
The second writes the stored runs and what crates/traces_try has to print.
From the root of the repository:
    reference/replay.py target/bin/replay
MODEL names a model that is built already, or any other program that answers
frames; SEED gives other random runs.
"""

import os
import random
import re
import subprocess
import sys
import tempfile
import threading

HERE = os.path.dirname(os.path.abspath(__file__))
CRATES = os.path.join(HERE, "..", "crates")
LISTS = os.path.join(CRATES, "lists_try")
RUNS = os.path.join(CRATES, "traces_try")
LIMIT = 1048576
ZEROS = b"%016x\n" % 0
model = os.environ.get("MODEL", "")


def read(*path):
    with open(os.path.join(*path), "rb") as f:
        return f.read()


def lines_of(text):
    """Each with its line feed; the last may have none."""
    return re.findall(rb"[^\n]*\n|[^\n]+", text)


def answers_to(frames):
    return lines_of(subprocess.run([model], input=b"".join(frames), stdout=subprocess.PIPE, check=True).stdout)


def expected(run):
    """What has to be printed of a recorded run."""
    if len(run) > LIMIT:
        return b"10\n"
    lines = lines_of(run)
    frames, given = lines[0::2], lines[1::2]
    for n, (answer, line) in enumerate(zip(answers_to(frames), given), 1):
        if answer != line:
            return b"%016x\n" % n
    return b"10\n" if len(frames) > len(given) else ZEROS


def status(run, wanted):
    """0 where no pair differs, 2 where the run is too long, and else 1."""
    return 2 if len(run) > LIMIT else 0 if wanted == ZEROS else 1


def recorded(frames, answers=None):
    """Frame lines, each followed by its answer."""
    answers = answers_to(frames) if answers is None else answers
    return b"".join(frame + answer for frame, answer in zip(frames, answers))


def with_answer(run, n, change):
    """A run whose answer n is changed, counted from one and without its line feed."""
    lines = lines_of(run)
    lines[2 * n - 1] = change(lines[2 * n - 1][:-1]) + b"\n"
    return b"".join(lines)


def list_frames(name):
    """The whole lines of a stored list."""
    return [x for x in lines_of(read(LISTS, "data", name)) if x.endswith(b"\n")]


# ---- the stored runs

def stored_runs():
    """Names and bytes, in the order in which crates/traces_try goes over them."""
    worked = recorded(list_frames("worked.in"))
    lines = lines_of(worked)
    other = lambda place: lambda a: a[:place] + (b"f" if a[place:place + 1] != b"f" else b"e") + a[place + 1:]
    wrong = [b"\n", b"11\n", b"ff0000\n", b"0\n", b"01010\n", b"0101000\n", b"01010a0\n", b"010A00\n", b"0A0001\n",
             b" 010100\n", b"010100 \n", 500 * b"0" + b"\n"]
    odd = [b"\0\n", b"010\x0000\n", b"010100\0\n", b"010100\r\n", b"\r\n", b"\xff\xfe\n", b"010100\n", b"010100\r\n"]
    # What the frame program wrote before versions had eight digits.
    shows = (b"01", b"02", b"03", b"05", b"06", b"08")                  # the version last; 0a has it first
    old = [a[:2] + a[6:] if frame[:2] == b"0a" else a[:-9] + a[-5:] if a[:2] == b"00" and frame[:2] in shows else a
           for frame, a in zip(lines[0::2], lines[1::2])]
    none = [b"0901000000\n", b"06\n", b"0A\n", b"01\n"]                 # two pairs that show no version
    return [
        ("worked", worked),
        # an answer changed: in the middle of the run, the first, the last
        ("head", with_answer(worked, 11, other(0))), ("middle", with_answer(worked, 11, other(7))),
        ("tail", with_answer(worked, 11, other(13))),
        ("first", with_answer(worked, 1, other(0))), ("last", with_answer(worked, 21, other(1))),
        ("longer", with_answer(worked, 15, lambda a: a + b"0")), ("shorter", with_answer(worked, 15, lambda a: a[:-1])),
        ("two", with_answer(with_answer(worked, 5, other(9)), 9, other(2))),
        # forwarding left out of the engine by another frame: shown four pairs later
        ("frame", worked.replace(b"050102\n", b"050203\n")),
        ("wrong", recorded(wrong)), ("odd", recorded(odd)),
        ("nul", with_answer(worked, 12, lambda a: a + b"\0")), ("return", with_answer(worked, 12, lambda a: a + b"\r")),
        # a frame line last
        ("alone", worked + b"0901000000\n"), ("open", worked + b"0901000000"), ("stray", worked + b"\n"),
        ("earlier", with_answer(worked, 3, other(9)) + b"0901000000\n"),
        # the last answer without its line feed
        ("cut", worked[:-1]), ("bare", worked + b"0901000000\n00"),
        ("empty", b""), ("byte", b"0"), ("feed", b"\n"), ("feeds", b"\n\n"), ("small", b"\n01\n"),
        # versions of four digits
        ("four", b"".join(none) + recorded(lines[0::2], old)),
        ("figure2", recorded(list_frames("figure2.in"))), ("products", recorded(list_frames("products.in"))),
        ("mandates", recorded(list_frames("mandates.in"))), ("malformed", recorded(list_frames("malformed.in"))),
        ("turns", recorded(list_frames("turns1.in"))),
    ]


def made_runs():
    """The long runs that crates/traces_try makes itself, in its order."""
    long = b"\n01\n" * (LIMIT // 4 + 1)
    spoiled = b"\n11\n" + long[4:]
    return [long[:LIMIT - 1], long[:LIMIT], long[:LIMIT + 1], spoiled[:LIMIT], spoiled[:LIMIT + 1]]


def stored_output(runs):
    return b"".join(expected(run) for run in [run for _, run in runs] + made_runs())


def write_stored():
    runs = stored_runs()
    folder = os.path.join(RUNS, "data")
    os.makedirs(folder, exist_ok=True)
    for name in os.listdir(folder):
        os.remove(os.path.join(folder, name))
    for name, run in runs:
        with open(os.path.join(folder, name + ".run"), "wb") as f:
            f.write(run)
    with open(os.path.join(RUNS, "args"), "w") as f:
        f.write("".join(name + ".run\n" for name, _ in runs))
    with open(os.path.join(RUNS, "stdout"), "wb") as f:
        f.write(stored_output(runs))
    return 0


# ---- runs of the program

def by_file(program, run):
    with tempfile.TemporaryFile() as f:
        f.write(run)
        f.seek(0)
        return subprocess.run(program, stdin=f, stdout=subprocess.PIPE, stderr=subprocess.PIPE)


def by_pipe(program, run, sizes):
    """In pieces of these sizes over and over, each of which is a read of its own."""
    its_in, our_out = os.pipe2(os.O_DIRECT)
    p = subprocess.Popen(program, stdin=its_in, stdout=subprocess.PIPE, stderr=subprocess.PIPE)
    os.close(its_in)

    def send():
        at, i = 0, 0
        try:
            while at < len(run):
                at += os.write(our_out, run[at:at + sizes[i % len(sizes)]])
                i += 1
        except BrokenPipeError:                         # it has read enough to know that it is too long
            pass
        os.close(our_out)

    sender = threading.Thread(target=send)
    sender.start()
    out, err = p.communicate()
    sender.join()
    return subprocess.CompletedProcess(program, p.returncode, out, err)


def in_pieces(size):
    return lambda program, run: by_pipe(program, run, [size])


def in_many(program, run):
    return by_pipe(program, run, [1, 4096, 3, 100, 65536, 17, 2, 1000])


WAYS = [by_file, in_pieces(1), in_pieces(7), in_pieces(4096), in_many]


class Tally:
    """How many agree, and the first few that don't."""

    def __init__(self, program):
        self.program, self.cases, self.bad, self.title, self.here = [program], 0, 0, "", 0

    def begin(self, title):
        self.title, self.here = title, 0

    def end(self):
        print("%-44s %6d" % (self.title, self.here))
        sys.stdout.flush()

    def check(self, run, ways=(by_file,), note=""):
        wanted = expected(run)
        for way in ways:
            got = way(self.program, run)
            self.cases, self.here = self.cases + 1, self.here + 1
            if (got.stdout, got.stderr, got.returncode) != (wanted, b"", status(run, wanted)):
                self.bad += 1
                if self.bad <= 10:
                    print("%s %s: has %r, %r, ends %d; wanted %r; %d bytes: %r" % (
                        self.title, note, got.stdout, got.stderr, got.returncode, wanted, len(run), run[:120]))


def compare(program):
    tally = Tally(program)
    check = tally.check
    r = random.Random(os.environ.get("SEED", "1"))
    runs = stored_runs()
    worked = dict(runs)["worked"]

    tally.begin("the stored runs, in five ways")
    for name, run in runs:
        if read(RUNS, "data", name + ".run") != run:
            sys.exit("replay.py: %s.run is not what is made here" % name)
        check(run, WAYS, name)
    if read(RUNS, "stdout") != stored_output(runs) or read(RUNS, "args").split() != [n.encode() + b".run" for n, _ in runs]:
        sys.exit("replay.py: crates/traces_try/stdout or args is not what is made here")
    tally.end()

    tally.begin("the stored lists, and 40 changes of each")
    for name in read(LISTS, "args").decode().split():
        frames = list_frames(name)
        run = recorded(frames)
        check(run, [by_file, in_many], name)
        lines = lines_of(run)
        while sum(map(len, lines)) > LIMIT:             # as much as is not too long
            lines = lines[:len(lines) * 9 // 20 * 2]
        run = b"".join(lines)
        if len(run) < 4:
            continue
        check(run, [by_file], name)
        for _ in range(40):
            at = r.randrange(len(run))
            check(run[:at] + bytes([r.choice(b"0123456789abcdef\n\0 ")]) + run[at + 1:], [by_file], "%s at %d" % (name, at))
    tally.end()

    tally.begin("the worked run, each byte changed")
    for at in range(len(worked)):
        for byte in {b"\n", b"0", b"7", b"\0", bytes([worked[at] ^ 1]), bytes([worked[at] ^ 32])} - {worked[at:at + 1]}:
            check(worked[:at] + byte + worked[at + 1:], note=at)
    tally.end()
    tally.begin("the worked run, each byte left out or doubled")
    for at in range(len(worked)):
        check(worked[:at] + worked[at + 1:], note=at)
        check(worked[:at] + worked[at:at + 1] + worked[at:], note=at)
    tally.end()
    tally.begin("the worked run, a byte put in at each place")
    for at in range(len(worked) + 1):
        for byte in (b"\n", b"0", b"\r"):
            check(worked[:at] + byte + worked[at:], note=at)
    tally.end()
    tally.begin("the worked run, cut at each place")
    for at in range(len(worked) + 1):
        check(worked[:at], note=at)
        check(worked[:at], [in_pieces(7)], note=at)
    tally.end()
    tally.begin("the worked run, each line left out or doubled")
    lines = lines_of(worked)
    for i in range(len(lines)):
        check(b"".join(lines[:i] + lines[i + 1:]), note=i)
        check(b"".join(lines[:i + 1] + lines[i:]), note=i)
    tally.end()

    tally.begin("about as long as a run may be")
    mixed = recorded(lines_of(subprocess.run([sys.executable, os.path.join(HERE, "generate.py"), "mixed", "7", "60000"],
                                             stdout=subprocess.PIPE, check=True).stdout))
    for run in made_runs():
        check(run, [by_file, in_many])
    for more in (-2, -1, 0, 1, 2, 65536):
        check(mixed[:LIMIT + more], [by_file, in_pieces(7), in_many], more)
        check((b"0" * (LIMIT + more)), [by_file, in_many], more)
        check(b"\n" * (LIMIT + more), [by_file], more)
        check(b"0" * (LIMIT + more - 4) + b"\n01\n", [by_file, in_many], more)
        check(b"0" * (LIMIT + more - 5) + b"\n01\n0", [by_file], more)
        check(b"\n" + b"0" * (LIMIT + more - 1), [by_file], more)
    check(mixed[:LIMIT], [in_pieces(1)])
    check(recorded(list_frames("versions.in")), [by_file, in_many])
    tally.end()

    tally.begin("random lines, some with their answers")
    frames = list_frames("worked.in") + list_frames("malformed.in") + list_frames("products.in")
    for _ in range(1500):
        some = [r.choice(frames) if r.random() < 0.8 else bytes(r.choice(b"01a\0\r") for _ in range(r.randrange(6))) + b"\n"
                for _ in range(r.randrange(30))]
        lines = lines_of(recorded(some))
        for _ in range(r.choice((0, 0, 1, 2))):
            if lines:
                at = r.randrange(len(lines))
                lines[at:at + r.randrange(2)] = [r.choice((b"01\n", b"\n", b"00\n", r.choice(frames)))]
        run = b"".join(lines)
        check(run[:len(run) - r.choice((0, 0, 0, 1, 2))], [r.choice(WAYS)])
    tally.end()
    print("\n%d cases, %d differ" % (tally.cases, tally.bad))
    return 1 if tally.bad else 0


def main(argv):
    global model
    if len(argv) != 2:
        sys.stderr.write(__doc__)
        return 2
    with tempfile.TemporaryDirectory() as folder:
        if not model:
            model = os.path.join(folder, "model")
            subprocess.run([os.environ.get("CC", "cc"), "-O2", "-o", model, os.path.join(HERE, "model.c")], check=True)
        model = os.path.abspath(model)
        if argv[1] == "stored":
            return write_stored()
        return compare(os.path.abspath(argv[1]))


if __name__ == "__main__":
    sys.exit(main(sys.argv))
