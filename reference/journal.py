#!/usr/bin/env python3
"""Keeps a maker's file of frames as docs/MAKERS.md has it ("After a restart"), and cuts it as a crash does.

    journal.py PROGRAM      from the root of the repository

Each line of a run is the last one of a file and is cut at each of its bytes; the file is opened, which mends it, and
the next frames are appended. A fresh engine that is sent the file has to answer as one that is sent the lines that
were whole. Then a disk that gets full; a file that nothing mends, and the frame that arises there; and the refused
frames are dropped by the command of docs/MAKERS.md, after which the engine has to be the same. Prints a line for each,
and exits 1 where something is otherwise.
"""
import os
import resource
import signal
import subprocess
import sys
import tempfile

# Changes of all sorts; five of them are refused, and two of these are no frame.
RUN = """050102 010100 010101 010102 010100 030000 030101 0A 0600 0800000000000000000000 0800010000000000000007
010701 0600 040909 0b00 0d00000000000000000000 100000 020100 06""".split()
# What tells one engine from another: constraints, questions, reads, and last which roles can be withdrawn.
ASKED = ["0a0000", "0a0001", "0f0000", "070000", "0c0000"]
ASKED += ["09%02x00%02x%02x" % (user, flow, flow) for user in range(8) for flow in range(2)]
ASKED += ["02%02x%02x" % (user, role) for user in range(8) for role in range(8)]


def lines(frames):
    return "".join(frame + "\n" for frame in frames).encode()


def answers_to(text):
    return subprocess.run([PROGRAM], input=text, stdout=subprocess.PIPE, check=True).stdout.decode().splitlines()


def told(text):
    """The answers to these frames, and those that tell which engine they have led to."""
    answers = answers_to(text + lines(ASKED))
    return answers[:-len(ASKED)], answers[-len(ASKED):]


def put(path, text):
    with open(path, "wb") as file:
        file.write(text)


def content(path):
    with open(path, "rb") as file:
        return file.read()


class Journal:
    """A file of frames."""

    def __init__(self, path):
        """Cuts the file behind its last line feed: what stands there was never sent."""
        is_new = not os.path.exists(path)
        self.file = os.open(path, os.O_RDWR | os.O_CREAT | os.O_APPEND, 0o600)
        os.ftruncate(self.file, content(path).rfind(b"\n") + 1)
        os.fsync(self.file)
        if is_new:
            folder = os.open(os.path.dirname(path), os.O_RDONLY)
            os.fsync(folder)
            os.close(folder)

    def append(self, frame):
        """The whole line in one write, synced. Only then may the frame be sent; where this fails the file is as it was."""
        line, length = lines([frame]), os.fstat(self.file).st_size
        try:
            if os.write(self.file, line) != len(line):
                raise OSError("a part of the line was written")
            os.fsync(self.file)
        except OSError:
            os.ftruncate(self.file, length)
            raise

    def close(self):
        os.close(self.file)


def cut_everywhere(path):
    crashes, wrong = 0, []
    for n, frame in enumerate(RUN):
        line = lines([frame])
        for left in range(len(line) + 1):
            put(path, lines(RUN[:n]) + line[:left])
            journal = Journal(path)
            for later in RUN[n + 1:n + 4]:
                journal.append(later)
            journal.close()
            whole = lines(RUN[:n] + [frame] * (left == len(line)) + RUN[n + 1:n + 4])
            if told(content(path)) != told(whole):
                wrong.append("%d bytes left of %s: another run" % (left, frame))
            crashes += 1
    print("%d crashes, %d of them give another run" % (crashes, len(wrong)))
    return wrong


def full_disk(path):
    """The file takes a part of the next line and no more."""
    os.remove(path)
    journal, wrong = Journal(path), []
    journal.append(RUN[0])
    signal.signal(signal.SIGXFSZ, signal.SIG_IGN)
    limits = resource.getrlimit(resource.RLIMIT_FSIZE)
    for part in range(len(RUN[1]) + 1):
        resource.setrlimit(resource.RLIMIT_FSIZE, (len(lines(RUN[:1])) + part, limits[1]))
        try:
            journal.append(RUN[1])
            wrong.append("%d bytes fit, and no failure" % part)
        except OSError:
            pass
        resource.setrlimit(resource.RLIMIT_FSIZE, limits)
        if content(path) != lines(RUN[:1]):
            wrong.append("%d bytes fit, and the file is another" % part)
    journal.close()
    print("a disk full after 0 to %d bytes of a line: %d failures are not as they should" % (part, len(wrong)))
    return wrong


def role_that_nobody_gave(path):
    """01 is left of 010701, which gives user 7 role 1; then session 0 is opened. 020600 is accepted where user 6 holds role 0."""
    put(path, b"01" + lines(["0600"]))
    uncut = content(path).decode().strip(), answers_to(content(path) + lines(["020600"]))
    put(path, b"01")
    journal = Journal(path)
    journal.append("0600")
    journal.close()
    cut = content(path).decode().strip(), answers_to(content(path) + lines(["020600"]))
    print("not cut: %s is sent, and 020600 answered %s; cut: %s, and %s" % (uncut[0], uncut[1][1], cut[0], cut[1][1]))
    wanted = ("010600", ["0000000001", "0000000001"]), ("0600", ["0000000000", "04"])
    return [] if (uncut, cut) == wanted else ["%s %s, not %s %s" % (uncut, cut, *wanted)]


def drop_refused(folder):
    command = "paste -d ' ' answers frames | sed -n 's/^00[0-9a-f]* //p' > accepted"
    if "    " + command + "\n" not in content("docs/MAKERS.md").decode():
        return ["docs/MAKERS.md does not have: " + command]
    # between the frames, what is none and may be read amiss
    odd = [b"", b" ", b"00 010500", b"0105\t00", b"00", b"\xff\x00", b"010500\r", b"11003f", b"%s", b"\\n"]
    frames = b"\n".join(x for pair in zip(lines(RUN).splitlines(), odd + [b"03"] * len(RUN)) for x in pair) + b"\n"
    before, engine = told(frames)
    put(os.path.join(folder, "frames"), frames)
    put(os.path.join(folder, "answers"), lines(before))
    subprocess.run(["sh", "-c", command], cwd=folder, check=True)
    accepted = content(os.path.join(folder, "accepted"))
    print("%d of %d frames were accepted and are kept" % (accepted.count(b"\n"), len(before)))
    return [] if told(accepted) == ([x for x in before if x.startswith("00")], engine) else ["without the refused frames the run is another"]


def main():
    with tempfile.TemporaryDirectory() as folder:
        path = os.path.join(folder, "journal")
        wrong = cut_everywhere(path) + full_disk(path) + role_that_nobody_gave(path) + drop_refused(folder)
    for line in wrong:
        print("  " + line)
    return 1 if wrong else 0


if __name__ == "__main__":
    if len(sys.argv) != 2:
        sys.exit("usage: journal.py PROGRAM")
    PROGRAM = os.path.abspath(sys.argv[1])
    sys.exit(main())
