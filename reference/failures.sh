#!/bin/sh
# failures.sh PROGRAM [PICTURE [REPLAY]]
#
# Tries what goes wrong around PROGRAM: input that can't be read, output that
# can't be written, pipes that close, descriptors that don't block, calls that
# are interrupted, words that it doesn't know.  What it says on standard error,
# what it writes and its status have to be as docs/FRAMES.md has them, and for
# PICTURE, where it is named, as docs/PICTURE.md has them, and for REPLAY as
# docs/REPLAY.md has them; - in place of PICTURE leaves that out.  A line for each
# case; it stops with status 1 at the first that differs.  It needs python3, and a C compiler for the last
# cases.  From the root of the repository:
#     reference/failures.sh target/bin/linkage target/bin/picture target/bin/replay
set -u
if [ $# -lt 1 ] || [ $# -gt 3 ]; then
    echo "usage: failures.sh PROGRAM [PICTURE [REPLAY]]" >&2
    exit 2
fi
tmp=$(mktemp -d) || exit 2
trap 'rm -rf "$tmp"' EXIT
trap 'exit 2' INT TERM HUP
if ! command -v "${CC:-cc}" > /dev/null; then
    echo "failures.sh: there is no C compiler" >&2
    exit 2
fi

# Calls that fail or move one byte, as the variables say: READS and WRITES name
# for each call in turn what happens to it, i interrupted, a would have to wait,
# e an I/O error, 1 one byte, - as usual.  Past the last of them all are as usual.
cat > "$tmp/calls.c" <<'C'
#define _GNU_SOURCE
#include <errno.h>
#include <stdlib.h>
#include <sys/syscall.h>
#include <unistd.h>

static ssize_t turn(const char **at, const char *name, long call, int fd, const void *bytes, size_t n)
{
    if (!*at && !(*at = getenv(name)))
        *at = "";
    char what = **at;
    if (what)
        ++*at;
    if (what == 'i' || what == 'a' || what == 'e') {
        errno = what == 'i' ? EINTR : what == 'a' ? EAGAIN : EIO;
        return -1;
    }
    return syscall(call, fd, bytes, what == '1' && n > 1 ? 1 : n);
}

static const char *reads, *writes;

ssize_t read(int fd, void *bytes, size_t n)
{
    return fd == 0 ? turn(&reads, "READS", SYS_read, fd, bytes, n) : syscall(SYS_read, fd, bytes, n);
}

ssize_t write(int fd, const void *bytes, size_t n)
{
    return fd == 1 ? turn(&writes, "WRITES", SYS_write, fd, bytes, n) : syscall(SYS_write, fd, bytes, n);
}
C
"${CC:-cc}" -O1 -shared -fPIC -o "$tmp/calls.so" "$tmp/calls.c" || exit 2

python3 - "$tmp" "$@" <<'PYTHON'
import errno, fcntl, os, pty, resource, signal, subprocess, sys, threading, time, tty

tmp, *names = sys.argv[1:]
for name in names:
    if name != "-" and not os.access(name, os.X_OK):
        sys.exit("failures.sh: %s is no program" % name)
program, picture, replay = ([] if name == "-" else [os.path.abspath(name)] for name in (names + ["-", "-"])[:3])
program = program[0]


# A list of n lines and its answers, short ones and long ones.
def run(n):
    frames, answers = ["0600"], ["0000000000"]
    for i in range(1, n):
        frame, answer = (("0600", "03"), ("070000", "00" + 16 * "0"), ("0A", "01"))[i * i % 7 % 3]
        frames.append(frame)
        answers.append(answer)
    text = lambda rows: "".join(row + "\n" for row in rows).encode()
    return text(frames), text(answers)


# A reason, with the number that the system has for it.
def reason(error):
    return b"%s (os error %d)" % (os.strerror(error).encode(), error)


def not_read(n, error, who=b"linkage"):
    return b"%s: lines after line %d were not read: %s\n" % (who, n, reason(error))


def not_written(n, error):
    return b"linkage: answers after line %d were not written: %s\n" % (n, reason(error))


def same(case, what, got, wanted):
    if got != wanted:
        cut = lambda x: x if not isinstance(x, bytes) or len(x) < 200 else x[:90] + b" .. " + x[-90:]
        print("%s: WRONG, %s" % (case, what))
        print("    has    %r\n    wanted %r" % (cut(got), cut(wanted)))
        sys.exit(1)


def right(case, note=""):
    print("%s: right%s" % (case, note))
    sys.stdout.flush()


FRAMES, ANSWERS = run(40000)
FEW, FEW_ANSWERS = run(5)


# One run whose streams are as `before` makes them; what it says, what it writes
# to a pipe, and its status (or a signal's number below 0).
def start(before=None, close=(), stdin=None, stdout=subprocess.PIPE, stderr=subprocess.PIPE, env=None, command=(program,)):
    def ready():
        if before:
            before()
        for fd in close:
            os.close(fd)
    return subprocess.Popen(command, stdin=stdin, stdout=stdout, stderr=stderr, bufsize=0, preexec_fn=ready,
                            env=dict(os.environ, **(env or {})))


def file_of(text):
    path = os.path.join(tmp, "in")
    with open(path, "wb") as f:
        f.write(text)
    return open(path, "rb")


def simple(case, text, wanted_said, wanted_written=b"", ends=None, **words):
    """A run on a file, to its end.  Its status is 0 where it is to say nothing, unless another is wanted,
    and else the one for failures of that program."""
    with file_of(text) as f:
        p = start(stdin=words.pop("stdin", f), **words)
        written, said = p.communicate()
    same(case, "it says", said, wanted_said)
    same(case, "it writes", written, wanted_written)
    same(case, "it ends", p.returncode, ends_with(wanted_said) if ends is None else ends)
    right(case)


def ends_with(said):
    return 0 if not said else 1 if said.startswith(b"linkage: ") else 2


simple("nothing goes wrong", FRAMES, b"", ANSWERS)

# ---- output that can't be written
with open("/dev/full", "wb") as full:
    simple("a full disk", FRAMES, not_written(0, errno.ENOSPC), None, stdout=full)
simple("output closed", FEW, not_written(0, errno.EBADF), close=[1])
simple("output closed, no input", b"", b"", close=[1])

# ---- a disk that gets full: the file takes its first bytes and no more
ends = [i + 1 for i, b in enumerate(ANSWERS) if b == 10]
limits = [4, ends[0], ends[0] + 1, 65536, ends[9000] - 1, ends[9000], ends[9000] + 1, 200001, len(ANSWERS) - 1]


def filling(case, text, wanted, limit, wanted_said, **words):
    """A run on a file, into a file that takes this many bytes."""
    path = os.path.join(tmp, "out")

    def small():
        signal.signal(signal.SIGXFSZ, signal.SIG_IGN)
        resource.setrlimit(resource.RLIMIT_FSIZE, (limit, limit))

    with file_of(text) as f, open(path, "wb") as out:
        p = start(small, stdin=f, stdout=out, **words)
        _, said = p.communicate()
    with open(path, "rb") as out:
        written = out.read()
    same(case, "the file has", written, wanted[:limit])
    same(case, "it says", said, wanted_said)
    same(case, "it ends", p.returncode, ends_with(wanted_said))


for limit in limits:
    case = "a disk full after %d bytes" % limit
    whole = ANSWERS[:limit].count(b"\n")
    filling(case, FRAMES, ANSWERS, limit, not_written(whole, errno.EFBIG))
    right(case, ", %d lines are whole" % whole)

# ---- input that can't be read
simple("input closed", b"", not_read(0, errno.EBADF), close=[0])
simple("input and output closed", b"", not_read(0, errno.EBADF), close=[0, 1])
folder = os.open(tmp, os.O_RDONLY)
simple("a directory as input", b"", not_read(0, errno.EISDIR), stdin=folder)
os.close(folder)


# The end of a terminal that a program has: whoever holds the other end gets an
# I/O error once this one is closed.  The last line is unfinished, and no answer
# may be written to it, since the input has not ended.
def broken(case, text, answers):
    ours, theirs = pty.openpty()
    tty.setraw(theirs)
    p = start(stdin=ours)
    os.close(ours)
    os.write(theirs, text)
    written = b""
    while written.count(b"\n") < text.count(b"\n"):
        written += os.read(p.stdout.fileno(), 4096)
    os.close(theirs)
    more, said = p.communicate()
    same(case, "it writes", written + more, answers)
    same(case, "it says", said, not_read(answers.count(b"\n"), errno.EIO))
    same(case, "it ends", p.returncode, 1)
    right(case)


broken("an input that breaks off", FEW, FEW_ANSWERS)
broken("an input that breaks off within a line", FEW + b"06", FEW_ANSWERS)

# ---- nobody hears it
for case, closed in (("a full disk, and errors closed", [2]), ("input, output and errors closed", [0, 1, 2]),
                     ("input and errors closed", [0, 2])):
    with open("/dev/full", "wb") as full:
        p = start(stdin=file_of(FRAMES), stdout=full, stderr=None, close=closed)
        same(case, "it ends", p.wait(), 1)
    right(case)


# ---- a pipe that its reader closes, after it has read a little
def closing(case, before, ends):
    with file_of(FRAMES) as f:
        p = start(before, stdin=f)
        first = os.read(p.stdout.fileno(), 100)
        p.stdout.close()
        said = p.stderr.read()
        p.stderr.close()
        same(case, "it writes", first, ANSWERS[:len(first)])
        same(case, "it says", said, b"")
        same(case, "it ends", p.wait(), ends)
    right(case)


closing("a pipe that is closed", lambda: signal.signal(signal.SIGPIPE, signal.SIG_DFL), 1)
closing("a pipe that is closed, the signal ignored", lambda: signal.signal(signal.SIGPIPE, signal.SIG_IGN), 1)


# ---- descriptors that don't block: the peer is slow, and the program takes
# little of the time that it waits
def waits(fd):
    fcntl.fcntl(fd, fcntl.F_SETFL, fcntl.fcntl(fd, fcntl.F_GETFL) | os.O_NONBLOCK)


def slow(case, input_waits, output_waits, frames=FRAMES, wanted=ANSWERS, **words):
    its_in, our_out = os.pipe()
    our_in, its_out = os.pipe()
    if input_waits:
        waits(its_in)
    if output_waits:
        waits(its_out)
        fcntl.fcntl(its_out, 1031, 4096)                # F_SETPIPE_SZ
    began = time.time()
    p = start(stdin=its_in, stdout=its_out, **words)
    os.close(its_in)
    os.close(its_out)

    def send():
        step = len(frames) // 20 + 1
        for i in range(0, len(frames), step):
            os.write(our_out, frames[i:i + step])
            if input_waits:
                time.sleep(0.05)
        os.close(our_out)

    sender = threading.Thread(target=send)
    sender.start()
    written = b""
    while True:
        if output_waits:
            time.sleep(0.005)
        piece = os.read(our_in, 4096 if output_waits else 65536)
        if not piece:
            break
        written += piece
    sender.join()
    os.close(our_in)
    said = p.stderr.read()
    p.stderr.close()
    _, status, use = os.wait4(p.pid, 0)
    p.returncode = status
    took, used = time.time() - began, use.ru_utime + use.ru_stime
    same(case, "it writes", written, wanted)
    same(case, "it says", said, b"")
    same(case, "it ends", status, 0)
    if used > took / 5:
        same(case, "it takes", "%.2f of %.2f s" % (used, took), "less than a fifth")
    right(case, ", %.0f ms of processor time in %.0f ms" % (used * 1e3, took * 1e3))


slow("an input that does not block", True, False)
slow("an output that does not block", False, True)
slow("neither blocks", True, True)


# ---- signals while it waits: stopped and continued, and one that is ignored
def signalled(case, input_waits, frames=FEW, wanted=FEW_ANSWERS, ends=0, **words):
    its_in, our_out = os.pipe()
    if input_waits:
        waits(its_in)
    p = start(lambda: signal.signal(signal.SIGUSR1, signal.SIG_IGN), stdin=its_in, **words)
    os.close(its_in)
    for sent in (signal.SIGUSR1, signal.SIGSTOP, signal.SIGCONT):
        time.sleep(0.05)
        p.send_signal(sent)
    os.write(our_out, frames)
    os.close(our_out)
    written, said = p.communicate()
    same(case, "it writes", written, wanted)
    same(case, "it says", said, b"")
    same(case, "it ends", p.returncode, ends)
    right(case)


signalled("signals while it reads", False)
signalled("signals while it sleeps", True)

# ---- calls that are interrupted, that move one byte, that fail in the middle
LIBRARY = os.path.join(tmp, "calls.so")
for case, reads, writes in (("calls that are interrupted", "iiii", "iiii"), ("calls that would have to wait", "aaia", "aaia"),
                            ("a byte at a time", 40 * "1", 60 * "1"), ("all of these", 20 * "i1a", 20 * "i1a")):
    simple(case, FEW, b"", FEW_ANSWERS, env={"LD_PRELOAD": LIBRARY, "READS": reads, "WRITES": writes})
simple("a read that fails in the middle", FEW, not_read(1, errno.EIO), FEW_ANSWERS[:11],
       env={"LD_PRELOAD": LIBRARY, "READS": 7 * "1" + "e"})
for n in range(len(FEW_ANSWERS)):
    with file_of(FEW) as f:
        p = start(stdin=f, env={"LD_PRELOAD": LIBRARY, "WRITES": n * "1" + "e"})
        written, said = p.communicate()
    case = "a write that fails after %d bytes" % n
    same(case, "it writes", written, FEW_ANSWERS[:n])
    same(case, "it says", said, not_written(written.count(b"\n"), errno.EIO))
    same(case, "it ends", p.returncode, 1)
right("writes that fail after 0 to %d bytes" % n)
simple("a last line without its line feed", FEW + b"06", b"", FEW_ANSWERS + b"01\n")
simple("its answer can't be written", FEW + b"06", not_written(5, errno.EIO), FEW_ANSWERS,
       env={"LD_PRELOAD": LIBRARY, "WRITES": "-e"})


# ---- the words: what a program says of itself is a status of 0, and a word that it doesn't know is refused
# before anything is read
def refused(case, command, asked, begin):
    with file_of(FRAMES) as f:
        p = start(stdin=f, command=command + asked)
        written, said = p.communicate()
        read = os.lseek(f.fileno(), 0, os.SEEK_CUR)
    same(case, "it writes", written, b"")
    same(case, "it says", (said[:len(begin)], said.count(b"\n"), said[-1:]), (begin, 1, b"\n"))
    same(case, "it reads", read, 0)
    same(case, "it ends", p.returncode, 2)
    right(case, ", " + said.decode().rstrip()[len(begin):])


def words(command):
    name = os.path.basename(command[0])
    for word in ("--help", "--version"):
        case = "%s %s" % (name, word)
        with file_of(FRAMES) as f:
            p = start(stdin=f, command=command + [word])
            written, said = p.communicate()
            read = os.lseek(f.fileno(), 0, os.SEEK_CUR)
        same(case, "it says", said, b"")
        same(case, "it begins with its name, and ends a line", (written[:len(name) + 1], written[-1:]), (name.encode() + b" ", b"\n"))
        same(case, "it reads", read, 0)
        same(case, "it ends", p.returncode, 0)
        with open("/dev/full", "wb") as full:
            p = start(stdout=full, command=command + [word])
            _, said = p.communicate()
        same(case + ", a full disk", "it says", said[:len(name) + 2], name.encode() + b": ")
        same(case + ", a full disk", "it ends", p.returncode, 1 if command[0] == program else 2)
        reader, closed = os.pipe()
        os.close(reader)
        p = start(stdout=closed, command=command + [word])
        os.close(closed)
        _, said = p.communicate()
        same(case + ", a pipe that is closed", "it says", said, b"")
        same(case + ", a pipe that is closed", "it ends", p.returncode, 1 if command[0] == program else 2)
        right(case, ", " + written.decode().split("\n")[0])
    for asked in (["FILE"], ["--hel"], [""], ["--help", "FILE"], ["FILE", "--help"], ["--version", "--version"], ["two\nlines"], [b"\xff"]):
        refused("%s, asked for as %r" % (name, asked), command, asked, name.encode() + b": ")


for command in ([program], replay, picture):
    if command:
        words(command)


# ---- going over a recorded run: input that can't be read gives no number; where
# the number can't be written that is said
def going_over(command):
    def together(frames, answers):
        pairs = zip(frames.split(b"\n"), answers.split(b"\n")[:-1])
        return b"".join(frame + b"\n" + answer + b"\n" for frame, answer in pairs)

    recorded, few = together(FRAMES, ANSWERS), together(FEW, FEW_ANSWERS)[:-1]
    zeros, five, sixteen = b"%016x\n" % 0, b"%016x\n" % 5, b"10\n"

    def no_number(error):
        return b"replay: the number was not written: %s\n" % reason(error)

    def no_lines(n, error):
        return not_read(n, error, b"replay")

    def tried(case, *words, **named):
        simple("a recorded run, " + case, *words, command=command, **named)

    def calls(reads="", writes=""):
        return {"LD_PRELOAD": LIBRARY, "READS": reads, "WRITES": writes}

    tried("nothing goes wrong", recorded, b"", zeros)
    tried("its last line feed missing", few, b"", five, 1)
    tried("its last answer missing", few[:few.rfind(b"\n") + 1], b"", sixteen, 1)
    tried("nothing", b"", b"", zeros)
    with open("/dev/full", "wb") as full:
        tried("a full disk", recorded, no_number(errno.ENOSPC), None, stdout=full)
        with file_of(recorded) as f:
            case = "a recorded run, a full disk, and errors closed"
            same(case, "it ends", start(stdin=f, stdout=full, stderr=None, close=[2], command=command).wait(), 2)
            right(case)
    tried("output closed", recorded, no_number(errno.EBADF), close=[1])
    for limit in range(len(zeros)):
        filling("a recorded run, a disk full after %d bytes" % limit, recorded, zeros, limit, no_number(errno.EFBIG), command=command)
    right("a recorded run, a disk full after 0 to %d bytes" % limit)
    for n in (0, 1, 8, 16):
        tried("a write that fails after %d bytes" % n, recorded, no_number(errno.EIO), zeros[:n], env=calls("", n * "1" + "e"))

    tried("input closed", b"", no_lines(0, errno.EBADF), close=[0])
    tried("input and output closed", b"", no_lines(0, errno.EBADF), close=[0, 1])
    folder = os.open(tmp, os.O_RDONLY)
    tried("a directory as input", b"", no_lines(0, errno.EISDIR), stdin=folder)
    os.close(folder)
    for n in (0, 4, 5, 6, 16, 17, 50):
        tried("a read that fails after %d bytes" % n, recorded, no_lines(recorded[:n].count(b"\n"), errno.EIO), env=calls(n * "1" + "e"))
    tried("a read that fails where the end would be", recorded, no_lines(recorded.count(b"\n"), errno.EIO), env=calls("-e"))

    # Of what is too long, one byte too many is read and nothing behind it.
    long = b"\n01\n" * (1 << 18)
    tried("the greatest length", long, b"", zeros)
    tried("the greatest length, and then a read that fails", long, no_lines(1 << 19, errno.EIO), env=calls("-e"))
    tried("one byte too many", long + b"0", b"", sixteen, 2)
    tried("one byte too many, and then a read that would fail", long + b"0", b"", sixteen, 2, env=calls("-e"))
    with open("/dev/zero", "rb") as endless:
        tried("an input that does not end", b"", b"", sixteen, 2, stdin=endless)
    case = "a recorded run, a file of twice the greatest length"
    with file_of(2 * long) as f:
        p = start(stdin=f, command=command)
        written, said = p.communicate()
        read = os.lseek(f.fileno(), 0, os.SEEK_CUR)
    same(case, "it writes", written, sixteen)
    same(case, "it says", said, b"")
    same(case, "it reads", read, len(long) + 1)
    same(case, "it ends", p.returncode, 2)
    right(case)

    for case, handled, ends in (("a pipe that is closed", signal.SIG_DFL, 2),
                                ("a pipe that is closed, the signal ignored", signal.SIG_IGN, 2)):
        unread, its_out = os.pipe()
        os.close(unread)
        tried(case, recorded, b"", None, ends, before=lambda: signal.signal(signal.SIGPIPE, handled), stdout=its_out)
        os.close(its_out)
    tried("calls that are interrupted", recorded, b"", zeros, env=calls("iiii", "iiii"))
    tried("calls that would have to wait", recorded, b"", zeros, env=calls("aaia", "aaia"))
    tried("a byte at a time", few, b"", five, 1, env=calls(200 * "1", 20 * "1"))
    tried("all of these", recorded, b"", zeros, env=calls(20 * "i1a", 20 * "i1a"))
    slow("a recorded run, an input that does not block", True, False, recorded, zeros, command=command)
    slow("a recorded run, neither blocks", True, True, recorded, zeros, command=command)
    signalled("a recorded run, signals while it reads", False, few, five, 1, command=command)
    signalled("a recorded run, signals while it sleeps", True, few, five, 1, command=command)


if replay:
    going_over(replay)

# ---- a picture of a session: input that can't be read gives none; where the
# output can't be written that is said once, and nothing more is written
if not picture:
    sys.exit(0)
ASKED = picture + ["server", "00"]
SET_UP = ["0600"] + ["03%02x%02x" % (r, d) for d in range(8) for r in range(16)] + ["0800%02x%016x" % (d, 0) for d in range(8)]
SET_UP = "".join(frame + "\n" for frame in SET_UP).encode()


def no_lines(n, error):
    return not_read(n, error, b"picture")


def not_whole(error):
    return b"picture: the picture was not written whole: %s\n" % reason(error)


case = "a picture"
with file_of(SET_UP) as f:
    PICTURE, said = start(stdin=f, command=ASKED).communicate()
same(case, "it says", said, b"")
same(case, "its start and its end", (PICTURE[:5], PICTURE[-7:]), (b"<svg ", b"</svg>\n"))
same(case, "it takes several writes", len(PICTURE) > 20000, True)
right(case, ", %d bytes" % len(PICTURE))

with open("/dev/full", "wb") as full:
    simple("a picture, a full disk", SET_UP, not_whole(errno.ENOSPC), None, stdout=full, command=ASKED)
    with file_of(SET_UP) as f:
        case = "a picture, a full disk, and errors closed"
        same(case, "it ends", start(stdin=f, stdout=full, stderr=None, close=[2], command=ASKED).wait(), 2)
        right(case)
simple("a picture, output closed", SET_UP, not_whole(errno.EBADF), close=[1], command=ASKED)
for limit in (1, 4095, 4096, 4097, 8192, 10000, len(PICTURE) - 1):
    case = "a picture, a disk full after %d bytes" % limit
    filling(case, SET_UP, PICTURE, limit, not_whole(errno.EFBIG), command=ASKED)
    right(case)

simple("a picture, input closed", b"", no_lines(0, errno.EBADF), close=[0], command=ASKED)
folder = os.open(tmp, os.O_RDONLY)
simple("a picture, a directory as input", b"", no_lines(0, errno.EISDIR), stdin=folder, command=ASKED)
os.close(folder)
for n in (0, 4, 5, 6, 12, 19):
    simple("a picture, a read that fails after %d bytes" % n, SET_UP, no_lines(SET_UP[:n].count(b"\n"), errno.EIO),
           command=ASKED, env={"LD_PRELOAD": LIBRARY, "READS": n * "1" + "e"})

# ---- a pipe that nobody reads; a second write that fails; descriptors that don't block
for case, handled, ends in (("a picture, a pipe that is closed", signal.SIG_DFL, 2),
                            ("a picture, a pipe that is closed, the signal ignored", signal.SIG_IGN, 2)):
    unread, its_out = os.pipe()
    os.close(unread)
    simple(case, SET_UP, b"", None, ends, before=lambda: signal.signal(signal.SIGPIPE, handled), stdout=its_out, command=ASKED)
    os.close(its_out)
simple("a picture, a write that fails in the middle", SET_UP, not_whole(errno.EIO), PICTURE[:4097], command=ASKED,
       env={"LD_PRELOAD": LIBRARY, "WRITES": "-1e"})
simple("a picture, calls that are interrupted, would have to wait, or move a byte", SET_UP, b"", PICTURE, command=ASKED,
       env={"LD_PRELOAD": LIBRARY, "READS": 20 * "i1a", "WRITES": 20 * "i1a"})
slow("a picture, neither blocks", True, True, SET_UP, PICTURE, command=ASKED)

# ---- asked for wrongly: a line on standard error, and no picture
for asked in ([], ["server"], ["server", "00", "00"], ["servers", "00"], ["serve", "00"], ["Server", "00"], ["", "00"],
              ["server", "0"], ["server", "10"], ["server", "0g"], ["server", "0A"], ["server", "000"], ["server", ""]):
    refused("a picture, asked for as '%s'" % " ".join(asked), picture, asked, b"picture: ")
for asked in (["server", "01"], ["bank", "00"]):
    simple("a picture, asked for as '%s'" % " ".join(asked), SET_UP, b"picture: the session isn't open after these frames\n", b"", 1,
           command=picture + asked)
PYTHON
