#!/usr/bin/env python3
"""Holds the documents to the program and to the definitions that they name.

usage: documents.py PROGRAM REPLAY        from the root of the repository

Examples: each line of a fenced block that has a frame and an answer is sent to the program. The blocks of
docs/FRAMES.md and of docs/OFFICERS.md are one run each, those of docs/MAKERS.md and docs/MODEL.md a run for
each block; and the frames of the first two are those of the stored list of that name. REPLAY goes over each
input of the table of docs/REPLAY.md: what it prints is the row's, and its status that of the table below.
Names: each name in docs/MODEL.md that has a file behind it, or in a column whose head names a file, is
defined there.
Prints a line for each document, and each difference. Exits 1 where there is one.
"""
import pathlib
import re
import subprocess
import sys

FRAME = re.compile(r"^([0-9a-zA-Z]+) +([0-9a-f]+)(?: \*)?$")
FILE = re.compile(r"^[a-z_]+/(specs|src)/[A-Za-z_]+\.(antt|rt)$")


def blocks(text):
    """The frames with their answers of each fenced block that has some."""
    found = []
    for block in re.findall(r"^```\n(.*?)^```$", text, re.M | re.S):
        pairs = [m.groups() for m in map(FRAME.match, block.splitlines()) if m]
        if pairs:
            found.append(pairs)
    return found


def differences(program, pairs):
    """What the program answers otherwise."""
    sent = "".join(frame + "\n" for frame, _ in pairs)
    said = subprocess.run([program], input=sent, capture_output=True, text=True).stdout.splitlines()
    if len(said) != len(pairs):
        return ["%d frames, %d answers" % (len(pairs), len(said))]
    return ["%s: %s, not %s" % (f, got, a) for (f, a), got in zip(pairs, said) if a != got]


def examples(program, name, one_run, stored):
    found = blocks(pathlib.Path("docs", name).read_text())
    runs = [sum(found, [])] if one_run else found
    wrong = [w for run in runs for w in differences(program, run)]
    if stored:
        listed = pathlib.Path("crates/lists_try/data", stored).read_text().split()
        if [frame for frame, _ in runs[0]] != listed:
            wrong.append("the frames are not those of " + stored)
    print("%s: %d frames in %d runs, %d differ" % (name, sum(map(len, runs)), len(runs), len(wrong)))
    return wrong


def recordings():
    """The inputs of the examples of docs/REPLAY.md, with what is printed of each."""
    recording = b""
    text = pathlib.Path("docs/REPLAY.md").read_text()
    section = text[text.index("## Examples\n") :].split("\n## ")[0]
    rows = [line for line in section.splitlines() if line.lstrip().startswith("|")]
    for line in rows[2:]:
        cells = cells_of(line)
        words = re.findall(r"`([^`]*)`", cells[0])
        number = re.search(r"([0-9,]+) bytes|line ([0-9]+)", cells[0])
        if cells[0].startswith("the same with "):
            lines = recording.split(b"\n")
            lines[int(number.group(2)) - 1] = words[0].encode()
            given = b"\n".join(lines)
        elif number:
            given = bytes(int(number.group(1).replace(",", "")))
        elif words and pathlib.Path(words[-1]).is_file():
            given = recording = pathlib.Path(words[-1]).read_bytes()
        else:
            given = "".join(words).replace("\\n", "\n").encode()
        printed = re.fullmatch("`([0-9a-f]+)`", cells[1])
        yield cells[0], given, printed.group(1) if printed else "a number"


def replays(replay):
    found = list(recordings())
    wrong = []
    for title, given, printed in found:
        status = 2 if len(given) > 1048576 else 0 if printed == 16 * "0" else 1
        p = subprocess.run([replay], input=given, stdout=subprocess.PIPE)
        if (p.stdout, p.returncode) != (printed.encode() + b"\n", status):
            wrong.append("%s: %r and status %d, not %s and %d" % (title, p.stdout, p.returncode, printed, status))
    if not found:
        wrong.append("no table of examples")
    print("REPLAY.md: %d recordings, %d differ" % (len(found), len(wrong)))
    return wrong


def is_defined(name, path):
    """Whether the file has a definition, a field, a type, a constant or a function of that name."""
    text = pathlib.Path("crates", path).read_text()
    n = re.escape(name)
    if path.endswith(".antt"):
        return bool(re.search(r"(^|\s)(pub |record |data )?%s( \([^)]*\))* :" % n, text))
    return bool(re.search(r"\b(fn|struct|enum|const|type) %s\b" % n, text) or re.search(r"^    %s( \{|\(|,)" % n, text, re.M))


def cells_of(line):
    return [c.strip() for c in re.split(r"(?<!\\)\|", line.strip().strip("|"))]


def file_of(head):
    """The file that the head of a column names."""
    named = [w for w in re.findall(r"`([^`]+)`", head) if FILE.match(w)]
    return named[0] if named else None


def runs_of_names(text, default):
    """The names of a text with their files: a file stands behind the names that it is of."""
    held = []
    for word in re.findall(r"`([^`]+)`", text):
        if FILE.match(word):
            yield from ((name, word) for name in held)
            held = []
        elif re.match(r"^[A-Za-z][A-Za-z0-9_-]*$", word):
            held.append(word)
    if default:
        yield from ((name, default) for name in held)


def names():
    """Each name of docs/MODEL.md with its file, table by table and sentence by sentence."""
    head = []
    for line in pathlib.Path("docs/MODEL.md").read_text().splitlines():
        if not line.startswith("|"):
            head = []
            for group in re.findall(r"\(([^()]*`[^()]*)\)", line):
                for part in group.split(";"):
                    yield from runs_of_names(part, None)
            continue
        cells = cells_of(line)
        if not head:
            head = [file_of(c) for c in cells]
            continue
        for cell, default in zip(cells, head):
            for part in cell.split(";"):
                yield from runs_of_names(part, default)


def main():
    if len(sys.argv) != 3:
        print("usage: documents.py PROGRAM REPLAY", file=sys.stderr)
        return 2
    program, replay = (str(pathlib.Path(name).resolve()) for name in sys.argv[1:])
    wrong = []
    wrong += examples(program, "FRAMES.md", True, "frames.in")
    wrong += examples(program, "OFFICERS.md", True, "officers.in")
    wrong += examples(program, "MAKERS.md", False, None)
    wrong += examples(program, "MODEL.md", False, "worked.in")
    wrong += replays(replay)
    named = list(names())
    missing = ["%s is not in %s" % pair for pair in named if not is_defined(*pair)]
    print("MODEL.md: %d names of definitions, %d not found" % (len(named), len(missing)))
    for line in wrong + missing:
        print("  " + line)
    return 1 if wrong or missing else 0


if __name__ == "__main__":
    sys.exit(main())
