#!/usr/bin/env python3
"""Runs the course program and compares what it prints, byte by byte: on every file of samples/, and on random and damaged course files, whole and
in small blocks, against tests/walk.py; on a pipe that stays open; and where a read or a write fails. A failing case prints the seed that repeats
it: tests/program.py SEED. Bounded in count; each run of the program in time."""
import os
import pathlib
import platform
import random
import select
import socket
import subprocess
import sys
import threading
import time

import walk

root = pathlib.Path(__file__).resolve().parent.parent
program = [str(root / "crates/course/out/course")]
if platform.machine() not in ("x86_64", "AMD64"):
    program = [os.environ.get("EMULATOR", "qemu-x86_64")] + program
ROUNDS = 150
passed = failed = 0


def compare(name, got, said):
    global passed, failed
    if got == said:
        passed += 1
    else:
        failed += 1
        print(f"FAILED {name}: printed {got[-200:]!r}, must print {said[-200:]!r}")


def check(name, data, said):
    """One file through the program."""
    compare(name, subprocess.run(program, input=data, stdout=subprocess.PIPE, timeout=120, check=False).stdout, said)


def printed_by(run, seconds):
    """What a run prints to its end, of which it has so many seconds; its input is closed."""
    try:
        return run.communicate(timeout=seconds)[0]
    except subprocess.TimeoutExpired:
        run.kill()
        return b"still running"


def check_blocks(name, data, said, r):
    """The same in blocks of 1 to 30 bytes: a socket that keeps its messages apart hands each read one of them."""
    ours, theirs = socket.socketpair(socket.AF_UNIX, socket.SOCK_SEQPACKET)

    def send():
        at = 0
        try:
            while at < len(data):
                at += ours.send(data[at : at + r.randrange(1, 31)])
        except OSError:
            pass  # the program has stopped, and reads no more
        ours.close()

    with subprocess.Popen(program, stdin=theirs, stdout=subprocess.PIPE) as run:
        theirs.close()
        sender = threading.Thread(target=send)
        sender.start()
        got = printed_by(run, 120)
        sender.join()
    compare(name, got, said)


def check_open(name, sent, said):
    """What is printed while the pipe stays open: all of it at once, and nothing once it is closed."""
    with subprocess.Popen(program, stdin=subprocess.PIPE, stdout=subprocess.PIPE) as run:
        run.stdin.write(sent)
        run.stdin.flush()
        got, until = b"", time.monotonic() + 5
        while len(got) < len(said) and select.select([run.stdout], [], [], max(0, until - time.monotonic()))[0]:
            more = os.read(run.stdout.fileno(), 65536)
            if not more:
                break
            got += more
        late = printed_by(run, 30)
    compare(name, got, said)
    compare(f"{name}, once it is closed", late, b"")


def check_open_pipes():
    """A screen sends a line and waits: its answer comes before the next byte does, a short line's refusal too."""
    six = (root / "samples/six.course").read_bytes()
    head, rest = six.split(b"\n04", 1)
    course = head + b"\n04" + rest.split(b"\n", 1)[0] + b"\n"
    lines = course.count(b"\n")
    built = walk.prints(course)
    question = b"1000030001\n"
    answer = walk.prints(course + question)[len(built) :]
    short = walk.refused_line(11, lines + 1).encode()
    check_open("a course on an open pipe", course, built)
    check_open("a question on an open pipe", course + question, built + answer)
    check_open("a short line on an open pipe", course + b"100003\n", built + short)
    check_open("a line feed alone on an open pipe", course + b"\n", built + short)
    check_open("a short line behind a question", course + question + b"100003\n", built + answer + walk.refused_line(11, lines + 2).encode())
    check_open("a short line before 04", head + b"\n100003\n", walk.refused_line(11, lines).encode())
    check_open("a short line first of all", b"100003\n", walk.refused_line(11, 1).encode())


def check_failures():
    """A read that fails is no end of a file: nothing is printed. A write that fails ends the program, whatever is still to come."""
    directory = os.open(root, os.O_RDONLY)
    compare("a read that fails", subprocess.run(program, stdin=directory, stdout=subprocess.PIPE, timeout=30, check=False).stdout, b"")
    os.close(directory)
    with open("/dev/full", "wb") as full, subprocess.Popen(program, stdin=subprocess.PIPE, stdout=full) as run:
        run.stdin.write((root / "samples/six.course").read_bytes())
        run.stdin.flush()
        try:
            ended = run.wait(timeout=30) is not None
        except subprocess.TimeoutExpired:
            run.kill()
            ended = False
    compare("a write that fails: the program has ended", b"%d" % ended, b"1")


def some_course(r):
    """A small course, most of them sound, with questions about all of it and about what is not there."""
    n = r.randrange(1, 14)
    k = r.randrange(1, min(n, 5) + 1)
    tracks = list(range(k)) + [r.randrange(k) for _ in range(n - k)]
    r.shuffle(tracks)
    pairs, last = set(), {}
    for u in range(1, n + 1):
        q = tracks[u - 1]
        if q in last and r.random() < 0.97:
            pairs.add((u, last[q]))
        last[q] = u
        pairs.update((u, v) for v in range(1, u) if r.random() < 0.15)
    rows = [("01", n, k)] + [("02", u, q) for u, q in enumerate(tracks, 1)] + [("03", u, v) for u, v in sorted(pairs)]
    rows.append(("04", len(pairs), 0))
    for _ in range(r.randrange(60)):
        kind = r.choice(["10", "11", "12", "13", "14", "15", "16", "17", "18"])
        second = r.randrange(n + 2) if kind in ("10", "11") else r.randrange(k + 1) if kind in ("17", "18") else 0
        rows.append((kind, r.randrange(n + 2), second))
    return "".join("%s%04x%04x\n" % row for row in rows).encode()


def damaged(r, data):
    """The file with a byte changed, a line dropped, doubled, swapped or cut, or the end cut off."""
    lines = data.splitlines(keepends=True)
    i = r.randrange(len(lines))
    way = r.randrange(6)
    if way == 0:
        at = r.randrange(len(data))
        return data[:at] + bytes([r.choice(b"0123456789abcdefABG \r\n\x00\xff")]) + data[at + 1 :]
    if way == 1:
        del lines[i]
    elif way == 2:
        lines.insert(i, lines[i])
    elif way == 3:
        j = r.randrange(len(lines))
        lines[i], lines[j] = lines[j], lines[i]
    elif way == 4:
        lines[i] = lines[i][: r.randrange(len(lines[i]))]
    else:
        return data[: r.randrange(len(data))]
    return b"".join(lines)


def round_of(seed):
    r = random.Random(seed)
    data = some_course(r)
    said = walk.prints(data)
    check(f"random course, seed {seed}", data, said)
    check_blocks(f"random course in blocks, seed {seed}", data, said, r)
    for _ in range(3):
        hurt = damaged(r, data)
        said = walk.prints(hurt)
        check(f"damaged course, seed {seed}", hurt, said)
        check_blocks(f"damaged course in blocks, seed {seed}", hurt, said, r)
    noise = bytes(r.randrange(256) for _ in range(r.randrange(40)))
    check(f"random bytes, seed {seed}", noise, walk.prints(noise))


if len(sys.argv) > 1:
    round_of(int(sys.argv[1]))
else:
    for file in sorted((root / "samples").glob("*.course")):
        check(file.name, file.read_bytes(), file.with_suffix(".printed").read_bytes())
        if file.stat().st_size < 100_000:
            check_blocks(f"{file.name} in blocks", file.read_bytes(), file.with_suffix(".printed").read_bytes(), random.Random(file.name))
    check_open_pipes()
    check_failures()
    for seed in range(ROUNDS):
        round_of(seed)
print(f"{passed} passed, {failed} failed")
sys.exit(1 if failed or not passed else 0)
