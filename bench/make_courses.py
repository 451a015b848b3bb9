#!/usr/bin/env python3
"""Writes the benchmark's course files into a folder: the course of samples/limits.course, and questions of some kinds alone up to line 65,535.

Usage: make_courses.py FOLDER"""
import pathlib
import random
import sys

KINDS = {"pairs": ["10", "11"], "lists": ["12", "13", "14", "15"], "mix": ["10", "11", "12", "13", "14", "15", "16", "17", "18"]}
LINES = 65535


def course():
    """The lines of the limits' course, up to its end of listing, and its counts of units and tracks."""
    sample = pathlib.Path(__file__).resolve().parent.parent / "samples" / "limits.course"
    lines = sample.read_text().splitlines()
    end = next(at for at, line in enumerate(lines) if line.startswith("04"))
    return lines[: end + 1], int(lines[0][2:6], 16), int(lines[0][6:], 16)


def question(r, kind, n, k):
    second = {"10": r.randrange(1, n + 1), "11": r.randrange(1, n + 1), "17": r.randrange(k), "18": r.randrange(k)}.get(kind, 0)
    return "%s%04x%04x" % (kind, r.randrange(1, n + 1), second)


def main(folder):
    head, n, k = course()
    for name, kinds in KINDS.items():
        r = random.Random(name)
        asked = [question(r, r.choice(kinds), n, k) for _ in range(LINES - len(head))]
        (pathlib.Path(folder) / (name + ".course")).write_text("\n".join(head + asked) + "\n")


main(sys.argv[1])
