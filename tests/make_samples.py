#!/usr/bin/env python3
"""Writes the courses of samples/ that are too regular to keep by hand: each NAME.course with NAME.printed, what the program must print, by the walk
of tests/walk.py. The small ones are kept as they are written here, so that a reader can follow them. --check writes nothing and compares."""
import pathlib
import random
import sys

import walk

here = pathlib.Path(__file__).resolve().parent.parent / "samples"


def frames(*rows):
    return "".join("%s%04x%04x\n" % row for row in rows)


def course(n, k, tracks, pairs, questions=()):
    rows = [("01", n, k)] + [("02", u, q) for u, q in enumerate(tracks, 1)] + [("03", u, v) for u, v in pairs]
    return frames(*rows, ("04", len(pairs), 0), *questions)


def limit_course():
    """n = 1,024, k = 32, 8,192 needs, and questions up to line 65,535."""
    r = random.Random(1024)
    tracks = [(u - 1) % 32 for u in range(1, 1025)]
    pairs = {(u, u - 32) for u in range(33, 1025)}
    while len(pairs) < 8192:
        u = r.randrange(2, 1025)
        pairs.add((u, r.randrange(max(1, u - 96), u)))
    head = course(1024, 32, tracks, sorted(pairs))
    asked = []
    for _ in range(65535 - head.count("\n")):
        kind = r.choice(["10"] * 40 + ["11"] * 20 + ["16", "17", "17", "18", "18"] + ["14", "15"])
        u = r.randrange(1, 1025)
        second = {"10": r.randrange(1, 1025), "11": r.randrange(1, 1025), "17": r.randrange(32), "18": r.randrange(32)}.get(kind, 0)
        asked.append((kind, u, second))
    return head + frames(*asked)


SIX = (6, 2, [0, 0, 1, 0, 1, 0], [(2, 1), (3, 1), (4, 2), (5, 2), (5, 3), (6, 1), (6, 3), (6, 4)])
ALL = [(kind, u, v) for kind in ("10", "11") for u in range(1, 7) for v in range(1, 7)]
ALL += [(kind, u, 0) for kind in ("12", "13", "14", "15", "16") for u in range(1, 7)]
ALL += [(kind, u, q) for kind in ("17", "18") for u in range(1, 7) for q in range(2)]

FILES = {
    "printed": course(3, 2, [0, 0, 1], [(2, 1), (3, 1)], [("10", 3, 2), ("10", 3, 1), ("13", 1, 0), ("10", 4, 1), ("12", 1, 0)]),
    "six": course(*SIX, ALL),
    "limits": limit_course(),
    "calibration": course(4, 2, [0, 0, 1, 0], [(2, 1), (4, 2)], [("10", 4, 2), ("10", 4, 3), ("12", 4, 0), ("12", 3, 0)]),
    "single": course(1, 1, [0], [], [("10", 1, 1), ("12", 1, 0), ("16", 1, 0), ("17", 1, 0)]),
    "refusal-01-head": frames(("01", 1025, 1)),
    "refusal-01-tracks": frames(("01", 40, 33)),
    "refusal-01-needs": course(200, 1, [0] * 200, [(u, v) for u in range(2, 200) for v in range(1, u)][:8193]),
    "refusal-02": course(3, 2, [0, 2, 1], [(2, 1)]),
    "refusal-03": course(3, 3, [0, 0, 2], [(2, 1)]),
    "refusal-04": course(3, 2, [0, 0, 1], [(3, 1), (2, 1), (2, 3)]),
    "refusal-05": course(3, 2, [0, 0, 1], [(3, 1), (2, 1)]),
    "refusal-07": course(3, 2, [0, 0, 1], [(3, 1)]),
    "refusal-08": course(2, 1, [0, 0], [(2, 1)], [("10", 3, 1), ("11", 1, 3), ("17", 1, 1), ("16", 0, 0), ("10", 2, 1)]),
    "refusal-11": "0100010001\n020001000G\n",
    "refusal-11-no-feed": "0100010001\n0200010000\n0400000000\n1000010001",
    "refusal-12-order": frames(("02", 1, 0)),
    "refusal-12-count": frames(("01", 1, 1), ("02", 1, 0), ("04", 1, 0)),
    "refusal-12-filler": course(1, 1, [0], [], [("12", 1, 1)]),
    "refusal-12-end": frames(("01", 1, 1), ("02", 1, 0)),
    "refusal-12-line": course(1, 1, [0], [], [("10", 1, 1)] * 65533),
}


def wanted():
    """Yields each file of samples/ with what it must hold."""
    for name, text in FILES.items():
        yield here / (name + ".course"), text.encode()
        yield here / (name + ".printed"), walk.prints(text.encode())


def check():
    """Whether samples/ holds these files, as they are made here, and no others."""
    made = dict(wanted())
    wrong = [path.name for path, text in made.items() if not path.is_file() or path.read_bytes() != text]
    wrong += [path.name for path in here.iterdir() if path not in made]
    for name in wrong:
        print(f"samples/{name} is not as tests/make_samples.py makes it")
    print(f"{len(made) - len(wrong)} passed, {len(wrong)} failed")
    return 1 if wrong else 0


if __name__ == "__main__":
    if sys.argv[1:] == ["--check"]:
        sys.exit(check())
    here.mkdir(exist_ok=True)
    for path, text in wanted():
        path.write_bytes(text)
