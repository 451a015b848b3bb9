#!/usr/bin/env python3
"""Draws courses by picture/draw and reads the pictures back: every unit once, in the column of its stage and the colour of its track, and the arrows
exactly the direct steps of tests/walk.py; a refused course is refused in words. A failing random course prints the seed that repeats it:
tests/picture.py SEED."""
import pathlib
import random
import re
import shutil
import subprocess
import sys
import tempfile
import xml.etree.ElementTree as xml

import make_samples
import walk

root = pathlib.Path(__file__).resolve().parent.parent
SVG = "{http://www.w3.org/2000/svg}"
ROUNDS = 40
passed = failed = 0

# where the words send the author of a refused sample
SENT_TO = {
    "refusal-01-head": "1,024 units",
    "refusal-01-needs": "8,192 needs",
    "refusal-01-tracks": "32 tracks",
    "refusal-02": "unit 2 .*line 3 ",
    "refusal-03": "track 1 ",
    "refusal-04": "line 7 .*smaller",
    "refusal-05": "line 6 .*ascend",
    "refusal-07": "unit 2 .*before it in its track",
    "refusal-11": "line 2 .*ten lower-case",
    "refusal-12-count": "line 3 .*count",
    "refusal-12-end": "line 3 .*end before 04",
    "refusal-12-order": "line 1 .*order",
}


def check(name, good, seen=""):
    global passed, failed
    if good:
        passed += 1
    else:
        failed += 1
        print(f"FAILED {name}: {str(seen)[:300]}")


def draw(*arguments):
    return subprocess.run([str(root / "picture/draw"), *map(str, arguments)], capture_output=True, timeout=300, check=False)


def meant(data):
    """The course of an accepted file, by the walk."""
    frames = [walk.frame(line) for line in walk.lines_of(data)]
    rows = [f for f in frames if f]
    course = walk.Course(*rows[0][1:], [b for kind, _, b in rows if kind == "02"], [(a, b) for kind, a, b in rows if kind == "03"])
    course.check()
    course.load()
    return course


class Picture:
    """What an SVG file shows: units as (number, digits in it, x, colour), arrows, the x of each stage's label, the legend's colour of each track."""

    def __init__(self, data):
        self.units, self.arrows, self.stages, self.legend = [], [], {}, {}
        graph = xml.fromstring(data).find(SVG + "g")
        fill = None
        for part in graph:
            if part.tag == SVG + "polygon" and part.get("fill").startswith("#"):
                fill = part.get("fill")
            if part.tag == SVG + "text" and part.text.startswith("track "):
                self.legend[int(part.text[6:])] = fill
            if part.get("class") == "node":
                self.node(part.find(SVG + "title").text, part)
            if part.get("class") == "edge":
                self.arrows.append(tuple(map(int, part.find(SVG + "title").text.split("->"))))

    def node(self, title, part):
        words = next(part.iter(SVG + "text"))
        if title.startswith("stage "):
            self.stages[int(title[6:])] = (words.text, float(words.get("x")))
        else:
            disc = next(part.iter(SVG + "ellipse"))
            self.units.append((int(title), words.text, float(disc.get("cx")), disc.get("fill")))


def compare(name, data, course):
    """The picture against the course: five checks."""
    picture = Picture(data)
    stages = {u: course.stage(u) for u in course.units}
    check(f"{name}: each unit once", sorted((u, digits) for u, digits, _, _ in picture.units) == [(u, str(u)) for u in course.units], picture.units)
    steps = sorted((v, u) for u in course.units for v in course.steps[u])
    check(f"{name}: the arrows are the direct steps", sorted(picture.arrows) == steps, set(picture.arrows) ^ set(steps))
    columns = sorted(picture.stages.items())
    named = [words for _, (words, _) in columns] == [f"stage {s}" for s in range(1, max(stages.values()) + 1)]
    apart = all(a[1][1] < b[1][1] for a, b in zip(columns, columns[1:]))
    check(f"{name}: stages from left to right", named and apart, columns)
    astray = [u for u, _, x, _ in picture.units if abs(x - picture.stages[stages[u]][1]) > 0.5]
    check(f"{name}: each unit under its stage", not astray, astray)
    own = {q: {colour for u, _, _, colour in picture.units if course.tracks[u - 1] == q} for q in range(course.k)}
    one_each = len(set(picture.legend.values())) == course.k
    check(f"{name}: one colour a track, as the legend has it", one_each and own == {q: {c} for q, c in picture.legend.items()}, picture.legend)


def accepted(name, file, data):
    done = draw(file)
    check(f"{name}: drawn", done.returncode == 0 and not done.stderr, done.stderr)
    if done.returncode == 0:
        compare(name, done.stdout, meant(data))


def sample(file):
    """A sample, drawn or refused as its first printed line says."""
    said = file.with_suffix(".printed").read_text().split("\n")[0]
    if said.startswith("built"):
        accepted(file.name, file, file.read_bytes())
        return
    done = draw(file)
    check(f"{file.name}: refused", done.returncode == 1 and not done.stdout, done.returncode)
    check(f"{file.name}: in words", re.match(f"{said}: .*{SENT_TO[file.stem]}", done.stderr.decode()), done.stderr)


def some_course(seed):
    """A sound course of up to 60 units and 32 tracks."""
    r = random.Random(seed)
    n = r.randrange(1, 61)
    k = r.randrange(1, min(n, 32) + 1)
    tracks = list(range(k)) + [r.randrange(k) for _ in range(n - k)]
    r.shuffle(tracks)
    pairs, last, often = set(), {}, r.choice([0.0, 0.03, 0.1, 0.4])
    for u, q in enumerate(tracks, 1):
        pairs.update((u, v) for v in range(1, u) if v == last.get(q) or r.random() < often)
        last[q] = u
    return make_samples.course(n, k, tracks, sorted(pairs))


def written(name, text):
    """A course that is no sample."""
    with tempfile.NamedTemporaryFile(suffix=".course") as file:
        file.write(text.encode())
        file.flush()
        accepted(name, file.name, text.encode())


def round_of(seed):
    written(f"random course, seed {seed}", some_course(seed))


def all_checks():
    for file in sorted((root / "samples").glob("*.course")):
        sample(file)
    # 5 has the direct steps 3, at stage 3, and 4, at stage 1: it stands at stage 2, and the arrow from 3 leads back
    written("an arrow back a stage", make_samples.course(5, 2, [0, 0, 0, 1, 1], [(2, 1), (3, 2), (5, 3), (5, 4)]))
    # 4 has the direct steps 2, at stage 2, and 3, at stage 1: it stands at stage 2 beside 2
    written("an arrow within a stage", make_samples.course(4, 2, [0, 0, 1, 1], [(2, 1), (4, 2), (4, 3)]))
    six = root / "samples/six.course"
    compare("docs/six.svg", (root / "docs/six.svg").read_bytes(), meant(six.read_bytes()))
    source = draw("--dot", six).stdout
    drawn = subprocess.run(["dot", "-Tsvg"], input=source, stdout=subprocess.PIPE, timeout=300, check=False).stdout
    check("--dot: what Graphviz is handed, the same each time", drawn and drawn == draw(six).stdout, source)
    check("no file: exit 2", draw().returncode == 2)
    check("a file that is not there: exit 2", draw("samples/none.course").returncode == 2)
    for seed in range(ROUNDS):
        round_of(seed)


if not shutil.which("dot"):
    subprocess.run("apt-get update && apt-get install -y graphviz", shell=True, check=True)
if len(sys.argv) > 1:
    round_of(int(sys.argv[1]))
else:
    all_checks()
print(f"{passed} passed, {failed} failed")
sys.exit(1 if failed or not passed else 0)
