#!/usr/bin/env python3
"""Looks for changes of the code that no contract sees: changes function bodies one place at a time, in a copy, and proves the copy again.

    tests/changes.py [CRATE..] [--count N] [--seed S] [--all]

The crates are those named, or all of crates.txt. Of the possible changes N are drawn at random (50, by seed 1), or all are tried. Each is
one comparison, sign, number, truth value, variable put for another of its type, or store left out; each ends in one of four ways:

    refused        a fact of a contract or of a loop's invariant no longer holds
    not compiled   the compiler refuses it before any proof
    told nothing   the written proof names what the changed code no longer has, so it says nothing about the contract
    still proved   no contract sees it: it changes no outcome, or docs/EXCEPTIONS.md has to name it

The repository itself is only read. A change takes some five seconds. The gate does not run this; the last line counts the four.
"""
import argparse
import collections
import concurrent.futures
import pathlib
import queue
import random
import re
import shutil
import subprocess
import tempfile

root = pathlib.Path(__file__).resolve().parent.parent
TOKEN = re.compile(
    r"""(?P<space>\s+|//[^\n]*)|(?P<text>b?"(?:\\.|[^"\\])*"|b'(?:\\.|[^'\\])+'|'\w+)|(?P<number>\d[\d_]*)(?P<suffix>[iu]\w+)?"""
    r"""|(?P<name>[^\W\d]\w*)|(?P<sign>->|=>|==|!=|<=|>=|&&|\|\||<<|>>|[-+*/%&|^]=|::|\.\.|.)""", re.S)
OTHER = {"<": "<=", "<=": "<", ">": ">=", ">=": ">", "==": "!=", "!=": "==", "+": "-", "-": "+", "+=": "-=", "-=": "+=", "true": "false", "false": "true"}
WORDS = {"as", "else", "if", "in", "let", "match", "mut", "return", "while"}
Change = collections.namedtuple("Change", "crate file line function old new text")

# how the log says that a proof names, binds or takes apart what the code no longer gives
MISFIT = re.compile(r"that can be named from here|has no field|is not in scope|is already declared|does not cover")


def tokens(source):
    return [m for m in TOKEN.finditer(source) if m.lastgroup != "space"]


def closing(ts, i):
    """The index of the bracket that closes the one at i."""
    depth = 0
    for j in range(i, len(ts)):
        depth += (ts[j][0] in "([{") - (ts[j][0] in ")]}")
        if depth == 0:
            return j
    raise ValueError("a bracket is not closed")


def opening(ts, i):
    """The index of the bracket that opens the parameters of the function whose `fn` is at i: past its type parameters, if it has any."""
    j, depth = i + 2, 0
    while depth or ts[j][0] != "(":
        depth += {"<": 1, ">": -1, ">>": -2}.get(ts[j][0], 0)
        j += 1
    return j


def functions(source):
    """Yields (name, the parameters' tokens, the body's tokens) of each function."""
    ts = tokens(source)
    for i, t in enumerate(ts[:-1]):
        if t[0] != "fn" or ts[i + 1].lastgroup != "name":
            continue
        first = opening(ts, i)
        last = closing(ts, first)
        j = last + 1
        while ts[j][0] not in ("{", ";", "requires", "ensures"):
            # the `;` of an array's type ends no head
            j = closing(ts, j) + 1 if ts[j][0] in ("(", "[") else j + 1
        while ts[j][0] in ("requires", "ensures"):
            j = closing(ts, next(x for x in range(j, len(ts)) if ts[x][0] == "{")) + 1
        if ts[j][0] == "{":
            yield ts[i + 1][0], ts[first + 1:last], ts[j + 1:closing(ts, j)]


Local = collections.namedtuple("Local", "type since mut")


def locals_of(params, body):
    """{name: Local} of the parameters, and of the locals whose type is written: `let x: T = ..` or `let x = .. as T;`."""
    found = {}
    for ts, stops in ((params, ","), (body, "=")):
        for i, t in enumerate(ts[:-1]):
            before = ts[i - 1][0] if i else ""
            if t.lastgroup != "name" or ts is body and before not in ("let", "mut"):
                continue
            end = next((j for j in range(i, len(ts)) if ts[j][0] == ";"), len(ts))
            if ts[i + 1][0] == ":":
                stop = next((j for j in range(i, len(ts)) if ts[j][0] == stops), len(ts))
                found[t[0]] = Local(" ".join(x[0] for x in ts[i + 2:stop]), 0 if ts is params else ts[end].start(), before == "mut")
            elif ts[i + 1][0] == "=" and ts[end - 2][0] == "as":
                found[t[0]] = Local(ts[end - 1][0], ts[end].start(), before == "mut")
    return found


def places(source, params, body):
    """Yields (start, end, new text) for each change of a body."""
    known = locals_of(params, body)
    for i, t in enumerate(body):
        before, after = body[i - 1][0] if i else "{", body[i + 1][0] if i + 1 < len(body) else "}"
        if t.lastgroup in ("number", "suffix"):
            if before != "." and not (before == ";" and after == "]"):
                value = int(t["number"].replace("_", ""))
                yield from ((t.start(), t.end(), f"{v}{t['suffix'] or ''}") for v in (value + 1, value - 1) if 0 <= v)
        elif t[0] in OTHER and (t.lastgroup == "name" or before in (")", "]") or i and body[i - 1].lastgroup in ("name", "number", "suffix") and before not in WORDS):
            yield t.start(), t.end(), OTHER[t[0]]
        elif t[0] in known and before not in (".", "::", "let", "mut") and after not in ("(", "::", ":"):
            for name, local in known.items():
                if name != t[0] and local.type == known[t[0]].type and local.since < t.start() and (local.mut or after not in ("=", "+=", "-=")):
                    yield t.start(), t.end(), name
        if before in (";", "{", "}") and t.lastgroup == "name" and t[0] not in WORDS:
            end = next((j for j in range(i, len(body)) if body[j][0] in (";", "{", "}")), i)
            store = next((j for j in range(i, end) if body[j][0] == "="), None)
            if store and body[end][0] == ";":
                place = source[t.start():body[store].start()].strip()
                yield t.start(), body[end].end(), f"{place} = {place};"


def changes(crate):
    """All changes of a crate's functions, each text once."""
    seen = set()
    for path in sorted((root / "crates" / crate / "src").rglob("*.rt")):
        source = path.read_text(encoding="utf-8")
        for name, params, body in functions(source):
            for start, end, new in places(source, params, body):
                text = source[:start] + new + source[end:]
                if text not in seen:
                    seen.add(text)
                    first, last = source.rfind("\n", 0, start) + 1, source.find("\n", end)
                    old, now = (" ".join(x.split()) for x in (source[first:last], source[first:start] + new + source[end:last]))
                    yield Change(crate, path.relative_to(root), source.count("\n", 0, start) + 1, name, old, now, text)


def prove(copy, crate):
    """Proves a crate of a copy. -> (its status, what the prover said)"""
    done = subprocess.run(["rt", "check", "--jobs", "1"], cwd=copy / "crates" / crate, text=True, errors="replace", stdout=subprocess.PIPE, stderr=subprocess.STDOUT)
    return done.returncode, done.stdout


def prints_as_before(copy, crate):
    """Whether a program, proved in a copy, still prints what it must for its own input; a library prints nothing."""
    folder = copy / "crates" / crate
    if not (folder / "src/main.rt").is_file():
        return True
    with open(folder / "stdin", "rb") as given:
        done = subprocess.run(["rt", "run"], cwd=folder, stdin=given, stdout=subprocess.PIPE, stderr=subprocess.DEVNULL)
    return done.stdout == (folder / "stdout").read_bytes()


def ending(change, copy):
    """Makes the change in a copy, proves the crate there, and takes the change back. -> how it ended"""
    file = copy / change.file
    plain = file.read_text(encoding="utf-8")
    file.write_text(change.text, encoding="utf-8")
    status, log = prove(copy, change.crate)
    same = status != 0 or prints_as_before(copy, change.crate)
    file.write_text(plain, encoding="utf-8")
    if status == 0:
        return "still proved" if same else "refused"
    if "\nlogic=not-proved" not in log:
        return "not compiled"
    return "told nothing" if MISFIT.search(log) else "refused"


def main():
    words = argparse.ArgumentParser(description=__doc__, formatter_class=argparse.RawDescriptionHelpFormatter)
    words.add_argument("crates", nargs="*")
    words.add_argument("--count", type=int, default=50)
    words.add_argument("--seed", type=int, default=1)
    words.add_argument("--all", action="store_true")
    words.add_argument("--jobs", type=int, default=2)
    asked = words.parse_args()
    listed = [x.split(":")[0].split()[0] for x in (root / "crates.txt").read_text(encoding="utf-8").split("\n") if ":" in x.split("#")[0]]
    crates = asked.crates or listed
    possible = [x for c in crates for x in changes(c)]
    drawn = possible if asked.all else random.Random(asked.seed).sample(possible, min(asked.count, len(possible)))
    print(f"{len(possible)} changes possible, {len(drawn)} tried", flush=True)
    count = collections.Counter()
    with tempfile.TemporaryDirectory() as room, concurrent.futures.ThreadPoolExecutor(asked.jobs) as workers:
        copies = queue.Queue()
        for number in range(asked.jobs):
            copy = pathlib.Path(room) / str(number)
            shutil.copytree(root / "crates", copy / "crates", ignore=shutil.ignore_patterns("out"))
            shutil.copy(root / "crates.txt", copy)
            for crate in sorted({x.crate for x in drawn}):
                status, log = prove(copy, crate)
                if status != 0:
                    raise SystemExit(f"{crate} is not proved before any change:\n{log[-2000:]}")
            copies.put(copy)

        def attempt(change):
            copy = copies.get()
            try:
                return change, ending(change, copy)
            finally:
                copies.put(copy)

        for change, how in workers.map(attempt, drawn):
            count[how] += 1
            print(f"{how:12} {change.file}:{change.line} {change.function}: {change.old}  =>  {change.new}", flush=True)
    print(", ".join(f"{count[x]} {x}" for x in ("refused", "not compiled", "told nothing", "still proved")) + f" of {len(drawn)}")


if __name__ == "__main__":
    main()
