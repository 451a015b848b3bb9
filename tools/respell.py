#!/usr/bin/env python3
"""Brings the repository's own definitions and lemmas to the spelling of today's Rattle, once, behind the kit's port.py.

usage: python3 tools/respell.py [--check]      at the top of the repository

Words are in snake case. In the name of a lemma a dash stays where it joins two names (`low-row`); a plain word is added with `_` (`low_bound`).
A field and a constructor have no dash. A lemma that would have its function's name gets `_lem`. Functions of src/ keep their names, and so do
the names that Rattle makes in proofs/F/. --check says what would fall together, and writes nothing.
"""

import glob
import re
import sys

WORD = re.compile(r'[^\s(){}.;,@"«»]+')
DECLARED = re.compile(r'^([ \t]*)(?:unfoldable |abbrev |pub |private |opaque |data |record )*([^\s(){}.;,@"«»:]+)(?: [({][^\n]*?[)}])* :(?: |$)')
# names of the kit that lemmas are named by
OF_THE_KIT = "append cond drop eqb get_or leb length ltb not ones shl shr suc take table".split()
# where the plain rule would make a name that stands already for something else in a file
OTHERWISE = {}


def texts(pattern):
    return sorted(f for f in glob.glob(pattern, recursive=True) if "/out/" not in f)


def read(path):
    with open(path, encoding="utf-8") as f:
        return f.read()


def declared():
    """Returns the own names by kind: functions and types of specs/, laws of proofs/, fields, constructors."""
    kinds = {"specs": set(), "laws": set(), "fields": set(), "constructors": set(), "inner": set()}
    for path in texts("crates/*/specs/**/*.antt") + texts("crates/*/proofs/**/*.antt"):
        walk = re.search(r"/proofs/.*/", path)
        block = "inner"
        for line in read(path).split("\n"):
            if re.match(r"\S", line):
                head = re.match(r"(?:pub )?(record|data) ", line)
                block = {"record": "fields", "data": "constructors"}[head[1]] if head else "inner"
            found = DECLARED.match(line)
            if not found or found[2].startswith("--"):
                continue
            if found[1]:
                if not (walk and block == "inner"):
                    kinds[block].add(found[2])
            elif not walk:
                kinds["specs" if "/specs/" in path else "laws"].add(found[2])
    return kinds


def snake(name):
    return re.sub(r"(?<=[a-z0-9])[A-Z]", lambda m: "_" + m[0].lower(), name)


def spelled(name, kinds, names):
    """Returns today's spelling of an own name."""
    if name in OTHERWISE:
        return OTHERWISE[name]
    if re.match(r"P\d", name):
        return name.lower().replace("-", "_")
    if not name[0].islower():
        return name
    if name in kinds["fields"] or name in kinds["constructors"]:
        return snake(name).replace("-", "_")
    parts = [snake(it) for it in name.split("-")]
    whole = parts[0]
    for at in range(1, len(parts)):
        # a dash joins two names: what stands before it so far, or its last part, and what follows
        before = any("_".join(parts[i:at]) in names for i in range(at))
        after = any("_".join(parts[at:j]) in names for j in range(at + 1, len(parts) + 1))
        whole += ("-" if before and after else "_") + parts[at]
    return whole


def table(kinds):
    names = {snake(it) for it in kinds["specs"] if it[0].islower()} | set(OF_THE_KIT)
    everyone = set().union(*kinds.values())
    new = {it: spelled(it, kinds, names) for it in sorted(everyone)}
    kept = {it for it in everyone if new[it] == it} | {snake(it) for it in kinds["specs"]}
    kept |= {snake(it) for it in everyone if it[0].islower() and "-" not in it}
    for old in sorted(new):
        if new[old] != old and "-" in old and new[old] in kept and not (old in kinds["fields"] | kinds["constructors"] and old not in kinds["laws"]):
            new[old] += "_lem"
    return {old: it for old, it in new.items() if old != it}


def respelled(text, new):
    return WORD.sub(lambda m: new.get(m[0], m[0]), text)


def in_antt(text, new):
    """Turns the code of an antt file; in its comments only names in camel case and code spans."""
    lines = []
    for line in text.split("\n"):
        code, mark, comment = re.match(r"(.*?)((?:^|(?<=\s))--(?=\s|$))?((?<=--)\s.*)?$", line).groups()
        lines.append(respelled(code, new) + (mark or "") + in_prose(comment or "", new))
    return "\n".join(lines)


def in_prose(text, new):
    camel = {old: it for old, it in new.items() if "-" not in old}
    text = re.sub(r"[A-Za-z0-9_]+", lambda m: camel.get(m[0], m[0]), text)
    return re.sub(r"`[^`]*`", lambda m: re.sub(r"[A-Za-z0-9_'-]+", lambda n: new.get(n[0], n[0]), m[0]), text)


def in_rt(text, new):
    """Turns clauses, ghost items and comments: no name of Rust is in camel case with a small initial, or has a dash."""
    lines = []
    for line in text.split("\n"):
        code, comment = re.match(r"(.*?)(//.*)?$", line).groups()
        ghost = re.match(r"\s*(ghost |requires|ensures)|old: |new: ", code)
        lines.append((respelled(code, new) if ghost else code) + in_prose(comment or "", new))
    return "\n".join(lines)


def named(name, new):
    """Returns the spelling of a name of a page; port.py turned some names of the texts, and no page."""
    plain = snake(name).replace("-", "_")
    return new.get(name) or {"_then_": "◌then◌"}.get(name) or (plain if plain in new[""] else name)


def in_page(text, new):
    """Turns the names behind a file in a page's table of promises, and the code spans."""
    text = re.sub(r"(?<=#)[A-Za-z0-9_'⁺-]+", lambda m: named(m[0], new), text)
    return re.sub(r"`[^`\n]*`", lambda m: re.sub(r"(?<![./\w-])[A-Za-z0-9_'-]+(?![/\w-])", lambda n: named(n[0], new), m[0]), text)


def main():
    kinds = declared()
    new = table(kinds)
    new_names = {new.get(it, it) for it in set().union(*kinds.values())}
    made = {}
    for old, it in new.items():
        made.setdefault(it, []).append(old)
    for it, olds in sorted(made.items()):
        if len(olds) > 1:
            print(f"together: {it}: {olds}")
    turns = [
        ("crates/*/specs/**/*.antt", in_antt),
        ("crates/*/proofs/**/*.antt", in_antt),
        ("crates/*/src/**/*.rt", in_rt),
        ("crates/*/must-fail/*.edit", in_rt),
        ("docs/*.md", in_page),
        ("README.md", in_page),
    ]
    for pattern, turn in turns:
        for path in texts(pattern):
            text = read(path)
            result = turn(text, {**new, "": new_names} if turn is in_page else new)
            if turn in (in_antt, in_rt):
                there = set(WORD.findall(re.sub(r"(--|//)\s.*", "", text)))
                for old in sorted(there & set(new)):
                    if new[old] in there or any(new[it] == new[old] and it != old for it in there & set(new)):
                        print(f"meets: {path}: {old} would meet {new[old]}")
            if "--check" not in sys.argv and result != text:
                with open(path, "w", encoding="utf-8") as f:
                    f.write(result)
    if "--check" in sys.argv:
        for old in sorted(new):
            print(f"{old}\t{new[old]}")


if __name__ == "__main__":
    main()
