#!/usr/bin/env python3
"""Checks docs/PROMISES.md: every name that it cites, as `path#name`, is declared in that file, and every row cites one or says 'not yet'."""
import pathlib
import re
import sys

root = pathlib.Path(__file__).resolve().parent.parent
text = (root / "docs/PROMISES.md").read_text(encoding="utf-8")
passed = failed = 0


def declared(name, source):
    """A signature, a record, a field, a function, a constant, or a file of that name."""
    n = re.escape(name)
    forms = (
        rf"^\s*(?:(?:unfoldable|abbrev|pub) )*{n}(?: \{{[^}}]*\}})? :",
        rf"^\s*(?:pub )?(?:data|record) {n}(?=\s|$)",
        rf"^\s*(?:pub )?(?:extern \"C\" )?fn {n}(?:<[^>]*>)?\(",
        rf"^\s*(?:pub )?(?:struct|enum|const) {n}(?=\W|$)",
        rf"^def {n}\(",
    )
    return any(re.search(f, source, re.M) for f in forms)


for number, line in enumerate(text.split("\n"), 1):
    if not line.startswith("| ") or line.startswith("| ---") or line.startswith("| What"):
        continue
    cited = re.findall(r"`([^`#]+)#([^`]+)`", line)
    files = re.findall(r"`((?:crates|tests|samples|docs|include|examples)/[^`#]+)`", line)
    if not cited and not files and "not yet" not in line:
        failed += 1
        print(f"PROMISES.md:{number}: no name, file or 'not yet'")
    for path in files:
        if (root / path).exists():
            passed += 1
        else:
            failed += 1
            print(f"PROMISES.md:{number}: {path} does not exist")
    for path, name in cited:
        file = root / path
        if file.is_file() and declared(name, file.read_text(encoding="utf-8")):
            passed += 1
        else:
            failed += 1
            print(f"PROMISES.md:{number}: {path} declares no {name}")

print(f"{passed} passed, {failed} failed")
sys.exit(1 if failed or not passed else 0)
