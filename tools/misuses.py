#!/usr/bin/env python3
"""Tries the two misuses of a trial, each an edit in misuses/, in the format of the must-fail edits.

    misuses.py        exits 0 where each is refused as a borrow error, and by nothing else

A borrow error ends the check before anything is proved, which `rt must-fail` takes for a bad edit, so these
two stand apart. Each edit is made in place, checked, and taken back.
"""
import pathlib
import re
import subprocess
import sys

root = pathlib.Path(__file__).resolve().parent.parent
crate = root / "crates" / "finder"
bad = 0
for edit in sorted((root / "tools" / "misuses").glob("*.edit")):
    said = dict(line.split(": ", 1) for line in edit.read_text().splitlines() if ": " in line)
    source = crate / said["file"]
    text = source.read_text()
    if text.count(said["old"]) != 1:
        print(f"{edit.stem}: its old text does not stand once in {said['file']}")
        bad = 1
        continue
    try:
        source.write_text(text.replace(said["old"], said["new"]))
        run = subprocess.run(["rt", "check"], cwd=crate, capture_output=True, text=True)
    finally:
        source.write_text(text)
    errors = re.findall(r"error(?:\[[^\]]*\])?", run.stdout + run.stderr)
    fine = run.returncode != 0 and errors and all(e.startswith("error[borrow-") for e in errors)
    print(f"{edit.stem}: {'refused by ' + ', '.join(errors) if fine else 'NOT refused as a borrow error'}")
    bad = bad or not fine
sys.exit(1 if bad else 0)
