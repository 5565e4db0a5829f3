#!/usr/bin/env python3
"""Lists the places of older forms in the crates' src/, point by point, as docs/DESIGN-PASS.md counts them.

usage: tools/places.py [-l] [FOLDER]     -l lists each place, FOLDER is another checkout
"""
import collections
import glob
import os
import re
import sys

LINES = {
    "1 own enums with a None, and literals for kinds": [
        r"^ +None,$",
        r"^ +[0-9]+ => Some\(",
        r"^ +[0-9]+ => (Mode|PriceKind|Kind)::",
        r"^ +[0-9]+ => text_as",
        r"\b(letter|kind|mode|price|of): u(8|16|32)\b",
        r"^ +(pub(\([a-z]+\))? )?(is|has)_[a-z]+: bool,$",
        r"\bkind == [0-9]",
    ],
    "3 loops that count an index": [
        r"\bwhile .*[<>]",
        r"\bfor [a-z]+ in [^{]*\.\.",
        r"\[at \+ i\]|\[k\] =|\[p\] =|out\[i\] =|return i;",
    ],
    "4 comparing, converting and printing by hand": [
        r"\bfn (same|is_same|goes_before|mode_number|price_number|letter_of|is_known|is_any|is_untransposed|kind_at)\b",
        r"\bfn (is_done|is_no_call|granted|refused|no_limit|tried|is_none|is_found|reads|has_transposed|is_blank|is_marked)\b",
        r"^ +Some\(_\) => true,$",
        r"^ +Err\(fault\) => (Err\(|told\()",
        r"^ +Ok\(length\) => Ok\(length\),$",
        r"let (number|place) = refusal\.",
        r"== .*\.first\.column|\.place\.column ==",
        r"^ +self\.changes < other|other\.count >= self",
        r" as (u64|u32|usize) \* 256|\* 256 \+ |/ 256\) as u8|% 256\) as u8",
    ],
    "6 buffers with a length beside, and indices for parts": [
        r"^ +pub [a-z_]+_end: usize,$",
        r"= \[0u(8|16|32); [0-9]+\]",
        r"\bVec::new\(heap\)",
    ],
    "7 switches and tables of functions": [
        r"\bmatch (step\.kind|call|at|kind|input\[1\])\b",
        r"\bfn\(",
    ],
}


def sources(root):
    for path in sorted(glob.glob(os.path.join(root, "crates/*/src/*.rt"))):
        with open(path, encoding="utf-8") as f:
            yield os.path.relpath(path, root), f.read()


def code(text):
    return [line for line in text.split("\n") if not line.lstrip().startswith(("//", "ghost use"))]


def by_lines(files, patterns):
    found = []
    for path, text in files:
        for line in code(text):
            if any(re.search(p, line) for p in patterns):
                found.append(f"{path}: {line.strip()}")
    return found




def twins(files):
    names = collections.defaultdict(set)
    for path, text in files:
        for line in code(text):
            m = re.match(r"(?:pub(?:\([a-z]+\))? )?fn ([a-z_]+)", line)
            if m and m.group(1) != "main":
                names[m.group(1)].add(path)
    found = [f"{n}: {' '.join(sorted(p))}" for n, p in sorted(names.items()) if len({q.split('/')[1] for q in p}) > 1]
    same = collections.defaultdict(list)
    for path, text in files:
        same[text].append(path)
    return found + [f"same file: {' '.join(p)}" for p in same.values() if len(p) > 1]


def facts(files):
    count = collections.Counter()
    wide = []
    for path, text in files:
        for m in re.finditer(r"requires (?:[a-z_]+ )?\{ (.*) \}", text):
            count[m.group(1)] += 1
        for m in re.finditer(r"\bfn ([a-z_]+)(?:<[^(]*?>)?\(([^{]*?)\)\s*(?:->|\n|\{)", text):
            parameters = [p for p in re.split(r",(?![^<\[(]*[>\])])", m.group(2)) if p.strip()]
            if len(parameters) >= 6:
                wide.append(f"{path}: {m.group(1)} takes {len(parameters)}")
    return [f"{n} times required: {t}" for t, n in count.most_common() if n >= 3] + wide


def proofs(root):
    found = []
    for crate in sorted(os.listdir(os.path.join(root, "crates"))):
        lines = answers = 0
        for path in glob.glob(os.path.join(root, "crates", crate, "proofs/**/*.antt"), recursive=True):
            with open(path, encoding="utf-8") as f:
                text = f.read()
            lines += text.count("\n")
            answers += len(re.findall(r"^(?:abbrev )?pub [^ ]+ : goal\.", text, re.M))
        if lines:
            found.append(f"{crate}: {lines} lines, {answers} answers")
    return found


def main():
    rest = [a for a in sys.argv[1:] if a != "-l"]
    root = rest[0] if rest else os.path.join(os.path.dirname(os.path.abspath(__file__)), "..")
    files = list(sources(root))
    points = {name: by_lines(files, patterns) for name, patterns in LINES.items()}
    points["2 functions of one name in several crates, and equal files"] = twins(files)
    points["5 facts required three times, and functions of six parameters"] = facts(files)
    points["8 proofs"] = proofs(root)
    for name in sorted(points):
        print(f"{name}: {len(points[name])}")
        if "-l" in sys.argv:
            for place in points[name]:
                print("   ", place)


if __name__ == "__main__":
    main()
