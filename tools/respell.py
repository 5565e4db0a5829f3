#!/usr/bin/env python3
"""Respells the repository's own definitions and lemmas: words joined by hyphens become words in snake case. In clauses it
names the members of a bound by their type, as S.byte, and gives the clauses that port.py named by their form names that
say what they ask.

usage: python3 tools/respell.py --write     at the top of the repository, once, right after the kit's port.py

The names are those that files of specs/ and proofs/ declare, but for answers to goals, whose names Rattle makes. A name
that a file imports from a library stays. Comments and program text stay; clauses and ghost items of .rt files are
turned. It prints what it could not place and which names meet another of the same spelling in a file; each of those
is a step, a function or a field, which is named by a path. Without --write it changes nothing.
"""
import collections
import os
import re
import sys

IDENT = r"[A-Za-z_][\w'→-]*"
DECLARED = re.compile(r"^(\s*)(?:abbrev |unfoldable )?(?:pub )?(?:record |data )?(" + IDENT + r")((?: ?\{[^}]*\}| ?\([^)]*\))*) :(.*)$")
TOKEN = re.compile(r"(?<![\w'→-])" + IDENT)
# the members of the repository's traits that clauses name
MEMBERS = {"Symbol": ["kind", "byte"], "Price": ["pricing", "meaning"]}
# by file and function, the names of clauses that port.py made up, and what they are called
CLAUSES = {
    ("reader", "next_block"): {"fact": "stage_open", "n_bound": "few_blocks", "bytes_len": "whole_block"},
    ("stage", "next"): {"fact": "stage_open", "block_bound": "few_blocks", "bytes_len": "whole_block", "mark_value": "mark_is", "bytes_bound": "payload_fits"},
    ("stage", "due"): {"le_tracks": "some_track", "read_le_columns": "read_within"},
    ("stage", "title"): {"bytes_len": "whole_block", "bytes_value": "letter_is"},
    ("stage", "columns"): {"le_tracks": "columns_due", "block_bound": "few_blocks", "bytes_len": "whole_block", "bytes_value": "letter_is", "bytes_bound": "payload_fits"},
    ("sealing", "pad"): {"out_len": "whole_block", "from_bound": "from_within"},
    ("sealing", "seal"): {"out_len": "whole_block", "len_bound": "payload_fits"},
    ("writer", "write_block"): {"out_len": "whole_block", "symbols_len_bound": "payload_fits"},
    ("writer", "write_columns"): {"blocks_in_bounds": "room", "a_block_bound": "small"},
    ("slip_writer", "put_slip"): {"out_len": "whole_block", "query_len_bound": "few_notes"},
    ("filling", "copy_symbols"): {"le_tracks": "some_track", "count_in_bounds": "room"},
    ("candidates", "refill"): {"in_bounds": "some_note", "want_len": "want_long", "roomy": "room_prices", "roomy_2": "room_steps", "roomy_3": "room_entries"},
    ("pieces", "place_of"): {"le_tracks": "some_track", "place_bound": "place_small"},
    ("pieces", "lone"): {"le_tracks": "some_track", "place_bound": "place_small"},
    ("pieces", "write_pieces"): {"in_bounds": "some_note", "want_in_bounds": "room_list", "want_in_bounds_2": "room_steps", "first_value": "first_is", "offset_value": "first_is"},
    ("row", "price_at"): {"cells_in_bounds": "room"},
    ("row", "take_in"): {"cells_in_bounds": "room", "from_bound": "from_small", "start_in_bounds": "start_within", "rest_value": "start_marked"},
    ("row", "fill_row"): {"cells_bound": "rows_apart", "cells_in_bounds": "room_prices", "cells_in_bounds_2": "room_steps", "cells_in_bounds_3": "room_entries", "mark": "marked", "mark_2": "next_marked"},
    ("row", "fill_last"): {"cells_in_bounds": "room", "mark": "marked"},
    ("rows", "fill_rows"): {"in_bounds": "some_note", "want_in_bounds": "room_prices", "want_in_bounds_2": "room_steps", "want_in_bounds_3": "room_entries"},
    ("size", "size_asked"): {"cells_len_bound": "few_cells", "in_bounds": "lawful_query"},
    ("topping", "best_of"): {"cells_in_bounds": "room", "mark": "marked"},
    ("topping", "best_under"): {"in_bounds": "some_note", "want_in_bounds": "room_prices", "want_in_bounds_2": "room_steps", "want_in_bounds_3": "room_entries"},
    ("transposing", "put_transposed"): {"query_in_bounds": "room", "query_in_bounds_2": "reached"},
}
# names whose turned form is no mere change of the hyphens
SPECIAL = {"No-price": "NoPrice", "le→leb": "leb_of_le"}


def files(ending):
    for folder, dirs, names in os.walk("crates"):
        dirs[:] = sorted(d for d in dirs if d not in ("out", "must-fail"))
        for name in sorted(names):
            if name.endswith(ending):
                yield os.path.join(folder, name)


def read(path):
    with open(path, encoding="utf-8") as f:
        return f.read()


def imports(text, own):
    """The names that a file's use lines bring in: those of this repository and those of libraries."""
    ours, theirs = set(), set()
    for m in re.finditer(r"(?m)^\s*(?:pub )?(?:ghost )?use ([\w.'-]+)\.\{([^}]*)\}", text):
        names = set()
        for item in m.group(2).split(","):
            names.update(item.split(" as "))
        names = {n.strip() for n in names}
        crate = re.match(r"Rattle\.(\w+)\.", m.group(1) + ".")
        (ours if crate and crate.group(1) in own else theirs).update(names)
    return ours, theirs


def declared(own):
    found = collections.defaultdict(set)
    for path in files(".antt"):
        for line in read(path).split("\n"):
            m = DECLARED.match(line)
            if not m or line.strip().startswith("--"):
                continue
            if re.match(r"\s*(goal|need|given)\.", m.group(4)):
                continue
            found[m.group(2)].add(path)
    return found


def turned(name):
    return SPECIAL.get(name, name.replace("-", "_"))


def main():
    own = {c for c in os.listdir("crates") if os.path.isdir(os.path.join("crates", c, "src"))}
    found = declared(own)
    names = {n for n in found if turned(n) != n}
    report, out, clashes = [], {}, []
    for path in list(files(".antt")) + list(files(".rt")):
        text = read(path)
        ours, theirs = imports(text, own)
        here = {n for n in found if path in found[n]}
        ghost = path.endswith(".rt")
        words = {w for line in text.split("\n") for w in TOKEN.findall(code_of(line, ghost))}
        lines = []
        for line in text.split("\n"):
            code = code_of(line, ghost)
            rest = line[len(code):]

            def turn(m):
                w = m.group(0)
                if w not in names or w in theirs:
                    return w
                dotted = m.start() > 0 and code[m.start() - 1] == "."
                if not (dotted or w in ours or w in here):
                    report.append(f"{path}: {w} is neither declared nor imported here")
                if turned(w) in words:
                    clashes.append(f"{path}: {w} falls together with {turned(w)}")
                return turned(w)

            lines.append((TOKEN.sub(turn, code) if not ghost or is_ghost(code) else code) + rest)
        new = "\n".join(lines)
        if new != text:
            out[path] = new
    print("\n".join(sorted(set(report))))
    print("\n".join(sorted(set(clashes))))
    if "--write" not in sys.argv:
        print(f"respell: {len(names)} names to turn in {len(out)} files; nothing was written")
        return 0
    for path, text in out.items():
        with open(path, "w", encoding="utf-8") as f:
            f.write(text)
    print(f"respell: {len(names)} names turned in {len(out)} files")
    for path in files(".rt"):
        text = read(path)
        new = clauses(path, text)
        if new != text:
            with open(path, "w", encoding="utf-8") as f:
                f.write(new)
    return 0


def clauses(path, text):
    """A file's text with the clauses of its functions respelled. Each clause stands on one line."""
    file = os.path.basename(path)[:-3]
    out, of_impl, function, signature, open_ = [], {}, None, "", False
    for line in text.split("\n"):
        if re.match(r"(?:pub )?trait (Symbol|Price)\b", line):
            function = None
        if line.startswith("impl"):
            of_impl = dict(re.findall(r"(\w+): (Symbol|Price)\b", line.split(" for ")[0]))
        if line == "}":
            of_impl = {}
        m = re.match(r"\s*(?:pub(?:\([a-z]+\))? )?fn (\w+)", line)
        if m:
            function, signature, open_ = m.group(1), line, True
        elif open_:
            signature += line
        if re.match(r"\s*(requires|ensures)\b", line):
            open_ = False
            line = clause(file, function, signature, of_impl, line)
        out.append(line)
    return "\n".join(out)


def clause(file, function, signature, of_impl, line):
    bounds = of_impl | dict(re.findall(r"(\w+): (Symbol|Price)\b", signature))
    parameters = set(re.findall(r"[(,]\s*(?:mut )?(\w+):", signature))
    for bound, members in MEMBERS.items():
        types = [t for t in bounds if bounds[t] == bound]
        if len(types) == 1:
            for member in members:
                if member not in parameters:
                    line = re.sub(r"(?<![\w.'])" + member + r"(?![\w'])", types[0] + "." + member, line)
    line = re.sub(r"\b(\w+)\.Price\.(pricing|meaning)\b", r"\1.\2", line)
    line = re.sub(r"record \{ \w+\.(\w+) = ", r"record { \1 = ", line)
    m = re.match(r"(\s*requires )(\w+)( \{.*)$", line)
    named = CLAUSES.get((file, function), {})
    return m.group(1) + named.get(m.group(2), m.group(2)) + m.group(3) if m else line


def code_of(line, ghost):
    """The line up to its comment."""
    at = re.search(r"//" if ghost else r"(?:^|\s)--(?:\s|$)", line)
    return line[: at.start()] if at else line


def is_ghost(code):
    """Whether a line of a .rt file holds a clause or a ghost item, each of which stands on one line."""
    return bool(re.match(r"\s*(ghost|requires|ensures)\b", code)) or bool(re.search(r"\bghost \w+:", code))


if __name__ == "__main__":
    raise SystemExit(main())
