#!/usr/bin/env python3
"""Brings the names that the crates' specs/ and proofs/ declare to the spelling of the library: words in snake case.

usage: tools/respell.py [FOLDER]      FOLDER has crates/ and docs/; the default is the folder above this script

A hump becomes an underscore (`cellsAfter`, cells_after). A dash stands only behind the name of a definition (`write_if-back`); between
plain words it becomes an underscore too (`goes-on`, goes_on). Types, facts and constructors, which begin with a capital, and functions of
src/ stay as they are. A name that would fall together with another one gets the spelling that DIFFERENT gives.
"""

import os
import re
import sys

# Where the plain spelling is taken by another name.
DIFFERENT = {
    "back-begins": "back_begins_lem",
    "loaded-with": "loaded_with_lem",
    "printed-job": "printed_job_lem",
    "refused-at": "refused_at_lem",
    "refused-by": "refused_by_lem",
    "run-begins": "run_begins_lem",
    "run-payload": "run_payload_lem",
    "run-record": "run_record_lem",
    "settled-in": "settled_in_lem",
    "setup-payload": "setup_payload_lem",
    "value-payload": "value_payload_lem",
    "value-record": "value_record_lem",
    "with-flags": "with_flags_lem",
    "words-of": "words_of_lem",
    "is-finite": "is_finite_lem",
    "runOn": "run_onward",
    "readAs": "read_in",
    "bit-and": "bit-and",
    "bit-or": "bit-or",
    "getD-outside": "get_or-outside",
    "natAbs-int": "nat_abs-int",
}
WORD = r"[^\s(){}\[\],;.@\"«»\\:`|]+"
DECLARED = re.compile(rf"^([ \t]*)((?:(?:pub|abbrev|unfoldable|data|record) )*)({WORD})([^:\n]*?)\s:\s*([^\n]*)", re.M)
TOKEN = re.compile(r"\"(?:[^\"\\\n]|\\.)*\"|--[^\n]*|//[^\n]*|" + WORD)


def texts(root, tops, endings):
    for top in tops:
        for folder, dirs, files in os.walk(os.path.join(root, top)):
            dirs[:] = sorted(d for d in dirs if d not in ("out", "target", ".git"))
            yield from (os.path.join(folder, f) for f in sorted(files) if f.endswith(endings))


def read(path):
    with open(path, encoding="utf-8") as f:
        return f.read()


def snake(word):
    return re.sub(r"(?<=[a-z0-9])([A-Z]+)", lambda m: "_" + m[1].lower(), word)


def respelled(name):
    if name in DIFFERENT:
        return DIFFERENT[name]
    first, *rest = name.split("-")
    mark = "-" if rest and (snake(first) != first or first == "length") else "_"
    return mark.join([snake(first), *([snake("_".join(rest))] if rest else [])])


def is_walk(path):
    return os.path.basename(path) in ("Proof.antt", "Answers.antt", "Invariants.antt")


def declared(root):
    names = set()
    for path in texts(root, ["crates"], ".antt"):
        for indent, marks, name, _, kind in DECLARED.findall(read(path)):
            if is_walk(path) and re.match(r"tie\.|goal\.|\{M", kind):
                continue
            if re.match(r"[a-z]", name) and ("-" in name or snake(name) != name):
                names.add(name)
    return names


def turn(text, names, walk):
    own = set()
    if walk:
        own = {m[3] for m in DECLARED.finditer(text) if re.match(r"tie\.|goal\.|\{M", m[5])}

    def word(m):
        it = m[0]
        if it.startswith('"'):
            return it
        if it.startswith(("--", "//")):
            return re.sub(r"`([^`]*)`|" + WORD, lambda w: quoted(w), it)
        return names[it] if it in names and it not in own else it

    def quoted(w):
        if w[1] is not None:
            return "`" + re.sub(WORD, lambda x: names.get(x[0], x[0]), w[1]) + "`"
        return names.get(w[0], w[0]) if "-" not in w[0] else w[0]

    return TOKEN.sub(word, text)


def main(root):
    names = {it: respelled(it) for it in declared(root)}
    taken = {}
    for old, new in names.items():
        taken.setdefault(new, []).append(old)
    for new, olds in sorted(taken.items()):
        if len(olds) > 1:
            print("fall together:", new, *olds)
    for path in texts(root, ["crates"], (".antt", ".rt")):
        old = read(path)
        new = turn(old, names, is_walk(path))
        if path.endswith(".antt"):
            there = set(re.findall(WORD, re.sub(r"--[^\n]*", "", old)))
            for a in sorted(there):
                if a in taken and a not in names:
                    print(f"stands already: {a} in {os.path.relpath(path, root)} ({' '.join(taken[a])})")
        if new != old:
            with open(path, "w", encoding="utf-8") as f:
                f.write(new)


if __name__ == "__main__":
    main(sys.argv[1] if len(sys.argv) > 1 else os.path.join(os.path.dirname(os.path.abspath(__file__)), ".."))
