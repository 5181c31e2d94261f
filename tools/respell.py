#!/usr/bin/env python3
"""Brings this repository's own names in specs/ and proofs/ to snake case, once: 'sum-marked' and 'sumMarked' become 'sum_marked'.

usage: python3 tools/respell.py        at the top, right after the kit's port.py has run on the older text
       python3 tools/respell.py --list     says what would be renamed, and changes nothing

What is renamed is what the files themselves declare: definitions, lemmas, fields and constructors with a dash or a capital in their names.
The names that Rattle makes (goals, steps, loops) and those of its library keep theirs. A dash stays after the name of a function
of the library, as in 'length-put', where it joins two names. The text of src/ is touched in its clauses and 'ghost use' lines alone.
"""

import os
import re
import sys

CRATES = "crates"
WORD = re.compile(r"""[^\s(){}.;,@"«»\[\]]+""")
DECLARED = re.compile(r"^((?: {2})*)(?:(?:pub|abbrev|unfoldable|data|record|ruleset) +)*([^\s(){}.;,@«»:]+)(?: [({].*?)? :(?: +|$)(.*)")
KEYWORDS = ("let", "elim", "use", "in", "where", "module")
# These would fall together with a name that the files already have, or with a word of the library.
OTHERWISE = {
    "in-range": "line_in_range",
    "put-mid": "put_middle",
    "claimed-in": "claimed_in_set",
    "addChild": "append_child",
    "rootsOf": "root_count",
    "boxesOf": "box_count",
    "claimedKept": "claimed_stays",
    "fatherOf": "father_above",
    "sOld": "s_was",
    "inStep": "when_in_step",
    "In-set": "InSet",
    "In-step": "InStep",
}
JOINED = ("length-",)


def files(kinds):
    for folder, dirs, names in os.walk(CRATES):
        dirs[:] = sorted(d for d in dirs if d != "out")
        for name in sorted(names):
            if name.endswith(kinds):
                yield os.path.join(folder, name)


def declared(text):
    """The names that a file of antt declares, each with whether it stands behind a dot: a field, a constructor, or a name inside a module."""
    for line in re.sub(r"--[^\n]*", "", text).split("\n"):
        found = DECLARED.match(line)
        if found and found[2] not in KEYWORDS and not found[3].startswith(("goal.", "Goals.")):
            yield found[2], found[1] != ""


def respelled(name):
    kept = next((j for j in JOINED if name.startswith(j)), "")
    rest = name[len(kept) :].replace("-", "_")
    return kept + re.sub(r"(?<=[a-z0-9])([A-Z])", lambda m: "_" + m[1].lower(), rest)


def table():
    names, fields = set(), set()
    for path in files(".antt"):
        with open(path, encoding="utf-8") as f:
            for name, field in declared(f.read()):
                if name in OTHERWISE or re.match(r"[a-z]", name) and respelled(name) != name:
                    (fields if field else names).add(name)
    return {name: OTHERWISE.get(name) or respelled(name) for name in sorted(names | fields)}, fields


def turned(text, new, fields):
    def one(m):
        word = m[0]
        bare = word.rstrip("'")
        name = word if word in new else bare if bare in new else None
        if name is None:
            return word
        dotted = text[m.start() - 1 : m.start()] == "."
        start = text.rfind("\n", 0, m.start()) + 1
        path = re.match(r"(?:ghost )?use ", text[start : m.start()])
        if dotted and not path and name not in fields:
            return word
        return new[name] + word[len(name) :]

    return WORD.sub(one, text)


def main(argv):
    new, fields = table()
    if argv == ["--list"]:
        for old in new:
            print(old, new[old], "(a field)" if old in fields else "")
        return 0
    for path in files((".antt", ".rt")):
        with open(path, encoding="utf-8") as f:
            text = f.read()
        better = turned(text, new, fields)
        if better != text:
            with open(path, "w", encoding="utf-8") as f:
                f.write(better)
    return 0


if __name__ == "__main__":
    raise SystemExit(main(sys.argv[1:]))
