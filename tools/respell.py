#!/usr/bin/env python3
"""respell.py [FOLDER]: what the kit's port.py leaves of this repository's own names, in the spelling of today's Rattle.

Run once, at the top of the repository (or of FOLDER), right after port.py. Definitions of specs/ and proofs/ become snake case
(mapAt: map_at), as do definitions of specs/ with hyphens (page-write: page_write); lemmas keep the hyphens between their words.
It turns whole words of crates/ alone: .antt files, clauses, ghost items and comments of .rt files, and the lines of must-fail edits;
a word of a string that is spelled like a name turns as well. A second run would turn the names in KEPT once more.
"""
import glob
import os
import re
import sys

root = sys.argv[1] if len(sys.argv) > 1 else "."
WORD = re.compile(r'(?<![^\s(){}.;,@"«»\[\]`])[^\s(){}.;,@"«»\[\]`:]+')
DECLARED = re.compile(r"^\s*(abbrev |unfoldable )?(?:pub )?(record |data )?(?:pub )?([^\s:(){}]+)(?: [({].*?[)}])* : ")
# names that would fall together with another, or that a script garbled; one has a name of the library's since
OTHERS = {
    "no-cycle": "no_cycle_bytes",
    "getD-byte": "get_or-byte",
    "getD-from": "get_or-from",
    "get_d_map": "get_or-map",
    "array-read": "array_read_case",
    "cut-write": "cut_write_case",
    "w-low": "w_low_case",
}
# lemmas and labels that port.py gave the very name that a definition takes here: they keep their hyphens
KEPT = {
    "pins/proofs/Held.antt": ["at_rest", "none_yet"],
    "pins/proofs/Seen.antt": ["at_rest"],
    "pins/proofs/Carried.antt": ["moved_on", "none_yet"],
    "chip/proofs/Lines.antt": ["by_row", "on_line"],
    "told/specs/Locked.antt": ["goes_on"],
}


def snake(name):
    return re.sub(r"(?<=[a-z0-9])[A-Z]+", lambda m: "_" + m[0].lower(), name)


def files(*patterns):
    return sorted(p for it in patterns for p in glob.glob(os.path.join(root, "crates", it), recursive=True))


antt = files("*/specs/**/*.antt", "*/proofs/**/*.antt")
table = dict(OTHERS)
for path in antt:
    for line in open(path, encoding="utf-8"):
        found = DECLARED.match(line)
        if not found or line.startswith(("use ", "--")) or found[3] in table:
            continue
        name = found[3]
        if re.match(r"[a-z]\w*$", name) and snake(name) != name:
            table[name] = snake(name)
        elif found[1] and "/specs/" in path and re.fullmatch(r"[a-z][\w-]*", name) and "-" in name:
            table[name] = name.replace("-", "_").lower()


def turn(path, text):
    own = next((KEPT[it] for it in KEPT if path.endswith("crates/" + it)), [])
    return WORD.sub(lambda m: m[0].replace("_", "-") if m[0] in own else table.get(m[0], m[0]), text)


taken = {}
for path in antt:
    for word in set(WORD.findall(open(path, encoding="utf-8").read())):
        taken.setdefault(word, []).append(path)
for old, new in sorted(table.items()):
    both = [p for p in taken.get(new, []) if p in taken.get(old, [])]
    if both:
        print(f"falls together: {old} {new} in {both}")
for new in sorted(set(table.values())):
    olds = [o for o in table if table[o] == new]
    if len(olds) > 1:
        print(f"two names: {olds} {new}")

for path in antt + files("*/src/*.rt", "*/must-fail/*.edit"):
    text = open(path, encoding="utf-8").read()
    new = turn(path, text)
    if new != text:
        open(path, "w", encoding="utf-8").write(new)
if "--table" in sys.argv:
    for old, new in sorted(table.items()):
        print(f"{old}\t{new}")
