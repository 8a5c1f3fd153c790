#!/usr/bin/env python3
"""Counts what docs/DESIGN-PASS.md counts: places.py [POINT], at the top of a checkout, lists the places in crates/*/src point by point.

It reads text alone: comments are taken off, and a function is its signature, its clauses and its body."""

import collections
import glob
import re
import sys

Function = collections.namedtuple("Function", "place name parameters result clauses body")


def texts():
    for path in sorted(glob.glob("crates/*/src/*.rt")):
        with open(path, encoding="utf-8") as f:
            yield path, re.sub(r"//[^\n]*", "", f.read())


def closing(text, at):
    """The place past the bracket that closes the one at `at`."""
    pairs, deep = {"(": ")", "{": "}", "[": "]"}, 0
    for i in range(at, len(text)):
        if text[i] in pairs:
            deep += 1
        elif text[i] in pairs.values():
            deep -= 1
            if deep == 0:
                return i + 1
    return len(text)


def functions():
    for path, text in texts():
        for m in re.finditer(r"\bfn (\w+)", text):
            at = text.index(">(", m.end()) + 1 if text[m.end()] == "<" else m.end()
            if text[at] != "(":
                continue
            end = closing(text, at)
            parameters = re.sub(r"\s+", " ", text[at + 1:end - 1]).strip(" ,")
            body = re.compile(r"\n *\{\n|\) \{\n|[>\w] \{\n").search(text, end - 2)
            start = text.index("{", body.start()) if body else len(text)
            head = text[end:start]
            result = re.match(r"\s*(?:->\s*([^\n{]+?))?\s*(?:\n|$)", head)
            line = text.count("\n", 0, m.start()) + 1
            yield Function(f"{path}:{line}", m[1], parameters, (result and result[1] or "").strip(), head, text[start:closing(text, start)])


def found(pattern, flags=0):
    for path, text in texts():
        for m in re.finditer(pattern, text, flags):
            yield f"{path}:{text.count(chr(10), 0, m.start() + len(m[0]) - len(m[0].lstrip())) + 1}", re.sub(r"\s+", " ", m[0]).strip()


def point_1():
    """numbers for refusals and kinds, flags with a value beside them"""
    for f in functions():
        if f.result == "u8" and re.search(r"(number|answer|reason_of|guarded|Packed|Written|AllWaited|BlockSalvaged)\b", f.clauses):
            yield f.place, f"{f.name}: a number for an answer"
        if re.search(r"\b(why|fault): u8", f.parameters):
            yield f.place, f"{f.name}: a number for a kind"
    yield from found(r"\n +(pub )?(answer|number): u8,|\b(Refused|Ignored)\(u8\)")
    yield from found(r"\n +(pub )?(driven|more|waits|good): bool,")


def point_2():
    """functions that are the same but for numbers, names of types and of constants"""
    alike = collections.defaultdict(list)
    for f in functions():
        body = re.sub(r"\b[A-Z]\w*|\b0x\w+|\b[0-9][0-9_]*", "X", re.sub(r"\s+", " ", f.body))
        if len(body) > 24:
            alike[body].append(f)
    for same in alike.values():
        if len(same) > 1:
            for f in same:
                yield f.place, f"{f.name}: as {same[0].name}"


def point_3():
    """loops that count by hand"""
    yield from found(r"\n +while [^\n]*")


def point_4():
    """equality, copying and conversion by hand"""
    yield from found(r"\bfn (same\w*|is_(zero|none|standby|busy|deep)|none_locked|(mode|kind)_(number|of)|ticks_of|wide|pair|word|joined|\w+_bytes)\(")
    yield from found(r"\b(\w+): (?:self|d|delivered)\.\1\b")
    yield from found(r"[^\n]*% 256\) as u8")


def point_5():
    """facts in three clauses or more, functions with seven parameters or more"""
    facts = collections.Counter()
    for f in functions():
        for clause in re.findall(r"requires(?: \w+)? \{ (.*) \}", f.clauses):
            facts.update(re.sub(r"[()]|\.(?:old|now)", "", fact) for fact in clause.split(" × "))
        parameters = [p for p in f.parameters.split(", ") if ": " in p and not p.startswith("rt: ")]
        if len(parameters) >= 7:
            yield f.place, f"{f.name}({', '.join(parameters)})"
    for fact, n in facts.items():
        if n >= 3:
            yield f"{n} clauses", fact


def point_6():
    """buffers with a length or a place beside them, rows spread out"""
    for f in functions():
        if re.search(r"\[Device; PLACES\], \w+: usize|text: &mut \[u8\], at: usize|text: &\[u8\], at: usize|line: &mut \[u8\], len: usize|d0: Device", f.parameters):
            yield f.place, f"{f.name}({f.parameters})"


def point_7():
    """the same frame around different calls, switches on which step"""
    yield from found(r"\n +if came\.answer != 0|match opened\(packed\)")
    yield from found(r"\n +match (what|command|verdict) \{")


POINTS = [point_1, point_2, point_3, point_4, point_5, point_6, point_7]

if __name__ == "__main__":
    for i, point in enumerate(POINTS, 1):
        if sys.argv[1:] in ([], [str(i)]):
            places = list(point())
            print(f"point {i}: {len(places)}: {point.__doc__}")
            for place, what in places:
                print(f"    {place}: {what[:150]}")
