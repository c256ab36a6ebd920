#!/usr/bin/env python3
"""Lists the places of docs/DESIGN-PASS.md's points in the sources, crates/*/src/**/*.rt.

    tools/places.py [FOLDER]     FOLDER: the root of a checkout (default: the one that this file stands in)

A line for each place that a pattern finds, 'POINT FILE:LINE WHAT', then 'point P: N found' for each point. A pattern
finds more than the point means, so that nothing is missed: what of it is a place is said in the page, place by place.

  1  an enum of our own, a field or a local that is a flag, a parameter or result that is a number for a kind or refusal
  2  functions of one shape, that is the same code but for names, numbers and types; structs likewise
  3  `while`, and a counter that is raised by hand
  4  a comparison, conversion or printing by hand: functions named so, shifts by 256 and 65536, pieces that are printed
  5  a `requires` that stands in three functions or more; parameters that travel together through three or more
  6  a length or a place beside a buffer; arrays of one length side by side in a struct
  7  a parameter by which a function chooses its step: a truth, or a `match` on a number
"""
import itertools
import re
import sys
from collections import Counter, defaultdict
from pathlib import Path

root = Path(sys.argv[1]) if len(sys.argv) > 1 else Path(__file__).resolve().parent.parent
found = Counter()


def place(point, where, what):
    found[point] += 1
    print(point, where, " ".join(what.split())[:100])


# The functions and structs of a file, each with the line that it begins at: (line, head, body).
def items(text, word):
    for m in re.finditer(r"^( *)(?:pub(?:\(crate\))? )?(?:extern \"C\" )?" + word + r" .*", text, re.M):
        end = text.find("\n" + m[1] + "}\n", m.start())
        if end > 0:
            yield text.count("\n", 0, m.start()) + 1, text[m.start():end]


# The same for all that differs only in names, numbers and types.
def shape(code):
    names = {}
    code = re.sub(r"//.*|ensures \{.*?\}\n(?= *\{)|requires \{.*?\}\n", "", code, flags=re.S)

    def name(m):
        word = m[0]
        if word in ("fn", "pub", "let", "mut", "if", "else", "match", "while", "for", "in", "return", "struct", "self"):
            return word
        return names.setdefault(word, "n%d" % len(names)) if not word[0].isdigit() else "0"

    return " ".join(re.sub(r"\w+", name, code).split())


def parameters(code):
    head = code.split("{")[0].split("->")[0]
    return [" ".join(p.split()) for p in re.findall(r"(\w+: [^,()]+(?:\[[^\]]*\])?)", head)]


shapes, requires, travels = defaultdict(list), defaultdict(list), defaultdict(list)
for file in sorted(root.glob("crates/*/src/**/*.rt")):
    text = file.read_text()
    name = "%s/%s" % (file.parts[-3], file.name)
    for number, line in enumerate(text.split("\n"), 1):
        where = "%s:%d" % (name, number)
        code = line.split("//")[0]
        if re.search(r"\benum \w|: bool,|: true,|: false,", code):
            place(1, where, code)
        if re.search(r"\bfn .*\b(kind|operation|code|number|verdict|refus\w*): u\d|"
                     r"\bfn .*(number|refus)\w*\(.*-> u\d", code):
            place(1, where, code)
        if re.search(r"\bwhile\b|\b[ij] \+= 1", code):
            place(3, where, code)
        if re.search(r"fn (same|begins_with|shorter|either|is_whole|at_most\w*|fill|\w*_agrees|number\w*|entry_of|"
                     r"wrench|matrix|word_of|write_\w+|read_u\w+|print\w*|part_by_part)\b", code):
            place(4, where, code)
        if re.search(r"[*/%] \(?(256|65536)\b", code):
            place(4, where, code)
        if re.search(r"\b(at|size|len|n|count|end|known): usize,", code):
            place(6, where, code)
        if re.search(r"\bfn .*\b\w+: bool\b", code):
            place(7, where, code)
    for number, code in items(text, "fn"):
        where = "%s:%d" % (name, number)
        if "\n" in code.strip():
            shapes[shape(code)].append((where, code.split("(")[0]))
        for clause in re.findall(r"requires \{(.*?)\}\n", code, re.S):
            for part in re.split(" × ", clause):
                requires[re.sub(r"\d+", "0", " ".join(part.replace("(", "").replace(")", "").split()))].append(where)
        for size in (2, 3):
            for group in itertools.combinations(parameters(code), size):
                travels[group].append(where)
        if re.search(r"match \w+ \{\s+(0|0x\w+)\b", code):
            place(7, where, "match on a number: " + code.split("(")[0])
    for number, code in items(text, "struct"):
        shapes[shape(code)].append(("%s:%d" % (name, number), code.split("{")[0]))
        lengths = Counter(re.findall(r": \[\w+; (\w+)\]", code))
        if any(n > 1 for n in lengths.values()):
            place(6, "%s:%d" % (name, number), "arrays side by side: " + code)
for group in sorted(shapes.values()):
    if len(group) > 1:
        for where, what in group:
            place(2, where, "%s (one of %d of its shape)" % (what, len(group)))
for clause, places in sorted(requires.items()):
    if len(places) > 2:
        for where in places:
            place(5, where, "requires " + clause)
largest = [g for g in travels if len(travels[g]) > 2]
for group in sorted(largest):
    if not any(set(group) < set(other) and travels[other] == travels[group] for other in largest):
        place(5, travels[group][0], "%s: %d functions" % (", ".join(group), len(travels[group])))
for point in range(1, 8):
    print("point %d: %d found" % (point, found[point]))
