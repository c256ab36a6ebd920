#!/usr/bin/env python3
"""Spells the repository's own definitions and lemmas as today's Rattle spells names: words in snake case.

usage: tools/respell.py            at the top, once, right after the kit's port.py
       tools/respell.py --list     prints the old and the new name of each, and writes nothing

What is renamed: each name with a dash or in lower camel case that stands in a file of definitions or of laws
(crates/*/specs/*.antt, crates/*/proofs/*.antt) and comes from no library; then everywhere it is used: in those files,
in the functions' proofs, in clauses and `ghost use` lines of src/, between backticks in comments, in wrong programs and
in documents. What keeps its name: functions of src/, types, modules, and the names that Rattle makes. Where a
definition and a law on it would fall together, the law gets `_lem` after its name.
"""
import collections
import os
import re
import sys

WORD = re.compile(r"[^\s(){};,⌜⌝\[\]\"λ.`]+")
SPEC = re.compile(r"(?m)^((?:pub )?)([\w-]+)-spec\b")
USE = re.compile(r"^\s*(?:pub )?use ([^\s{]+?)\.\{([^}]*)\}", re.M)
# Names that the rule would give a name which stands in their file already.
BY_HAND = {
    "in-turn": "ends_in_turn",
    "quadXRows": "quad_x_rows",
    "None-first": "NoneFirst",
    "row-at": "row_at_lem",
    "class-of": "class_of_lem",
}
# Laws that port.py has spelled so, and that fall together with a definition: in these files alone.
IN_FOLDER = {"crates/sheet/proofs/": {"too_short": "too_short_lem", "too_many": "too_many_lem"}}


def crates():
    lines = open("crates.txt", encoding="utf-8").read().split("\n")
    return [line.split(":")[0].strip() for line in lines if line.strip() and not line.startswith("#")]


def files(top, endings):
    for folder, dirs, names in os.walk(top):
        dirs[:] = sorted(d for d in dirs if d not in ("out", "target", ".git"))
        for name in sorted(names):
            if name.endswith(endings):
                yield os.path.join(folder, name)


def read(path):
    with open(path, encoding="utf-8") as f:
        return f.read()


def code(text):
    return "\n".join(re.sub(r"(^|\s)--(\s.*)?$", "", line) for line in text.split("\n"))


def wants_it(word):
    return bool(re.search(r"[A-Za-z0-9]-[A-Za-z0-9]", word)) or bool(re.match(r"^[a-z0-9-]+[A-Z]", word))


def snake(word):
    if word in BY_HAND:
        return BY_HAND[word]
    word = re.sub(r"(?<=[A-Za-z0-9'₂])-(?=[A-Za-z0-9])", "_", word)
    if not word[0].isupper():
        word = re.sub(r"(?<=[a-z0-9])([A-Z])", lambda m: "_" + m.group(1).lower(), word)
    return word


def mapping():
    mine = tuple(f"Rattle.{c}." for c in crates())
    theirs, found = set(), set()
    lemma_files = []
    for path in files("crates", ".antt"):
        text = code(read(path))
        for module, names in USE.findall(text):
            if not module.startswith(mine):
                theirs.update(n.strip().split(" as ")[0].strip() for n in names.split(","))
        if re.fullmatch(r"crates/\w+/(?:specs|proofs)/[^/]+\.antt", path):
            lemma_files.append(text)
    for text in lemma_files:
        found.update(w for w in WORD.findall(text) if wants_it(w) and not w.startswith("«"))
    found -= theirs
    new = {w: snake(w) for w in found}
    by_new = collections.defaultdict(set)
    for old, name in new.items():
        by_new[name].add(old)
    for name, olds in by_new.items():
        if len(olds) == 2:
            law = next(o for o in olds if "-" in o)
            new[law] = name + "_lem"
        elif len(olds) > 2:
            sys.exit(f"three names fall together: {olds}")
    return new


def renamed(text, new, everywhere=True):
    def word(m):
        return new.get(m.group(0), m.group(0))

    if everywhere:
        return WORD.sub(word, text)
    return re.sub(r"`[^`\n]*`", lambda m: WORD.sub(word, m.group(0)), text)


def turned_rt(text, new):
    """Clauses and `ghost use` lines whole, but for strings; in comments what stands between backticks."""
    out = []
    for line in text.split("\n"):
        head, mark, tail = line.partition("//")
        parts = re.split(r'("[^"]*")', head)
        head = "".join(part if part.startswith('"') else renamed(part, new) for part in parts)
        out.append(head + mark + renamed(tail, new, everywhere=False))
    return "\n".join(out)


def turned_antt(text, new):
    out = []
    for line in text.split("\n"):
        m = re.match(r"^(.*?)((?:^|\s)--(?:\s.*)?)$", line)
        head, tail = (m.group(1), m.group(2)) if m else (line, "")
        out.append(renamed(head, new) + renamed(tail, new, everywhere=False))
    return "\n".join(out)


def main():
    new = mapping()
    if "--list" in sys.argv:
        for old in sorted(new):
            print(old, new[old])
        return
    for path in files("crates", (".antt", ".rt", ".edit")):
        text = read(path)
        if path.endswith(".antt"):
            here = [names for folder, names in IN_FOLDER.items() if path.startswith(folder)]
            after = turned_antt(text, {**new, **(here[0] if here else {})})
            if path.endswith("/Proof.antt"):
                after = SPEC.sub(lambda m: m.group(1) + m.group(2).replace("-", "_") + "_spec", after)
        elif path.endswith(".rt"):
            after = turned_rt(text, new)
        else:
            after = renamed(text, new)
        if after != text:
            with open(path, "w", encoding="utf-8") as f:
                f.write(after)
    for path in list(files("docs", ".md")) + ["README.md"] + list(files("compare", (".edit", ".md"))):
        text = read(path)
        after = renamed(text, new, everywhere=path.endswith(".edit"))
        if after != text:
            with open(path, "w", encoding="utf-8") as f:
                f.write(after)


main()
