#!/usr/bin/env python3
"""Spells the repository's own definitions and lemmas as Rattle's library spells its own.

usage: python3 tools/respell.py [--names]     at the top of the repository, once, after the toolchain's port.py; --names prints the table and writes nothing

A word is in snake case (feedOf becomes feed_of); types, predicates and modules keep their capitals. A dash stays where it joins the names of definitions
(length-first_cuts), and becomes '_' where it only parted words (walk-on becomes walk_on). Where a lemma would fall together with a definition, it gets _lem. A word that a file imported under a longer name, as State·failing, goes by its own name.
It goes by text over .rt, .antt, .edit and .md files. Rust's own names have no capital inside a small word and no dash, so that they stay.
"""

import os
import re
import sys

WORD = re.compile(r'[^\s(){}\[\].;,:@"«»`<>=|&*!\'/?]+')
DECLARED = re.compile(r"(?m)^ *(?:(?:pub|abbrev|unfoldable) )*(?:(?:data|record) )?([^\s(){}.;,@\"«»:]+)(?: \{[^{}\n]*\}| \([^()\n]*\))* :")
# Words of the library that stand in names of lemmas.
LIBRARY = set("length append take drop get_or get set sets sum map reverse min max bit_xor bit_and bit_or replicate".split())
# A lemma that had its definition's name but for the spelling.
APART = {"says_at": "says_at_lem"}


def files(root, ends):
    for top in ("crates", "docs", "oracle", "examples", "speed"):
        for folder, dirs, names in os.walk(os.path.join(root, top)):
            dirs[:] = sorted(d for d in dirs if d not in ("out", "target"))
            for n in sorted(names):
                if n.endswith(ends):
                    yield os.path.join(folder, n)
    for n in ("README.md",):
        if n.endswith(ends):
            yield os.path.join(root, n)


def snake(word):
    """feedOf: feed_of; a word that begins with a capital is a type or a fact and stays."""
    if not word[:1].islower():
        return word
    return re.sub(r"(?<=[a-z0-9'])([A-Z])", lambda m: "_" + m[1].lower(), word)


def code(text):
    return re.sub(r"--[^\n]*", "", text)


def shared(path):
    """A file of definitions or lemmas, which others can cite; the proof of one function cannot be."""
    parts = path.split(os.sep)
    at = len(parts) - 1 - parts[::-1].index("crates")
    return parts[at + 2] == "specs" or parts[at + 2] == "proofs" and len(parts) == at + 4


def table(root):
    said, words = {}, set()
    for p in files(root, (".antt",)):
        if not shared(p):
            continue
        for m in DECLARED.finditer(code(open(p, encoding="utf-8").read())):
            said.setdefault(m[1], set()).add(p)
            if os.sep + "specs" + os.sep in p:
                words.add(snake(m[1]))
    words |= LIBRARY
    new = {}
    for w in said:
        if "◌" in w:
            continue
        parts = [snake(x) for x in w.split("-")]
        defined = all(x in words or x[:1].isupper() for x in parts)
        out = ("-" if defined else "_").join(parts)
        if out != w or w in APART:
            new[w] = APART.get(w, out)
    back = {}
    for w in said:
        back.setdefault(new.get(w, w), []).append(w)
    for out, ws in back.items():
        for w in ws:
            if len(ws) > 1 and "-" in w:
                new[w] = out + "_lem"
    return new, said


def turn(text, new, prose):
    def one(m):
        w = m[0]
        if w in new:
            return new[w]
        if re.fullmatch(r"[a-z][A-Za-z0-9_']*(-[A-Za-z0-9_']+)*", w) and re.search(r"[a-z0-9][A-Z]", w):
            return "-".join(snake(x) for x in w.split("-"))
        return w

    if not prose:
        return WORD.sub(one, text)
    return re.sub(r"`[^`\n]*`", lambda m: WORD.sub(one, m[0]), text)


def antt(text, new):
    out = []
    for line in text.split("\n"):
        at = re.search(r"(?<!\S)--(?!\S)|(?<!\S)-- ", line)
        if at:
            out.append(turn(line[: at.start()], new, False) + turn(line[at.start() :], new, True))
        else:
            out.append(turn(line, new, False))
    return "\n".join(out)


def rust(text, new):
    out = []
    for line in text.split("\n"):
        if line.lstrip().startswith("//"):
            out.append(turn(line, new, True))
        elif '"' in line:
            out.append(line)
        else:
            out.append(turn(line, new, False))
    text = "\n".join(out)
    # A word goes by its own name, and no longer by its file's and its own.
    text = re.sub(r"([\w◌-]+) as \w+·[\w-]+", r"\1", text)
    return re.sub(r"(?<![\w·])[A-Z]\w*·([\w-]+)", r"\1", text)


def edit(text, new):
    """An edit of a definition also gets the toolchain's newer paths and projections; what is left is by hand."""
    text = turn(text, new, False)
    out = []
    for line in text.split("\n"):
        if line.startswith(("old:", "new:")) and not re.search(r"(?m)^file: src/", text):
            line = re.sub(r"Rattle·(\w+)(?:·specs|·proofs)?\.", r"Rattle.\1.", line)
            line = line.replace("the-variants", "TheVariants")
            line = re.sub(r"(?<=[\w»']) \.(?=[\w«])", ".", line)
        out.append(line)
    return "\n".join(out)


def main():
    root = os.path.dirname(os.path.dirname(os.path.abspath(__file__)))
    new, said = table(root)
    for f in files(root, (".rt",)):
        for m in re.finditer(r"\bfn (\w+)", open(f, encoding="utf-8").read()):
            new[m[1].replace("_", "-") + "-spec"] = m[1] + "_spec"
    if "--names" in sys.argv:
        for w in sorted(new):
            print(w, new[w], sep="\t")
        back = {}
        for w in set(new) | set(said):
            back.setdefault(new.get(w, w), set()).add(w)
        for n, ws in sorted(back.items()):
            if len(ws) > 1:
                print("together:", n, sorted(ws), file=sys.stderr)
        return
    count = 0
    for p in files(root, (".antt", ".rt", ".md", ".edit")):
        text = open(p, encoding="utf-8").read()
        if p.endswith(".antt"):
            out = antt(text, new)
        elif p.endswith(".rt"):
            out = rust(text, new)
        elif p.endswith(".md"):
            out = turn(text, new, True)
        else:
            out = edit(text, new)
        if out != text:
            count += 1
            with open(p, "w", encoding="utf-8") as f:
                f.write(out)
    print(f"respell: {len(new)} names, {count} files")


main()
