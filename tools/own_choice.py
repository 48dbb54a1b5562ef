#!/usr/bin/env python3
"""Gives the repository's own choice by a test its own name, when .. then .. else .., since if .. then .. else .. is the library's word and the gate refuses another under it.

usage: python3 tools/own_choice.py ROOT [NAME..]      over ROOT/crates (of the crates NAME, or all), after tools/respell.py
"""
import os, re, sys

OLD, NEW = "if◌then◌else◌", "when◌then◌else◌"
OWN = re.compile(r"(streaming\.specs\.Choose\.|mod Choose\b|^infixr 5 if◌then◌else◌)", re.M)
WORD = re.compile(r"(?<![^\s(\[{,;«])if(?=[\s(])")


def antt(text):
    def line(m):
        code, dash, note = m[0].partition("--")
        return WORD.sub("when", code) + dash + note
    return re.sub(r"[^\n]+", line, text).replace(OLD, NEW)


def rt(text):
    return re.sub(r"(?<![^\s(\[{,;])if(?=[ (][^\n{};]*\sthen\s)", "when", text).replace(OLD, NEW)


root, names = sys.argv[1], sys.argv[2:]
for c in sorted(names or os.listdir(f"{root}/crates")):
    for d, dirs, fs in os.walk(f"{root}/crates/{c}"):
        dirs[:] = [x for x in dirs if x != "out"]
        for f in sorted(fs):
            p = f"{d}/{f}"
            if not f.endswith((".antt", ".rt", ".edit")):
                continue
            t = open(p, encoding="utf-8").read()
            o = t
            if f.endswith(".antt"):
                if OLD in t:
                    t = antt(t)
            elif f.endswith(".rt"):
                if OLD in t:
                    t = rt(t)
            else:
                m = re.search(r"^file: (.*)$", t, re.M)
                out, file = [], None
                for l in t.split("\n"):
                    if l.startswith("file: "):
                        file = l[6:].strip()
                    elif l[:5] in ("old: ", "new: ") or l.startswith("old:") or l.startswith("new:"):
                        own = f"{root}/crates/{c}/{file}"
                        src = open(own if os.path.exists(own) else f"{root}/{file}", encoding="utf-8").read()
                        if NEW in src or OLD in src:
                            l = rt(l).replace(OLD, NEW) if file.endswith(".rt") else l[:4] + antt(l[4:])
                    out.append(l)
                t = "\n".join(out)
            if t != o:
                open(p, "w", encoding="utf-8").write(t)
