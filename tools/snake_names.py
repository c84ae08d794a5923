#!/usr/bin/env python3
"""Brings the names of definitions, lemmas, fields and variables of specs/ and proofs/ to snake case.

usage: python3 tools/snake_names.py [--list]     at the top of the repository, once, right after the toolchain's own script

A name that begins with a small letter and has a dash or an inner capital (`takes-part`, `edgeIn`) is written in snake case (`takes_part`,
`edge_in`) if a file of specs/ or proofs/ declares or binds it. Left as they are: names that a file brings in from the toolchain's library,
types, modules, constructors, strings, and what stands in the folder of one function's proof, since the toolchain names the goals there.
With --list nothing is written: the names are listed, and those that fall together with another.
"""
import collections
import glob
import os
import re
import sys

TOKEN = re.compile(r"[^\s(){}\[\].,;\"`]+")
OWN = re.compile(r"^\s*(?:ghost |pub )*use Rattle\.(\w+)\.")
USE = re.compile(r"^\s*(?:ghost |pub )*use ")


def crates():
    return {os.path.basename(p) for p in glob.glob("crates/*")}


def files():
    specs = sorted(glob.glob("crates/*/specs/**/*.antt", recursive=True))
    tops = sorted(glob.glob("crates/*/proofs/*.antt"))
    walks = sorted(set(glob.glob("crates/*/proofs/**/*.antt", recursive=True)) - set(tops))
    return specs + tops, walks


def snake(name):
    name = name.replace("-", "_")
    return re.sub(r"([a-z0-9'])([A-Z]+)", lambda m: m.group(1) + "_" + m.group(2), name).lower().replace("__", "_")


def odd(t):
    return bool(re.match(r"[a-z]", t)) and bool(re.fullmatch(r"[A-Za-z0-9_'₀-₉-]+", t)) and ("-" in t or re.search(r"[a-z0-9'][A-Z]|_[A-Z]", t) is not None)


def uncommented(line):
    return re.sub(r"(^|\s)--(\s.*)?$", r"\1", line)


def main():
    tops, walks = files()
    own_crates = crates()
    foreign, bound, everything, aliases, plain = set(), set(), set(), set(), set()
    for path in tops + walks:
        for line in open(path, encoding="utf-8"):
            if USE.match(line):
                m = OWN.match(line)
                if not (m and m.group(1) in own_crates):
                    plain.update(TOKEN.findall(line.split("{", 1)[-1]))
                    foreign.update(t for t in TOKEN.findall(line.split("{", 1)[-1]) if odd(t))
    for path in tops:
        for line in open(path, encoding="utf-8"):
            code = uncommented(line)
            everything.update(TOKEN.findall(code))
            if USE.match(line):
                m = OWN.match(line)
                if m and m.group(1) in own_crates:
                    bound.update(t for t in TOKEN.findall(line.split("{", 1)[-1]) if odd(t))
                aliases.update(re.findall(r" as ([\w'-]+)", line))
                bound.update(re.findall(r" as ([\w'-]+)", line))
                continue
            # what a line declares, binds by `let`, λ, a pattern's parentheses or braces
            bound.update(t for t in re.findall(r"([\w'₀-₉-]+)(?=(?: [\w'₀-₉-]+)* :)", code) if odd(t))
            bound.update(t for t in re.findall(r"([\w'₀-₉-]+)(?=[^=]* = )", code) if odd(t))
            bound.update(t for t in re.findall(r"([\w'₀-₉-]+)$", code.split(" =")[0]) if odd(t) and " =" in code)
            for m in re.findall(r"λ ([^.]*)\.", code):
                bound.update(t for t in TOKEN.findall(m) if odd(t))
            for m in re.findall(r"^\s*(?:let )?([\w'₀-₉-]+)", code):
                if odd(m):
                    bound.add(m)
    names = {t: snake(t) for t in sorted(bound - foreign) if odd(t)}
    # a lemma that would get the name of a definition has `_lem`; two laws of bits say what they are of
    stand = everything | {n for t, n in names.items() if "-" not in t}
    for old, new in names.items():
        if "-" in old and new in stand and old not in aliases:
            names[old] = new + "_lem"
    names.update({"bit-or": "bit_of_or", "bit-and": "bit_of_and"})
    if "--list" in sys.argv:
        back = collections.defaultdict(set)
        for old, new in names.items():
            back[new].add(old)
        for new, olds in sorted(back.items()):
            if len(olds) > 1 or new in everything:
                print("together:", new, sorted(olds), "stands" if new in everything else "")
        print("both ours and the library's:", sorted(bound & foreign))
        print("names of the library:", sorted(set(names.values()) & plain))
        print(len(names))
        print(sorted(names))
        print(sorted({t for t in everything if odd(t)} - set(names) - foreign))
        return
    word = re.compile(r"(?<![\w'₀-₉·-])(" + "|".join(sorted(map(re.escape, names), key=len, reverse=True)) + r")(?![\w'₀-₉·-])")

    # lemmas that have the snake case of a definition's name already, where both are in scope
    already = [("crates/records/proofs/", "entry_in"), ("crates/agreement/proofs/", "entry_in"), ("crates/passes/proofs/Six.antt", "goes_on"),
               ("crates/passes/proofs/combine/", "six.goes_on")]

    def freed(path, text):
        for where, old in already:
            if path.startswith(where):
                text = re.sub(r"(?<![\w'₀-₉·.-])" + re.escape(old) + r"(?![\w'₀-₉·-])", old + "_lem", text)
        return text

    def turned(text):
        parts = re.split(r'("(?:[^"\\\n]|\\.)*")', text)
        return "".join(p if k % 2 else word.sub(lambda m: names[m.group(1)], p) for k, p in enumerate(parts))

    for path in tops + walks:
        text = open(path, encoding="utf-8").read()
        new = turned(freed(path, text))
        if new != text:
            open(path, "w", encoding="utf-8").write(new)
    # in sources only the ghost items and the clauses
    for path in sorted(glob.glob("crates/*/src/**/*.rt", recursive=True)):
        out, depth = [], 0
        for line in open(path, encoding="utf-8"):
            clause = depth > 0 or re.match(r"\s*(requires|ensures|ghost)\b", line)
            if clause and not line.lstrip().startswith("//"):
                depth += line.count("{") - line.count("}")
                line = turned(line)
            out.append(line)
        text = "".join(out)
        if text != open(path, encoding="utf-8").read():
            open(path, "w", encoding="utf-8").write(text)


main()
