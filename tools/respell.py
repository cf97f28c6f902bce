#!/usr/bin/env python3
"""Respells the repository's own definitions, lemmas, record fields and constructors in snake case.

usage: python3 tools/respell.py         in the repository: rewrites crates/, README.md and docs/ in place
       python3 tools/respell.py --map   prints the map, old and new, and writes nothing

It is run once, over what the kit's port.py made of commit c5c2bed.

- A definition, a field and a constructor are words: every hump and every dash becomes an underscore (`nodeCount` and
  `node-count` become `node_count`).
- In a lemma's name a dash stays where both sides are names of definitions, and is an underscore elsewhere.
- Functions of src/, exported names, strings, inputs and outputs keep their names, and so do names that the kit has too.
- Where two names would fall together, or a new name would meet another word of a file that has the old one, a lemma gets
  `_lem` and a definition `_of`.
"""

import os
import re
import sys

WORDS = set(
    "add sub mul div mod neg le lt eq ne zero one suc length take drop append map set get sum min max and or not true "
    "false abs compare".split())
TOKEN = re.compile(r"[^\s(){}\[\].,;:\"`«»|]+")
BARE = re.compile(r"(?<![\w.'-])[^\s(){}\[\].,;:\"`«»|]+")
SIG = re.compile(r"^(\s*)((?:(?:abbrev|unfoldable|pub)\s+)*)([^\s(){}\[\].,;:\"`«»|]+)\s*:\s")
HUMP = re.compile(r"(?<=[a-z0-9])([A-Z])")
STRING = re.compile(r'"(?:[^"\\]|\\.)*"')


def files(ending):
    for folder, dirs, names in os.walk("crates"):
        dirs[:] = sorted(d for d in dirs if d != "out")
        for n in sorted(names):
            if n.endswith(ending):
                yield os.path.join(folder, n)


def read(p):
    with open(p, encoding="utf-8") as f:
        return f.read()


def declared():
    """Each own name with its kind: 'word' (definition, field, constructor) or 'lemma'."""
    kinds = {}
    for p in files(".antt"):
        if p.endswith("/Proof.antt"):
            continue
        block = None
        for line in read(p).split("\n"):
            deep = len(line) - len(line.lstrip())
            if block is not None and line.strip() and deep <= block:
                block = None
            m = re.match(r"^(\s*)(?:pub\s+)?(record|data)\s", line)
            if m:
                block = len(m.group(1))
                continue
            m = SIG.match(line)
            if not m or m.group(3) in ("let", "in", "λ", "|", "→", "use"):
                continue
            word = block is not None or "abbrev" in m.group(2) or "unfoldable" in m.group(2) or "/specs/" in p
            if block is None and deep > 4:
                continue
            n = m.group(3)
            if kinds.get(n) != "word":
                kinds[n] = "word" if word else "lemma"
    return kinds


def of_kit(crates):
    """Names that a file takes from the kit: they keep their spelling."""
    found = set()
    for p in list(files(".antt")) + list(files(".rt")):
        for m in re.finditer(r"(?m)^(?:ghost )?use ([^\s{]+)\.\{([^}]*)\}", read(p)):
            path = m.group(1).split(".")
            if not (path[0] == "Rattle" and path[1] in crates):
                found |= {re.split(r"\s+as\s+", n.strip())[0] for n in m.group(2).split(",")}
    return found


def snake(n):
    return HUMP.sub(lambda m: "_" + m.group(1).lower(), n)


def spelled(n, kind, known):
    pieces = [snake(x) for x in n.split("-")]
    if kind == "word":
        return "_".join(pieces)
    out = pieces[0]
    for a, b in zip(pieces, pieces[1:]):
        out += ("-" if a in known and b in known else "_") + b
    return out


def respelling():
    crates = {c for c in os.listdir("crates")}
    kinds = declared()
    kit = of_kit(crates)
    fns = set()
    for p in files(".rt"):
        fns |= set(re.findall(r"\bfn (\w+)", read(p)))
    own = {n: k for n, k in kinds.items() if n not in kit and "◌" not in n and n[0].islower() and (HUMP.search(n) or "-" in n)}
    known = {snake(n) for n, k in kinds.items() if k == "word" and "-" not in n} | fns | WORDS
    tokens, bare, fields = {}, {}, set()
    for p in list(files(".antt")) + list(files(".rt")):
        text = read(p)
        tokens[p] = set(TOKEN.findall(text))
        bare[p] = set(BARE.findall(re.sub(r"(?m)(--|//).*$", "", text)))
        if p.endswith(".rt"):
            for m in re.finditer(r"(?m)\bstruct \w+[^{;]*\{([^}]*)\}", text):
                fields |= set(re.findall(r"(\w+):", m.group(1)))
    where = {}
    for p, ts in tokens.items():
        for t in ts:
            if t in own:
                where.setdefault(t, []).append(p)
    taken, new = {}, {}
    for n in sorted(own, key=lambda n: (own[n] != "word", n)):
        want = spelled(n, own[n], known)
        if want == n:
            continue
        tail = "_lem" if own[n] == "lemma" else "_of"
        for _ in range(3):
            # a function of src/ may have its definition's name; any other word of the same file may not
            met = any(want in bare[p] for p in where.get(n, []) if not (p.endswith(".rt") and want in fns))
            if want not in taken and want not in kinds and not met and not (own[n] == "word" and want in fields):
                break
            want += tail
        else:
            continue
        taken[want] = n
        new[n] = want
    return new


def turned(text, new):
    return TOKEN.sub(lambda m: new.get(m.group(0), m.group(0)), text)


def outside_strings(text, new):
    out, at = [], 0
    for m in STRING.finditer(text):
        out += [turned(text[at:m.start()], new), m.group(0)]
        at = m.end()
    return "".join(out) + turned(text[at:], new)


def main(argv):
    new = respelling()
    if argv == ["--map"]:
        for n in sorted(new):
            print(n, new[n])
        return
    edits = {os.path.basename(p)[:-5] for p in files(".edit")}
    for ending in (".antt", ".rt", ".edit"):
        for p in files(ending):
            old = read(p)
            text = turned(old, new) if ending == ".antt" else outside_strings(old, new)
            if text != old:
                with open(p, "w", encoding="utf-8") as f:
                    f.write(text)
    prose = {n: w for n, w in new.items() if n not in edits}
    pages = ["README.md"] + [os.path.join("docs", f) for f in sorted(os.listdir("docs")) if f.endswith(".md")]
    for p in pages:
        if os.path.islink(p):
            continue
        old = read(p)
        text = re.sub(r"`[^`\n]+`", lambda m: turned(m.group(0), prose), old)
        if text != old:
            with open(p, "w", encoding="utf-8") as f:
                f.write(text)


main(sys.argv[1:])
