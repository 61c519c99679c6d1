#!/usr/bin/env python3
"""Brings the project's own definitions and lemmas to one spelling, once, after port.py: words in snake case, types in camel case.

usage: spell.py [--dry] [CRATES]

A name that the project declares in specs/ or proofs/ and that has a dash gets `_` for it (a type: none, and the next letter large).
In a file a name is turned where the file declares it, takes it from a crate of the project, or reads it as a field that a record of the
project declares. Names that the checker makes (a goal's, a step's) are left, as are names of src/. It says where two names fall together.
"""

import os
import re
import sys

WORD = re.compile(r"[^\s{}()\[\],;:λ.«»\"]+")
DECLARED = re.compile(r"^\s*(?:(?:abbrev|unfoldable|pub|private) )*(data |record |ruleset |mod )?((?:[^\s{}()\[\],;:λ.\"]+ )*?[^\s{}()\[\],;:λ.\"]+) :(?:\s|$)")
MADE = re.compile(r":\s*tie\.(?:Need|InvT|MeasureT|invariant|decreases)")


def turned(name):
    if name[0].isupper():
        first, *rest = name.split("-")
        return first + "".join(p[:1].upper() + p[1:] for p in rest)
    return name.replace("-", "_")


def read(path):
    with open(path, encoding="utf-8") as f:
        return f.read()


def cycle(root):
    """The cycle of the parser's readers has the name of its module, and not one made of all its members' names."""
    at = os.path.join(root, "parser", "proofs", "readers")
    long = [d for d in os.listdir(at) if d.startswith("+arg_")]
    for d in long:
        os.rename(os.path.join(at, d), os.path.join(at, "+readers"))
        for folder, dirs, names in os.walk(os.path.join(root, "parser")):
            dirs[:] = [x for x in dirs if x != "out"]
            for n in names:
                if n.endswith((".rt", ".antt")):
                    path = os.path.join(folder, n)
                    text = read(path)
                    new = text.replace(d, "+readers").replace("cycle(" + d[1:] + ")", "cycle(readers)")
                    if new != text:
                        with open(path, "w", encoding="utf-8") as f:
                            f.write(new)


def main(argv):
    dry = "--dry" in argv
    argv = [a for a in argv if a != "--dry"]
    root = argv[0] if argv else "crates"
    crates = sorted(c for c in os.listdir(root) if os.path.isdir(os.path.join(root, c)))
    own = re.compile(r"^\s*(?:pub )?(?:ghost )?use Rattle\.(?:" + "|".join(crates) + r")\.(?:specs|proofs)\b[^{;]*\{([^}]*)\}", re.M)
    antt, rt = [], []
    for folder, dirs, names in os.walk(root):
        dirs[:] = sorted(d for d in dirs if d != "out")
        for n in sorted(names):
            (antt if n.endswith(".antt") else rt if n.endswith(".rt") else []).append(os.path.join(folder, n))
    declared, fields = {}, set()
    for path in antt:
        here = set()
        record = None
        for line in read(path).splitlines():
            m = DECLARED.match(line)
            if re.match(r"^\s*(?:abbrev |pub |unfoldable )*(record|data) ", line):
                record = len(line) - len(line.lstrip())
            elif line.strip() and record is not None and len(line) - len(line.lstrip()) <= record:
                record = None
            if m and not line.lstrip().startswith("--"):
                if MADE.search(line):
                    continue
                for name in m.group(2).split():
                    if name in ("pub", "abbrev", "unfoldable"):
                        continue
                    if "-" in name.strip("-") and re.search(r"\w", name) and not name.startswith("+"):
                        here.add(name)
                        if record is not None:
                            fields.add(name)
        declared[path] = here
    everywhere = set().union(*declared.values())
    clashes, changed, table = [], 0, {}
    for path in antt + rt:
        text = read(path)
        names = set(declared.get(path, ()))
        for m in own.finditer(text):
            for item in m.group(1).split(","):
                for word in item.split(" as "):
                    word = word.strip()
                    if word in everywhere:
                        names.add(word)
        if path.endswith("Proof.antt"):
            f = os.path.basename(os.path.dirname(path))
            said = re.search(r"(?m)^pub (\S+)-spec :", text)
            if said and not f.startswith("+"):
                text = re.sub(r"(?<![\w.-])" + re.escape(said.group(1)) + r"-spec(?![\w-])", f + "_spec", text)
        words = set(WORD.findall(text))
        turn = {n: turned(n) for n in names | fields}
        for n in sorted(names):
            if turn[n] in words and n in words and n != turn[n]:
                clashes.append(f"{path}: {n} and {turn[n]}")

        def put(m):
            w = m.group(0)
            if w not in turn:
                return w
            at = m.start()
            before = text[at - 1] if at else " "
            if before == "." and w not in fields and w not in names:
                return w
            if w in fields and w not in names and before != "." and not re.match(r"\s*=(?!=)", text[m.end():]):
                return w
            table[w] = turn[w]
            return turn[w]

        if path.endswith(".rt"):
            # ghost use lines and clauses alone
            def part(m):
                nonlocal text
                keep, text = text, m.group(0)
                new = WORD.sub(put, text)
                text = keep
                return new

            new = re.sub(r"(?m)^\s*ghost use [^;]*;|^\s*(?:requires|ensures|ghost)\*? ?\w* ?\{(?:[^{}]|\{[^{}]*\})*\}", part, text)
        else:
            new = WORD.sub(put, text)
        if new != read(path):
            changed += 1
            if not dry:
                with open(path, "w", encoding="utf-8") as f:
                    f.write(new)
    if not dry:
        cycle(root)
    taken = {}
    for old, new in sorted(table.items()):
        taken.setdefault(new, []).append(old)
    print("\n".join(clashes))
    print(f"spell: {len(table)} names, {changed} files, {len(clashes)} places where two names fall together")


if __name__ == "__main__":
    main(sys.argv[1:])
