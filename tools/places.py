#!/usr/bin/env python3
"""Counts, in crates/*/src, the places of older forms (docs/DESIGN-PASS.md): tools/places.py [POINT] [--list].

1 results     own enums of two cases of which one holds nothing or a refusal; structs with a code or a flag beside values; numbers that are names of kinds (constants
              0, 1, 2, .. of one module); functions that answer 0, a length, or ABSENT for 'none'
2 twins       functions of one crate whose bodies are the same once names and numbers are taken out (three lines or more)
3 loops       loops that count an index by hand: a `while` whose test names a variable that a line of its body raises or lowers by 1
4 by hand     functions that compare, copy, print or convert what a derive or the library does: by their names, and bodies that are a loop over two slices
5 together    groups of three parameters, name and type, that three functions or more of a crate take; clauses that three functions or more of a crate have
6 lengths     parameters or fields that are a fixed array or a lent slice with the length in use beside it
7 switches    functions whose first parameter or field tells by a number which step to run
8 answers     files of answers, and their lines
"""
import re, sys, glob, collections, os

def functions():
    """Yields crate, file, line, name, parameters, result, clauses, body of each function."""
    for path in sorted(glob.glob("crates/*/src/*.rt")):
        lines = open(path).read().split("\n")
        crate = path.split("/")[1]
        i = 0
        while i < len(lines):
            found = re.match(r"^(\s*)(pub(\(\w+\))? )?(extern \"C\" )?fn (\w+)", lines[i])
            if not found:
                i += 1
                continue
            indent, j = found.group(1), i
            while not (lines[j] == indent + "}" or (lines[j].rstrip().endswith("}") and "{" in lines[j] and j == i)):
                j += 1
            text = "\n".join(lines[i : j + 1])
            head = re.split(r"\n\s*(?:requires|ensures)|\{\n|\n\{", text)[0]
            inside = head[head.index("(") + 1 :]
            depth, cut = 1, 0
            for cut, sign in enumerate(inside):
                depth += (sign == "(") - (sign == ")")
                if depth == 0:
                    break
            pars = [" ".join(it.split()) for it in split(inside[:cut])]
            result = inside[cut + 1 :].strip()
            clauses = re.findall(r"\n\s*((?:requires|ensures)\b.*)", text)
            body = text[len(head) :]
            body = re.sub(r"\n\s*(?:requires|ensures)\b.*", "", body)
            yield crate, path, i + 1, found.group(5), pars, result, clauses, body
            i = j + 1

def split(text):
    parts, depth, part = [], 0, ""
    for sign in text:
        depth += (sign in "([<{") - (sign in ")]>}")
        if sign == "," and depth == 0:
            parts.append(part)
            part = ""
        else:
            part += sign
    return [it for it in [*parts, part] if it.strip()]

ALL = list(functions())

def results():
    out = []
    for path in sorted(glob.glob("crates/*/src/*.rt")):
        text = open(path).read()
        for it in re.finditer(r"\n(?:pub(?:\(\w+\))? )?enum (\w+)[^{]*\{\n(.*?)\n\}", text, re.S):
            cases = [c.strip() for c in it.group(2).split("\n") if c.strip() and not c.strip().startswith("//")]
            if len(cases) == 2 and any("(" in c or "{" in c for c in cases):
                out.append(f"{path} enum {it.group(1)}")
        for it in re.finditer(r"\n(?:pub(?:\(\w+\))? )?struct (\w+)[^{;]*\{\n(.*?)\n\}", text, re.S):
            if re.search(r"\b(code|fault|whole|next|found|line): (u32|usize|bool)", it.group(2)):
                out.append(f"{path} struct {it.group(1)}")
        names = re.findall(r"\n(?:pub(?:\(\w+\))? )?const ([A-Z_0-9]+): (?:u8|u32|usize) = (\d+);", text)
        run = [name for name, n in names if int(n) < 64]
        if len(run) >= 3:
            out.append(f"{path} {len(run)} constants")
    for crate, path, line, name, pars, result, clauses, body in ALL:
        if re.match(r"-> (u32|usize)\b", result) and re.search(r"return (0|ABSENT|\w+\.len\(\)|count|n \+ 1|NONE|NO_\w+);|\n\s+(ABSENT|count|\w+\.len\(\)|0)\n\}", body):
            out.append(f"{path}:{line} {name} answers a number for none")
    return out

def twins():
    seen = collections.defaultdict(list)
    for crate, path, line, name, pars, result, clauses, body in ALL:
        form = re.sub(r"//.*", "", body)
        form = re.sub(r"b?\"(?:[^\"\\]|\\.)*\"|b?'(?:[^'\\]|\\.)+'", "L", form)
        form = re.sub(r"\b(?!(?:let|mut|if|else|while|for|in|match|return|as|loop|break|continue|true|false|u8|u32|u64|usize|bool)\b)\w+\b", "x", form)
        form = re.sub(r"\s+", " ", form)
        if body.count("\n") > 3:
            seen[crate, form].append(f"{path}:{line} {name}")
    return [" = ".join(it) for it in seen.values() if len(it) > 1]

def loops():
    out = []
    for crate, path, line, name, pars, result, clauses, body in ALL:
        for it in re.finditer(r"\n(\s*)(?:'\w+: )?while ([^{]*)\{\n(.*?)\n\1\}", body, re.S):
            for word in set(re.findall(r"\b[a-z_]\w*\b", it.group(2))):
                if re.search(rf"\b{word} (?:\+=|-=) 1;|\b{word} = {word} [+-] 1;", it.group(3)):
                    out.append(f"{path}:{line} {name}: while {it.group(2).strip()}")
                    break
    return out

def by_hand():
    out = []
    for crate, path, line, name, pars, result, clauses, body in ALL:
        if re.match(r"(same|is_same|equal\w*|copy\w*|zero|fill|clear|mark|least|most|max|min|decimal|digits?|number|narrow|wide\w*|size|put_number|four|put_all|take_all)$", name):
            out.append(f"{path}:{line} {name}")
    return out

def together():
    groups, clauses_of = collections.defaultdict(set), collections.defaultdict(list)
    for crate, path, line, name, pars, result, clauses, body in ALL:
        for a in range(len(pars)):
            for b in range(a + 1, len(pars)):
                for c in range(b + 1, len(pars)):
                    groups[crate, pars[a], pars[b], pars[c]].add(f"{path}:{line} {name}")
        for it in clauses:
            if it.startswith("requires"):
                for part in re.split(r"[{}×]", it[8:]):
                    part = part.strip(" ()")
                    if part:
                        clauses_of[crate, part].append(f"{path}:{line} {name}")
    whole = collections.defaultdict(list)
    for (crate, *three), who in groups.items():
        if len(who) >= 3:
            whole[crate, frozenset(who)] += three
    out = [f"{crate}: {', '.join(sorted(set(it)))}: {len(who)} functions" for (crate, who), it in whole.items()]
    out += [f"{crate}: {part}: {len(who)} functions" for (crate, part), who in clauses_of.items() if len(who) >= 3]
    return out

def lengths():
    out = []
    for crate, path, line, name, pars, result, clauses, body in ALL:
        rooms = [it for it in pars if re.search(r": &(mut )?\[", it)]
        used = [it for it in pars if re.match(r"(n|at|count|size|k|length|rows|upto|known|held|top): (usize|u32)$", it)]
        if rooms and used:
            out.append(f"{path}:{line} {name}: {', '.join(used)}")
    for path in sorted(glob.glob("crates/*/src/*.rt")):
        for it in re.finditer(r"\n(?:pub(?:\(\w+\))? )?struct (\w+)[^{;]*\{\n(.*?)\n\}", open(path).read(), re.S):
            if re.search(r": \[\w+; \w+\]", it.group(2)) and re.search(r"(at|count|n|length): (usize|u32)", it.group(2)):
                out.append(f"{path} struct {it.group(1)}")
    return out

def switches():
    out = []
    for crate, path, line, name, pars, result, clauses, body in ALL:
        arms = re.search(r"match [^{]*\{\n(.*)\n\s*\}", body, re.S)
        if arms and len(re.findall(r"=> \w+(?:::\w+)*\(", arms.group(1))) >= 3:
            out.append(f"{path}:{line} {name}")
    return out

def answers():
    files = glob.glob("crates/*/proofs/**/Answers.antt", recursive=True) + glob.glob("crates/*/proofs/**/Answers/*.antt", recursive=True)
    return [f"{it}: {len(open(it).read().splitlines())} lines" for it in sorted(files)]

POINTS = dict(zip("12345678", [results, twins, loops, by_hand, together, lengths, switches, answers]))
for key, count in POINTS.items():
    if len(sys.argv) > 1 and sys.argv[1] in POINTS and sys.argv[1] != key:
        continue
    found = count()
    print(f"{key} {count.__name__}: {len(found)}")
    if "--list" in sys.argv:
        print("\n".join(f"    {it}" for it in found))
