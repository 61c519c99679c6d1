#!/usr/bin/env python3
"""Gives the project's own types that take parameters the spelling of the others, after spell.py: camel case, with no dash.

usage: spell_types.py [CRATES]

The names are those of the `record`s and `data` of specs/ and proofs/ that had a dash; a word of a file that is such a name is turned, in
.antt and .rt files and in must-fail edits. Running it again changes nothing.
"""

import os
import re
import sys

NAMES = """
Goes_on Is_at Admits-code All-known All-named All-standing All-there Answers-all Answers-text As-items As-read As-script As-was Asked-of At-door Both-laid
Byte-placed Call-goes-on Checks-rows Could-stand Cut-at Cut-off Earlier-kept First-past First-without Follows-all Has-child Has-place Has-places
Hearing-all Holds-number In-reading In-room Input-holds Input-sized Known-kind Left-at Left-out Lengths-checked Let-in Line-ends List-checked
List-fits Lists-done Long-string Looked-up Makes-list Message-given Moves-link Moves-list Moves-lists Moves-number Moves-row Name-told Named-in
Names-place Names-right Numbers-so Of-kind Offset-given On-new-line One-tree One-word Other-byte Output-given Packable-all Packed-all Packed-upto
Packs-all Packs-rows Parent-of Part-of Part-told Placed-at Profile-checked Put-within Ranges-right Reaching-not Read-as Reads-text Reads-well
Reason-given Refused-at Right-cuts Right-list Right-names Room-for Row-carried Row-like Row-utters Same-first Same-lengths Same-outcome Same-token
Same-tree So-far Span-moved Stands-row Stretch-ends Sum-goes-on Tells-expected Text-reads Token-record Tokens-filled Too-deep Tree-kept Turned-at
Turned-away Up-to Well-formed With-ends With-semicolon Within-limits Writes-reason
""".split()

WORD = re.compile(r"(?<![\w'-])[A-Z][\w']*(?:-[\w']+)*(?![\w'-])")


def read(path):
    with open(path, encoding="utf-8") as f:
        return f.read()


def main(argv):
    root = argv[0] if argv else "crates"
    paths = []
    for folder, dirs, names in os.walk(root):
        dirs[:] = sorted(d for d in dirs if d != "out")
        paths += [os.path.join(folder, n) for n in sorted(names) if n.endswith((".antt", ".rt", ".edit"))]
    turn = {}
    for name in NAMES:
        first, *rest = re.split("[-_]", name)
        turn[name] = first + "".join(p[:1].upper() + p[1:] for p in rest)
    changed = 0
    for path in paths:
        text = read(path)
        new = WORD.sub(lambda m: turn.get(m.group(0), m.group(0)), text)
        if new != text:
            changed += 1
            with open(path, "w", encoding="utf-8") as f:
                f.write(new)
    print(f"spell_types: {len(turn)} names, {changed} files")


if __name__ == "__main__":
    main(sys.argv[1:])
