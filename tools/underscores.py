#!/usr/bin/env python3
"""Spells the repository's own definitions, fields and lemmas with underscores in place of hyphens.

usage: python3 tools/underscores.py            at the top of the repository, once

It renames what specs/ and the lemma files of proofs/ declare, in .antt, .rt and .edit files, in README.md and in docs/*.md between backticks.
Names of the library, of Rattle's own goals and steps, functions, strings, inputs and outputs keep their spelling.
Names that would fall together with another end the run before anything is written.
"""

import collections
import os
import re
import sys

WORD = r"[^\s(){}.;,@\"«»\[\]`:]+"
DECLARED = re.compile(rf"^ *((?:abbrev |unfoldable |pub |record |data |private )*)({WORD})(?: \{{[^{{}}]*\}})* *:")
FIELD = re.compile(rf"^  (?:pub )?({WORD}) *:")
HELPER = re.compile(r"/proofs/.*/(?:Proof|Answers|Invariants)\.antt$")


def texts(top):
    for folder, dirs, files in os.walk(top):
        dirs[:] = sorted(d for d in dirs if d != "out")
        for f in sorted(files):
            if f.endswith((".rt", ".antt", ".edit")):
                yield os.path.join(folder, f)


def declared():
    names = collections.defaultdict(set)
    for path in texts("crates"):
        if not path.endswith(".antt") or HELPER.search(path):
            continue
        with open(path) as f:
            for line in f:
                for pattern, part in ((DECLARED, 2), (FIELD, 1)):
                    found = pattern.match(line)
                    if found:
                        names[found.group(part)].add(path)
    return names


def main():
    names = declared()
    turned = {n: n.replace("-", "_") for n in names if re.fullmatch(r"[^-]+(-[^-]+)+", n)}
    met = [n for n, u in turned.items() if u in names]
    if met or len(set(turned.values())) != len(turned):
        sys.exit(f"these fall together with another name: {met}")
    token = re.compile(rf"(?<![^\s(){{}}.;,@«»\[\]`:'])({'|'.join(re.escape(n) for n in sorted(turned, key=len, reverse=True))})(?![^\s(){{}}.;,@«»\[\]`:'])")

    def turn(text):
        return token.sub(lambda m: turned[m[1]], text)

    for path in texts("crates"):
        with open(path) as f:
            old = f.read()
        new = "".join(part if part.startswith('"') else turn(part) for part in re.split(r'("(?:[^"\\\n]|\\.)*")', old)) if path.endswith(".rt") else turn(old)
        if new != old:
            with open(path, "w") as f:
                f.write(new)
    pages = ["README.md"] + [os.path.join("docs", f) for f in sorted(os.listdir("docs")) if f.endswith(".md")]
    for path in pages:
        with open(path) as f:
            old = f.read()
        new = re.sub(r"`[^`\n]*`", lambda m: turn(m[0]), old)
        if new != old:
            with open(path, "w") as f:
                f.write(new)
    print(f"{len(turned)} names")


main()
