#!/usr/bin/env python3
"""Spells the repository's own definitions, lemmas and record fields as today's library does.

usage: python3 tools/respell.py      at the top of the repository, once, after /opt/rattle/port/port.py

Words go into snake case and facts into camel case: `lead-in` becomes `lead_in`, and `Same-or-done` becomes `SameOrDone`.
Names that the library gives, or that Rattle makes (goals, invariants, measures), stay. In .rt files and edits only the text
outside of comments and strings is turned. A second run changes nothing.
"""

import collections
import os
import re

WORD = r"A-Za-z0-9_'\-+"
TOKEN = re.compile(r"[^\s(){}\[\],;.:λ\"\\|@]+")
MADE = re.compile(r"^(bounds|decreases|invariant|loop|overflow|returns)-")
# goals whose names say nothing of how they were made
GOALS = {"put-in-requires", "run-stretch-requires"}
# names that would fall together with the library's
TAKEN = {"bit-or": "bit_or_lem", "bit-and": "bit_and_lem", "getD-members": "get_or_members"}
FIELD = re.compile(r"^(\s*)((?:pub |unfoldable |abbrev |mutual |private )*)([^\s:(){}\[\],;]+)\s*(?:\(.*\)\s*)?:")
HEAD = re.compile(r"^(?:pub |unfoldable |abbrev )*(?:data|record) (?:pub )?([^\s:(){}]+)")


def files(kinds):
    for folder, dirs, names in os.walk("crates"):
        dirs[:] = sorted(d for d in dirs if d != "out")
        for name in sorted(names):
            if name.endswith(kinds):
                yield os.path.join(folder, name)


def read(path):
    with open(path, encoding="utf-8") as f:
        return f.read()


def code(line):
    return re.sub(r"(^|\s)--.*", "", line)


def is_shared(path):
    parts = path.split(os.sep)
    return parts[2] == "specs" or len(parts) == 4


def own_names():
    own, shared, library = set(), set(), set()
    crates = set(os.listdir("crates"))
    for path in files(".antt"):
        text = "\n".join(code(line) for line in read(path).split("\n"))
        for m in re.finditer(r"use (?:Rattle\.)?(\w+)\.[\w.+'-]*\{([^}]*)\}", text):
            if m.group(1) not in crates:
                library |= {n.strip() for part in m.group(2).split(",") for n in part.split(" as ")}
        for line in text.split("\n"):
            for m in (FIELD.match(line), HEAD.match(line)):
                if m and "-" in m.groups()[-1] and not MADE.match(m.groups()[-1]) and m.groups()[-1] not in GOALS:
                    own.add(m.groups()[-1])
    for path in files(".antt"):
        if is_shared(path):
            for line in read(path).split("\n"):
                shared |= {t for t in TOKEN.findall(re.sub(r"\.[^\s(){},;]+", " ", code(line))) if "-" in t and re.match(r"[A-Za-z]", t)}
    clash = own & library
    if clash:
        print("look: of the library and of this repository:", " ".join(sorted(clash)))
    return own | {t for t in shared if t not in library and not t.startswith("Rattle") and not MADE.match(t)}


def spelled(name):
    if name in TAKEN:
        return TAKEN[name]
    if name[0].isupper():
        return "".join(w[:1].upper() + w[1:] for w in name.split("-"))
    return name.replace("-", "_")


def main():
    names = {n: spelled(n) for n in own_names()}
    if not names:
        print("nothing to spell")
        return
    together = collections.defaultdict(list)
    for old, new in names.items():
        together[new].append(old)
    for new, olds in together.items():
        if len(olds) > 1:
            print("look: fall together:", new, olds)
    any_name = re.compile("(?<![%s])(%s)(?![%s])" % (WORD, "|".join(re.escape(n) for n in sorted(names, key=len, reverse=True)), WORD))

    def turn(text):
        return any_name.sub(lambda m: names[m.group(1)], text)

    def turn_rt(line):
        parts = re.split(r'("(?:[^"\\]|\\.)*"|(?:(?<=\s)|^)//.*$)', line)
        return "".join(p if i % 2 else turn(p) for i, p in enumerate(parts))

    def turn_antt(line):
        m = re.match(r"^(.*?)((?:^|(?<=\s))--.*)?$", line)
        return turn(m.group(1)) + (m.group(2) or "")

    count = 0
    for path in files((".antt", ".rt", ".edit")):
        text = read(path)
        by = turn_antt if path.endswith(".antt") else turn_rt
        new = "\n".join(by(line) for line in text.split("\n"))
        if new != text:
            count += 1
            with open(path, "w", encoding="utf-8") as f:
                f.write(new)
    print(f"{len(names)} names, {count} files")


if __name__ == "__main__":
    main()
