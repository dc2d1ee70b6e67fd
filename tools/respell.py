#!/usr/bin/env python3
"""Respells the repository's own definitions and lemmas: words in snake case, types in camel case.
It also renames the crates that have the name of a library of the kit.

usage: tools/respell.py [--list]     at the top of the repository, once, after the kit's port.py

It renames each name with a dash that specs/ or a file of lemmas declares, and the local names of proofs,
wherever they are cited. Names that Rattle makes (goals, steps of a proof) and names of the kit's
libraries keep their spelling, as do functions, strings and comments of src/.
"""

import os
import re
import sys

WORD = r"[A-Za-z_][\w'·]*(?:-[\w'·]+)+"
TOKEN = re.compile(r"(?<![\w'·«-])(" + WORD + r")(?![\w'·»-])")
DECLARED = re.compile(r"\s*(?:\| )?(?:pub |abbrev |unfoldable |private )*(?:record |data )?(" + WORD + r") ?(?::|\(|\{)")
BOUND = re.compile(r"(?:let |[({]|λ )((?:[A-Za-z_][\w'·-]* )*[A-Za-z_][\w'·-]*) ?(?::|=|\.)")
FIELD = re.compile(r"\s+pub (" + WORD + r") :")
OF_LIBRARY = re.compile(r"\s*(?:ghost )?use (?:Rattle\.std\.|lib\.|native\.|mathlib\.|denote\.|borrow\.|Prim)")
WALKS = ("Answers.antt", "Invariants.antt", "Proof.antt")
CRATES = {"bytes": "octets"}


def files(*ends):
    for folder, dirs, names in os.walk("crates"):
        dirs[:] = sorted(d for d in dirs if d != "out")
        for name in sorted(names):
            if name.endswith(ends):
                yield os.path.join(folder, name)


def read(path):
    with open(path, encoding="utf-8") as f:
        return f.read()


def is_walk(path):
    return os.sep + "proofs" + os.sep in path and os.path.basename(path) in WALKS


def respelled(name):
    if name[0].isupper():
        return "".join(part[0].upper() + part[1:] for part in name.split("-"))
    return name.replace("-", "_")


def names_of_the_tree():
    own, fields, foreign, made = set(), set(), set(), set()
    for path in files(".antt", ".rt"):
        for line in read(path).split("\n"):
            if OF_LIBRARY.match(line):
                foreign.update(TOKEN.findall(line))
            if path.endswith(".rt"):
                continue
            for bound in BOUND.finditer(line):
                own.update(w for w in bound.group(1).split() if "-" in w)
            declared = DECLARED.match(line)
            if declared and is_walk(path):
                goal = "goal." + declared.group(1) in line or declared.group(1).startswith(("invariant-", "decreases-"))
                (made if goal else own).add(declared.group(1))
            elif declared:
                own.add(declared.group(1))
            field = FIELD.match(line)
            if field:
                fields.add(field.group(1))
    return own - foreign - made, fields, foreign | made


def turned(line, names, fields, walk):
    def word(match):
        name = match.group(1)
        if name not in names:
            return name
        if match.start() and line[match.start() - 1] == "." and walk and (name not in fields or re.search(r"\b[cw]\.$", line[: match.start()])):
            return name
        return names[name]

    return TOKEN.sub(word, line)


def rename_crates():
    for old, new in CRATES.items():
        if not os.path.isdir(os.path.join("crates", old)):
            continue
        os.rename(os.path.join("crates", old), os.path.join("crates", new))
        for path in [*files(".antt", ".rt"), "crates.txt"]:
            text = read(path)
            if path == "crates.txt":
                turned_text = re.sub(rf"(?m)^(.*)$", lambda m: m.group(0) if m.group(0).startswith("#") else re.sub(rf"\b{old}\b", new, m.group(0)), text)
            else:
                turned_text = re.sub(rf"\bRattle\.{old}\b", f"Rattle.{new}", re.sub(rf"(?m)^(\s*use ){old}\b", rf"\g<1>{new}", text))
            if turned_text != text:
                with open(path, "w", encoding="utf-8") as f:
                    f.write(turned_text)


def main():
    own, fields, kept = names_of_the_tree()
    names = {n: respelled(n) for n in sorted(own) if re.fullmatch(WORD, n)}
    taken = set()
    for path in files(".antt", ".rt"):
        taken.update(re.findall(r"[A-Za-z_][\w'·]*", read(path)))
    for old, new in names.items():
        if new in taken or sum(v == new for v in names.values()) > 1:
            print("falls together:", old, new)
    if "--list" in sys.argv:
        print(" ".join(f"{a}>{b}" for a, b in names.items()))
        return
    for path in files(".antt", ".rt"):
        old = read(path)
        lines = []
        for line in old.split("\n"):
            if path.endswith(".rt") and line.strip().startswith("//"):
                lines.append(line)
                continue
            lines.append(turned(line, names, fields, is_walk(path)))
        new = "\n".join(lines)
        if new != old:
            with open(path, "w", encoding="utf-8") as f:
                f.write(new)
    rename_crates()


if __name__ == "__main__":
    main()
