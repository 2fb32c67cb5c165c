#!/usr/bin/env python3
"""Respells the repository's own definitions and lemmas: words in snake case, types in camel case; once, right after port.py.

usage: tools/respell.py PAGE..        at the top of the repository; in each PAGE the names that it respells are respelled too
Names of functions of src/, exported names, strings, inputs and outputs stay.
"""

import os
import re
import subprocess
import sys

TOKEN = re.compile(r"--[^\n]*|\"(?:[^\"\\]|\\.)*\"|«[^»]*»|[^\s(){}.;,@\"«»\[\]\\]+")
RUST = re.compile(r"//[^\n]*|" + TOKEN.pattern)
DASHED = re.compile(r"^[^\W\d_][\w'₀-₉]*(?:-[\w'₀-₉]+)+$")
# A module that Rattle now makes is called contracts: ours, of what contracts alone are written in, has another name.
CONTRACTS = "InContracts"
# Words that programs read and write: in a page they stay.
SAID = {f"{a}-{b}" for a in ("timer", "ask") for b in ("propose", "prevote", "precommit")}


def respelled(name):
    parts = name.split("-")
    if parts[0][0].isupper():
        return "".join(p[0].upper() + p[1:] for p in parts)
    return "_".join(parts)


def read(path):
    with open(path, encoding="utf-8") as f:
        return f.read()


def write(path, text):
    with open(path, "w", encoding="utf-8") as f:
        f.write(text)


def files(end):
    for folder, dirs, names in os.walk("crates"):
        dirs[:] = sorted(d for d in dirs if d != "out")
        for name in sorted(names):
            if name.endswith(end):
                yield os.path.join(folder, name)


def own_crates():
    return set(os.listdir("crates"))


USE = re.compile(r"\b(?:ghost )?use (Rattle\.(\w+)\.[^\s{;]+)\.\{([^}]*)\}")


def of_function(path):
    parts = path.split("/")
    return parts[2] == "proofs" and parts[-1] in ("Proof.antt", "Invariants.antt", "Answers.antt")


def imports(text, own):
    """The names that a text brings in: ours, and others'."""
    ours, others = set(), set()
    for m in re.finditer(r"\buse ([^\s{;]+?)\.\{([^}]*)\}", text):
        parts = m.group(1).split(".")
        mine = parts[0] == "Rattle" and parts[1] in own and parts[-1] not in ("Statement", "Tie", "Reads", "Goals", "Given")
        for item in m.group(2).split(","):
            words = item.split()
            if not words:
                continue
            (ours if mine else others).update(words[:1])
            if len(words) == 3:
                (ours if mine else others).add(words[2])
    return ours, others


FIELD = re.compile(r"^\s+(?:pub )?([^\s(){}.;,:]+) :(?= |$)", re.M)


def main():
    own = own_crates()
    for crate in sorted(own):
        for old, new in ((f"crates/{crate}/specs/contracts.antt", f"crates/{crate}/specs/{CONTRACTS}.antt"), (f"crates/{crate}/specs/contracts", f"crates/{crate}/specs/{CONTRACTS}")):
            if os.path.exists(old):
                subprocess.run(["git", "mv", old, new], check=True)
    paths = list(files(".antt")) + list(files(".rt"))
    texts = {p: read(p) for p in paths}
    fields = set()
    for p, t in texts.items():
        if p.endswith(".antt") and not of_function(p):
            fields.update(n for n in FIELD.findall(t) if DASHED.match(n))
    turned = {}

    def turn(name):
        turned[name] = respelled(name)
        return turned[name]

    for p, t in texts.items():
        for c in own:
            t = t.replace(f"Rattle.{c}.specs.contracts", f"Rattle.{c}.specs.{CONTRACTS}")
        t = re.sub(r"^pub mod contracts$", f"pub mod {CONTRACTS}", t, flags=re.M)
        ours, others = imports(t, own)
        free = not of_function(p)

        def word(m):
            w = m.group(0)
            if w.startswith(("--", "//", '"', "«")) or not DASHED.match(w):
                return w
            behind_dot = m.start() > 0 and t[m.start() - 1] == "."
            if behind_dot:
                return turn(w) if w in fields or (free and w not in others) else w
            if w in ours:
                return turn(w)
            return turn(w) if free and w not in others else w

        # A comment of src/ is taken as one piece, as one of antt is.
        new = (RUST if p.endswith(".rt") else TOKEN).sub(word, t)
        if new != read(p):
            write(p, new)
    # The pages name definitions too, in backticks; the lists of tools name them plainly.
    name_in = re.compile(r"[^\W\d_][\w'₀-₉]*(?:-[\w'₀-₉]+)+")

    words = {w for p in paths if p.endswith(".antt") for w in TOKEN.findall(read(p))}

    def known(text):
        return name_in.sub(lambda m: respelled(m.group(0)) if m.group(0) not in SAID and respelled(m.group(0)) in words else m.group(0), text)

    for p in sys.argv[1:]:
        t = read(p)
        new = re.sub(r"`[^`\n]*`", lambda m: known(m.group(0)), t) if p.endswith(".md") else known(t)
        if new != t:
            write(p, new)
    for name, new in sorted(turned.items()):
        print(f"{name}\t{new}")


if __name__ == "__main__":
    main()
