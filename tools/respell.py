#!/usr/bin/env python3
"""Brings the names of this repository's own definitions and lemmas to snake case, once, after the kit's port.py.

usage: python3 tools/respell.py      at the top of the repository

Words, lemmas, fields and constructors go to snake case (`placeOf` to `place_of`, `demand-run` to `demand_run`); types, facts and modules keep
their capitals. A lemma that would then have a definition's name gets `_lem`. Names of the library, of src/ and of what a check makes stay.
It rewrites .antt, .rt and .edit files below crates/, names alone: strings stay, and of comments the words of the published figures.
"""
import collections
import glob
import os
import re
import sys

WORD = re.compile(r"[^\s(){}\[\],;.:⟨⟩⌜⌝\"`'/|=<>+*@!]+[']*")
DEFINES = re.compile(r"^\s*(?:(?:unfoldable|abbrev|mutual|pub) )*([^\s(){}:.]+)(?: [^\s(){}:.]+)* :(?: |$)")
CAMEL = re.compile(r"(?<=[a-z0-9])([A-Z])(?=[a-z0-9]|\b)")
OF_THE_FIGURES = {"updateMetadata", "computeSize", "createUpdateInfo"}
# what port.py took for a name of the library
MISTAKEN = {"first_Cell": "first_cell", "Cell-at": "cell_at", "Block-of": "block_of", "Known-up": "known_up", "get_d_beyond": "get_or_beyond", "number_of_lem": "number_of"}
# lemmas that port.py gave the name that a definition gets here, with the crates whose proofs mean the lemma
FELL_TOGETHER = {
    "count_at": ("figures", "runfile"), "goes_on": ("machine",), "goes_to": ("lending",), "no_record": ("figures",), "raised_at": ("machine",),
    "raised_by": ("figures",), "raised_of": ("figures",), "reads_only": ("figures",), "stands_at": ("figures",), "step_right": ("runfile",),
    "sum_by": ("figures",), "told_of": ("figures",),
}
# a field that bounds what a constant of its name bounds
FIELDS = {"most-keys": "at_most_keys", "most-operations": "at_most_operations", "most-steps": "at_most_steps", "most-threads": "at_most_threads"}
# names that a check makes of a function, in proofs that walk the code
MADE = re.compile(r"^(Need-|calls-|s-|t-|turn-|the_|Q\.)")


def snake(name):
    parts = re.split(r"([-_])", name)
    out = []
    for p in parts:
        if p == "-":
            out.append("_")
        elif p[:1].isupper():
            out.append(p)
        else:
            out.append(CAMEL.sub(lambda m: "_" + m.group(1).lower(), p))
    return "".join(out)


def files(root, *kinds):
    for k in kinds:
        yield from sorted(glob.glob(os.path.join(root, "crates", "**", "*." + k), recursive=True))


def read(f):
    with open(f, encoding="utf-8") as it:
        return it.read()


def main(root):
    if os.path.exists(os.path.join(root, "docs", "PORT.md")):
        sys.exit("respell: docs/PORT.md tells that this was done; today's names of goals would not survive it")
    defined, lemmas = collections.Counter(), set()
    imported = set()
    own = {os.path.basename(d) for d in glob.glob(os.path.join(root, "crates", "*"))}
    for f in files(root, "antt"):
        text = read(f)
        for line in text.splitlines():
            m = DEFINES.match(line)
            if m and not line.lstrip().startswith(("use ", "--", "module ")):
                head = line.split(" : ")[0].split(" :")[0].split()
                for w in head:
                    if w not in ("pub", "abbrev", "unfoldable", "mutual"):
                        defined[w] += 1
                        if "/proofs/" in f:
                            lemmas.add(w)
        for m in re.finditer(r"^use ([^\s{]+)\.\{([^}]*)\}", text, re.M):
            path = m.group(1).split(".")
            if not (path[0] == "Rattle" and len(path) > 1 and path[1] in own):
                for it in m.group(2).split(","):
                    imported.add(it.strip().split(" as ")[0])
    camel = set()
    for f in files(root, "antt", "rt", "edit"):
        for w in WORD.findall(read(f)):
            if w[:1].islower() and re.search(r"[a-z0-9][A-Z]", w):
                camel.add(w)
    turned = {}
    for name in sorted(set(defined) | camel):
        if name in imported or name in OF_THE_FIGURES or MADE.match(name) or not name[:1].islower() or "◌" in name or "𝓛" in name:
            continue
        if re.search(r"_[A-Z]|^[a-z]+-[A-Z]", name) and name not in camel:
            continue
        to = snake(name)
        if to != name:
            turned[name] = to
    # a lemma that would have a definition's name
    taken = set(n for n in defined if n not in turned) | imported
    by_new = collections.defaultdict(list)
    for a, b in turned.items():
        by_new[b].append(a)
    for b, names in sorted(by_new.items()):
        first = [n for n in names if "-" not in n] or ([] if b in taken else [])
        for n in names:
            if "-" in n and (first or b in taken or len(names) > 1):
                turned[n] = b + "_lem"
            elif "-" not in n and b in taken and b not in FELL_TOGETHER:
                print(f"together: {n} and {b}")
    turned.update(MISTAKEN)
    turned.update(FIELDS)
    for f in files(root, "antt", "rt", "edit"):
        text = read(f)
        crate = os.path.relpath(f, os.path.join(root, "crates")).split(os.sep)[0]
        if f.endswith(".antt") and "/proofs/" in f:
            for name, crates in FELL_TOGETHER.items():
                if crate in crates:
                    text = re.sub(r"(?<![\w'.-])" + name + r"(?![\w'-])", name + "_lem", text)
        made = "\n".join(turn(l, turned, f) for l in text.split("\n"))
        if made != read(f):
            with open(f, "w", encoding="utf-8") as it:
                it.write(made)
    print(f"respell: {len(turned)} names")


def turn(line, turned, f):
    if f.endswith(".rt") and line.lstrip().startswith("use "):
        return line
    if line.lstrip().startswith(("pub mod ", "mod ")):
        return line
    parts = re.split(r'("(?:[^"\\]|\\.)*")', line) if not f.endswith(".antt") else [line]
    return "".join(p if i % 2 else WORD.sub(lambda m: turned.get(m.group(0), m.group(0)), p) for i, p in enumerate(parts))


if __name__ == "__main__":
    main(sys.argv[1] if len(sys.argv) > 1 else ".")
