#!/usr/bin/env python3
"""Brings the repository's own definitions, lemmas and fields of specs/ and proofs/ to snake case, after port.py has run.

usage: python3 tools/respell.py            at the top of the repository: turns the .rt and .antt files of crates/
       python3 tools/respell.py --map      prints each name and what becomes of it

A name is turned where it is declared in an .antt file of specs/ or proofs/ and begins with a small letter: `isNes2In` to `is_nes2_in`,
`read-within` to `read_within`. Types, constructors and constants keep their spelling, and so do names of the library, of functions in src/
and of the goals that the checker names. Names that would fall together with another are listed in APART.
"""
import os
import re
import sys

# Names that would fall together with a definition of the same spelling, and their own new ones.
APART = {
    n: n.replace("-", "_") + "_lem"
    for n in (
        "after-clock cart-of could-load five-bits flat-digits in-parts is-headers is-kept line-fits mmc3-of mode-of next-before "
        "read-window same-chr same-mark same-r same-ram serial-fits start-of with-irq with-line with-ram yes-no"
    ).split()
}
APART["in-range"] = "is_in_range"

# The same of names that port.py had turned before, by their file.
TURNED_BEFORE = {
    "crates/rules/proofs/Flat.antt": {"flat_word": "flat_word_lem"},
    "crates/states/proofs/Moved.antt": {"after_write": "after_write_lem"},
    "crates/exports/proofs/Keeps.antt": {"after_write": "after_write_lem"},
}

DECLARED = re.compile(r"^\s*(?:abbrev\s+|unfoldable\s+|pub\s+)*([a-z][^\s(){}\[\],;.:λ=|\"]*)\s+:\s")
USE = re.compile(r"^\s*(?:pub\s+)?(?:ghost\s+)?use\s+([^\s{;]+)\.\{([^}]*)\}")
TOKEN = re.compile(r"[^\s(){}\[\],;.@«»\"`⌜⌝/|:!?]+")
OWN = None


def snake(name):
    name = name.replace("′", "'")
    name = re.sub(r"-", "_", name)
    name = re.sub(r"([a-z0-9])([A-Z])", r"\1_\2", name)
    name = re.sub(r"_(\d+)K\b", r"_\1k", name)
    return name.lower()


def read(path):
    with open(path, encoding="utf-8") as f:
        return f.read()


def files(end, top="crates"):
    for folder, dirs, names in os.walk(top):
        dirs[:] = sorted(d for d in dirs if d not in ("out", "target", ".git"))
        for n in sorted(names):
            if n.endswith(end):
                yield os.path.join(folder, n)


def is_proof_of_function(path):
    parts = path.split(os.sep)
    return len(parts) > 4 and parts[2] == "proofs"


def from_library(text, own):
    names = set()
    for line in text.splitlines():
        m = USE.match(line)
        if m and ".".join(m.group(1).split(".")[:2]) not in own:
            for item in m.group(2).split(","):
                names.add(item.strip().split(" as ")[-1])
    return names


def cited(text, own):
    names = set()
    for line in text.splitlines():
        m = USE.match(line)
        if m and ".".join(m.group(1).split(".")[:2]) in own:
            names.update(re.split(r"[\s,]+", m.group(2)))
    return names


def collect():
    own = {"Rattle." + c for c in os.listdir("crates")}
    names = {}
    for path in files(".antt"):
        if is_proof_of_function(path):
            continue
        for line in read(path).splitlines():
            m = DECLARED.match(line)
            if m and not line.lstrip().startswith("--"):
                name = m.group(1)
                if not re.search(r"[^A-Za-z0-9_'′-]", name):
                    new = APART.get(name, snake(name))
                    if new != name:
                        names[name] = new
    return own, names


def turned(text, names, kept):
    return TOKEN.sub(lambda m: names[m.group(0)] if m.group(0) in names and m.group(0) not in kept else m.group(0), text)


def main():
    own, names = collect()
    if "--map" in sys.argv:
        for name in sorted(names):
            print(name, names[name])
        return
    for path in list(files(".antt")) + list(files(".rt")):
        text = read(path)
        kept = from_library(text, own)
        here = dict(names, **TURNED_BEFORE.get(path, {}))
        if is_proof_of_function(path):
            # only what it cites of ours: steps and goals of the function have names of their own
            here = {n: here[n] for n in cited(text, own) if n in here}
        new = turned(text, here, kept)
        if is_proof_of_function(path):
            # the proof of a function is named after it, with `_spec`
            new = re.sub(r"(?<![\w'-])([a-z][a-z0-9_-]*)-spec(?![\w'-])", lambda m: m.group(1).replace("-", "_") + "_spec", new)
        if new != text:
            with open(path, "w", encoding="utf-8") as f:
                f.write(new)


if __name__ == "__main__":
    main()
