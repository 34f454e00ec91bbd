#!/usr/bin/env python3
"""Turns the steps and goals that a proof of a function cites to the names that the checker gives them now.

usage: python3 tools/relabel.py CRATE NAMES    NAMES is what `rt check --generated NAMES --old-names` wrote in crates/CRATE
"""
import json
import os
import re
import sys


def canon(name):
    return name.lower().replace("-", "_")


def steps_of(entry):
    pairs = [tuple(p[2]) for p in entry["places"]] + [tuple(l[0]) for l in entry["loops"]]
    # a name with -1 is the checker's own, for what a call lends or gives back: proofs do not cite it
    return {old: new for old, new in pairs if old and new != old + "-1"}


def relabelled(text, entry):
    steps = steps_of(entry)
    by_canon = {canon(o): n for o, n in steps.items()}
    fields = {"args", "now", "true", "false", "ensures", "result", "requires", "invariant", "new", "old", "is", "before"}
    text = re.sub(r"\.before(?![\w'-])", "", text)

    def step(m):
        name = m.group(1)
        if name in steps:
            return "." + steps[name]
        if name not in fields and canon(name) in by_canon:
            return "." + by_canon[canon(name)]
        return m.group(0)

    head, _, body = text.rpartition("\nuse ")
    if head:
        first, _, rest = body.partition("\n")
        head, body = head + "\nuse " + first + "\n", rest
    body = re.sub(r"(?<=[\w)])\.([A-Za-z_][\w'-]*)", step, body)
    for old, new in entry["needs"]:
        body = re.sub(r"tie\.Need-" + re.escape(old) + r"(?![\w'-])", "tie.Need-" + new, body)
    for (old, new), _ in entry["loops"]:
        for word in ("invariant", "decreases"):
            body = re.sub(r"(?<![\w'-])" + word + "-" + re.escape(old) + r"(?![\w'-])", word + "-" + new, body)
    return head + body


def main():
    crate, names = sys.argv[1], json.load(open(os.path.join(sys.argv[2], "names.json"), encoding="utf-8"))
    for key, entry in names.items():
        m = re.match(r"Rattle-" + crate + r"-proofs\.(.*)\.Lts$", key)
        if not m:
            continue
        path = os.path.join("crates", crate, "proofs", *m.group(1).split("."), "Proof.antt")
        if not os.path.exists(path):
            print("no file:", path)
            continue
        text = open(path, encoding="utf-8").read()
        new = relabelled(text, entry)
        if new != text:
            open(path, "w", encoding="utf-8").write(new)


if __name__ == "__main__":
    main()
