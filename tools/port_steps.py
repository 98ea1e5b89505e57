#!/usr/bin/env python3
"""Brings a crate's Proof.antt files to the names that today's Rattle makes from the code, by the list that it writes itself.

usage: python3 tools/port_steps.py NAME..     (from the project's root; the crates below each NAME must prove)

A step was `if1` and is `if-b-lt48`, a loop `loop` and is `loop-i`; the proof of F is `F_spec`. What a step or a loop says keeps its name.
"""
import glob
import json
import os
import re
import subprocess
import sys
import tempfile

DASHED = re.compile(r"(?<=\.)(?<!\.args\.)(?<!\.new\.)(?<!\.auto\.)(?<!\.ranges\.)(?<!\.type_inv\.)([A-Za-z][^\s(){}.;,@\"«»\[\]\\]*)")


def names_of(crate):
    with tempfile.TemporaryDirectory() as folder:
        said = subprocess.run(["rt", "check", "--generated", folder, "--old-names"], cwd=f"crates/{crate}", capture_output=True, text=True)
        path = f"{folder}/names.json"
        if not os.path.exists(path):
            print(crate, "no names:", said.stdout[-1500:], said.stderr[-500:])
            return None
        return json.load(open(path))


def dashed(name):
    return name.replace("_", "-")


def turn(crate, path, names):
    folder = os.path.dirname(path)
    inner = folder.split("/proofs/", 1)[1].replace("/", ".")
    key = f"Rattle-{crate}-proofs.{inner}.Lts"
    found = [names[k] for k in names if k == key or k.startswith(key + "-")]
    text = open(path).read()
    last = os.path.basename(folder)
    text = re.sub(r"(?<![\w.-])\+?[\w'-]+-spec(?![\w'-])", last + "_spec", text)
    steps, loops, places, needs = {}, {}, {}, {}
    for it in found:
        for place in it["places"]:
            old, new = place[2]
            if old:
                steps.setdefault(dashed(old), set()).add(new)
        for place, new in zip(it["places"], it["places_by_name"]):
            places[dashed(place[0])] = new
        for old, new in it["needs"]:
            needs[dashed(old)] = new
            needs[re.sub(r"^(overflow|nonzero|bounds|offset-bounds)-", "", dashed(new))] = new if dashed(old) not in needs else needs[dashed(old)]
        for (old, new), _ in it["loops"]:
            loops[dashed(old)] = new
    for old, new in steps.items():
        if len(new) > 1:
            print(f"{path}: {old} is one of {sorted(new)}")

    def step(m):
        new = steps.get(dashed(m[1]))
        return sorted(new)[0] if new and len(new) == 1 else m[1]

    def kept(line):
        if line.startswith(("use ", "--", "pub use ")):
            return line
        line = re.sub(r"tie\.(invariant|decreases)-([\w-]+)", lambda m: f"tie.{m[1]}-{loops.get(dashed(m[2]), m[2])}", line)
        line = re.sub(r"tie\.Need-([^\s(){}.;,]+)", lambda m: "tie.Need-" + needs.get(re.sub(r"^(overflow|nonzero)-", "", dashed(m[1])), m[1]), line)
        line = re.sub(r"tie\.((?:Then|Else|After|In|At|On)[^\s(){}.;,]*)", lambda m: "tie." + places.get(dashed(m[1]), m[1]), line)
        return DASHED.sub(step, line)

    text = "\n".join(kept(line) for line in text.split("\n"))
    if not found:
        print(f"{path}: no names of it")
    open(path, "w").write(text)


for crate in sys.argv[1:]:
    names = names_of(crate)
    if names is None:
        continue
    for path in sorted(glob.glob(f"crates/{crate}/proofs/**/Proof.antt", recursive=True)):
        turn(crate, path, names)
