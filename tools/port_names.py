#!/usr/bin/env python3
"""Brings the repository's own definitions and lemmas to snake case, as today's Rattle spells its own.

usage: python3 tools/port_names.py [--check]     (from the project's root, once, on what the kit's port.py left)

`turnOf` and `held-is` become `turn_of` and `held_is`, in specs/, proofs/, the clauses of src/ and the must-fail edits, and where a page quotes
them. Functions of src/, exported names, strings, inputs and outputs keep their names. What Rattle makes from the code (`tie.invariant-loop3`,
`c.loop4-test`) and what a library has stay as they are. Two names of one file that would fall together are told, and nothing is written.
"""
import glob
import re
import sys

WORD = r"[^\s(){}.;,@\"«»\[\]\\]+"
TOKEN = re.compile(r"--[^\n]*|//[^\n]*|\"(?:[^\"\\]|\\.)*\"|" + WORD)
DECLARED = re.compile(rf"^(\s*)(?:pub )?(?:abbrev |unfoldable )?(?:pub )?(?:data |record )?({WORD})\s*(?:[({{].*[)}}]\s*)*:(?:\s|$)(.*)")
# Fields and lemmas whose new name is a definition's in the same file.
OWN = {"encoder-routed": "encoder_is_routed", "pwm-routed": "pwm_is_routed", "i2c-routed": "i2c_is_routed"}
# Lemmas that the kit's script has turned, where a definition gets their name.
LEMMAS = {
    "crates/sign/proofs/Entries.antt": "open_by",
    "crates/sign/proofs/Once.antt": "one_more",
    "crates/stream/proofs/Ways.antt": "is_state",
    "crates/travel/proofs/Events.antt": "all_quiet",
    "crates/travel/proofs/Proved.antt": "all_quiet",
}
MADE = re.compile(r"(?:invariant|decreases)-\S+$|\S+-spec$")


def read(path):
    with open(path, encoding="utf-8", newline="") as f:
        return f.read()


def odd(name):
    return "-" in name.strip("-") or (name[0].islower() and bool(re.search(r"[a-z0-9][A-Z]", name))) or "′" in name


def snake(name):
    name = name.replace("-", "_").replace("′", "'")
    return re.sub(r"(?<=[a-z0-9])([A-Z])", lambda m: "_" + m[1].lower(), name) if name[0].islower() else name


def plain(name):
    """A definition keeps the plain name; a lemma that would have it gets `_lem`."""
    if name in OWN:
        return OWN[name]
    new = snake(name)
    return new + "_lem" if "-" in name and new in plain.definitions else new


def of_function(path):
    """Whether the file proves one function, so that it cites what Rattle makes of the code."""
    return path.endswith("/Proof.antt")


def declared(path):
    """The names that a file declares, and those of them that are fields of its records."""
    names, fields, record = set(), set(), None
    for line in read(path).split("\n"):
        line = re.sub(r"--.*", "", line)
        if not line.strip():
            continue
        indent = len(line) - len(line.lstrip())
        if re.match(r"\s*(pub )?(record|data)\b", line):
            record = indent
        elif record is not None and indent <= record:
            record = None
        found = DECLARED.match(line)
        if not found or not odd(found[2]):
            continue
        if of_function(path) and (MADE.match(found[2]) or found[3].startswith("tie.")):
            continue
        names.add(found[2])
        if record is not None and indent > record:
            fields.add(found[2])
    return names, fields


def imported(text):
    """The names that a file takes from a library, under the name that it uses."""
    names = set()
    for module, items in re.findall(r"^(?:pub )?(?:ghost )?use ([^\s{]+)\.\{([^}]*)\}", text, re.M):
        if not re.match(r"Rattle\.(std|core|io|os|libc)\b", module) and module.startswith("Rattle."):
            continue
        names |= {item.split(" as ")[-1].strip() for item in items.split(",")}
    return names


def turned(path, text, names, fields, steps):
    foreign = imported(text)
    quoted = re.compile(r"`(" + WORD + r")`")

    def one(m):
        word = m[0]
        if word.startswith(("--", "//")):
            return quoted.sub(lambda q: "`" + (plain(q[1]) if q[1] in names else q[1]) + "`", word)
        if word == LEMMAS.get(path):
            return word + "_lem"
        if word.startswith('"') or word not in names or word in foreign:
            return word
        behind_dot = m.start() > 0 and text[m.start() - 1] == "."
        if of_function(path) and behind_dot and (word not in fields or re.sub(r"\d+$", "", word) in steps):
            return word
        if of_function(path) and MADE.match(word):
            return word
        return plain(word)

    return TOKEN.sub(one, text)


def main(argv):
    antt = sorted(glob.glob("crates/*/specs/**/*.antt", recursive=True) + glob.glob("crates/*/proofs/**/*.antt", recursive=True))
    names, fields, functions = set(), set(), set()
    for path in antt:
        own, of_records = declared(path)
        names |= own
        fields |= of_records
    sources = sorted(glob.glob("crates/*/src/**/*.rt", recursive=True))
    for path in sources:
        functions |= set(re.findall(r"\bfn (\w+)", read(path)))
    steps = {name.replace("_", "-") for name in functions}
    plain.definitions = {snake(name) for name in names if "-" not in name} | {"le_bytes"}
    new, told = {}, []
    for path in antt + sources + sorted(glob.glob("crates/*/must-fail/*.edit")):
        text = read(path)
        there = {m[0] for m in TOKEN.finditer(text) if not (of_function(path) and text[m.start() - 1] == ".")} - imported(text)
        there.discard(LEMMAS.get(path))
        if path.endswith((".rt", ".edit")):
            # A clause sees no function of the code, so a definition may have the name of one.
            there -= functions
        for name in sorted(there & names):
            if plain(name) in there or sum(plain(other) == plain(name) for other in there & names) > 1:
                told.append(f"{path}: {name} falls together with {plain(name)}")
        new[path] = turned(path, text, names, fields, steps)
    for path in ["README.md", "CHANGELOG.md", *sorted(glob.glob("docs/*.md") + glob.glob("check/*.md") + glob.glob("examples/*.md"))]:
        text = read(path)
        new[path] = re.sub(r"`(" + WORD + r")`", lambda q: "`" + (plain(q[1]) if q[1] in names else q[1]) + "`", text)
    for line in told:
        print(line)
    print(f"{len(names)} names, {len(told)} told")
    if told or "--check" in argv:
        return 1 if told else 0
    for path, text in new.items():
        if text != read(path):
            with open(path, "w", encoding="utf-8", newline="") as f:
                f.write(text)
    return 0


if __name__ == "__main__":
    raise SystemExit(main(sys.argv[1:]))
