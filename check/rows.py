#!/usr/bin/env python3
"""The rows of docs/READING.md against the tree.

usage: rows.py            (from the project's root)

A row has five cells: the sentence's number, the sentence, what says it, how it is shown, what shows that it can fail. Each name in backquotes
in the last three must be there: a file, a call of the header, a function `crate::name`, or a definition, law, type or must-fail edit at the
place in parentheses behind it (crates, or files below `crates/`), else at one of the places that the section names. What is called a theorem must be
proved, and a text in double quotes behind a script must stand in it. Each section of the papers must be there, its sentences numbered
without a gap, and each public function must have an `ensures`. Prints how many rows are shown in which way; status 1 where something is missing.
"""
import pathlib
import re
import sys

from edits import programs

SECTIONS = [f"01 {name}" for name in "built log refusal select encoder pwm i2c rates sums errors contract shape".split()]
SECTIONS += [f"02 {name}" for name in ["intro", *"abcdefghijklmn"]]
SHOWN = {"proved": "proved", "compiler": "by the compiler", "tested only": "tested only", "document": "in a document", "not shown": "not shown"}
ANTT = re.compile(r"^\s*(?:abbrev |unfoldable |pub )*(?:(?:record|data) (\S+)|((?:[^\s(){}:;=→λ]+ )+): )", re.M)
RATTLE = re.compile(r"\b(?:fn|struct|enum|const|static) (\w+)|^\s+(?:pub (\w+):|([A-Z]\w*)[ ({,])", re.M)
crates = pathlib.Path("crates")
header = pathlib.Path("include/rivandoze.h").read_text()


def names_in(path):
    """What a file declares."""
    found = (ANTT if path.suffix == ".antt" else RATTLE).findall(path.read_text())
    return {name for groups in found for group in groups for name in group.split()}


def names_at(place, cache={}):
    """What is declared at a place, with the wrong programs of its crate."""
    if place not in cache:
        crate = crates / place.split("/")[0]
        files = [crates / place] if "/" in place else [f for part in ("specs/*.antt", "proofs/*.antt", "src/*.rt") for f in crate.glob(part)]
        cache[place] = set().union(*map(names_in, files), *map(programs, crate.glob("must-fail/*.edit")))
        if place == "stand-in":
            cache[place] = {name for f in pathlib.Path("check/src/bin").glob("*/*.rs") for name in re.findall(r'"([\w-]+)"', f.read_text())}
    return cache[place]


def is_place(text):
    return text == "stand-in" or (crates / text).is_dir() or (text.endswith((".antt", ".rt")) and (crates / text).is_file())


def there(name, places):
    """Whether a name is in the tree: a file, a crate, a call of the header, or declared at one of the places."""
    if "/" in name or is_place(name):
        return pathlib.Path(name).exists() or (crates / name).exists()
    if "::" in name:
        return name.split("::")[1] in names_at(name.split("::")[0])
    if name.startswith("rvz_"):
        return f" {name}(" in header
    return any(set(name.split(".")) <= names_at(place) for place in places)


def missing(cell, default):
    """The names of a cell that are not there. A place is for the names before it, back to a semicolon or another place."""
    for piece in cell.split(";"):
        names = []
        for name, group in re.findall(r"`([^`]+)`|\(([^()]*)\)", piece):
            places = [part.strip(" `") for part in group.split(",")]
            if group and all(map(is_place, places)):
                yield from (name for name in names if not all(there(name, [place]) for place in places))
                names = []
            else:
                names += [name] if name else re.findall(r"`([^`]+)`", group)
        yield from (name for name in names if not there(name, default))


def untrue(cell, proved):
    """Theorems of a cell that are not proved, and texts that do not stand in their script."""
    for theorems in re.findall(r"theorems? ((?:`[^`]+`(?:, | and )?)+)", cell):
        yield from (f"{name} is not proved" for name in re.findall(r"`([^`.]+)[^`]*`", theorems) if name not in proved)
    for script, texts in re.findall(r'`((?:tests|check)/[^`]+)`((?:,? "[^"]+")+)', cell):
        text = pathlib.Path(script).read_text() if pathlib.Path(script).is_file() else ""
        yield from (f"{script} has no {label}" for label in re.findall(r'"([^"]+)"', texts) if label not in text)


def main():
    faults, counts = [], dict.fromkeys(SHOWN, 0)
    numbers, section, default = {}, None, []
    laws = [law for f in crates.glob("*/proofs/*.antt") for law in re.findall(r"^\s*pub \S+ : (.*)", f.read_text(), re.M)]
    proved = {word for law in laws for word in law.split("→")[-1].split()}
    for at, line in enumerate(pathlib.Path("docs/READING.md").read_text().split("\n"), 1):
        if line.startswith("## "):
            section, default = line[3:].split(":")[0], []
            numbers.setdefault(section, set())
        elif line.startswith("Unless a place is named:"):
            default = re.findall(r"`([^`]+)`", line)
            faults += [f"{at}: no place {place}" for place in default if not is_place(place)]
        elif line.startswith("Asks nothing:"):
            numbers[section] |= set(map(int, re.findall(r"sentence (\d+)", line)))
        elif section and line.startswith("|") and not re.match(r"\| no\. |\|--", line):
            cells = [cell.strip() for cell in line.strip().strip("|").split("|")]
            shown = [word for word in SHOWN if cells[3:] and cells[3].startswith(word)]
            if len(cells) != 5 or not shown:
                faults.append(f"{at}: no row: {line[:60]}")
                continue
            counts[shown[0]] += 1
            numbers[section] |= set(map(int, re.findall(r"\d+", cells[0])))
            for cell in cells[2:]:
                faults += [f"{at}: not found: {name}" for name in missing(cell, default)]
                faults += [f"{at}: {fault}" for fault in untrue(cell, proved)]
    for name in SECTIONS:
        gaps = set(range(1, max(numbers.get(name, {0}), default=0) + 1)) - numbers.get(name, set())
        faults += [f"no sentence {name} {number}" for number in sorted(gaps)] if numbers.get(name) else [f"no section {name}"]
    for path in sorted(crates.glob("*/src/*.rt")):
        for name, contract in re.findall(r'^\s*pub (?:extern "C" )?fn (\w+)(.*?)\n\s*\{', path.read_text(), re.M | re.S):
            faults += [] if re.search(r"\bensures (?:\w+ )?\{", contract) else [f"{path}: {name} has no contract on what it returns"]
    print(f"{sum(counts.values())} rows: " + ", ".join(f"{counts[word]} {told}" for word, told in SHOWN.items()))
    print("\n".join(faults), end="\n" if faults else "")
    return 1 if faults else 0


if __name__ == "__main__":
    sys.exit(main())
