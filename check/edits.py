#!/usr/bin/env python3
"""The must-fail edits by what the prover says of them: each wrong program is refused for what it says, not for its shape.

usage: edits.py           (from the project's root, once the crates prove)
       edits.py lines [CRATE..]   what is said of each, or of those of these crates, behind a line `== CRATE/NAME`, and no judgement
       edits.py FILE      judges what was said, as `edits.py lines` has written it

An edit is one wrong program, under its file's name; or several, each behind a line `wrong: NAME`, which `rt ci` tries at once, so that it tells of one of
them alone. Here each is tried by itself, in a copy of the crates, by `rt must-fail`, which has kept what it or `rt ci` has tried on this machine. It says of
each where the prover's first error stands; where a wrong program changes several functions, `rt check` says what becomes of each.
Of several, each is of code, in a function that no other of them changes.

Where a wrong program changes code, each function that holds a changed line must be refused by itself, not since it calls one that is; of a table
or a constant, some function. What the prover could not prove of it must be that the promise holds at a return; in a function with a loop it may
be the invariant or a bound. In a proof that walks the code, a `Proof.antt`, the goal is known where `search` prints it; an answer by `rw` or `omega`, or one written
out, is taken for the promise's: read `edits.py lines`. Where it changes a definition, a law, a theorem or a function must be refused. What the prover says
first must not be one of the phrases below. Prints `ok` or `FAIL` for each wrong program; status 1 where one fails.
"""
import collections
import pathlib
import re
import shutil
import subprocess
import sys
import tempfile

SHAPE = ["no occurrence", "no equation", "has no `Need", "has no field", "is not in scope", "unsolved", "a proof file names what the edit took away", "by a limit of the prover"]
# What is wrong with these is that a product outgrows its bits: they are refused where it is made.
BOUNDS = {"rate_counts/products_outgrow_64_bits"}
# A function begins at its attributes, where rt tells of it.
HEAD = re.compile(r"^(?:\s*#\[.*\]\n)*\s*(?:pub )?(?:extern \"C\" )?fn (\w+)", re.M)
LOOP = re.compile(r"^\s*(?:'\w+: )?(?:let .*= )?(?:while|for|loop)\b", re.M)
TRIED = re.compile(r"^rt: must-fail (\S+)/(\S+)\.edit: (.*)$", re.M)
# In `rt check`: a function that is refused by itself, and the goal that is open where no file proves it.
REFUSED = re.compile(r"^fn (\S+): (?:not proved$|no proof: .*did not prove `([^`]+)`)", re.M)
# Where an error stands, and what it says.
ERROR = re.compile(r"(?:^|: )(?:note: )?(?:\./)?((?:src|specs|proofs)/\S+?):(\d+):(\d+): (?:error: |(?=it is not proved that ))(.*)", re.M)
PROMISE = re.compile(r"returns(-\S+)?")
INVARIANT = re.compile(r"(loop-\S+-(init|preserved)|invariant|decreases)(-\S+)?")


def programs(edit):
    """The wrong programs of an edit by their names, each as the files and lines that it changes."""
    found, name, path = {}, edit.stem, None
    for line in edit.read_text().splitlines():
        word, _, text = line.partition(": ")
        if word == "wrong":
            name = text
        elif word == "file":
            path = edit.parent.parent / text
        elif word == "old":
            found.setdefault(name, []).append((path, text))
    return found


def texts(edit):
    """The same, each as the text of an edit of its own; where there is one alone it is the edit's."""
    parts = re.split(r"^wrong: (.*)\n", edit.read_text(), flags=re.M)
    return dict(zip(parts[1::2], parts[2::2])) or {edit.stem: edit.read_text()}


def function_at(path, at):
    """The function of a source that holds this place, and whether it has a loop."""
    text = path.read_text()
    heads = list(HEAD.finditer(text)) if path.suffix == ".rt" else []
    for head, end in zip(heads, [h.start() for h in heads[1:]] + [len(text)]):
        if head.start() <= at < end:
            return head[1], bool(LOOP.search(text, head.end(), end))
    return None


def functions_of(program):
    """The functions whose lines a wrong program changes, each with whether it has a loop."""
    return dict(filter(None, (function_at(path, path.read_text().find(old)) for path, old in program)))


def refusal(crate, file, line, column, text):
    """The function that an error is of, and the goal, as far as the place tells: a new line stands where the old one stood."""
    path = crate / file
    part = path.parent.name.lstrip("+")
    if file.startswith("src/") and path.is_file():
        lines = path.read_text().splitlines(keepends=True)
        goal = re.search(r"\(`([^`]+)`\)", text)
        found = function_at(path, len("".join(lines[:line - 1])) + column - 1)
        return found[0] if found else None, goal[1] if goal else "a place of the code"
    if not re.fullmatch(r"proofs/.+/(Proof|Answers|Invariants)\.antt", file):
        return None, ""
    if not path.is_file():
        return part, ""
    before = path.read_text().splitlines()[:line]
    if path.name == "Proof.antt":
        # What a step of the code asks, as a bound; and what a call does, whose answer takes one name more.
        asks = re.search(r"no proof of `\(R[\w.]*(\.proofs\.|$)|\.asks ", text) or "κs" in before[-1][:column].rpartition("(λ")[2]
        return part, "a step's need" if asks else ""
    answers = [found[1] for found in map(re.compile(r"pub (\S+) :").match, before) if found]
    return part, "invariant" if path.name == "Invariants.antt" else answers[-1] if answers else ""


def fault(crate, program, alone, said):
    """What is wrong with the refusal of a program, alone in its edit or not, by what was said of it; or None."""
    functions = functions_of(program)
    rule = any(path.suffix == ".antt" for path, _ in program)
    if not alone and (rule or not functions):
        return "beside others it must be of code, in a function"
    if not said.startswith("refused, as it must be"):
        return said.partition("\n")[0][:200]
    errors = [(*refusal(crate, file, int(line), int(column), text), text) for file, line, column, text in ERROR.findall(said) if "was not admitted" not in text]
    goals = {}
    for function, goal, _ in errors:
        goals.setdefault(function, goal)
    whole = {name.split("::")[-1]: goal for name, goal in REFUSED.findall(said)}
    if whole:
        goals = {name: goal or goals.get(name, "") for name, goal in whole.items()}
    own = {name: goal for name, goal in goals.items() if name and (not functions or name in functions)}
    left = sorted(set(functions) - set(own))
    if not rule and (left or not own):
        return f"{', '.join(left) or 'no function'} is not refused by itself"
    if not errors and not whole:
        return "nothing is refused by itself"
    for phrase in SHAPE:
        if phrase in said.partition("\n")[0]:
            return f"refused for its shape: {said.partition(': ')[2][:200]}"
    for name, goal in own.items():
        loop = functions.get(name, False)
        if goal and not PROMISE.fullmatch(goal) and not rule and not (loop and (INVARIANT.fullmatch(goal) or goal == "a step's need")):
            return f"{name} is refused at `{goal}`, not at its promise"
    return None


def faults(edit, said):
    """Each wrong program of an edit by its name, with what is wrong with its refusal."""
    found, crate = programs(edit), edit.parent.parent
    none = f"nothing is told of it: run rt must-fail {crate.name}"
    told = {name: fault(crate, program, len(found) == 1, said[f"{crate.name}/{name}"]) if f"{crate.name}/{name}" in said else none for name, program in found.items()}
    for name, what in told.items():
        if f"{crate.name}/{name}" in BOUNDS and what and re.search(r" is refused at `overflow_mul-", what):
            told[name] = None
    seen = {}
    named = collections.Counter(name for path in crate.glob("src/*.rt") for name in HEAD.findall(path.read_text()))
    for name, program in found.items():
        for function in functions_of(program):
            if len(found) > 1 and named[function] > 1:
                told[name] = f"the crate has {named[function]} functions {function}, which what is said does not tell apart"
            if seen.setdefault(function, name) != name:
                told[name] = f"{function} is changed by {seen[function]} too"
    return told


def all_edits():
    return sorted(pathlib.Path("crates").glob("*/must-fail/*.edit"))


def applied(edit, text, folder):
    """Applies an edit to a copy of its crate, and gives what undoes it."""
    were = {}
    for line in text.splitlines():
        word, _, rest = line.partition(": ")
        if word == "file":
            path = folder / rest
            were.setdefault(path, path.read_text())
        elif word == "old":
            old = rest
        elif word in ("new", "new:"):
            path.write_text(path.read_text().replace(old, rest))
    return were


def lines(*crates):
    """What is said of each wrong program, or of those of these crates, by CRATE/NAME."""
    said = {}
    with tempfile.TemporaryDirectory() as room:
        tree = pathlib.Path(room) / "crates"
        shutil.copytree("crates", tree, ignore=lambda at, names: ["out"] if pathlib.Path(at).parent == pathlib.Path("crates") else [])
        shutil.copy("crates.txt", room)
        for edit in all_edits():
            folder = tree / edit.parent.parent.name / "must-fail"
            (folder / edit.name).unlink()
        for edit in all_edits():
            for name, text in texts(edit).items():
                to = tree / edit.parent.parent.name / "must-fail" / f"{name}.edit"
                if to.exists():
                    sys.exit(f"two wrong programs of {edit.parent.parent.name} are named {name}")
                to.write_text(text)
        ran = subprocess.run(["rt", "must-fail", *crates], cwd=room, stdin=subprocess.DEVNULL, stdout=subprocess.PIPE, stderr=subprocess.STDOUT, text=True, errors="replace")
        for crate, name, text in TRIED.findall(ran.stdout):
            said[f"{crate}/{name}"] = text
        if not said:
            sys.exit(f"rt must-fail tells of no edit:\n{ran.stdout[-2000:]}")
        for edit in all_edits():
            crate = edit.parent.parent.name
            for name, program in programs(edit).items():
                if len(functions_of(program)) > 1 and said.get(f"{crate}/{name}", "").startswith("refused"):
                    were = applied(edit, texts(edit)[name], tree / crate)
                    ran = subprocess.run(["rt", "check"], cwd=tree / crate, stdin=subprocess.DEVNULL, stdout=subprocess.PIPE, stderr=subprocess.STDOUT, text=True, errors="replace")
                    said[f"{crate}/{name}"] += "\n" + "\n".join(line[:2000] for line in ran.stdout.splitlines() if ERROR.match(line) or line.startswith("fn "))
                    for path, text in were.items():
                        path.write_text(text)
    return said


def main():
    word = sys.argv[1] if len(sys.argv) > 1 else ""
    if word in ("", "lines"):
        said = lines(*sys.argv[2:])
    else:
        parts = re.split(r"^== (.*)\n", pathlib.Path(word).read_text(), flags=re.M)
        said = {name: text.rstrip("\n") for name, text in zip(parts[1::2], parts[2::2])}
    if word == "lines":
        for name, text in sorted(said.items()):
            print(f"== {name}\n{text}")
        return 0
    bad = 0
    for edit in all_edits():
        crate = edit.parent.parent.name
        for name, told in faults(edit, said).items():
            bad += told is not None
            print(f"FAIL edits: {crate}/{name}: {told}" if told else f"ok edits: {crate}/{name}")
    return bad != 0


if __name__ == "__main__":
    sys.exit(main())
