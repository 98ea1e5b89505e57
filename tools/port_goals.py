#!/usr/bin/env python3
"""Turns a walked proof into answers: Proof.antt becomes Invariants.antt and Answers.antt, by the names that today's Rattle gives the goals.

usage: python3 tools/port_goals.py CRATE F..     (from the project's root; the crates below CRATE must prove; F is the folder below proofs/)

A walked proof answers a function's goals by their places in a row, and says where a fact stands by how many steps back it is (`c.before.before.if1`).
The text is that of the commit in which names went to snake case, with the older kit's names of steps; `rt check --generated FOLDER --old-names` lists
both names of each goal and step. What the check finds alone (`search rules`, `omega arith`) is left out. What cannot be turned is told.
"""
import glob
import json
import os
import re
import subprocess
import sys
import tempfile

BASE = "2925e1bef731162f7580f1029b33e322e91dabdb"
FOUND_ALONE = {"search rules", "omega arith"}
FROM_THE_START = {"args", "requires", "ranges", "well_formed", "lifetimes", "utf8", "blocks"}
CHAIN = re.compile(r"(?<![\w.'-])c((?:\.before)*)\.([A-Za-z_][^\s(){}.;,]*)((?:\.[^\s(){}.;,]+)*)")
DEFINED = r"(?m)^abbrev (\S+) : tie\.(invariant|decreases)-(\S+)\n\1([^=]*)=\s*((?:.*\n(?!\n|abbrev|pub|--))*.*)\n?"


def dashed(name):
    return name.replace("_", "-")


def names_of(crate):
    with tempfile.TemporaryDirectory() as folder:
        subprocess.run(["rt", "check", "--generated", folder, "--old-names"], cwd=f"crates/{crate}", capture_output=True)
        with open(f"{folder}/names.json") as f:
            return json.load(f)


def clause_names():
    """The names of the requires and of the ensures of each function, by function and crate."""
    found = {}
    for path in glob.glob("crates/*/src/**/*.rt", recursive=True):
        text = open(path).read()
        for m in re.finditer(r"\bfn (\w+)", text):
            head = text[m.end():]
            body = re.search(r"(?m)^\s*\{", head)
            head = head[:body.start()] if body else head[:2000]
            kinds = tuple(re.findall(rf"(?m)^\s*{kind} (?:(\w+) )?\{{", head) for kind in ("requires", "ensures"))
            found.setdefault(m[1], {})[path.split("/")[1]] = kinds
    return found


def groups(text, opened=0):
    """The top-level pieces of a text between spaces, with brackets kept together, up to the bracket that closes it."""
    pieces, depth, start = [], 0, None
    for i in range(opened, len(text)):
        ch = text[i]
        if ch in ")]}" and depth == 0:
            break
        if ch in "([{":
            start = i if start is None else start
            depth += 1
        elif ch in ")]}":
            depth -= 1
        elif not ch.isspace():
            start = i if start is None else start
        if depth == 0 and start is not None and (ch.isspace() or ch in ")]}"):
            pieces.append(text[start:i + (ch in ")]}")].strip())
            start = None
    return pieces + ([text[start:i]] if start is not None else [])


def answer_of(piece):
    """Whether an answer takes lifetimes too, and its term; a name stands for itself."""
    m = re.match(r"\(λ ([^.]*)\.\s*(.*)\)$", piece, re.S)
    return ("κs" in m[1], inlined(m[2].strip())) if m else (None, piece)


def inlined(term):
    """Puts `c.before.before` in the place of a name that a `let` gives it."""
    while True:
        m = re.search(r"let ([\w']+) = (c(?:\.before)+) in\s*", term)
        if not m:
            return term
        term = term[:m.start()] + re.sub(rf"(?<![\w.'-]){re.escape(m[1])}(?=\.)", m[2], term[m.end():])


def parts(term, n):
    """The n parts of nested pairs, each behind the term's `let`s; or None."""
    lets = re.match(r"((?:let .*? in\s*)*)(\(.*\))$", term.strip(), re.S)
    if not lets:
        return None
    lets, inner = lets[1], lets[2][1:-1]
    depth, cuts = 0, [-1]
    for i, ch in enumerate(inner):
        depth += (ch in "([{") - (ch in ")]}")
        if depth < 0:
            return None
        if ch == "," and depth == 0:
            cuts.append(i)
    found = [it for it in (inner[a + 1:b].strip() for a, b in zip(cuts, cuts[1:] + [len(inner)])) if it]
    if 1 < len(found) < n:
        rest = parts(found[-1], n - len(found) + 1)
        found = found[:-1] + rest if rest else []
    return [lets + it for it in found] if len(found) == n else None


class Function:
    def __init__(self, crate, name, names, clauses):
        self.crate, self.name, self.clauses, self.told = crate, name, clauses, []
        self.names = names[f"Rattle-{crate}-proofs.{name.replace('/', '.')}.Lts"]
        self.places = {it[0]: it for it in self.names["places"]}
        self.own = self.clauses_of(f"{crate}::{name.split('/')[-1]}")
        text = subprocess.run(["git", "show", f"{BASE}:crates/{crate}/proofs/{name}/Proof.antt"], capture_output=True, text=True).stdout
        text = text.replace(".well-formed", ".well_formed").replace(".type-inv", ".type_inv")
        aliases = set(re.findall(r"^use Rattle\.[\w.+-]+ as ([\w-]+)$", text, re.M)) - {"tie"}
        snake = lambda m: m[1] + "." + re.sub(r"(?<=[a-z0-9])([A-Z])", lambda x: "_" + x[1].lower(), m[2])
        self.text = re.sub(r"(?<![\w.-])([\w-]+)\.([a-z][\w-]*)", lambda m: snake(m) if m[1] in aliases else m[0], text)

    def clauses_of(self, callee):
        crate, _, function = (callee or "").partition("::")
        return self.clauses.get(function.split("::")[-1], {}).get(crate, ([], []))

    def up(self, place):
        while place is not None:
            yield self.places[place]
            place = self.places[place][1]

    def missing(self, term, place):
        """How many facts of a term are not where it seeks them, asked at this place."""
        n, line = 0, list(self.up(place))
        for m in CHAIN.finditer(term):
            hops = m[1].count(".before")
            if m[2] in FROM_THE_START | {"type_inv"}:
                n += m[2] == "args" and hops != len(line) - 1
            else:
                n += hops >= len(line) or dashed(line[hops][2][0]) != dashed(m[2])
        return n

    def aligned(self, answers, goals):
        """An answer for each goal: those of goals that are settled today go."""
        def cost(answer, goal):
            takes, term = answer
            name, place = goal
            far = 6 * self.missing(term, place)
            if "-requires" in name:
                return far + (0 if takes else 1 if term in FOUND_ALONE else 3)
            if takes:
                return far + 8
            if re.match(r"returns|loop|invariant", name) or re.search(r"-(init|preserved)", name):
                return far + (term in FOUND_ALONE)
            return far + (0 if term in FOUND_ALONE else 2)

        best = {(0, 0): (0, [])}
        for i in range(len(answers) + 1):
            for j in range(len(goals) + 1):
                ways = []
                if i and (i - 1, j) in best:
                    takes, term = answers[i - 1]
                    was, row = best[i - 1, j]
                    ways.append((was + (40 if term not in FOUND_ALONE else 4 if takes else 1), row))
                if j and (i, j - 1) in best:
                    was, row = best[i, j - 1]
                    ways.append((was + 6, row + ["search rules"]))
                if i and j and (i - 1, j - 1) in best:
                    was, row = best[i - 1, j - 1]
                    ways.append((was + cost(answers[i - 1], goals[j - 1]), row + [answers[i - 1][1]]))
                if ways:
                    best[i, j] = min(ways, key=lambda it: it[0])
        return best[len(answers), len(goals)][1]

    def field(self, rest, names):
        """`.ensures.1.0` by the names of the clauses."""
        m = re.match(r"\.(ensures|requires)((?:\.[01])+)(.*)$", rest)
        if len(names) < 2 or not all(names) or not m:
            return rest
        steps, i = m[2][1:].split("."), 0
        while steps and i < len(names) - 1 and steps.pop(0) != "0":
            i += 1
        return f".{m[1]}.{names[i]}" + "".join("." + it for it in steps) + m[3]

    def path(self, m, place):
        hops, step, rest = m[1].count(".before"), m[2], m[3]
        if step == "requires":
            return "c" + self.field(".requires" + rest, self.own[0])
        if step in FROM_THE_START | {"type_inv"}:
            return f"c.{step}{rest}"
        there = [(abs(h - hops), it) for h, it in enumerate(self.up(place)) if dashed(it[2][0]) == dashed(step)]
        if not there:
            self.told.append(f"no step {m[0]} at {place}")
            return m[0]
        at = min(there, key=lambda it: it[0])[1]
        name, above = at[2][1], self.places.get(at[1])
        if above and above[0].startswith("At-match") and rest.startswith(".given.1"):
            name, rest = above[2][1], ".is" + rest[len(".given.1"):]
        return f"c.{name}" + self.field(rest, self.clauses_of(at[3])[1])

    def loops(self, head):
        """The invariants and measures over `l`, and the head without them."""
        by_name = {dashed(old): (new, names, changed) for ((old, new), names), changed in zip(self.names["loops"], self.names["changed"])}
        made = []
        for name, kind, old, args, body in re.findall(DEFINED, head):
            if dashed(old) not in by_name:
                self.told.append(f"no loop {old}")
                continue
            new, names, changed = by_name[dashed(old)]
            moved = [it for it, does in zip(names, changed) if does]
            words = [f"l.initial.{it}" if it in moved else f"l.{it}" for it in names] + [f"l.{it}" for it in moved]
            to = dict(zip(args.split(), words))
            turn = lambda m: to[m[0].partition(".")[0]] + m[0][len(m[0].partition(".")[0]):] if m[0].partition(".")[0] in to else m[0]
            body = re.sub(r"[^\s(){};,\[\]]+", turn, body.strip())
            made.append(f"abbrev pub {kind}-{new} : goal.{kind}-{new}\n{kind}-{new} l = {body}\n")
        return made, re.sub(DEFINED, "", head)

    def turn(self):
        spec = re.search(r"(?m)^pub \S+ : \{M : Type 1\} → statement M\n(unfolding .*\n)?", self.text)
        head, unfolding = self.text[:spec.start()], spec[1] or ""
        pieces = groups(self.text, self.text.index("(tie.spec") + len("(tie.spec"))
        answers = [answer_of(it) for it in pieces]
        while answers and answers[0][0] is None and re.match(r"invariant|decreases", answers[0][1]):
            answers.pop(0)
        named = {m[1]: inlined(m[2].strip()) for m in re.finditer(r"(?m)^(\S+) : tie\.Need-.*\n\1 c(?: κs)? =((?:.*\n(?!\n|\S))*.*)\n?", head)}
        answers = [(bool(takes), named.get(term, term)) for takes, term in answers]
        goals = [(new, place) for (_, new), (place, _) in zip(self.names["needs"], self.names["asked_at"])]
        wrong = sum(self.missing(term, place) for (_, term), (_, place) in zip(answers, goals))
        terms = self.aligned(answers, goals) if wrong or len(answers) != len(goals) else [it[1] for it in answers]
        made = []
        for (goal, place), term in zip(goals, terms):
            if term in FOUND_ALONE:
                continue
            term = CHAIN.sub(lambda m: self.path(m, place), term)
            callee = [it[3] for it in self.names["places"] if it[1] == place and it[3]]
            clauses = self.own[1] if goal.startswith("returns") else self.clauses_of(callee[0])[0] if "requires" in goal and callee else []
            each = parts(term, len(clauses)) if len(clauses) > 1 and all(clauses) else None
            if len(clauses) > 1 and not each:
                self.told.append(f"{goal} has clauses {clauses}, and its answer no parts")
            for name, it in zip([f"{goal}-clause-{c}" for c in clauses], each) if each else [(goal, term)]:
                if it not in FOUND_ALONE:
                    gap = "\n    " if "\n" in it else " "
                    made.append(f"pub {name} : goal.{name}\n{unfolding}{name} c ={gap}{it}\n")
        loops, head = self.loops(head)
        head = re.sub(r"(?m)^(\S+) : tie\.Need-.*\n(?:\1 .*\n(?:[ \t]+.*\n|\n(?=[ \t]))*)+", "", head + "\n")
        lines = head.split("\n")
        top = [it for it in lines if it.startswith("--")] + [it for it in lines if it.startswith("use ") and not re.search(r"\.(Statement|Tie)\b", it)]
        rest = "\n".join(it for it in lines if not it.startswith(("--", "use "))).strip()
        if "tie." in rest:
            self.told.append("a helper cites tie")
        return top, loops, ([rest + "\n"] if rest else []) + made


def main(argv):
    crate, functions = argv[0], argv[1:]
    for name in functions:
        folder = f"crates/{crate}/proofs/{name}"
        for file in ("Answers.antt", "Invariants.antt"):
            if os.path.exists(f"{folder}/{file}"):
                os.remove(f"{folder}/{file}")
        os.makedirs(folder, exist_ok=True)
        with open(f"{folder}/Proof.antt", "w") as f:
            f.write(subprocess.run(["git", "show", f"{BASE}:{folder}/Proof.antt"], capture_output=True, text=True).stdout)
    names, clauses = names_of(crate), clause_names()
    for name in functions:
        folder, it = f"crates/{crate}/proofs/{name}", Function(crate, name, names, clauses)
        top, loops, made = it.turn()
        os.remove(f"{folder}/Proof.antt")
        module = f"Rattle.{crate}.proofs.{name.replace('/', '.')}"
        for file, goal, pieces in (("Invariants.antt", "Given", loops), ("Answers.antt", "Goals", made)):
            if pieces:
                with open(f"{folder}/{file}", "w") as f:
                    f.write("\n".join(top + [f"use {module}.{goal} as goal", ""] + pieces))
        print(f"{name}: {len(loops)} invariants and measures, {len(made)} answers", *it.told, sep="\n    ")
    return 0


if __name__ == "__main__":
    raise SystemExit(main(sys.argv[1:]) if len(sys.argv) > 2 else print(__doc__))
