#!/usr/bin/env python3
"""The places of docs/DESIGN-PASS.md's points, counted in src/.

usage: places.py [-v] [COMMIT]      (from the project's root; without COMMIT the tree as it is)

A line for each count: the point, how many places, of what; with -v each place below it. A place is a line of code that one of the patterns below
finds, a group of functions that are the same but for types, numbers and texts, or a clause that three functions or more ask for. What is counted
is not what is wrong: the page says of each place whether it changed or why it stays.
"""
import re
import subprocess
import sys
from collections import defaultdict

words = [a for a in sys.argv[1:] if a != "-v"]
verbose = "-v" in sys.argv[1:]


def sources():
    """Each source file's name and text."""
    if words:
        names = subprocess.run(["git", "ls-tree", "-r", "--name-only", words[0], "crates"], capture_output=True, text=True, check=True).stdout.split("\n")
        return {n: subprocess.run(["git", "show", f"{words[0]}:{n}"], capture_output=True, text=True, check=True).stdout
                for n in names if "/src/" in n and n.endswith(".rt")}
    names = subprocess.run(["git", "ls-files", "crates/*/src/*.rt"], capture_output=True, text=True, check=True).stdout.split()
    return {n: open(n).read() for n in names}


files = sources()


def lines(pattern, names=r""):
    """The places of a pattern, outside comments and ghost imports."""
    for name, text in files.items():
        if re.search(names, name):
            for i, line in enumerate(text.split("\n"), 1):
                if not re.match(r"\s*(//|ghost use)", line) and re.search(pattern, line):
                    yield f"{name}:{i}: {line.strip()}"


def functions():
    """Each function: file, name, head, body."""
    for name, text in files.items():
        for m in re.finditer(r"^( *)(?:pub )?(?:extern \"C\" )?fn (\w+)(.*?)^\1\{\n(.*?)^\1\}", text, re.M | re.S):
            yield name, m[2], m[3], m[4]
        for m in re.finditer(r"^( *)(?:pub )?fn (\w+)([^{\n]*) \{\n(.*?)^\1\}", text, re.M | re.S):
            yield name, m[2], m[3], m[4]


KEYWORDS = set("as break const continue else enum extern false fn for if impl in let loop match mod move mut pub ref return self static struct true use while".split())


def twins():
    """Groups of functions that are the same but for names, types, numbers and texts: each name is told by where it first stands."""
    groups = defaultdict(set)
    for name, fn, head, body in functions():
        code = re.sub(r"//.*", "", re.sub(r"(?s)(requires|ensures).*", "", head) + "{" + body + "}")
        shape, seen = [], {}
        for token in re.findall(r'b?"[^"]*"|b\'.\'|[A-Za-z_]\w*|\d[\w]*|\S', code):
            if re.match(r'b?"|b\'|\d|true$|false$', token):
                token = "N"
            elif re.match(r"[A-Za-z_]", token) and token not in KEYWORDS:
                token = seen.setdefault(token, f"v{len(seen)}")
            shape.append(token)
        groups[" ".join(shape)].add(f"{name}: {fn}")
    for shape, members in groups.items():
        if len(members) > 1:
            yield " = ".join(sorted(members))


def repeated():
    """Clauses that three functions or more ask for."""
    asked = defaultdict(set)
    for name, fn, head, _ in functions():
        for clause in re.findall(r"requires (?:\w+ )?\{ (.*) \}", head):
            for part in re.split(r"\) × \(", clause.strip("()")):
                asked[part.strip("()")].add(f"{name}: {fn}")
    for clause, members in asked.items():
        if len(members) > 2:
            for member in sorted(members):
                yield f"{clause}    {member}"


def together(*names):
    """Functions that take these parameters."""
    for name, fn, head, _ in functions():
        heading = re.sub(r"(?s)(requires|ensures).*", "", head)
        if all(re.search(rf"\b{n}:", heading) for n in names):
            yield f"{name}: {fn}"


NUMBERS = r"1[0-9]|20|[1-9]"
counts = [
    ("1", "own enums with a variant for none, or for a refusal", lines(r"^    (Refused|NoNumber|Unset|Other)\b")),
    ("1", "a refusal or a kind as a number, or a flag, in a field of a type", lines(r"^    (pub )?(refused|failure|phase|seen|runs|more|number): (u8|bool|usize),")),
    ("1", "functions that answer a refusal, a kind or none by a number", lines(r"fn (refusal|refused\w*|failed|first_of|of_length|start|end|said|says|verdict|wire_of|unrouted|\w+_refusal|number|divider)\(.*-> (u8|u64|usize)$")),
    ("1", "refusals written as bare numbers", lines(rf"(Refused|Unset|refused_by)\(({NUMBERS})\)|(refused|number): ({NUMBERS}),|(answered\(s, |refused_at\(.*)({NUMBERS})\)|^        (    )*return ({NUMBERS});|^        ?(    )*({NUMBERS})$|\{{ 0 \}} else \{{ ({NUMBERS}) \}}", r"/(trailer|records|wire|tested|refusals|placed|walk|replay|live\w*|stream|made|dump\w*|writer|shrink|sign|judge|transcript|rate)/")),
    ("1", "kinds told apart by numbers", lines(r"\b(kind|block|register|said|phase|failure|first|answer)\b\)? *(==|!=) *\d|log\[[^\]]*\] (==|!=) \d|Fixed\(\d\)|verdict ==|places == \d")),
    ("1", "arms of a match on a number", lines(r"^\s+\d+( \| \d+|\.\.=\d+)* =>|matches!\(.*\d")),
    ("1", "a yes or no that names one of two things", lines(r"\b(spi|back|declares|receive): bool|Pair\(bool\)|Rate\(bool\)")),
    ("2", "groups of functions that differ in names, types, numbers or texts alone", twins()),
    ("2", "conversions of a byte, a function of a crate each", lines(r"fn (wide|small)\(")),
    ("2", "functions for one direction, of two", lines(r"fn \w+(_up|_down|_past_\w+)\(")),
    ("3", "loops whose index or place is counted by hand", lines(r"^\s+while |^\s+(let \w+(: \w+)? = )?loop \{")),
    ("3", "loops over 0..n", lines(r"^\s+for \w+ in 0\.\.")),
    ("4", "functions that convert, compare or copy by hand", lines(r"fn (wide|small|same|number|copy|state|phase_of|size|taken|number_at|bit_pattern|count_of|le16|le32|le64|put32|put64|trailer_bytes)\(")),
    ("4", "fields written again from the same value", lines(r"^\s+(\w+): (self|l|r|a|c|e)\.(\w+\.)?\1,")),
    ("4", "fields written with a variable of the same name", lines(r"^\s+(\w+): \1,")),
    ("5", "clauses that three functions or more ask for, a function each", repeated()),
    ("5", "functions with a slice and a place to put at", together("out|text", "at")),
    ("6", "functions with a log, a start and a number of records", together("log|bytes", "start|at", "n")),
    ("6", "arrays beside arrays, and buffers with a length", lines(r"^    pub (selects|encoders|pwms|i2cs|pins|changed|carried|held): (\[|usize)")),
    ("7", "functions with a switch on which step to run", lines(r"fn \w+\(.*\b(declares|spi)\b")),
]
for point, what, places in counts:
    found = list(places)
    print(f"{point}  {len(found):4}  {what}")
    if verbose:
        for place in found:
            print(f"           {place}")
