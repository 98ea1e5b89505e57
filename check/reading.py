#!/usr/bin/env python3
"""The auditor's reading list: which definitions the contracts of the exported calls and the theorems rest on.

usage: reading.py            (from the project's root)
       reading.py text       the definitions themselves, the lowest crates first, then the contracts of what C calls: all there is to read, in one piece

Starts from every contract of a `pub extern "C" fn` and from the statement of every theorem, that is of each `pub` law in a
`proofs/Proved.antt` and of each other one whose type is a statement of `specs/` by name, and follows each name through the `use` lines of `specs/` to the definition it stands for, and on from there.
Prints each file with the lines that count: not blank, not a comment, not a `use`. Ends with status 1 where a definition of a
`specs/How.antt` is reached, or where a name of the project is not found. Then the same of what the program prints, by the contracts of the
crates `.._print` and `command`, which C does not see; there what says how a stream lies in memory is left out.
"""
import pathlib
import re
import signal
import sys

# What is beyond the papers: the crate and its call.
OURS = "sign"
# The kit's own libraries.
KITS = {"std", "core", "check", "io", "libc", "os"}
WORD = re.compile(r"[^\s(){};,λ∷\[\]]+")


def counts(line):
    text = line.strip()
    return bool(text) and not text.startswith(("--", "//", "use ", "ghost use "))


class File:
    """One antt file: its definitions, and what each name in it stands for."""

    def __init__(self, path, crate):
        self.path, self.crate = path, crate
        self.items, self.names, self.modules = {}, {}, {}
        self.read(path.read_text().split("\n"))

    def read(self, lines):
        item, header = None, []
        for number, line in enumerate(lines):
            bare = line.split(" -- ")[0] if not line.strip().startswith("--") else ""
            if not bare.strip():
                continue
            if bare.startswith(("use ", "pub use ", "unfoldable pub use ", "pub mod ", "mod ")):
                self.use(re.sub("^(unfoldable )?pub use ", "use ", bare).rstrip(";"))
                continue
            indent = len(bare) - len(bare.lstrip())
            if re.match(r"\s*module _", bare):
                header = [h for h in header if h[0] < indent] + [(indent, number, bare)]
                item = None
                continue
            header = [h for h in header if h[0] < indent]
            start = re.match(r"^(\s*)((?:abbrev |unfoldable |pub )+)(record |data )?(\S+)", bare)
            if start and (item is None or indent <= item[1]):
                name = start[4]
                item = (name, indent)
                self.items[name] = {"lines": [], "text": " ".join(h[2] for h in header), "kind": (start[3] or "").strip()}
                for h in header:
                    self.items[name]["lines"].append(h[1])
            elif item is None or indent <= item[1]:
                plain = re.match(r"^\s*([^\s(){}:]+) :", bare)
                if plain:
                    item = (plain[1], indent)
                    self.items.setdefault(plain[1], {"lines": [], "text": "", "kind": ""})
                elif item is None:
                    continue
            entry = self.items[item[0]]
            if bare.strip().startswith("unfolding "):
                continue
            entry["lines"].append(number)
            entry["text"] += " " + bare
            if entry["kind"] == "data" and indent > item[1]:
                inner = re.match(r"^\s*(?:pub )?((?:[^\s(){}:]+ )+):", bare)
                for name in inner[1].split() if inner else []:
                    self.names.setdefault(name, (None, item[0]))

    def use(self, line):
        found = re.match(r"use (\S+?)(?:\.\{(.*)\})?(?: as (\S+))?$", line.strip())
        if not found:
            return
        module, names, other = found[1], found[2], found[3]
        if names is None:
            self.modules[other or module.split(".")[-1]] = module
            return
        for name in names.split(","):
            parts = name.split(" as ")
            self.names[parts[-1].strip()] = (module, parts[0].strip())


class Project:
    def __init__(self, root):
        self.root, self.files, self.sources = root, {}, {}
        self.reached, self.missing, self.calls = {}, [], []
        # whether how the code gets there, and what proofs define, is left out
        self.plain = False

    def file(self, crate, part):
        key = (crate, part)
        if key not in self.files:
            path = self.root / "crates" / crate / (part.replace(".", "/") + ".antt")
            self.files[key] = File(path, crate) if path.exists() else None
        return self.files[key]

    def follow(self, module, name, whence):
        """One name of a module of the project."""
        found = re.match(r"Rattle\.([a-z0-9_]+)\.((?:specs|proofs)\..*)$", module)
        if not found:
            return
        crate, part = found[1], found[2]
        if crate in KITS:
            return
        declared = re.match(r"specs\.declared\.([A-Za-z0-9]+)", part)
        if declared:
            self.declare(crate, declared[1])
            return
        file = self.file(crate, part)
        if file is None:
            self.missing.append(f"{whence}: {module}")
            return
        self.reach(file, name, whence)

    def reach(self, file, name, whence):
        if self.plain and (file.path.name == "How.antt" or "proofs" in file.path.parts):
            return
        if name not in file.items:
            inner = file.names.get(name)
            if inner and inner[0] is None:
                name = inner[1]
            elif inner:
                self.follow(inner[0], inner[1], whence)
                return
            else:
                self.missing.append(f"{whence}: {file.path}: {name}")
                return
        key = (str(file.path), name)
        if key in self.reached:
            return
        self.reached[key] = (file, file.items[name]["lines"], whence)
        self.words(file, file.items[name]["text"], f"{file.path.stem}.{name}")

    def words(self, file, text, whence):
        for word in WORD.findall(text):
            for piece in {word, word.rstrip(".")}:
                if piece in file.names and file.names[piece][0] is not None:
                    self.follow(*file.names[piece], whence)
                elif piece in file.items or (piece in file.names and file.names[piece][0] is None):
                    self.reach(file, piece, whence)
                elif "." in piece and piece.split(".")[0] in file.modules:
                    head, tail = piece.split(".", 1)
                    self.follow(file.modules[head], tail.split(".")[-1], whence)
                elif "." in piece.strip("."):
                    # A definition of which a field is taken.
                    self.words(file, piece.split(".", 1)[0], whence)

    def declare(self, crate, name):
        """A struct or an enum of the code, which the definitions take apart."""
        for path in sorted((self.root / "crates" / crate / "src").glob("*.rt")):
            lines = path.read_text().split("\n")
            for at, line in enumerate(lines):
                if re.match(rf"pub (struct|enum) {name}\b", line):
                    end = next(k for k in range(at, len(lines)) if lines[k] == "}" or lines[k].endswith(";"))
                    key = (str(path), name)
                    if key not in self.reached:
                        self.reached[key] = (path, list(range(at, end + 1)), "declared")
                        for word in re.findall(r"[A-Z][A-Za-z0-9]*", " ".join(lines[at + 1:end])):
                            self.declared_word(crate, path, word)
                    return
        self.missing.append(f"declared {crate}::{name}")

    def declared_word(self, crate, path, word):
        text = path.read_text()
        if re.search(rf"pub (struct|enum) {word}\b", text):
            self.declare(crate, word)
        else:
            used = re.search(rf"use ([a-z0-9_]+)::{word};", text)
            if used:
                self.declare(used[1], word)

    # ---- what the list starts from

    def contracts(self, crates, kind, wanted):
        found = 0
        for path in sorted((self.root / "crates").glob(f"{crates}/src/**/*.rt")):
            text = path.read_text()
            crate = path.relative_to(self.root / "crates").parts[0]
            ghost = File.__new__(File)
            ghost.path, ghost.crate, ghost.items, ghost.names, ghost.modules = path, crate, {}, {}, {}
            for line in re.findall(r"^ghost (use .*);$", text, re.M):
                ghost.use(line)
            for call in re.finditer(rf"^{kind} (\w+).*?^\{{", text, re.M | re.S):
                if wanted(call[1]):
                    found += 1
                    self.calls.append(call[0].rstrip("{\n"))
                    self.words(ghost, call[0], f"contract of {crate}::{call[1]}")
        return found

    def exported(self, ours):
        return self.contracts("*", 'pub extern "C" fn', lambda name: (name == "rvz_" + OURS) is ours)

    def printing(self):
        self.plain = True
        return sum(self.contracts(crates, "pub fn", lambda name: True) for crates in ("*_print", "command"))

    def theorems(self, ours):
        found = 0
        for path in sorted((self.root / "crates").glob("*/proofs/*.antt")):
            crate = path.relative_to(self.root / "crates").parts[0]
            if (crate == OURS) is not ours:
                continue
            file = File(path, crate)
            text = path.read_text()
            named = r"" if path.name == "Proved.antt" else r" [A-Z]\w*$"
            for name in re.findall(rf"^\s*pub ([^\s(){{}}:]+) :{named}", text, re.M):
                if name not in file.items:
                    continue
                found += 1
                head = file.items[name]["text"]
                statement = re.split(rf"(?<!\S){re.escape(name)}(?= |$)", head, maxsplit=2)
                self.words(file, statement[1] if len(statement) > 1 else head, f"theorem {crate}.{name}")
        return found


def reached(project):
    """What has been reached, as the numbers of lines of each file."""
    lines = {}
    for (path, _), (_, numbers, _) in project.reached.items():
        lines.setdefault(path, set()).update(numbers)
    return lines


def counted(project):
    """How many lines of each file count, of what has been reached."""
    return {path: sum(counts(line) for k, line in enumerate(pathlib.Path(path).read_text().split("\n")) if k in numbers)
            for path, numbers in reached(project).items()}


def tell(project):
    """What has been reached, with the comments above it."""
    listed = re.findall(r"^(\w+):", (project.root / "crates.txt").read_text(), re.M)
    for path, numbers in sorted(reached(project).items(), key=lambda of: (listed.index(pathlib.Path(of[0]).parts[1]), of[0])):
        lines = pathlib.Path(path).read_text().split("\n")
        for number in sorted(numbers):
            while number > 0 and lines[number - 1].strip().startswith(("-- ", "// ")):
                number -= 1
                numbers.add(number)
        print(f"==== {path}\n")
        for number in sorted(numbers):
            print(lines[number])
            if number + 1 not in numbers:
                print()
    print("==== what C calls\n")
    for call in project.calls:
        print(f"{call}\n")


def main():
    if sys.argv[1:] not in ([], ["text"]):
        print(__doc__, file=sys.stderr)
        return 2
    # a reader that ends early, as a pager does, is no error
    signal.signal(signal.SIGPIPE, signal.SIG_DFL)
    project = Project(pathlib.Path("."))
    calls, theorems = project.exported(False), project.theorems(False)
    papers = sum(counted(project).values())
    more, beside = project.exported(True), project.theorems(True)
    signs = sum(counted(project).values())
    if sys.argv[1:] == ["text"]:
        tell(project)
        return 0
    printing = project.printing()
    lines = counted(project)
    for path in sorted(lines):
        names = sorted(name for (where, name) in project.reached if where == path)
        print(f"{lines[path]:4} {path}: {' '.join(names)}")
    print(f"{papers:4} lines, for {calls} exported calls and {theorems} theorems of papers 01 and 02")
    print(f"{signs - papers:4} more, for the call and {beside} theorems of the {OURS}, which no paper asks for")
    print(f"{sum(lines.values()) - signs:4} more, for what the program prints, by {printing} functions")
    how = [(path, name, whence) for (path, name), (_, _, whence) in project.reached.items() if path.endswith("How.antt")]
    for path, name, whence in how:
        print(f"rests on how the code gets there: {path}: {name}, from {whence}")
    for name in sorted(set(project.missing)):
        print(f"not found: {name}")
    return 0 if calls and theorems and more and beside and printing and not how and not project.missing else 1


if __name__ == "__main__":
    sys.exit(main())
