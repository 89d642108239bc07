#!/usr/bin/env python3
"""Respells the repository's own names of specs/ and proofs/: words in snake case, types in upper camel case.

usage: tools/port/respell.py        once, at the top, right after the kit's port.py; `--list` prints old and new names and writes nothing

descriptor-in becomes descriptor_in, and Pointer-within PointerWithin. Names of the library, of Rattle's generated modules and of Rust's
source stay, and so do the names of goals that a function's proof answers. A name counts as ours where the file declares it or imports
it from a file of specs/ or proofs/, and a field where a record of ours has it. It prints each name that falls together with another.
"""
import os
import re
import sys

NAME = r"[^\s(){}.;,@\"«»\[\]]+"
TOKEN = re.compile(r"--(?= |$)[^\n]*|\"(?:[^\"\\\n]|\\.)*\"|" + NAME + r"|\.|\s+|.", re.S)
MARKS = r"(?:(?:pub|unfoldable|abbrev|pattern|axiom) )*"
DASHED = re.compile(r"[^\W\d_][^\s]*-[^\s]*$")
# the files of one function's proof, whose own declarations are answers to goals by Rattle's names
ANSWERS = ("Proof.antt", "Answers.antt", "Invariants.antt")


def read(path):
    with open(path, encoding="utf-8") as file:
        return file.read()


def source_files(endings):
    for folder, folders, files in os.walk("crates"):
        folders[:] = sorted(f for f in folders if f != "out")
        for name in sorted(files):
            if name.endswith(endings):
                yield os.path.join(folder, name)


def module_of(path):
    """The module of a file below specs/ or proofs/, with dots."""
    parts = path[: -len(".antt")].split("/")[1:]
    return ".".join(["Rattle"] + parts)


def joined(name, is_type):
    parts = name.split("-")
    if "" in parts or not DASHED.match(name):
        return name
    if is_type:
        return "".join(p[:1].upper() + p[1:] for p in parts)
    return "_".join(parts)


class File:
    def __init__(self, path):
        self.path = path
        self.text = read(path)
        self.answers = os.path.basename(path) in ANSWERS and not re.search(r"/(specs|proofs)/[^/]*$", path)
        plain = re.sub(r"--(?= |$)[^\n]*", "", self.text)
        self.declared, self.types, self.fields = set(), set(), set()
        for line in plain.split("\n"):
            match = re.match(rf"\s*{MARKS}(record|data) ({NAME})", line)
            if match:
                self.declared.add(match[2])
                self.types.add(match[2])
            match = re.match(rf"\s*{MARKS}((?:{NAME} )+)(?:\{{[^}}]*\}} )?: (.*)$", line)
            if match:
                names = match[1].split()
                self.declared.update(names)
                if re.search(r"(?:^|→ )Type (?:\d+|\(.*\))$", match[2].rstrip()):
                    self.types.update(names)
        for body in re.finditer(rf"(?m)^([ \t]*){MARKS}record [^\n]*where\n((?:\1[ \t]+[^\n]*\n|[ \t]*\n)*)", plain):
            for line in body[2].split("\n"):
                match = re.match(rf"\s*(?:pub )?((?:{NAME} )+):", line)
                if match:
                    self.fields.update(match[1].split())
        for shape in re.finditer(r"record \{([^{}]*)\}", plain):
            self.fields.update(re.findall(rf"(?:^|;)\s*({NAME}) :", shape[1]))
        self.imports, self.aliases = {}, {}
        for use in re.finditer(rf"(?m)^\s*(?:pub |unfoldable |ghost )*use ((?:{NAME}\.)*{NAME})(?:\.\{{([^{{}}]*)\}}| as ({NAME}))?", plain):
            if use[2] is not None:
                for item in use[2].split(","):
                    words = item.split()
                    if words:
                        self.imports[words[-1]] = (use[1], words[0])
            elif use[3] is not None:
                self.aliases[use[3]] = use[1]
            elif "." in use[1]:
                self.aliases[use[1].rsplit(".", 1)[1]] = use[1]


class Names:
    def __init__(self):
        self.files = {p: File(p) for p in source_files((".antt", ".rt"))}
        self.modules = {module_of(p): f for p, f in self.files.items() if p.endswith(".antt")}
        self.fields = set().union(*(f.fields for f in self.modules.values()))

    def types_of(self, module, name):
        file = self.modules.get(module)
        return bool(file) and name in file.types

    def origin(self, module, name):
        """The module that declares a name, through what other files pass on."""
        for _ in range(9):
            file = self.modules.get(module)
            if not file or name in file.declared or name not in file.imports:
                break
            module, name = file.imports[name]
        return module, name

    def member(self, module, name):
        """The spelling of a module's name, seen from outside."""
        file = self.modules.get(module)
        if not file or file.answers or not DASHED.match(name):
            return name
        module, name = self.origin(module, name)
        if module not in self.modules or self.modules[module].answers:
            return name
        return joined(name, self.types_of(module, name))

    def bare(self, file, name):
        if not DASHED.match(name):
            return name
        if name in file.imports:
            return self.member(*file.imports[name]) if file.imports[name][1] == name else joined(name, False)
        if file.path.endswith(".rt") or (file.answers and name in file.declared):
            return name
        if file.answers and re.match(r"(invariant|decreases|Need)-", name):
            return name
        return joined(name, name in file.types)

    def after_dot(self, file, head, place, name):
        """A name after a dot: `head` is the chain's first word, `place` the number of dots before."""
        if not DASHED.match(name):
            return name
        if place == 1 and head in file.aliases:
            return self.member(file.aliases[head], name)
        return joined(name, False) if name in self.fields else name

    def turned(self, file, text, in_edit=False):
        out, chain, place, last = [], None, 0, ""
        is_source = file.path.endswith(".antt")
        for token in TOKEN.findall(text):
            new = token
            if token == ".":
                place += 1
            elif token.startswith("--") or token.startswith('"') or token.isspace() or not re.match(NAME, token):
                chain = None if token not in (")", "»") else ""
                if token == ")":
                    place = 0
                if token.startswith("-- ") and is_source:
                    new = re.sub(r"`([^`]*)`", lambda m: "`" + self.turned(file, m[1]) + "`", token)
            elif last == "." and chain is not None:
                new = self.after_dot(file, chain, place, token)
            else:
                chain, place = token, 0
                new = self.bare(file, token)
            out.append(new)
            last = token
        return "".join(out)

    def use_lines(self, file, text):
        def line(match):
            head, module, names = match[1], match[2], match[3]
            if names is None:
                return match[0]
            items = []
            for item in names.split(","):
                words = item.split()
                if words:
                    words[0] = self.member(module, words[0])
                    if len(words) == 3:
                        words[2] = joined(words[2], False)
                items.append((item[: len(item) - len(item.lstrip())]) + " ".join(words) + (item[len(item.rstrip()):] if item.strip() else ""))
            return f"{head}{module}.{{{','.join(items)}}}"

        return re.sub(rf"(?m)^(\s*(?:pub |unfoldable |ghost )*use )((?:{NAME}\.)*{NAME})(?:\.\{{([^{{}}]*)\}}| as ({NAME}))", line, text)

    def file_turned(self, file):
        out = []
        for part in re.split(r"(?m)(^\s*(?:pub |unfoldable |ghost )*use [^\n{]*(?:\{[^{}]*\})?[^\n]*\n)", file.text):
            if re.match(r"\s*(?:pub |unfoldable |ghost )*use ", part):
                out.append(self.use_lines(file, part))
            elif file.path.endswith(".rt"):
                out.append("\n".join(l if l.lstrip().startswith("//") else self.turned(file, l) for l in part.split("\n")))
            else:
                out.append(self.turned(file, part))
        return "".join(out)

    def edit_turned(self, crate, text):
        out, file = [], None
        for line in text.split("\n"):
            key, _, value = line.partition(": ")
            if key == "file":
                base = "crates" if value.split("/")[0] in os.listdir("crates") else os.path.join("crates", crate)
                file = self.files.get(os.path.join(base, value))
            elif key in ("old", "new") and file:
                line = f"{key}: {self.turned(file, value)}"
            elif key == "refused":
                words = value.split(" ")
                target = self.files.get(os.path.join("crates", crate, words[0]))
                if len(words) == 2 and target and target.path.endswith(".antt") and not target.answers:
                    line = f"refused: {words[0]} {joined(words[1], words[1] in target.types)}"
                elif len(words) == 2 and "/" not in words[0]:
                    line = f"refused: {words[0]} {joined(words[1], False)}"
            out.append(line)
        return "\n".join(out)

    def everywhere(self):
        """Each name of ours that is declared, with its new spelling: for pages."""
        spelled = {}
        for file in self.modules.values():
            if not file.answers:
                for name in file.declared | file.fields:
                    if DASHED.match(name):
                        spelled[name] = joined(name, name in file.types)
        return spelled


def main(arguments):
    names = Names()
    spelled = names.everywhere()
    if arguments == ["--list"]:
        for old, new in sorted(spelled.items()):
            print(old, new)
        return 0
    changed = {}
    for path, file in names.files.items():
        new = names.file_turned(file)
        words = set(re.findall(NAME, re.sub(r"--(?= |$)[^\n]*", "", file.text)))
        for name in sorted(file.declared | set(file.imports)):
            to = names.bare(file, name)
            if to != name and to in words:
                print(f"falls together: {path}: {name} and {to}")
        if new != file.text:
            changed[path] = new
    for folder, crate_of in [("crates", None), ("tests/edits", "")]:
        for at, folders, files in os.walk(folder):
            folders[:] = [f for f in folders if f != "out"]
            for name in files:
                if name.endswith(".edit"):
                    path = os.path.join(at, name)
                    crate = path.split("/")[1] if crate_of is None else ""
                    text = read(path)
                    new = names.edit_turned(crate, text)
                    if new != text:
                        changed[path] = new
    pages = ["README.md"] + [os.path.join(at, f) for at, _, files in os.walk("docs") for f in files if f.endswith(".md")]
    for path in pages:
        text = read(path)
        # words of the command stay
        new = re.sub(rf"`({NAME})`", lambda m: "`" + (m[1] if m[1] in ("from-old", "to-old", "may-call") else spelled.get(m[1], m[1])) + "`", text)
        if new != text:
            changed[path] = new
    for path, new in changed.items():
        with open(path, "w", encoding="utf-8") as file:
            file.write(new)
    print(f"{len(changed)} files, {len(spelled)} names")
    return 0


sys.exit(main(sys.argv[1:]))
