#!/usr/bin/env python3
"""Brings this repository's own definitions and lemmas to the spelling of today's Rattle, after the kit's port.py has run.

usage: python3 tools/rename_own.py      at the top of the repository

Definitions, lemmas, fields and constructors of specs/ and proofs/ are written in snake case; types keep their capital, and so do the letters
B, M and W of document 01. A lemma that would fall together with a definition, a field or a constructor ends in _lem. Functions of src/,
strings, inputs and outputs keep their names. In edits and pages the names follow; in pages only between backticks.
"""
import collections
import glob
import re

TOKEN = re.compile(r"[\w'′·-]+")
MARKS = r"(?:(?:pattern|unfoldable|abbrev|pub|axiom) )*"
NAME = r"[^\s:{}()|=,.\[\]]+"
# bound names that are written with capitals
VARIABLES = {"onRefusal": "on_refusal", "isIn": "is_in", "toBits'": "to_bits'", "toBits₀": "to_bits₀"}
TYPE = re.compile(r"^(?:pub |abbrev |unfoldable )*(record|data) (\S+)")


def read(path):
    with open(path, encoding="utf-8") as f:
        return f.read()


def write(path, text):
    with open(path, "w", encoding="utf-8") as f:
        f.write(text)


def declared():
    """Each own name with the kinds of its declarations."""
    names = collections.defaultdict(set)
    files = collections.defaultdict(set)
    for path in sorted(glob.glob("crates/*/specs/*.antt") + glob.glob("crates/*/proofs/*.antt")):
        inner = "lemma" if "/proofs/" in path else "definition"
        block = None
        for line in read(path).split("\n"):
            if line.startswith(("--", "use ")):
                continue
            m = TYPE.match(line)
            if m:
                block = "field" if m[1] == "record" else "constructor"
                names[m[2]].add("type")
                continue
            if block:
                m = re.match(rf"^  (?:pub )?({NAME}(?: {NAME})*) :(?: |$)", line)
                if m:
                    for name in m[1].split():
                        names[name].add(block)
                    continue
            if re.match(r"^\S", line):
                block = None
            m = re.match(rf"^\s*{MARKS}({NAME})(?: \{{[^}}]*\}})? :(?: |$)", line)
            if m:
                files[m[1]].add(path)
                names[m[1]].add("type" if re.search(r": .*→ Type \d$|: Type \d$", line) and m[1][0].isupper() else inner)
    return names, files


def snake(name):
    parts = []
    for part in name.split("-"):
        part = re.sub(r"(?<=[a-z0-9])([A-Z])", lambda m: "_" + m[1].lower(), part)
        parts.append(part.lower() if re.fullmatch("[A-Z]", part) else part)
    return "_".join(parts)


def new_names(names, files):
    groups = collections.defaultdict(set)
    for name, kinds in names.items():
        plain = "type" in kinds or (name[0].isupper() and "-" not in name)
        groups[name if plain else snake(name)].add(name)
    new = {}
    for to, group in groups.items():
        for name in group:
            lemma = names[name] <= {"lemma"}
            other = any(not names[g] <= {"lemma"} or ("-" in name and "-" not in g and files[name] & files[g]) for g in group if g != name)
            if len(group) > 1 and lemma and other:
                new[name] = to + "_lem"
            elif to != name:
                new[name] = to
    return new | VARIABLES


def turn(text, new, own_proof):
    # what a file takes from a library under the spelling of one of our names stays
    taken = set()
    for m in re.finditer(r"^use ([\w.]+)\.\{([^}]*)\}", text, re.M):
        if m[1].split(".")[0] in ("mathlib", "native", "lib", "Prim", "borrow") or m[1].startswith("Rattle.std."):
            taken |= set(re.split(r",\s*", m[2].strip()))

    def one(m):
        word = m[0]
        if word not in new or word in taken:
            return word
        # behind a dot a name with a dash is one that Rattle made of the source, but for a name taken from an own module
        if own_proof and "-" in word and m.start() and text[m.start() - 1] == ".":
            return word
        return new[word]

    return TOKEN.sub(one, text)


def main():
    names, files = declared()
    new = new_names(names, files)
    sources = glob.glob("crates/*/src/*.rt")
    plain = glob.glob("crates/*/specs/*.antt") + glob.glob("crates/*/proofs/*.antt")
    walks = [p for p in glob.glob("crates/*/proofs/**/*.antt", recursive=True) if p not in plain]
    for path in sorted(plain + walks + sources):
        text = read(path)
        # a name of the source keeps its spelling
        mine = {a: b for a, b in new.items() if a != a.lower() or "-" in a} if path in sources else new
        turned = turn(text, mine, path in walks)
        if turned != text:
            write(path, turned)
    # edits and pages still have the names of before port.py
    known = set(new.values()) | set(names)
    late = dict(new)

    def follow(word):
        if word in late:
            return late[word]
        if word not in known and snake(word) in known and (re.search("[a-z][A-Z]", word) or "-" in word):
            return snake(word)
        return word

    for path in sorted(glob.glob("crates/*/must-fail/*.edit") + glob.glob("crates/*/wrong/*.edit")):
        text = read(path)
        turned = text.replace("Rattle·", "Rattle.")
        lines = [TOKEN.sub(lambda m: follow(m[0]), line) if line.startswith(("old:", "new:")) and "-" not in line.split(":")[0] else line for line in turned.split("\n")]
        turned = "\n".join(lines)
        if turned != text:
            write(path, turned)
    for path in ["README.md"] + sorted(glob.glob("docs/*.md")) + sorted(glob.glob("oracle/*.md")):
        text = read(path)
        turned = re.sub(r"`[^`\n]+`", lambda b: TOKEN.sub(lambda m: follow(m[0]), b[0]) if ".md" not in b[0] and "/" not in b[0] else b[0], text)
        if turned != text:
            write(path, turned)
    for a, b in sorted(new.items()):
        print(f"{a} → {b}")


main()
