#!/usr/bin/env python3
"""Brings the repository's own definitions and lemmas to snake case: isSide and few-cells become is_side and few_cells.

Run once, at the top, after the kit's port.py. Names of the library, types, modules, functions of src/, exported names and strings keep their spelling.
A name that would fall together with another gets `_lem` at its end (a lemma that would have its function's name) and is printed.
"""

import glob
import re
import sys

DEFINES = re.compile(r"^\s*(?:abbrev |unfoldable )?(?:pub )?([a-z][A-Za-z0-9_'\-₀-₉≤≡→]*) :(?: |$)")
OF_TIE = re.compile(r"^[\w'\-]+ : tie\.")
USES = re.compile(r"^\s*(?:ghost |pub )?use ([\w.+\-']+)\.\{(.*)\}")
TOKEN = re.compile(r"[^\s(){}\[\],;.\"`]+")
NAME = re.compile(r"[A-Za-z0-9_'\-₀-₉≤≡→]+")
CLAUSE = re.compile(r"^\s*(?:requires|ensures|ghost)\b")
# Lemmas that port.py gave a name with underscores, where a function is to have that name now. After a dot such a name is a step of a proof.
GIVE_WAY = ["has_sides", "key_below", "least_step", "map_at", "moved_by"]

# Fields of records may have a function's name.
FIELDS = {"costs-left", "route-left", "refusal-fits"}


def antt_files():
    return sorted(f for f in glob.glob("crates/*/*/**/*.antt", recursive=True) if "/out/" not in f)


def is_proof(path):
    return path.endswith("/Proof.antt")


def own_names(files):
    """The names that files of specs/ and proofs/ define, but those that a proof of a function gives the goals."""
    own, generated, library = set(), set(), set()
    for path in files:
        for line in open(path, encoding="utf-8"):
            use = USES.match(line)
            if use and (not use.group(1).startswith("Rattle.") or use.group(1).startswith("Rattle.std.")):
                library |= {part.strip().split(" as ")[0] for part in use.group(2).split(",")}
            name = DEFINES.match(line)
            if not name:
                continue
            (generated if is_proof(path) and (OF_TIE.match(line) or line.startswith("pub ")) else own).add(name.group(1))
    return own - library, generated, library


def snake(name):
    worded = re.sub(r"(?<=[a-z0-9])([A-Z])", lambda m: "_" + m.group(1).lower(), name) if not re.search(r"-[A-Z]", name) else name
    return worded.replace("-", "_")


def respelling(files):
    own, generated, library = own_names(files)
    tokens = set(library)
    for path in [f for f in files if not is_proof(f)]:
        for line in open(path, encoding="utf-8"):
            line = USES.sub(lambda m: m.group(2), line.split("--")[0].rstrip())
            tokens |= set() if line.lstrip().startswith("use ") else set(TOKEN.findall(line))
    table = {name: name + "_lem" for name in GIVE_WAY}
    tokens -= set(GIVE_WAY) | {"kind_fits"}  # that is a field
    taken = {}
    # Functions, which have capitals, before lemmas, which have dashes.
    for name in sorted(own - generated, key=lambda n: ("-" in n, n)):
        new = snake(name)
        if new == name:
            continue
        if name in FIELDS:
            table[name] = new
            continue
        if new in tokens or new in taken:
            print(f"falls together: {name} with {taken.get(new, new)}: {new}_lem")
            new += "_lem"
        if new in tokens or new in taken:
            sys.exit(f"{name}: {new} is taken too")
        table[name] = new
        taken[new] = name
    return table


def turned(text, table, wanted):
    def one(m):
        name = m.group()
        if name not in table or not wanted(name) or (name in GIVE_WAY and text[: m.start()].endswith(".")):
            return name
        return table[name]
    return TOKEN.sub(one, text)


def quoted(text, table):
    """Names in the prose of a comment or a page: those in backticks, and those that no prose has."""
    def one(m):
        return turned(m.group(), table, lambda n: True)
    text = re.sub(r"`[^`\n]+`", one, text)
    return turned(text, table, lambda n: "-" not in n and re.search("[A-Z]", n))


def turn_antt(text, table):
    lines = []
    for line in text.split("\n"):
        at = re.search(r"(^|\s)--(\s|$)", line)
        cut = at.start() if at else len(line)
        lines.append(turned(line[:cut], table, lambda n: True) + quoted(line[cut:], table))
    return "\n".join(lines)


def turn_source(text, table):
    """Clauses and `ghost use` lines of a .rt file, and its comments."""
    lines, depth = [], 0
    for line in text.split("\n"):
        if depth or CLAUSE.match(line):
            depth += line.count("{") - line.count("}")
            line = turned(line, table, lambda n: True)
        elif line.lstrip().startswith("//"):
            line = quoted(line, table)
        lines.append(line)
    return "\n".join(lines)


def turn_edit(text, table):
    path, lines = "", []
    for line in text.split("\n"):
        if line.startswith("file: "):
            path = line
        elif line.startswith(("old: ", "new: ")):
            body = line[5:]
            if path.endswith(".antt"):
                line = line[:5] + turn_antt(body, table)
            elif CLAUSE.match(body):
                line = line[:5] + turned(body, table, lambda n: True)
        else:
            line = quoted(line, table)
        lines.append(line)
    return "\n".join(lines)


def rewrite(path, turn, table):
    text = open(path, encoding="utf-8").read()
    new = turn(text, table)
    if new != text:
        open(path, "w", encoding="utf-8").write(new)


def main():
    files = antt_files()
    table = respelling(files)
    for path in files:
        rewrite(path, turn_antt, table)
    for path in glob.glob("crates/*/src/**/*.rt", recursive=True):
        rewrite(path, turn_source, table)
    for path in glob.glob("crates/*/must-fail/*.edit"):
        rewrite(path, turn_edit, table)
    for path in ["README.md", "crates.txt", *glob.glob("docs/*.md"), *glob.glob("docs/changes/R-*.md")]:
        rewrite(path, quoted, table)
    print(f"{len(table)} names respelled")


main()
