#!/usr/bin/env python3
"""Spells the project's own definitions and lemmas as today's Rattle does: words in snake case.

usage: tools/snake_names.py [FOLDER]    FOLDER is a checkout in which port.py has run

A name that specs/ or proofs/*.antt declare, and that has a capital within or a dash, is written
with underscores there and wherever it is cited: in .antt and .rt files, must-fail edits, and, in
backquotes, in the documents; so are, in edits and documents, the names that port.py turned alone
in the sources. Where two names would fall together the lemma gets `_lem`. Types,
modules and the numbers in capitals, which are named as in the source, keep their names; so does
what Rattle makes (a name after a dot that is no field of ours).
"""
import os
import re
import sys

DECLARED = re.compile(r"^(\s*)((?:(?:pub|abbrev|unfoldable|private) +)*)([^\s:(){}.,]+) +:(?=\s|$)")
TOKEN = re.compile(r"[^\s(){}\[\],;.\"`]+")
SNAKE = re.compile(r"(?<=[a-z0-9₂])(?=[A-Z])")


def files(top, endings):
    for folder, dirs, names in os.walk(top):
        dirs[:] = sorted(d for d in dirs if d not in ("out", "target", "build", ".git"))
        for name in sorted(names):
            if name.endswith(endings):
                yield os.path.join(folder, name)


def read(path):
    with open(path, encoding="utf-8") as f:
        return f.read()


def is_own(path):
    """specs/*.antt and proofs/*.antt; a function's folder below proofs/ has names that Rattle asks for."""
    return os.path.basename(os.path.dirname(path)) in ("specs", "proofs")


def declared(top):
    names, fields = set(), set()
    for path in files(os.path.join(top, "crates"), (".antt",)):
        if not is_own(path):
            continue
        within = None
        for line in read(path).splitlines():
            if not line.strip() or line.lstrip().startswith("--"):
                continue
            indent = len(line) - len(line.lstrip())
            if within is not None and indent <= within:
                within = None
            if re.match(r"\s*(?:(?:pub|abbrev|unfoldable) +)*record ", line):
                within = indent
            it = DECLARED.match(line)
            if it:
                (fields if within is not None and indent > within else names).add(it.group(3))
    return names, fields


def snake(name):
    return SNAKE.sub("_", name).lower().replace("-", "_") if re.search("[a-z]", name) else name


def chosen(names, fields, taken):
    """Old name to new. What had a capital and no dash is a definition and takes the name, also of a
    function of the source; a lemma that would have another's name gets `_lem`."""
    own = names | fields
    turned = {n: snake(n) for n in sorted(own) if not n[0].isupper() and snake(n) != n}
    definitions = {turned[n] for n in turned if "-" not in n}
    stay = {n for n in own if n not in turned}
    # port.py spelt these lemmas as the library does, and their definitions not
    turned.update({n: n + "_lem" for n in stay & definitions})
    for old, new in turned.items():
        if "-" in old and (new in definitions or new in stay or new in taken):
            turned[old] = new + "_lem"
    if len(set(turned.values())) < len(turned) or any(n in stay - set(turned) or n.endswith("_lem") and n in taken for n in turned.values()):
        sys.exit("names fall together")
    for old, new in turned.items():
        if new.endswith("_lem"):
            print(f"{old} is {new}")
    return turned


def spell(text, turned, fields):
    def one(m):
        name = m.group(0)
        if name not in turned:
            return name
        dotted = m.start() > 0 and text[m.start() - 1] == "."
        return turned[name] if not dotted or name in fields or "-" not in name else name

    return TOKEN.sub(one, text)


def respell(path, part, turn):
    old = read(path)
    new = part(turn, old)
    if new != old:
        with open(path, "w", encoding="utf-8") as f:
            f.write(new)


def main(top):
    names, fields = declared(top)
    taken = set()
    for path in files(os.path.join(top, "crates"), (".antt", ".rt")):
        taken.update(TOKEN.findall(read(path)))
    turned = chosen(names, fields, taken - names - fields)
    own = {turned.get(n, n) for n in names | fields}
    # in edits and documents a name may still have the form that it had before port.py
    late = lambda text: spell(text, {n: s for n in TOKEN.findall(text) for s in [turned.get(n, snake(n))] if s != n and s in own and not n[0].isupper()}, fields)
    for path in files(os.path.join(top, "crates"), (".antt", ".rt")):
        respell(path, lambda turn, text: turn(text), lambda text: spell(text, turned, fields))
    for path in files(os.path.join(top, "crates"), (".edit",)):
        respell(path, lambda turn, text: turn(text), late)
    for path in files(top, (".md",)):
        respell(path, lambda turn, text: re.sub(r"`[^`\n]+`", lambda m: turn(m.group(0)), text), late)
    print(f"{len(turned)} names")


if __name__ == "__main__":
    main(sys.argv[1] if len(sys.argv) > 1 else ".")
