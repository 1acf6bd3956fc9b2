#!/usr/bin/env python3
"""Respells this repository's own names for the Rattle that docs/PORT.md speaks of. A record of the port: nothing runs it any more.

usage: port_names.py before     at the top, before port.py: one local name that port.py takes for a name of the newer library
       port_names.py after      at the top, behind port.py: statements and types in camel case, all else in snake case

A dash stays where it joins a word to the name of a definition, as in `length-put_bit`. Names of the source stay.
"""
import glob
import re
import sys

BEFORE = [("crates/tree/proofs/Outcomes.antt", "is_below.Reads as is_below", "is_below.Reads as isBelow"), ("crates/tree/proofs/Outcomes.antt", "OneResult is_below.Post", "OneResult isBelow.Post")]
# lemmas that would have the name of a definition
LEMMAS = {"node-of", "next_place", "pair-at", "zero-at", "after_write", "after-combine", "every-pair", "from-of", "in-rule", "noted-all", "refused-with", "size-below", "size_below", "parent_place"}
WORD = r"[^\s(){}.;,@\"«»\[\]\\:]+"
HEAD = re.compile(r"^(?P<indent> *)(?:(?:abbrev|unfoldable|pub) )*(?P<name>" + WORD + r")(?: \{[^}]*\})* : (?P<type>.*)$")
DATA = re.compile(r"^(?P<indent> *)(?:pub )?(?:data|record) (?:pub )?(?P<name>" + WORD + r")")
CLAUSE = re.compile(r"^ *(?:ghost|requires|ensures|//)")


def texts(*patterns):
    return sorted(f for p in patterns for f in glob.glob(p, recursive=True) if "/out/" not in f)


def declared():
    """The names that specs/ declare, and those that proofs/ declare beside them."""
    specs, lemmas = set(), set()
    for f in texts("crates/*/specs/**/*.antt", "crates/*/proofs/*.antt"):
        into = specs if "/specs/" in f else lemmas
        for line in open(f, encoding="utf-8"):
            if re.match(r"\s*(--|use |mod |pub mod |module |open |let |in |where\b)", line):
                continue
            m = DATA.match(line) or HEAD.match(line)
            if m:
                into.add(m["name"])
    return specs, lemmas


def snake(name):
    return re.sub(r"(?<=[a-z0-9])[A-Z]", lambda m: "_" + m[0].lower(), name)


def camel(name):
    parts = re.split(r"[-_]", name)
    out = parts[0]
    for p in parts[1:]:
        out += "_" + p if p[0].isdigit() and out[-1].isdigit() else p[0].upper() + p[1:]
    return out


def new_name(name):
    if name[0].isupper():
        return camel(name)
    return (snake(name) if snake(name) != name else name.replace("-", "_")) + ("_lem" if name in LEMMAS else "")


def table():
    specs, lemmas = declared()
    taken = set()
    for f in texts("crates/*/specs/**/*.antt", "crates/*/proofs/**/*.antt"):
        for line in open(f, encoding="utf-8"):
            m = re.match(r"(?:pub )?use (?!Rattle\.(?!std\.))\S*?\{(.*)\}", line)
            if m:
                taken |= {w.split(" as ")[0] for w in m[1].split(", ")}
    names = {n: new_name(n) for n in specs | lemmas if n not in taken}
    names = {a: b for a, b in names.items() if a != b}
    seen = {n: n for n in (specs | lemmas) - set(names)}
    for a, b in sorted(names.items()):
        if b in seen or b in taken:
            sys.exit(f"{a} would be {b}, which {seen.get(b, 'the library')} is: give it another name")
        seen[b] = a
    return names


def respell(text, names):
    text = re.sub(WORD, lambda m: names.get(m[0], m[0]), text)
    return re.sub(r"\b([A-Z]\w*)·(\w+)", r"\1.\2", text)


def modules(text):
    """A name brought in as Module·name becomes Module.name, and the module is brought in."""

    def line(m):
        path, items = m[1], m[2].split(", ")
        own = [i for i in items if "·" not in i]
        lines = [f"ghost use {path};"] if len(own) < len(items) else []
        return "\n".join(lines + ([f"ghost use {path}.{{{', '.join(own)}}};"] if own else []))

    return re.sub(r"(?m)^ghost use (\S+)\.\{(.*)\};$", line, text)


def after():
    names = table()
    for f in texts("crates/*/specs/**/*.antt", "crates/*/proofs/**/*.antt"):
        old = open(f, encoding="utf-8").read()
        new = "".join(re.sub(WORD, lambda m: names.get(m[0], m[0]), line) for line in old.splitlines(keepends=True))
        if new != old:
            open(f, "w", encoding="utf-8").write(new)
    for f in texts("crates/*/src/*.rt"):
        old = open(f, encoding="utf-8").read()
        new = modules(old)
        new = "".join(respell(line, names) if CLAUSE.match(line) else line for line in new.splitlines(keepends=True))
        if new != old:
            open(f, "w", encoding="utf-8").write(new)
    for f in texts("README.md", "docs/*.md"):
        old = open(f, encoding="utf-8").read()
        # in a document a name is told from a word by its form
        told = {a: b for a, b in names.items() if re.search(r"[a-z0-9][A-Z]|^[A-Z].*-", a)}
        new = re.sub(r"`[^`\n]+`", lambda m: re.sub(WORD.replace("\\\\", "\\\\`"), lambda w: names.get(w[0], w[0]), m[0]), old)
        new = re.sub(r"(?<![\w-])[A-Z][a-z]+(?:-\w+)+(?![\w-])", lambda m: told.get(m[0], m[0]), new)
        if new != old:
            open(f, "w", encoding="utf-8").write(new)
    for a, b in sorted(names.items()):
        print(a, b)


def before():
    for f, old, new in BEFORE:
        text = open(f, encoding="utf-8").read()
        if text.count(old) != 1:
            sys.exit(f"{f}: '{old}' does not stand there once")
        open(f, "w", encoding="utf-8").write(text.replace(old, new))


if __name__ == "__main__":
    if sys.argv[1:] == ["before"]:
        before()
    elif sys.argv[1:] == ["after"]:
        after()
    else:
        sys.exit(__doc__)
