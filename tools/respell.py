#!/usr/bin/env python3
"""Brings the repository's own definitions and lemmas to snake case, after port.py.

usage: python3 tools/respell.py [--list]      at the top of the repository

Own names are those that specs/ and proofs/ declare: definitions, lemmas, fields, constructors. camelCase and kebab-case become snake_case;
types, modules and facts keep their capital, and constants their dashes (HEADER-WORDS), since the source has constants of the other spelling.
Names of a library keep their spelling in each file that imports them. Proofs of a function (proofs/F/), whose names Rattle makes, change only
in names that such a file imports from this repository. --list prints the table and writes nothing.
"""

import os
import re
import sys

NAME = r"[A-Za-z0-9_'₀-₉ℓα-ωΑ-Ω∷-]+"
TOKEN = re.compile(r"(?<![\w'₀-₉-])[A-Za-z][\w'₀-₉-]*")
SIGNATURE = re.compile(r"^\s*(?:abbrev\s+|unfoldable\s+)?(?:pub\s+)?(?:abbrev\s+|unfoldable\s+)?([A-Za-z][\w'₀-₉-]*)(?:\s*\{[^}]*\})?\s*:(?:\s|$)")
PARAMETERS = re.compile(r"[({]\s*([A-Za-z][\w'₀-₉ -]*?)\s*:")
USE = re.compile(r"^\s*(?:pub\s+|ghost\s+)*use\s+([\w.◌]+?)(?:\.\{(.*?)\})?;?\s*$", re.S)


def crates():
    with open("crates.txt", encoding="utf-8") as f:
        return [l.split(":")[0].split()[0] for l in f if l.strip() and not l.startswith("#")]


def walk(ending):
    for folder, dirs, files in os.walk("crates"):
        dirs[:] = sorted(d for d in dirs if d != "out")
        for n in sorted(files):
            if n.endswith(ending):
                yield os.path.join(folder, n)


def read(p):
    with open(p, encoding="utf-8") as f:
        return f.read()


def is_walk(p):
    """A file of the proof of one function."""
    return re.search(r"/proofs/[^/]+/[^/]+\.antt$", p) is not None


def statements(text):
    """The use lines of a file: (module, names or None)."""
    found = []
    for m in re.finditer(r"^[ \t]*(?:pub\s+|ghost\s+)*use\s+([\w.]+?)(?:\.\{([^}]*)\})?(?:\s+as\s+\S+)?;?[ \t]*$", text, re.M):
        found.append((m[1], [n.strip().split(" as ")[0].strip() for n in m[2].split(",")] if m[2] else None))
    return found


def spelled(name):
    if re.fullmatch(r"[A-Z][A-Z0-9]*(-[A-Z0-9]+)*", name) and len(name) > 1:
        return name
    if name[0].isupper():
        return name.replace("-", "_")
    out = re.sub(r"(?<=[a-z0-9])([A-Z])(?=[a-z])", lambda m: "_" + m[1].lower(), name)
    return out.replace("-", "_")


def code_and_comments(text, comment):
    """Pieces of a text: (is it code, piece)."""
    at = 0
    for m in re.finditer(comment, text, re.M):
        yield True, text[at:m.start()]
        yield False, m[0]
        at = m.end()
    yield True, text[at:]


def own_names():
    own = {}
    for p in walk(".antt"):
        if is_walk(p):
            continue
        for line in read(p).split("\n"):
            m = SIGNATURE.match(line)
            if m and not line.lstrip().startswith("--"):
                own.setdefault(m[1], set()).add(p)
    return own


def main():
    own = own_names()
    names = set(crates())
    table = {n: spelled(n) for n in own if spelled(n) != n}
    foreign = set()
    for ending in (".antt", ".rt"):
        for p in walk(ending):
            for module, items in statements(read(p)):
                part = module.split(".")
                if not (part[0] == "Rattle" and len(part) > 1 and part[1] in names):
                    foreign.update(items or [])
    told = {}
    for n in own:
        told.setdefault(table.get(n, n), set()).add(n)
    for new, olds in sorted(told.items()):
        if len(olds) > 1:
            # where names fall together the definition keeps the name, which had a capital inside, and a lemma gets _lem
            definition = [o for o in olds if re.search(r"[a-z][A-Z]", o)] or [o for o in olds if "-" not in o]
            for o in olds:
                if o != definition[0]:
                    table[o] = new + "_lem"
            print("together:", new, "<-", *(f"{o} -> {table.get(o, o)}" for o in sorted(olds)))
        if new in foreign and len(olds) > 0 and any(o in table for o in olds):
            print("a library's too:", new, "<-", *sorted(olds))
    if "--list" in sys.argv:
        for old, new in sorted(table.items()):
            print(f"{old} {new}")
        return
    changed = 0
    for ending, comment in ((".antt", r"--[^\n]*$"), (".rt", r"//[^\n]*$")):
        for p in walk(ending):
            text = read(p)
            keep = set()
            mine = set()
            for module, items in statements(text):
                part = module.split(".")
                if part[0] == "Rattle" and len(part) > 1 and part[1] in names:
                    mine.update(items or [])
                else:
                    keep.update(items or [])

            def turn(m):
                n = m[0]
                if n not in table or n in keep:
                    return n
                if is_walk(p) and n not in mine:
                    # a field of a record of this repository; a name that Rattle makes is not in the table under another spelling
                    field = m.start() > 0 and m.string[m.start() - 1] == "." and not table[n].endswith("_lem")
                    return table[n] if field else n
                return table[n]

            out = []
            for is_code, piece in code_and_comments(text, comment):
                if ending == ".rt" and is_code:
                    # clauses and ghost lines alone: functions, fields and locals of the source keep their names, which have no capital inside
                    piece = TOKEN.sub(lambda m: turn(m) if re.search(r"[A-Z']|-", m[0]) else m[0], piece)
                elif is_code:
                    piece = TOKEN.sub(turn, piece)
                else:
                    piece = re.sub(r"`([^`]+)`", lambda m: "`" + TOKEN.sub(turn, m[1]) + "`", piece)
                out.append(piece)
            new = "".join(out)
            if new != text:
                with open(p, "w", encoding="utf-8") as f:
                    f.write(new)
                changed += 1
    edits = 0
    for p in walk(".edit"):
        text = read(p)
        new = TOKEN.sub(lambda m: table.get(m[0], m[0]) if re.search(r"[a-z][A-Z]|-", m[0]) else m[0], text)
        if new != text:
            with open(p, "w", encoding="utf-8") as f:
                f.write(new)
            edits += 1
    print(f"respelled {len(table)} names in {changed} files and {edits} edits")


main()
