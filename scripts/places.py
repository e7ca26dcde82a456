#!/usr/bin/env python3
"""Counts the places of older forms in crates/*/src, by the points of docs/DESIGN-PASS.md.

    python3 scripts/places.py [--list] [COMMIT]

Without a commit it reads the files as they stand. --list prints each place."""
import re
import subprocess
import sys
from collections import Counter, defaultdict
from pathlib import Path

ROOT = Path(__file__).resolve().parent.parent
REFUSED = r"(?:\d+|ACCEPTED|BAD_LOAD|NO_STATE|UNSOUND|NO_TRACE|SHORT_BUFFER|refused|memory)"
LINE_RULES = {
    "1 own enum of the shape of Option": r"^(pub )?enum (Found|Victim|Replacement|Place)\b",
    "1 number returned for a refusal or for none": rf"^\s+return {REFUSED};",
    "1 number kept beside what it refuses": r"^\s+(pub )?number: u32,",
    "1 constant for a kind or a refusal": r"^const (READ|WRITE|PURGE|TICK|PIN|UNPIN|VALUELESS|HIT|ENTERED|REPLACED|PURGED|ABSENT|FLUSHED|ALL_PINNED|PINNED|PURGE_REFUSED|ACCEPTED|UNSOUND|SHORT_BUFFER|BAD_LOAD|NO_STATE|NO_TRACE|LAST_NAMED): u32",
    "1 number compared with 0 or a kind": r"^\s+if (memory|number|refused|kind|k|e|b|which|o\.number) (==|!=|<=|>) (0|[A-Z_]+|[0-9])",
    "3 loop that counts by hand": r"^\s+while ",
    "4 derive missing beside Clone and Copy": r"^#\[derive\(Clone, Copy\)\]",
    "4 conversion of a byte or a flag by hand": r"wide\(|\.modified as u32|fn join\(|return layout::MARKED;|^\s+return 1;",
    "4 field named twice": r"^\s+([a-z_]+): \1,$",
    "4 truth value by branches": r"^\s+return (true|false);",
    "6 length or room beside a buffer": r"fn \w+\([^)]*&(mut )?\[[^)]*\b(len|n|asked): usize",
    "7 step chosen by a number or a flag": r"^\s+if (kind|which|tick|written|on)\b",
}


def sources(commit):
    if commit:
        names = subprocess.check_output(["git", "ls-tree", "-r", "--name-only", commit, "crates"], cwd=ROOT, text=True)
        for name in names.split():
            if re.match(r"crates/\w+/src/.*\.rt$", name):
                yield name, subprocess.check_output(["git", "show", f"{commit}:{name}"], cwd=ROOT, text=True)
    else:
        for path in sorted(ROOT.glob("crates/*/src/**/*.rt")):
            yield str(path.relative_to(ROOT)), path.read_text()


def functions(text):
    """Name, head and body of each function."""
    for m in re.finditer(r"^( *)(?:pub )?(?:const )?(?:extern \"C\" )?fn (\w+)", text, re.M):
        end = re.compile(rf"^{m.group(1)}}}$", re.M).search(text, m.end())
        whole = text[m.start():end.end()]
        cut = re.search(rf"^{m.group(1)}{{$|\{{\n", whole, re.M)
        brace = re.search(rf"\n{m.group(1)}\{{\n", whole) or cut
        yield m.group(2), whole[:brace.start()], whole[brace.start():]


def conjuncts(head):
    """The facts that a function asks, each without its outer brackets."""
    for clause in re.findall(r"requires(?: \w+)? \{(.*?)\}\n", head + "\n", re.S):
        depth, part, parts = 0, "", []
        for c in " ".join(clause.split()):
            depth += c in "(["
            depth -= c in ")]"
            if c == "×" and depth == 0:
                parts.append(part)
                part = ""
            else:
                part += c
        for fact in parts + [part]:
            yield fact.strip().strip("()").strip()


def shape(body):
    """A body with its constants, numbers and called names made alike."""
    body = re.sub(r"//.*", "", body)
    body = re.sub(r"\b[a-z_]+::(\w+::)?", "", body)
    body = re.sub(r"\b[A-Z][A-Z_0-9]+\b|\b\d+\b|\btrue\b|\bfalse\b", "K", body)
    body = re.sub(r"\b(\w+)\(", "f(", body)
    return " ".join(body.split())


def places(commit):
    found = defaultdict(list)
    asked, asks, twins, wide = Counter(), defaultdict(list), defaultdict(list), []
    for name, text in sources(commit):
        for number, line in enumerate(text.split("\n"), 1):
            for rule, pattern in LINE_RULES.items():
                if re.search(pattern, line):
                    found[rule].append(f"{name}:{number}: {line.strip()}")
        for function, head, body in functions(text):
            for fact in set(conjuncts(head)):
                asked[fact] += 1
                asks[fact].append(f"{name} {function}")
            if body.count("\n") > 2:
                twins[shape(body)].append(f"{name} {function}")
            parameters = head[head.index("(") + 1:]
            row = re.findall(r"(\w+): (?!&)(\w+)", parameters.split("->")[0].split("\n    requires")[0])
            if len(row) > 6:
                wide.append(f"{name} {function}: {len(row)}")
    for group in twins.values():
        if len(group) > 1:
            found["2 functions alike but for a name, a number or a constant"] += group
    for fact, n in asked.items():
        if n >= 3 and "now" not in fact and "old" not in fact:
            found["5 fact about a value asked by three or more"] += [f"{fact}: {who}" for who in asks[fact]]
    found["5 more than six parameters beside slices"] += wide
    return found


def main():
    args = [a for a in sys.argv[1:] if a != "--list"]
    found = places(args[0] if args else None)
    for rule in sorted(set(found) | set(LINE_RULES)):
        print(f"{len(found[rule]):4}  {rule}")
        if "--list" in sys.argv:
            for place in found[rule]:
                print("        " + place)


main()
