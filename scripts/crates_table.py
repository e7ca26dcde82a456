"""Writes the table under "## The crates" in docs/ARCHITECTURE.md from crates.txt and the files of each crate.

python3 scripts/crates_table.py                keeps the seconds that the page has
python3 scripts/crates_table.py --times LOG    takes them from the log of a gate run: lines `rt: NAME proved (N s)`
python3 scripts/crates_table.py --check        exits 1 where the page's table differs from the tree, seconds apart
"""
import argparse
import difflib
import re
import sys
from pathlib import Path

import crates

PAGE = crates.ROOT / "docs" / "ARCHITECTURE.md"
HEAD = ["| Crate | What it is | Code | Specs | Proofs | Edits | s |", "|---|---|---|---|---|---|---|"]
TABLE = re.compile(r"(?<=\n## The crates\n)(.*?\n)(\|.*?\n)(?!\|)", re.DOTALL)
ROW = re.compile(r"^\| `(\w+)` \|.*\| ([^|]*) \|$", re.MULTILINE)
PROVED = re.compile(r"^rt: (\w+) proved \((\d+) s\)", re.MULTILINE)
NO_TIME = "–"


def lines(crate, folder):
    """Lines that are not blank in all files of a crate's folder."""
    files = [path for path in (crates.ROOT / "crates" / crate / folder).rglob("*") if path.is_file()]
    return sum(1 for path in files for line in path.read_text(encoding="utf-8").splitlines() if line.strip())


def edits(crate):
    return len(list((crates.ROOT / "crates" / crate / "must-fail").glob("*.edit")))


def row(crate, seconds):
    counts = [lines(crate.name, folder) for folder in ("src", "specs", "proofs")] + [edits(crate.name)]
    cells = [f"`{crate.name}`", crate.sentence.removesuffix("."), *map(str, counts), seconds]
    return f"| {' | '.join(cells)} |"


def table(times):
    rows = list(HEAD)
    for layer in crates.layers():
        rows.append(f"| **{layer.heading}** | | | | | | |")
        rows += [row(crate, times.get(crate.name, NO_TIME)) for crate in layer.crates]
    return "".join(line + "\n" for line in rows)


def without_seconds(text):
    return [line.rsplit("|", 2)[0] if ROW.match(line) else line for line in text.splitlines()]


def differences(old, new):
    old, new = without_seconds(old), without_seconds(new)
    return list(difflib.unified_diff(old, new, "the page", "the tree", n=0, lineterm=""))


def arguments():
    parser = argparse.ArgumentParser(description=__doc__, formatter_class=argparse.RawDescriptionHelpFormatter)
    parser.add_argument("--times", metavar="LOG")
    parser.add_argument("--check", action="store_true")
    return parser.parse_args()


def main():
    asked = arguments()
    page = PAGE.read_text(encoding="utf-8")
    found = TABLE.search(page) or sys.exit('docs/ARCHITECTURE.md has no table under "## The crates"')
    old = found[2]
    if asked.check:
        different = differences(old, table({}))
        if different:
            sys.exit("\n".join(different + ["the table of docs/ARCHITECTURE.md: run python3 scripts/crates_table.py"]))
        return
    # all of one run: a crate that the log lacks has no time
    times = PROVED.findall(Path(asked.times).read_text(encoding="utf-8")) if asked.times else ROW.findall(old)
    if not times:
        sys.exit(f"{asked.times or PAGE} has no time of any crate")
    new = table(dict(times))
    PAGE.write_text(page[:found.start(2)] + new + page[found.end(2):], encoding="utf-8")


if __name__ == "__main__":
    main()
