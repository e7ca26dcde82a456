"""Reads crates.txt: the layers in the file's order, and the crates of each with their sentence and dependencies."""
from pathlib import Path
from typing import NamedTuple

ROOT = Path(__file__).resolve().parent.parent


class Crate(NamedTuple):
    name: str
    sentence: str
    cites: list[str]


class Layer(NamedTuple):
    heading: str
    crates: list[Crate]


def layers():
    """A heading begins with "# =="; the comment right above a crate is its sentence; a blank line ends a comment."""
    found, comment = [], []
    for line in (ROOT / "crates.txt").read_text(encoding="utf-8").splitlines():
        if line.startswith("#") and not line.startswith("# =="):
            comment.append(line[1:].strip())
            continue
        if line.startswith("# =="):
            found.append(Layer(line[4:].strip(), []))
        elif ":" in line:
            name, cites = line.split(":", 1)
            # "staticlib" may stand behind the name
            found[-1].crates.append(Crate(name.split()[0], " ".join(comment), cites.split()))
        comment = []
    return found


class Citations:
    """Who cites whom among the crates of the tree; the kit's crates are left out."""

    def __init__(self, layers):
        self.layer = {c.name: i for i, layer in enumerate(layers) for c in layer.crates}
        self.cites = {c.name: [d for d in c.cites if d in self.layer] for layer in layers for c in layer.crates}

    def depth(self, name):
        """How many crates of its own layer stand below it, one under the other."""
        return 1 + max((self.depth(d) for d in self.cites[name] if self.layer[d] == self.layer[name]), default=-1)

    def by_depth(self, layer):
        """The names of a layer's crates in rows, those of depth 0 first."""
        depths = {c.name: self.depth(c.name) for c in layer.crates}
        return [[name for name in depths if depths[name] == d] for d in range(1 + max(depths.values()))]

    def reached(self, name):
        return set(self.cites[name]).union(*map(self.reached, self.cites[name]))

    def nearest(self, name):
        """What it cites, without what another cited crate reaches."""
        return [d for d in self.cites[name] if not any(d in self.reached(other) for other in self.cites[name])]
