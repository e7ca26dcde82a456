"""Draws docs/layers.svg from crates.txt: a band for each layer, a box for each crate, lines down to what it cites.
With --check it writes nothing, and exits 1 where the picture is not what would be drawn."""
import sys
import textwrap
from html import escape
from itertools import accumulate, pairwise
from math import fsum

import crates

PICTURE = crates.ROOT / "docs" / "layers.svg"
WIDTH, MARGIN, LABELS, CAPTION = 1200, 20, 168, 62  # LABELS: width of the column of headings
BOX_WIDTH, BOX_HEIGHT, ROW, PAD, GAP, SPACE = 112, 30, 62, 18, 10, 24
# one for each layer from the bottom: the band; its headings, borders and the lines to its crates
COLOURS = [("#f1f0ec", "#77735f"), ("#eaf1fa", "#3d70ad"), ("#eaf5ec", "#33804f"), ("#fdf2e3", "#b06d12"),
           ("#fae9ec", "#b03c54"), ("#e6f4f4", "#1f7a7d"), ("#f1ebf8", "#7550a3")]
NOTES = ["A line leads from a crate down to one that it cites; its colour is that of the cited crate's layer. "
         "A line is left out where a longer way along lines says the same.",
         "Nearly every crate cites some of the definitions: no lines are drawn to them. "
         "In their band a crate stands to the right of those that it cites."]


class Graph(crates.Citations):
    """Rows of items from the bottom up. An item is a crate's name, or (name, row) where lines to it pass a row."""

    def __init__(self, layers):
        super().__init__(layers)
        self.rows, self.first_row = [], []
        for layer in layers:
            self.first_row.append(len(self.rows))
            rows = self.by_depth(layer)
            # no line leads to the definitions: they stand side by side
            self.rows += rows if self.rows else [sum(rows, [])]
        self.row = {name: r for r, row in enumerate(self.rows) for name in row}
        self.segments = self.lines()

    def lines(self):
        """Pairs of items in neighbouring rows, the lower one first. Lines to one crate share their way."""
        found = {}
        for upper in self.cites:
            for lower in (d for d in self.nearest(upper) if self.layer[d] > 0):
                way = [lower] + [(lower, r) for r in range(self.row[lower] + 1, self.row[upper])] + [upper]
                for item in (passed for passed in way[1:-1] if passed not in self.row):
                    self.row[item] = item[1]
                    self.rows[item[1]].append(item)
                found.update(dict.fromkeys(pairwise(way)))
        return list(found)

    def beside(self, item, up):
        """The items of the row above or below that a line joins to this one."""
        return [b for a, b in self.segments if a == item] if up else [a for a, b in self.segments if b == item]

    def crossings(self, rows):
        place = {item: i for row in rows for i, item in enumerate(row)}
        ends = [(self.row[a], place[a], place[b]) for a, b in self.segments]
        return sum(r == s and (a - c) * (b - d) < 0 for i, (r, a, b) in enumerate(ends) for s, c, d in ends[:i])


def swept(graph, rows, up):
    """Each row in the order of the mean place of what its items are joined to."""
    rows = [list(row) for row in rows]
    for row in rows[:0:-1] if up else rows[1:]:
        place = {item: i / max(1, len(other) - 1) for other in rows for i, item in enumerate(other)}
        row.sort(key=lambda item: mean([place[n] for n in graph.beside(item, up)], place[item]))
    return rows


def swapped(graph, rows):
    """Neighbours swapped where that takes a crossing away."""
    for row in rows[1:]:
        for i in range(len(row) - 1):
            before = graph.crossings(rows)
            row[i:i + 2] = row[i + 1], row[i]
            if graph.crossings(rows) >= before:
                row[i:i + 2] = row[i + 1], row[i]
    return rows


def ordered(graph):
    tried = [graph.rows]
    for sweep in range(24):
        tried.append(swapped(graph, swept(graph, tried[-1], up=sweep % 2 == 1)))
    return min(tried, key=graph.crossings)


def mean(numbers, otherwise):
    return fsum(numbers) / len(numbers) if numbers else otherwise


def half(item):
    return BOX_WIDTH / 2 if isinstance(item, str) else -5  # a line may come nearer to a box than a box


def placed(row, wanted):
    """The places nearest to those wanted that keep the order and leave room; items that touch move as one run."""
    room = list(accumulate((half(a) + SPACE + half(b) for a, b in pairwise(row)), initial=0))
    runs = []  # of items: where the run starts, its weight, how many
    for item, offset in zip(row, room):
        runs.append((wanted[item] - offset, 1 if isinstance(item, str) else 50, 1))
        while len(runs) > 1 and runs[-2][0] > runs[-1][0]:
            (a, weight_a, n), (b, weight_b, m) = runs.pop(-2), runs.pop()
            runs.append(((a * weight_a + b * weight_b) / (weight_a + weight_b), weight_a + weight_b, n + m))
    low, high = LABELS + MARGIN + half(row[0]), WIDTH - MARGIN - 14 - half(row[-1]) - room[-1]
    starts = [min(max(start, low), high) for start, _, length in runs for _ in range(length)]
    return {item: start + offset for item, start, offset in zip(row, starts, room)}


def wish(graph, x, item, bend):
    """A box wants to stand amid what it is joined to; a line that passes rows wants to be straight, `bend` apart."""
    joined = mean([x[n] for n in graph.beside(item, True) + graph.beside(item, False)], x[item])
    way = [x[n] for n in x if n[0] == item[0] and not isinstance(n, str)]
    return joined if isinstance(item, str) else bend * joined + (1 - bend) * mean(way, joined)


def across(graph, rows):
    """Where each item stands from left to right."""
    x, step = {}, BOX_WIDTH + SPACE
    for row in rows:
        left = (LABELS + WIDTH - step * (len(row) - 1)) / 2
        x.update(placed(row, {item: left + step * i for i, item in enumerate(row)}))
    for sweep in range(200):
        for row in rows[1:] if sweep % 2 else rows[:0:-1]:
            x.update(placed(row, {item: wish(graph, x, item, max(0, 0.3 - sweep / 300)) for item in row}))
    return x


def heights(graph, layers):
    """Top and bottom of each band, the top of each row's boxes, and the picture's height."""
    total = MARGIN + len(graph.rows) * ROW + len(layers) * (2 * PAD + BOX_HEIGHT - ROW + GAP) - GAP + CAPTION
    bottom, bands, tops = total - CAPTION, [], []
    for first, after in pairwise(graph.first_row + [len(graph.rows)]):
        tops += [bottom - PAD - BOX_HEIGHT - i * ROW for i in range(after - first)]
        bands.append((tops[-1] - PAD, bottom))
        bottom = tops[-1] - PAD - GAP
    return bands, tops, total


def port(graph, x, item, other, up):
    """Lines leave a box side by side, in the order of where they lead."""
    ends = sorted(graph.beside(item, up), key=lambda n: x[n])
    return x[item] + (16 * (ends.index(other) - (len(ends) - 1) / 2) if isinstance(item, str) else 0)


def line(graph, x, tops, lower, upper):
    x0, x1 = port(graph, x, lower, upper, True), port(graph, x, upper, lower, False)
    y0, y1 = tops[graph.row[lower]], tops[graph.row[upper]] + BOX_HEIGHT
    past = "" if isinstance(upper, str) else f" V{y1 - BOX_HEIGHT}"
    colour, middle = COLOURS[graph.layer[lower if isinstance(lower, str) else lower[0]]][1], (y0 + y1) / 2
    return f'<path d="M{x0:.1f} {y0} C{x0:.1f} {middle} {x1:.1f} {middle} {x1:.1f} {y1}{past}" stroke="{colour}"/>'


def box(graph, x, tops, crate):
    left, top, colour = x[crate.name] - BOX_WIDTH / 2, tops[graph.row[crate.name]], COLOURS[graph.layer[crate.name]][1]
    return (f'<g><title>{escape(crate.sentence)}</title><rect x="{left:.1f}" y="{top}" width="{BOX_WIDTH}" '
            f'height="{BOX_HEIGHT}" rx="7" fill="#ffffff" stroke="{colour}" stroke-width="1.4"/>'
            + text(f"{x[crate.name]:.1f}", top + 20, 14, crate.name, 'text-anchor="middle"') + "</g>")


def text(x, y, size, words, more):
    return f'<text x="{x}" y="{y}" font-size="{size}" {more}>{escape(words)}</text>'


def band(heading, colour, top, bottom):
    title, _, rest = heading.partition(":")
    lines = [(15, part, f'font-weight="bold" fill="{colour[1]}"') for part in textwrap.wrap(title, 16)]
    lines += [(13, part, 'fill="#555555"') for part in textwrap.wrap(rest.strip(), 21)]
    y = (top + bottom) / 2 - 9 * (len(lines) - 1) + 5
    return [f'<rect x="{MARGIN}" y="{top}" width="{WIDTH - 2 * MARGIN}" height="{bottom - top}" rx="10" '
            f'fill="{colour[0]}"/>'] + [text(MARGIN + 16, y + 18 * i, *part) for i, part in enumerate(lines)]


def picture(layers):
    graph = Graph(layers)
    x = across(graph, ordered(graph))
    bands, tops, height = heights(graph, layers)
    size = f'width="{WIDTH}" height="{height}"'
    parts = [f'<svg xmlns="http://www.w3.org/2000/svg" {size} viewBox="0 0 {WIDTH} {height}" role="img" '
             'font-family="Helvetica, Arial, sans-serif" fill="#222222">',
             "<title>The crates by layers</title>", f'<rect {size} fill="#ffffff"/>']
    for layer, colour, ends in zip(layers, COLOURS, bands, strict=True):
        parts += band(layer.heading, colour, *ends)
    lines = [line(graph, x, tops, *segment) for segment in graph.segments]
    parts += ['<g fill="none" stroke-width="1.5" stroke-opacity="0.7">', *lines, "</g>"]
    parts += [box(graph, x, tops, crate) for layer in layers for crate in layer.crates]
    for i, note in enumerate(NOTES):
        parts.append(text(MARGIN + 4, height - CAPTION + 27 + 19 * i, 13, note, 'fill="#555555"'))
    return "\n".join([*parts, "</svg>", ""])


def main(arguments):
    drawn = picture(crates.layers())
    if arguments != ["--check"]:
        PICTURE.write_text(drawn, encoding="utf-8")
    elif not PICTURE.is_file() or PICTURE.read_text(encoding="utf-8") != drawn:
        sys.exit("docs/layers.svg is not what crates.txt gives: run python3 scripts/layers.py")


if __name__ == "__main__":
    main(sys.argv[1:])
