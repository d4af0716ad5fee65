#!/usr/bin/env python3
"""tools/graph.py           holds docs/layers.svg to crates.txt
tools/graph.py --write   writes docs/layers.svg first

The picture has the crates in bands, the groups of crates.txt, lowest at the bottom, with a line
from each crate to those that it stands on and does not reach through another. It ends with status 1
where the picture is not what it would write. ./papers does the same.
"""

import re
import sys
from math import fsum

sys.dont_write_bytecode = True
import made
import source
import svg

WIDTH, MARGIN, LABEL = 900, 12, 158
NODE, ROW, PAD = 26, 58, 14  # heights: of a crate's box, from row to row, above and below in a band
SIZE, GAP, THIN = 13, 14, 12  # of names; between boxes; between lines that pass a row
SWEEPS = 24
LEFT, RIGHT = LABEL + MARGIN + 8, WIDTH - MARGIN - 8  # where boxes and lines may lie
MOST = RIGHT - LEFT - 5 * THIN  # so wide the boxes of a row are at most, with room for some lines


def groups(root):
    """The groups of crates.txt: what its comment says, and the crates."""
    found = []
    for line in (root / "crates.txt").read_text().splitlines():
        name, colon, _ = line.partition("#")[0].partition(":")
        if line.startswith("#"):
            found.append((line.lstrip("# ").rstrip(), []))
        elif colon and found:
            found[-1][1].append(name.split()[0])
    return [(said, crates) for said, crates in found if crates]


def reached(listed, crate):
    """The crates below a crate, at any depth."""
    found, left = set(), list(listed[crate])
    while left:
        if (other := left.pop()) not in found:
            found.add(other)
            left += listed[other]
    return found


def below(root):
    """The crates that each stands on, but those that it reaches through another, and the kit's."""
    every = source.crates(root)
    listed = {crate: [other for other in on if other in every] for crate, on in every.items()}
    under = {crate: reached(listed, crate) for crate in listed}
    return {crate: [one for one in on if not any(one in under[other] for other in on)]
            for crate, on in listed.items()}


def width_of(crate):
    """How wide a crate's box is, with the gap beside it."""
    return svg.width_of(crate, SIZE, mono=True) + 16 + GAP


def fitting(crates):
    """Crates that may stand side by side, in rows that are not too wide."""
    rows = [[]]
    for crate in crates:
        if rows[-1] and fsum(map(width_of, [*rows[-1], crate])) > MOST:
            rows.append([])
        rows[-1].append(crate)
    return rows


def rows_of(bands, edges):
    """The rows, lowest first: a band has as many as crates in it stand on each other."""
    rows, spans = [], []
    for _, crates in bands:
        depth = {}
        for crate in crates:
            depth[crate] = max([depth[on] + 1 for on in edges[crate] if on in depth], default=0)
        first = len(rows)
        for level in range(max(depth.values()) + 1):
            rows += fitting([crate for crate in crates if depth[crate] == level])
        spans.append((first, len(rows)))
    return rows, spans


def passes(node):
    """Whether a node is a place where a line passes a row, the crate it leads to and the row; else
    it is a crate."""
    return isinstance(node, tuple)


class Layout:
    """Where boxes and lines lie: each row from left to right, a line that passes a row as a thin
    place in it."""

    def __init__(self, rows, edges):
        self.rows = [list(row) for row in rows]
        self.row = {crate: level for level, row in enumerate(rows) for crate in row}
        self.up, self.down, self.paths, self.x = {}, {}, [], {}
        for crate, others in edges.items():
            for other in others:
                self.join(crate, other)
        self.order()
        self.place()

    def join(self, crate, other):
        """A line, through a place in each row between; lines to one crate share their places."""
        path = [other]
        for level in range(self.row[other] + 1, self.row[crate]):
            through = other, level
            if through not in self.row:
                self.row[through] = level
                self.rows[level].append(through)
            path.append(through)
        path.append(crate)
        for low, high in zip(path, path[1:]):
            if high not in self.up.setdefault(low, []):
                self.up[low].append(high)
                self.down.setdefault(high, []).append(low)
        self.paths.append(path)

    def drawn(self):
        """The lines from the top down, each to where it joins one that came before."""
        met = set()
        for path in self.paths:
            found = []
            for node in reversed(path):
                found.append(node)
                if node in met:
                    break
                if passes(node):
                    met.add(node)
            yield found

    def crossings(self):
        """How often lines cross between neighbouring rows."""
        count = 0
        for row, above in zip(self.rows, self.rows[1:]):
            at = {node: place for place, node in enumerate(above)}
            ends = [at[high] for low in row for high in sorted(self.up.get(low, []), key=at.get)]
            count += sum(one > other for place, one in enumerate(ends) for other in ends[place:])
        return count

    def order(self):
        """Each row by the middle of what its nodes are joined to, up and down in turn; the best
        order that was met is kept."""
        best, fewest = [list(row) for row in self.rows], self.crossings()
        for sweep in range(SWEEPS):
            if sweep % 2 == 0:
                for beside, row in zip(self.rows, self.rows[1:]):
                    self.arrange(row, beside, self.down)
            else:
                for row, beside in reversed(list(zip(self.rows, self.rows[1:]))):
                    self.arrange(row, beside, self.up)
            self.exchange()
            if (count := self.crossings()) < fewest:
                best, fewest = [list(row) for row in self.rows], count
        self.rows = best

    def arrange(self, row, beside, joined):
        """A row by the middle of what its nodes are joined to in the row beside it."""
        at = {node: (place + 0.5) / len(beside) for place, node in enumerate(beside)}
        middle = {}
        for place, node in enumerate(row):
            ends = [at[end] for end in joined.get(node, [])]
            middle[node] = fsum(ends) / len(ends) if ends else (place + 0.5) / len(row)
        row.sort(key=middle.get)

    def exchange(self):
        """Neighbours in a row change places where that lessens the crossings."""
        count = self.crossings()
        for row in self.rows:
            for place in range(len(row) - 1):
                row[place], row[place + 1] = row[place + 1], row[place]
                if (fewer := self.crossings()) < count:
                    count = fewer
                else:
                    row[place], row[place + 1] = row[place + 1], row[place]

    def wide(self, node):
        """How wide a node is, with the gap beside it; a line is thinner where the row is full."""
        if not passes(node):
            return width_of(node)
        row = self.rows[self.row[node]]
        boxes = [width_of(other) for other in row if not passes(other)]
        return min(THIN, (RIGHT - LEFT - fsum(boxes)) / (len(row) - len(boxes)))

    def place(self):
        """The middles: in turn each row is drawn towards what it is joined to, in its order and
        without overlap."""
        for row in self.rows:
            room = (RIGHT - LEFT - fsum(map(self.wide, row))) / (len(row) + 1)
            at = LEFT
            for node in row:
                at += room + self.wide(node) / 2
                self.x[node] = at
                at += self.wide(node) / 2
        for turn in range(60):
            levels = range(len(self.rows))
            for level in levels if turn % 2 else reversed(levels):
                self.settle(self.rows[level])
        for _ in range(4):
            for crate in [node for node in self.row if not passes(node)]:
                self.straighten(crate)

    def straighten(self, crate):
        """The places of the lines to a crate set upright above each other, as far as the rows have
        room for that."""
        runs = []
        for node in sorted(node for node in self.row if passes(node) and node[0] == crate):
            row = self.rows[self.row[node]]
            at, half = row.index(node), self.wide(node) / 2
            low, high = LEFT + half, RIGHT - half
            if at > 0:
                low = self.x[row[at - 1]] + self.wide(row[at - 1]) / 2 + half
            if at + 1 < len(row):
                high = self.x[row[at + 1]] - self.wide(row[at + 1]) / 2 - half
            if runs and max(runs[-1][1], low) <= min(runs[-1][2], high):
                nodes, lowest, highest = runs[-1]
                runs[-1] = nodes + [node], max(lowest, low), min(highest, high)
            else:
                runs.append(([node], low, high))
        for nodes, low, high in runs:
            wish = fsum(self.x[node] for node in nodes) / len(nodes)
            for node in nodes:
                self.x[node] = max(low, min(high, wish))

    def settle(self, row):
        """Each node to the mean of its ends, then pushed apart: runs of nodes that would overlap
        share the shift that suits all of them."""
        runs = []
        for node in row:
            # a long line is to be straight before a short one is
            inner, outer = (8, 2) if passes(node) else (1, 1)
            ends = [(self.x[end], inner if passes(end) else outer)
                    for end in self.up.get(node, []) + self.down.get(node, [])]
            heavy = sum(weight for _, weight in ends) or 1
            wish = fsum(x * weight for x, weight in ends) / heavy if ends else self.x[node]
            # a run: its nodes, its width, and where its left edge would be, by weight
            run = [[node], self.wide(node), (wish - self.wide(node) / 2) * heavy, heavy]
            while runs and runs[-1][2] / runs[-1][3] + runs[-1][1] > run[2] / run[3]:
                before = runs.pop()
                run = [before[0] + run[0], before[1] + run[1],
                       before[2] + run[2] - before[1] * run[3], before[3] + run[3]]
            runs.append(run)
        edge, starts = LEFT, []
        for nodes, width, sums, weight in runs:
            starts.append(max(edge, sums / weight))
            edge = starts[-1] + width
        edge = RIGHT
        for place in reversed(range(len(runs))):
            starts[place] = min(starts[place], edge - runs[place][1])
            edge = starts[place]
        for (nodes, *_), at in zip(runs, starts):
            for node in nodes:
                self.x[node] = at + self.wide(node) / 2
                at += self.wide(node)


def label(said):
    """What a group's comment says, in two: its name, and the rest."""
    name, *rest = re.split(r"[:;,] ", said, maxsplit=1)
    return name[:1].upper() + name[1:], "".join(rest)


def heights(bands, spans):
    """For each band the lines of its label and how high it is."""
    for (said, _), (first, last) in zip(bands, spans):
        name, rest = label(said)
        names = svg.wrapped(name, 13, LABEL - 20, bold=True)
        rests = svg.wrapped(rest, 12, LABEL - 20)
        words = 17 * len(names) + 15 * len(rests) + 16
        yield names, rests, max(2 * PAD + NODE + (last - first - 1) * ROW, words)


def curve(points):
    """A line through points from the top down, upright in each."""
    said = f"M{svg.number(points[0][0])} {svg.number(points[0][1])}"
    for (x1, y1), (x2, y2) in zip(points, points[1:]):
        if x1 == x2:
            said += f"V{svg.number(y2)}"
        else:
            half = (y1 + y2) / 2
            said += "C" + " ".join(map(svg.number, (x1, half, x2, half, x2, y2)))
    return said


def draw_bands(picture, y, bands, spans):
    """The bands with their labels, the highest at y: the middle of each row, and where they end."""
    middles = {}
    every = list(zip(spans, heights(bands, spans)))
    for place, ((first, last), (names, rests, high)) in enumerate(reversed(every)):
        fill = svg.PALE if place % 2 else "#e6eff5"
        picture.box(MARGIN, y, WIDTH - 2 * MARGIN, high, fill, "none", rx="4")
        picture.lines(MARGIN + 10, y + 20, names, 13, bold=True)
        picture.lines(MARGIN + 10, y + 19 + 17 * len(names), rests, 12, step=15, fill=svg.SOFT)
        over = (high - NODE - (last - first - 1) * ROW) / 2
        for level in range(first, last):
            middles[level] = y + over + (last - 1 - level) * ROW + NODE / 2
        y += high + 6
    return middles, y - 6


def draw_lines(picture, layout, middles):
    for path in layout.drawn():
        x, middle = zip(*[(layout.x[node], middles[layout.row[node]]) for node in path])
        points = [(x[0], middle[0] + NODE / 2)]
        for at in range(1, len(path) - 1):
            points += [(x[at], middle[at] - NODE / 2), (x[at], middle[at] + NODE / 2)]
        points.append((x[-1], middle[-1] - NODE / 2))
        picture.put("path", d=curve(points), fill="none", stroke="#5f7f95", stroke_width="1.3")


def draw_boxes(picture, layout, crates, middles):
    for crate in crates:
        wide, x, middle = width_of(crate) - GAP, layout.x[crate], middles[layout.row[crate]]
        picture.box(x - wide / 2, middle - NODE / 2, wide, NODE, svg.GROUND, svg.BLUE,
                    stroke_width="1.3", rx="4")
        picture.words(x, middle + 4.5, crate, SIZE, mono=True, anchor="middle")


def drawn(root):
    """The picture of a tree's crates."""
    bands, edges = groups(root), below(root)
    rows, spans = rows_of(bands, edges)
    layout = Layout(rows, edges)
    said = "; ".join(f"{label(said)[0]}: {', '.join(crates)}" for said, crates in bands)
    picture = svg.Picture(WIDTH, "The crates in layers", (
        f"{len(edges)} crates in {len(bands)} bands, lowest at the bottom, a line from each to"
        f" those that it stands on. From the bottom up: {said}."))
    caption = ("A line goes down from a crate to each that it stands on, but those that it reaches"
               " through another. Lines to one crate join.")
    picture.words(MARGIN + 10, 26, caption, 12, fill=svg.SOFT)
    middles, low = draw_bands(picture, 40, bands, spans)
    draw_lines(picture, layout, middles)
    draw_boxes(picture, layout, edges, middles)
    return picture.text(low + MARGIN)


def wrong(root, write=False):
    yield from made.whole(root, "docs/layers.svg", drawn(root), write)


if __name__ == "__main__":
    made.main(sys.modules[__name__])
