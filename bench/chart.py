#!/usr/bin/env python3
"""bench/chart.py <docs/SPEED.md   the ratios of a table of times as an SVG picture

Takes from standard input the first table that `bench/run table` prints, alone or in a paper, and
prints the chart of it: for each class Norrabist / tls-parser, default release and LTO, the floor as
a line across each bar, and a line each for tls-parser and for the most time that may be taken.
bench/run draws target/bench/speed.svg with it, ./papers holds docs/speed.svg to docs/SPEED.md.
"""

import pathlib
import sys

sys.dont_write_bytecode = True
sys.path.insert(0, str(pathlib.Path(__file__).resolve().parent.parent / "tools"))
import made
import svg

MOST = 1.5  # so many times as long as tls-parser Norrabist may take at most
COLUMNS = ("Class", "Norrabist", "tls-parser", "floor", "Ratio", "Asked")
UNITS = {"ns": 1, "µs": 1000}
PROFILES = (("", "default release", svg.BLUE), (", LTO", "LTO on the Rust side", svg.LIGHT_BLUE))
WIDTH, LEFT, RIGHT = 900, 200, 860
BAR, PAIR = 14, 38  # heights: of a bar, of a class with its two


def cells(line):
    return [cell.strip() for cell in line.strip().strip("|").split("|")]


def table(text):
    """The rows of the first table of times, each a dictionary by the names of the columns."""
    rows, names = [], None
    for line in text.splitlines():
        if names and not line.startswith("|"):
            break
        if names and not line.startswith("|---"):
            rows.append(dict(zip(names, cells(line))))
        elif not names and line.startswith("|") and set(COLUMNS) <= set(cells(line)):
            names = cells(line)
    if not rows:
        raise ValueError("there is no table with the columns " + ", ".join(COLUMNS))
    return rows


def time(said):
    """Nanoseconds, and which part of them rounding may have moved; none where the cell is blank."""
    if not said:
        return None, None
    figure, _, unit = said.partition(" ")
    if unit not in UNITS or not float(figure) > 0:
        raise ValueError(f"{said} is no time")
    half = 0.5 / 10 ** len(figure.partition(".")[2])
    return float(figure) * UNITS[unit], half / float(figure)


def ratios(row, profile):
    """Norrabist / tls-parser and floor / tls-parser; none where a cell is blank."""
    times = [time(row.get(name + profile, "")) for name in COLUMNS[1:4]]
    (ours, moved), (theirs, also), (floor, _) = times
    said = row.get("Ratio" + profile, "")
    if not (ours and theirs and said):
        return None, None
    # the ratio is of times that were not rounded yet, and rounded itself
    if abs(ours / theirs - float(said)) > 0.0051 + ours / theirs * (moved + also) * 1.1:
        raise ValueError(f"{row['Class']}: the ratio{profile} {said} is not that of its times")
    return float(said), floor / theirs if floor else None


class Axis:
    """The way from a ratio to a place in the picture."""

    def __init__(self, found):
        self.steps = 8
        while self.steps / 5 < max(found):
            self.steps += 1

    def at(self, ratio):
        return LEFT + (RIGHT - LEFT) * ratio / (self.steps / 5)


def bars(picture, axis, row, y):
    """The two bars of a class, each with its ratio and the floor as a line across."""
    picture.words(LEFT - 10, y + BAR + 5, row["Class"], 13, mono=True, anchor="end")
    for place, (profile, _, fill) in enumerate(PROFILES):
        ours, floor = ratios(row, profile)
        top = y + place * (BAR + 1)
        if ours is None:
            picture.words(LEFT + 6, top + BAR - 3, "not measured", 12, fill=svg.SOFT)
            continue
        picture.box(LEFT, top, axis.at(ours) - LEFT, BAR, fill, svg.BLUE)
        end = max(axis.at(ours), axis.at(floor or 0))
        # on a ground of its own, since a line may pass there
        picture.box(end + 3, top + 1, 33, BAR - 2, svg.GROUND, "none")
        picture.words(end + 6, top + BAR - 2.5, f"{ours:.2f}", 12)
        if floor:
            where = axis.at(floor)
            picture.line(where, top - 0.5, where, top + BAR + 0.5, svg.GROUND, stroke_width="5")
            picture.line(where, top - 0.5, where, top + BAR + 0.5, svg.INK, stroke_width="2.5")


def legend(picture, y):
    x = LEFT
    for _, said, fill in PROFILES:
        picture.box(x, y - 11, 26, 12, fill, svg.BLUE)
        picture.words(x + 33, y, said, 13)
        x += 60 + svg.width_of(said, 13)
    picture.line(x + 4, y - 12, x + 4, y + 2, svg.INK, stroke_width="2.5")
    picture.words(x + 12, y, "the floor, a reader written by hand", 13)


def drawn(text):
    """The picture of the table in a text."""
    rows = table(text)
    found = [(row["Class"], *ratios(row, "")) for row in rows]
    axis = Axis([MOST, *(one for row in rows for profile, _, _ in PROFILES
                         for one in ratios(row, profile) if one)])
    said = "; ".join(f"{name} {ours:.2f}, floor {floor:.2f}" for name, ours, floor in found
                     if ours and floor)
    picture = svg.Picture(WIDTH, "Time of Norrabist against that of tls-parser, by class", (
        "Bars: the time of Norrabist as a part of that of tls-parser, default release and LTO; a"
        " line across each bar is the floor, a reader written by hand. Lines: tls-parser at 1, and"
        f" {MOST} as the most time that may be taken. Default release: {said}."))
    picture.words(20, 30, "Time of Norrabist / time of tls-parser", 17, bold=True)
    picture.words(RIGHT + 20, 30, "shorter is faster", 13, fill=svg.SOFT, anchor="end")
    legend(picture, 58)
    top = 108
    low = top + PAIR * len(rows)
    for step in range(axis.steps + 1):
        x = axis.at(step / 5)
        picture.line(x, top - 8, x, low, "#dddddd")
        picture.words(x, low + 18, f"{step / 5:.1f}", 13, fill=svg.SOFT, anchor="middle")
    for ratio, words, stroke, dashes in ((1, "tls-parser", svg.INK, None),
                                         (MOST, f"at most {MOST}", svg.RED, "7 4")):
        x = axis.at(ratio)
        picture.line(x, top - 14, x, low, stroke, stroke_width="2", stroke_dasharray=dashes)
        picture.words(x, top - 19, words, 13, fill=stroke, bold=True, anchor="middle")
    for place, row in enumerate(rows):
        bars(picture, axis, row, top + place * PAIR)
    return picture.text(low + 34)


def wrong(root, write=False):
    try:
        text = drawn((root / "docs" / "SPEED.md").read_text())
    except ValueError as fault:
        yield f"docs/speed.svg cannot be made of docs/SPEED.md: {fault}"
        return
    yield from made.whole(root, "docs/speed.svg", text, write)


def main(words):
    if words:
        print(__doc__, end="", file=sys.stderr)
        return 2
    try:
        print(drawn(sys.stdin.buffer.read().decode()), end="")
    except ValueError as fault:
        print(f"bench/chart.py: {fault}", file=sys.stderr)
        return 1
    return 0


if __name__ == "__main__":
    sys.exit(main(sys.argv[1:]))
