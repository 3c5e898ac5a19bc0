#!/usr/bin/env python3
"""Draws docs/layers.svg: the crates of crates.txt by layers, each above those that it stands on.

A line is drawn to a crate below unless another line leads there already through a crate between. Libraries of the kit
aren't drawn. Run it from anywhere; it writes the same bytes each time for the same crates.txt. With the word --check
it writes nothing and fails where the picture isn't what it would draw.
"""
import html
import pathlib
import sys

TOP = pathlib.Path(__file__).resolve().parent.parent
PICTURE = TOP / "docs" / "layers.svg"

CHARACTER, BOX_HEIGHT, ROW, GAP, MARGIN, BEND = 7, 26, 62, 18, 16, 14
SWEEPS = 24


def read_crates():
    """The crates with those that they stand on, in the order of the file."""
    stands = {}
    for line in (TOP / "crates.txt").read_text(encoding="utf-8").split("\n"):
        line = line.split("#")[0].strip()
        if line:
            name, _, rest = line.partition(":")
            stands[name.split()[0]] = rest.split()
    return {name: [low for low in lows if low in stands] for name, lows in stands.items()}


def everything_below(stands):
    below = {}

    def visit(name):
        if name not in below:
            below[name] = set()
            for low in stands[name]:
                below[name] |= {low} | visit(low)
        return below[name]

    for name in stands:
        visit(name)
    return below


def layers_of(stands):
    """The layer of each crate, from 0: one more than the highest that it stands on."""
    layer = {}

    def visit(name):
        if name not in layer:
            layer[name] = max((visit(low) + 1 for low in stands[name]), default=0)
        return layer[name]

    for name in stands:
        visit(name)
    return layer


def needed_lines(stands, below):
    """The lines that aren't told by others: pairs of an upper and a lower crate."""
    lines = []
    for name, lows in stands.items():
        for low in lows:
            if not any(low in below[other] for other in lows if other != low):
                lines.append((name, low))
    return lines


class Drawing:
    """Rows of points: a crate, or a bend where a line passes a row."""

    def __init__(self, stands):
        layer = layers_of(stands)
        self.rows = [[] for _ in range(max(layer.values(), default=0) + 1)]
        for name in stands:
            self.rows[layer[name]].append(name)
        self.downs, self.ups, self.paths = {}, {}, []
        for upper, lower in needed_lines(stands, everything_below(stands)):
            path = [upper]
            for row in range(layer[upper] - 1, layer[lower], -1):
                bend = (upper, lower, row)
                self.rows[row].append(bend)
                path.append(bend)
            path.append(lower)
            self.paths.append(path)
            for above, under in zip(path, path[1:]):
                self.downs.setdefault(above, []).append(under)
                self.ups.setdefault(under, []).append(above)
        self.arrange()
        self.place()

    def crossings(self):
        count = 0
        for low, high in zip(self.rows, self.rows[1:]):
            place = {point: k for k, point in enumerate(low)}
            ends = [(k, place[under]) for k, point in enumerate(high) for under in self.downs.get(point, [])]
            count += sum(1 for i, (a, b) in enumerate(ends) for c, d in ends[:i] if (a - c) * (b - d) < 0)
        return count

    def arrange(self):
        """Orders each row by the middle of what each point is joined to, up and down in turn, and keeps the best."""
        best, fewest = [list(row) for row in self.rows], self.crossings()
        for sweep in range(SWEEPS):
            up = sweep % 2 == 0
            joined = self.downs if up else self.ups
            order = range(1, len(self.rows)) if up else range(len(self.rows) - 2, -1, -1)
            for row in order:
                other = self.rows[row - 1 if up else row + 1]
                place = {point: k * 1000 // max(1, len(other) - 1) for k, point in enumerate(other)}
                old = {point: k * 1000 // max(1, len(self.rows[row]) - 1) for k, point in enumerate(self.rows[row])}

                def middle(point):
                    ends = sorted(place[end] for end in joined.get(point, []) if end in place)
                    return sum(ends) * 1000 // len(ends) if ends else old[point] * 1000

                self.rows[row].sort(key=middle)
            count = self.crossings()
            if count < fewest:
                best, fewest = [list(row) for row in self.rows], count
        self.rows = best

    def width(self, point):
        return len(point) * CHARACTER + 18 if isinstance(point, str) else BEND

    def place(self):
        """The middle of each point, from the left: where what it is joined to is, as far as the row leaves room."""
        self.x = {}
        for row in self.rows:
            left = 0
            for point in row:
                self.x[point] = left + self.width(point) // 2
                left += self.width(point) + GAP
        for turn in range(SWEEPS):
            rows = self.rows if turn % 2 == 0 else self.rows[::-1]
            for row in rows:
                self.shift(row)
        left = min(self.x[point] - self.width(point) // 2 for row in self.rows for point in row)
        for point in self.x:
            self.x[point] += MARGIN - left
        right = max(self.x[point] + self.width(point) // 2 for row in self.rows for point in row)
        self.size = (right + MARGIN + 1, len(self.rows) * ROW - ROW + BOX_HEIGHT + 2 * MARGIN)

    def shift(self, row):
        wanted = []
        for point in row:
            ends = [self.x[end] for end in self.downs.get(point, []) + self.ups.get(point, [])]
            wanted.append(sum(ends) // len(ends) if ends else self.x[point])
        leftmost, rightmost = [], []
        for k, point in enumerate(row):
            floor = leftmost[-1] + self.distance(row[k - 1], point) if k else wanted[0]
            leftmost.append(max(wanted[k], floor))
        for k in range(len(row) - 1, -1, -1):
            ceiling = rightmost[-1] - self.distance(row[k], row[k + 1]) if rightmost else wanted[k]
            rightmost.append(min(wanted[k], ceiling))
        rightmost.reverse()
        middles = [(a + b) // 2 for a, b in zip(leftmost, rightmost)]
        for k, point in enumerate(row):
            if k:
                middles[k] = max(middles[k], middles[k - 1] + self.distance(row[k - 1], point))
            self.x[point] = middles[k]

    def distance(self, left, right):
        return (self.width(left) + self.width(right) + 1) // 2 + GAP

    def y(self, row):
        """The upper edge of a row; row 0 is the lowest."""
        return MARGIN + (len(self.rows) - 1 - row) * ROW

    def svg(self):
        row_of = {point: k for k, row in enumerate(self.rows) for point in row}
        wide, high = self.size
        out = [
            f'<svg xmlns="http://www.w3.org/2000/svg" width="{wide}" height="{high}" viewBox="0 0 {wide} {high}">',
            "<title>The crates, each above those that it stands on</title>",
            f'<rect width="{wide}" height="{high}" fill="#ffffff"/>',
            '<g fill="none" stroke="#8894a6" stroke-width="1.2">',
        ]
        for path in self.paths:
            spot, base = self.x[path[0]], self.y(row_of[path[0]]) + BOX_HEIGHT
            text = f"M{spot} {base}"
            for point in path[1:]:
                new, top = self.x[point], self.y(row_of[point])
                half = (base + top) // 2
                text += f" C{spot} {half} {new} {half} {new} {top}"
                spot, base = new, top + BOX_HEIGHT
                if not isinstance(point, str):
                    text += f" V{base}"
            out.append(f'<path d="{text}"/>')
        out.append("</g>")
        out.append('<g font-family="ui-monospace, Menlo, Consolas, monospace" font-size="12" text-anchor="middle">')
        for row, points in enumerate(self.rows):
            for point in points:
                if isinstance(point, str):
                    wide = self.width(point)
                    left, top = self.x[point] - wide // 2, self.y(row)
                    out.append(
                        f'<rect x="{left}" y="{top}" width="{wide}" height="{BOX_HEIGHT}" rx="4" fill="#eef2f8"'
                        ' stroke="#4a5a73"/>'
                    )
                    out.append(f'<text x="{self.x[point]}" y="{top + 17}" fill="#1c2430">{html.escape(point)}</text>')
        out += ["</g>", "</svg>", ""]
        return "\n".join(out)


def main():
    text = Drawing(read_crates()).svg()
    if sys.argv[1:] == ["--check"]:
        if not PICTURE.is_file() or PICTURE.read_text(encoding="utf-8") != text:
            raise SystemExit("layers.py: docs/layers.svg isn't what crates.txt gives; run tools/layers.py")
        return
    PICTURE.write_text(text, encoding="utf-8")


if __name__ == "__main__":
    main()
