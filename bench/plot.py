"""plot.py CSV SVG: the cost of a node, entry or count over the size, both scales logarithmic. One field an operation, one line a side."""
import csv
import math
import sys

SIDES = [("plain_ns", "plain read", "#7a7a7a", "2 4"), ("rust_ns", "published Rust", "#c2410c", "7 4"), ("ours_ns", "proved", "#1d4ed8", "")]
COLUMNS = 4
FIELD, TALL = 250, 200  # a field with its margins
LEFT, RIGHT, TOP, BOTTOM = 46, 12, 26, 34
HEAD = 70


def read(path):
    """The rows of each operation, in the order of the file."""
    operations = {}
    with open(path, newline="") as file:
        for row in csv.DictReader(file):
            operations.setdefault(row["operation"], []).append(row)
    return operations


def decades(values):
    """The powers of ten around some values."""
    low = math.floor(math.log10(min(values)))
    high = math.ceil(math.log10(max(values)))
    return low, max(high, low + 1)


def power(exponent):
    return {-1: "0.1", 0: "1", 1: "10", 2: "100"}.get(exponent, f'10<tspan dy="-4" font-size="8">{exponent}</tspan>')


def text(x, y, words, anchor="middle", size=10, extra=""):
    return f'<text x="{x:.1f}" y="{y:.1f}" text-anchor="{anchor}" font-size="{size}" {extra}>{words}</text>'


def line(x1, y1, x2, y2, colour):
    return f'<line x1="{x1:.1f}" y1="{y1:.1f}" x2="{x2:.1f}" y2="{y2:.1f}" stroke="{colour}"/>'


class Field:
    """One operation's place in the picture and its scales, which all fields share."""

    def __init__(self, number, across, up):
        self.x = number % COLUMNS * FIELD
        self.y = HEAD + number // COLUMNS * TALL
        self.across, self.up = across, up

    def at_size(self, size):
        low, high = self.across
        return self.x + LEFT + (math.log10(size) - low) / (high - low) * (FIELD - LEFT - RIGHT)

    def at_cost(self, cost):
        low, high = self.up
        return self.y + TALL - BOTTOM - (math.log10(cost) - low) / (high - low) * (TALL - TOP - BOTTOM)

    def frame(self, name):
        left, right = self.x + LEFT, self.x + FIELD - RIGHT
        top, bottom = self.y + TOP, self.y + TALL - BOTTOM
        yield text((left + right) / 2, self.y + 18, name, size=12, extra='font-weight="bold"')
        for exponent in range(self.up[0], self.up[1] + 1):
            y = self.at_cost(10.0**exponent)
            yield line(left, y, right, y, "#e2e2e2")
            yield text(left - 5, y + 3, power(exponent), "end")
        for exponent in range(self.across[0], self.across[1] + 1):
            x = self.at_size(10**exponent)
            yield line(x, top, x, bottom, "#e2e2e2")
            yield text(x, bottom + 13, power(exponent))
        yield line(left, bottom, right, bottom, "#444")
        yield line(left, top, left, bottom, "#444")

    def curve(self, rows, side, colour, dashes):
        points = [(self.at_size(int(row["size"])), self.at_cost(float(row[side]))) for row in rows if row[side]]
        if not points:
            return
        path = " ".join(f"{x:.1f},{y:.1f}" for x, y in points)
        yield f'<polyline points="{path}" fill="none" stroke="{colour}" stroke-width="2" stroke-dasharray="{dashes}"/>'
        for x, y in points:
            yield f'<circle cx="{x:.1f}" cy="{y:.1f}" r="2.5" fill="{colour}"/>'


def legend(width):
    yield text(LEFT, 24, "Cost of one node, map entry or count, in ns, over their number", "start", 15)
    x = LEFT
    for _, name, colour, dashes in reversed(SIDES):
        yield f'<line x1="{x}" y1="46" x2="{x + 34}" y2="46" stroke="{colour}" stroke-width="2" stroke-dasharray="{dashes}"/>'
        yield text(x + 40, 50, name, "start", 12)
        x += 160
    yield text(width - RIGHT, 50, "both scales logarithmic; best of 15 rounds in turn", "end", 11, 'fill="#555"')


def draw(operations):
    rows = [row for own in operations.values() for row in own]
    across = decades([int(row["size"]) for row in rows])
    up = decades([float(row[side]) for row in rows for side, *_ in SIDES if row[side]])
    width, height = COLUMNS * FIELD, HEAD + math.ceil(len(operations) / COLUMNS) * TALL
    yield f'<svg xmlns="http://www.w3.org/2000/svg" width="{width}" height="{height}" viewBox="0 0 {width} {height}" font-family="sans-serif">'
    yield f'<rect width="{width}" height="{height}" fill="white"/>'
    yield from legend(width)
    for number, (name, own) in enumerate(operations.items()):
        field = Field(number, across, up)
        yield from field.frame(name)
        for side, _, colour, dashes in SIDES:
            yield from field.curve(own, side, colour, dashes)
    yield "</svg>"


def main():
    source, target = sys.argv[1:]
    with open(target, "w") as file:
        file.write("\n".join(draw(read(source))) + "\n")


main()
