"""Marks of a timing diagram: square waves, lines, bands and labels, put together as an SVG file."""
from html import escape
from itertools import groupby

WIDTH, LEFT, RIGHT = 1120, 212, 24
PLOT = WIDTH - LEFT - RIGHT
ROW, WAVE = 24, 14  # a row's height and its wave's
NAME_LENGTH = 18  # what fits beside a row's title
FINEST = 0.8  # the least width of a stretch and of a gap
FONT = "-apple-system, 'Segoe UI', Helvetica, Arial, 'DejaVu Sans', sans-serif"
INK, GREY, FAINT = "#1f2933", "#66727f", "#d9dee4"


def number(x):
    return "%g" % round(x, 1)


class View:
    """The chosen samples, and where they stand across the picture."""

    def __init__(self, first, last):
        self.first, self.last = first, last  # sample numbers from 1

    def part(self, values):
        return values[self.first - 1 : self.last]

    def x(self, k):
        """Left edge of the k-th drawn sample, from 0."""
        return LEFT + PLOT * k / (self.last - self.first + 1)


def runs(values):
    """(value, from, to) of each run of equal values."""
    start = 0
    for value, run in groupby(values):
        end = start + sum(1 for _ in run)
        yield value, start, end
        start = end


def stretches(view, flags):
    """Where the flags are set, from and to across the picture: each at least FINEST wide, and two with less between them as one."""
    found = []
    for flag, start, end in runs(flags):
        if not flag:
            continue
        left, right = view.x(start), max(view.x(end), view.x(start) + FINEST)
        if found and left - found[-1][1] < FINEST:
            found[-1] = (found[-1][0], right)
        else:
            found.append((left, right))
    return [(round(left, 1), round(right, 1)) for left, right in found]


def thinned(points, tolerance=0.2):
    """The points of a line without those that a straight stretch passes within the tolerance."""
    kept = [points[0]]
    low, high = float("-inf"), float("inf")
    for before, (x, y) in zip(points, points[1:]):
        x0, y0 = kept[-1]
        if not low <= (y - y0) / (x - x0) <= high:
            kept.append(before)
            x0, y0 = before
            low, high = float("-inf"), float("inf")
        low = max(low, (y - tolerance - y0) / (x - x0))
        high = min(high, (y + tolerance - y0) / (x - x0))
    return kept + [points[-1]]


class Picture:
    """Marks in three layers, and the height used so far."""

    def __init__(self, view):
        self.view = view
        self.back, self.middle, self.front = [], [], []
        self.y = 0

    def text(self, x, y, words, size=12, fill=INK, more=""):
        shape = '<text x="%s" y="%s" font-size="%d" fill="%s"%s>%s</text>'
        self.front.append(shape % (number(x), number(y), size, fill, more, escape(words)))

    def rect(self, layer, x, y, width, height, fill, more=""):
        shape = '<rect x="%s" y="%s" width="%s" height="%s" fill="%s"%s/>'
        layer.append(shape % (number(x), number(y), number(width), number(height), fill, more))

    def line(self, layer, path, stroke, width=1.3):
        layer.append('<path d="%s" fill="none" stroke="%s" stroke-width="%s"/>' % (path, stroke, width))

    def triangle(self, x, y, fill):
        self.front.append('<path d="M%s %sl-4 7h8z" fill="%s"/>' % (number(x), number(y), fill))

    def label(self, title, name="", fill=INK):
        """A row's title and its name, left of the plot."""
        base = self.y + ROW / 2 + 4
        self.text(24, base, title, fill=fill)
        if name:
            self.text(98, base, name if len(name) <= NAME_LENGTH else name[: NAME_LENGTH - 1] + "…", 11, GREY)

    def wave(self, flags, colour):
        """A square wave in the row at the current height, and the areas under its high stretches."""
        base, right = self.y + (ROW + WAVE) / 2, LEFT + PLOT
        line = "M%d %s" % (LEFT, number(base - WAVE if flags[0] else base))
        areas, x = "M%d %s" % (LEFT, number(base - WAVE / 2)), LEFT
        for left, end in stretches(self.view, flags):
            gap, width = number(left - x), number(end - left)
            areas += "m%s 0h%s" % (gap, width)
            line += "h%s%sh%s%s" % (gap, "v-%d" % WAVE if left > LEFT else "", width, "v%d" % WAVE if end < right else "")
            x = end
        shape = '<path d="%s" fill="none" stroke="%s" stroke-width="%d" stroke-opacity=".3"/>'
        self.middle.append(shape % (areas, colour, WAVE))
        self.line(self.middle, line if flags[-1] else line + "H%d" % right, colour)

    def band(self, title, words, height, ground, ink):
        """A band's ground and head; its rows, `height` in all, follow below."""
        self.y += 8
        self.rect(self.back, 12, self.y, WIDTH - 24, height + 30, ground, ' rx="5"')
        self.text(24, self.y + 18, title, 12, ink, ' font-weight="bold"')
        self.text(LEFT, self.y + 18, words, 11, GREY)
        self.y += 26

    def svg(self, title):
        size = (WIDTH, round(self.y), WIDTH, round(self.y), FONT)
        head = '<svg xmlns="http://www.w3.org/2000/svg" viewBox="0 0 %d %d" width="%d" height="%d" font-family="%s">' % size
        ground = '<rect width="100%" height="100%" fill="#fff"/>'
        marks = self.back + self.middle + self.front
        return "\n".join([head, "<title>%s</title>" % escape(title), ground] + marks + ["</svg>"]) + "\n"
