#!/usr/bin/env python3
"""Draws a trace with its report as a timing diagram, an SVG file on standard output.

    python3 tools/timing.py [--samples FROM TO] [--outputs LIST] [--inputs LIST] [--names FILE] TRACE REPORT > picture.svg

FROM and TO are sample numbers, both drawn. A LIST is like 1,2,17-20. Without one, the inputs that change and the outputs that are ever on
or programmed are drawn. A line `output 1 glue gun` or `input 1 carton sensor` of the names file gives a row its name.
Position, tachometer and outputs are the report's; inputs are the trace's, after active states and forces. The report does not say when a
group is open: dwells and open stretches are worked out by group_openness.py.
"""
import argparse
import os
import re
import sys

from group_openness import group_course, speeds
from picture import FAINT, GREY, INK, LEFT, PLOT, ROW, WAVE, Picture, View, number, runs, stretches, thinned
from trace_reader import STEPS_PER_MS, Mismatch, active_inputs, first_fault, read_pair

POSITION, TACH, INPUT, DWELL, FAULT, FORCE = "#3b4a5a", "#8a4b08", "#1d6fa5", "#8a94a0", "#c0262d", "#b7791f"
# Band, open stretches and waves of each group.
COLOURS = (
    ("#f1f7f2", "#c6e6cc", "#1f7a3d"),
    ("#f2f5fb", "#cbd9f3", "#2a56a8"),
    ("#faf4ee", "#f3dcc2", "#a3540f"),
    ("#f7f2fa", "#e2cff0", "#6f3a99"),
    ("#eef8f8", "#bfe4e4", "#0f6f74"),
    ("#fbf2f5", "#f2cddb", "#a02c5b"),
)
NO_GROUP = ("#f5f6f7", "#3b4a5a")
# Samples between two ticks: 0.2 ms, 1, 2, 5, 10 ms and so on.
TICKS = [1] + [STEPS_PER_MS * m * 10**e for e in range(5) for m in (1, 2, 5)]

MODES = (
    "always open",
    "always open; an edge of input {0.input} presets its position to {0.offset}",
    "an edge of input {0.input} presets its position to {0.offset} and opens it until the dwell",
    "open while input {0.input} is active",
    "opened by an edge of input {0.input} in the dwell, until the next dwell",
    "opened by input {0.input} in the dwell while turning, until the next dwell; a stop closes, First Cycle is input {0.first_cycle}",
)


class Drawing:
    def __init__(self, trace, report, card, view, chosen, names):
        self.trace, self.report, self.card, self.view, self.names = trace, report, card, view, names
        self.active = [active_inputs(card, sample) for sample in trace.samples]
        self.inputs = chosen.inputs or self.changing_inputs()
        self.outputs = chosen.outputs or self.used_outputs()
        self.fault = first_fault(trace)
        self.picture = Picture(view)
        self.open_groups, self.forces, self.stops = [], [], False  # what the legend explains

    def changing_inputs(self):
        changed = 0
        for level in self.active:
            changed |= level ^ self.active[0]
        return [n for n in range(1, 33) if changed >> n - 1 & 1]

    def used_outputs(self):
        ever_on = 0
        for row in self.report.rows:
            ever_on |= row.outputs
        return [n for n in range(1, 33) if ever_on >> n - 1 & 1 or n in self.card.programmed]

    def svg(self, title):
        self.head(title)
        self.position_row()
        if any(row.tach for row in self.report.rows):
            self.tach_row()
        for n in self.inputs:
            self.picture.label("input %d" % n, self.names.get(("input", n)) or self.role(n))
            self.picture.wave([level >> n - 1 & 1 for level in self.view.part(self.active)], INPUT)
            self.picture.y += ROW
        for group in self.card.groups:
            self.group_band(group)
        self.other_band()
        self.axis()
        self.fault_mark()
        self.legend()
        return self.picture.svg(title)

    def head(self, title):
        card, view = self.card, self.view
        mode = "Independent Mode" if card.independent else "Group Mode"
        shown = (self.trace.model, mode, card.scale, view.first, view.last, len(self.trace.samples))
        self.picture.text(24, 30, title, 16, INK, ' font-weight="bold"')
        self.picture.text(LEFT, 30, "%d, %s, scale factor %d, samples %d to %d of %d" % shown, 11, GREY)
        self.top = self.picture.y = 64 if self.fault < view.last else 44

    def position_row(self):
        picture, view, highest, height = self.picture, self.view, self.card.scale - 1, 64
        top, base = picture.y + 4, picture.y + 4 + height
        points = [(view.x(k + 0.5), base - height * row.position / highest) for k, row in enumerate(view.part(self.report.rows))]
        points = [(LEFT, points[0][1])] + points + [(LEFT + PLOT, points[-1][1])]
        path = "M" + "L".join("%s %s" % (number(x), number(y)) for x, y in thinned(points))
        picture.line(picture.back, "M%d %dh%dM%d %dh%d" % (LEFT, top, PLOT, LEFT, base, PLOT), FAINT, 1)
        picture.line(picture.middle, path, POSITION, 1.2)
        picture.text(24, top + height / 2 + 4, "Machine Position")
        for y, value in ((top, highest), (base, 0)):
            picture.text(LEFT - 8, y + 4, str(value), 10, GREY, ' text-anchor="end"')
        picture.y = base + 12

    def tach_row(self):
        """The tachometer in steps with their values, and a mark at each stop."""
        picture, view, height = self.picture, self.view, 22
        base = picture.y + 14 + height
        highest = max(row.tach for row in self.report.rows)
        path = ""
        for tach, start, end in runs([row.tach for row in view.part(self.report.rows)]):
            y = base - height * tach / highest
            path += "%s%sH%s" % ("V" if path else "M%d " % LEFT, number(y), number(view.x(end)))
            if view.x(end) - view.x(start) > 7 * len(str(tach)) + 8:
                picture.text(view.x(start) + 4, y - 4, str(tach), 10, GREY)
        picture.line(picture.middle, path, TACH)
        picture.text(24, base - height / 2 + 4, "tachometer")
        self.stop_marks(base + 1)
        picture.y = base + 12

    def stop_marks(self, y):
        """The steps in which a stop closes the Mode 5 groups."""
        if not any(group.mode == 5 for group in self.card.groups):
            return
        stops = [stop for _, stop in speeds(self.card, self.trace.samples[: self.fault])]
        for k, stop in enumerate(self.view.part(stops)):
            if stop:
                self.picture.triangle(self.view.x(k), y, FAULT)
                self.stops = True

    def role(self, n):
        if self.card.independent:
            return "enables output %d" % n if n <= 16 else ""
        place = (n - 1) % 16 + 1
        return "group %d" % place if place <= 6 else {7: "LS Enable", 8: "First Cycle"}.get(place, "")

    def group_band(self, group):
        outputs = [n for n in self.outputs if n in group.outputs]
        if not outputs:
            return
        picture, (ground, tint, ink) = self.picture, COLOURS[group.number - 1]
        course = self.view.part(group_course(self.card, group, self.trace, self.report.rows))
        has_dwell = group.mode in (1, 2, 4, 5)
        height = ROW * (len(outputs) + has_dwell)
        picture.band("group %d, Mode %d" % (group.number, group.mode), MODES[group.mode].format(group), height, ground, ink)
        for left, right in stretches(self.view, [is_open for _, is_open in course]):
            picture.rect(picture.back, left, picture.y, right - left, height, tint)
        self.open_groups.append(tint)
        if has_dwell:
            picture.label("dwell", "%d/%d" % (group.on, group.off), GREY)
            picture.wave([in_dwell for in_dwell, _ in course], DWELL)
            picture.y += ROW
        self.output_rows(outputs, ink)

    def other_band(self):
        """The outputs of no group."""
        dealt = {n for group in self.card.groups for n in group.outputs}
        outputs = [n for n in self.outputs if n not in dealt]
        if not outputs:
            return
        title, words = "no group", "on by force only"
        if self.card.independent:
            title, words = "Independent Mode", "a real output needs its own input active"
        self.picture.band(title, words, ROW * len(outputs), *NO_GROUP)
        self.output_rows(outputs, NO_GROUP[1])

    def output_rows(self, outputs, colour):
        rows = self.view.part(self.report.rows)
        for n in outputs:
            self.picture.label("output %d" % n, self.names.get(("output", n), ""))
            self.picture.wave([row.outputs >> n - 1 & 1 for row in rows], colour)
            self.force_bars(n)
            self.picture.y += ROW
        self.picture.y += 4

    def force_bars(self, n):
        """A bar under the wave where the output is forced: full for on, hollow for off, which beats on."""
        on_word, bit = (5, n - 1) if n <= 16 else (7, n - 17)
        samples = self.view.part(self.trace.samples)
        off = [sample[on_word + 1] >> bit & 1 for sample in samples]
        on = [sample[on_word] >> bit & 1 and not is_off for sample, is_off in zip(samples, off)]
        for flags, force in ((on, ("forced on", FORCE)), (off, ("forced off", "#fff"))):
            bars = stretches(self.view, flags)
            for left, right in bars:
                self.bar(self.picture.middle, left, self.picture.y + (ROW + WAVE) / 2 + 1, right - left, force[1])
            if bars and force not in self.forces:
                self.forces.append(force)

    def bar(self, layer, x, y, width, fill):
        self.picture.rect(layer, x, y, width, 3, fill, ' stroke="%s" stroke-width=".8"' % FORCE)

    def axis(self):
        picture, view = self.picture, self.view
        base, before = picture.y + 6, view.first - 1
        tick = next(size for size in TICKS if view.x(size) - LEFT >= 60)
        for k in range(-(-before // tick) * tick, view.last + 1, tick):
            x = view.x(k - before)
            picture.line(picture.back, "M%s %dV%d" % (number(x), self.top, base + 5), "#e6e9ed", 1)
            picture.text(x, base + 18, "%g" % (k / STEPS_PER_MS), 11, GREY, ' text-anchor="middle"')
        picture.line(picture.front, "M%d %dh%d" % (LEFT, base, PLOT), GREY, 1)
        picture.text(24, base + 18, "time in ms", 11, GREY)
        self.bottom = base
        picture.y = base + 34

    def fault_mark(self):
        if self.fault >= self.view.last:
            return
        picture, right = self.picture, LEFT + PLOT
        x = self.view.x(max(self.fault + 1 - self.view.first, 0))
        picture.rect(picture.front, x, self.top, right - x, self.bottom - self.top, FAULT, ' fill-opacity=".08"')
        picture.line(picture.front, "M%s %dV%d" % (number(x), self.top - 12, self.bottom), FAULT)
        beside, anchor = (-5, ' text-anchor="end"') if x > LEFT + PLOT / 2 else (5, "")
        picture.text(x + beside, self.top - 4, "answered 11 from sample %d on" % (self.fault + 1), 11, FAULT, anchor)

    def legend(self):
        picture, x = self.picture, LEFT
        y = picture.y
        for tint in self.open_groups:
            picture.rect(picture.front, x, y, 12, 12, tint)
            x += 12
        if self.open_groups:
            picture.text(x + 6, y + 10, "group open", 11, GREY)
            x += 96
        for words, fill in self.forces:
            self.bar(picture.front, x, y + 5, 16, fill)
            picture.text(x + 22, y + 10, words, 11, GREY)
            x += 100
        if self.stops:
            picture.triangle(x + 4, y + 3, FAULT)
            picture.text(x + 14, y + 10, "stop: an update of 0 tenths", 11, GREY)
        told = "Position, tachometer and outputs are the report's, inputs the trace's."
        told += " Dwells and open stretches are worked out from both by the card's rules." if self.open_groups else ""
        y += 20 if x > LEFT else 0
        picture.text(LEFT, y + 12, told, 11, GREY)
        picture.y = y + 28


def draw(trace_bytes, report_text, title, chosen, names):
    """The picture's text. `chosen` has samples, inputs and outputs, each None for the usual ones."""
    trace, report, card = read_pair(trace_bytes, report_text)
    first, last = chosen.samples or (1, len(trace.samples))
    if last > len(trace.samples):
        raise Mismatch("The trace has %d samples, so sample %d cannot be drawn." % (len(trace.samples), last))
    return Drawing(trace, report, card, View(first, last), chosen, names).svg(title)


def number_list(text):
    """1,2,17-20 as a list of input or output numbers."""
    numbers = set()
    for part in text.split(","):
        ends = re.fullmatch(r"([0-9]{1,2})(?:-([0-9]{1,2}))?", part)
        low, high = (int(ends[1]), int(ends[2] or ends[1])) if ends else (0, 0)
        if not 1 <= low <= high <= 32:
            raise argparse.ArgumentTypeError("%r is not a list of numbers from 1 to 32" % text)
        numbers.update(range(low, high + 1))
    return sorted(numbers)


def read_names(text):
    names = {}
    for line in text.splitlines():
        parts = re.fullmatch(r"(input|output) ([0-9]{1,2}) (.+)", line)
        if not parts or not line.isprintable():
            raise Mismatch("`%s` is not a line of a names file, such as `output 1 glue gun`." % line)
        names[parts[1], int(parts[2])] = parts[3]
    return names


def arguments(words):
    parser = argparse.ArgumentParser(prog="timing.py", description="Draws a trace with its report as an SVG timing diagram.")
    parser.add_argument("--samples", nargs=2, type=int, metavar=("FROM", "TO"))
    parser.add_argument("--outputs", type=number_list, metavar="LIST")
    parser.add_argument("--inputs", type=number_list, metavar="LIST")
    parser.add_argument("--names", metavar="FILE")
    parser.add_argument("trace", metavar="TRACE")
    parser.add_argument("report", metavar="REPORT")
    chosen = parser.parse_args(words)
    if chosen.samples and not 1 <= chosen.samples[0] <= chosen.samples[1]:
        parser.error("samples are counted from 1, and FROM is not above TO")
    return chosen


def contents(path):
    with open(path, "rb") as file:
        return file.read()


def main(words):
    chosen = arguments(words)
    title = os.path.splitext(os.path.basename(chosen.trace))[0].replace("_", " ")
    try:
        names = read_names(contents(chosen.names).decode("utf-8", "replace")) if chosen.names else {}
        report_text = contents(chosen.report).decode("ascii", "replace")
        picture = draw(contents(chosen.trace), report_text, title, chosen, names)
    except Mismatch as problem:
        print(problem, file=sys.stderr)
        return 1
    except OSError as problem:
        print("%s cannot be read: %s." % (problem.filename, problem.strerror), file=sys.stderr)
        return 1
    sys.stdout.buffer.write(picture.encode("utf-8", "replace"))
    return 0


if __name__ == "__main__":
    sys.exit(main(sys.argv[1:]))
