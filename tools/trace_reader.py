"""A trace and its report, read as document 01 says of camrun, and the card that the trace programmed."""
import re
import struct
from dataclasses import dataclass, field

REAL_COUNTS = {8511: 0, 8512: 8, 8513: 16}  # real inputs and outputs of each module
SAMPLE_WORDS = 9
STEPS_PER_MS = 5
TURN = 1024  # raw counts

TRANSMIT = 0x8000
CLEAR_ERRORS = 0x0001

# The sections with a programming cycle: name, words, and the refusal of bad data.
CYCLES = (("setup", 20, 6), ("groups", 80, 7), ("limits", 630, 8))
MODULE_REFUSED = 3
ERROR_STANDS = 5


class Mismatch(Exception):
    """Says in one sentence why a picture of these files cannot be drawn."""


class Damaged(Exception):
    """Refusal 12: the trace is short or has a wrong count."""


@dataclass
class Trace:
    model: int = 0
    setup: tuple = ()
    groups: tuple = ()
    limits: tuple = ()
    samples: list = field(default_factory=list)
    whole: bool = False


@dataclass
class Report:
    refusals: list = field(default_factory=list)
    rows: list = field(default_factory=list)
    bad: bool = False


@dataclass
class Row:
    """A sample's line; output n is bit n - 1 of `outputs`."""

    position: int
    tach: int
    outputs: int


@dataclass
class Group:
    number: int
    mode: int
    outputs: range
    input: int
    first_cycle: int
    on: int
    off: int
    offset: int  # the preset in Modes 1 and 2


@dataclass
class Card:
    """The programming in force while the samples run."""

    real_count: int
    scale: int = 1024
    offset: int = 0
    counter_clockwise: bool = False
    window_ms: int = 504
    independent: bool = False
    active_states: int = 0
    groups: list = field(default_factory=list)
    programmed: set = field(default_factory=set)


class Words:
    def __init__(self, data):
        self.data, self.at = data, 0

    def take(self, count):
        end = self.at + 2 * count
        if end > len(self.data):
            raise Damaged
        words = struct.unpack("<%dH" % count, self.data[self.at : end])
        self.at = end
        return words

    def one(self):
        return self.take(1)[0]


def read_trace(data):
    """The trace as far as it can be read; `whole` tells whether it is undamaged."""
    trace = Trace()
    try:
        read_sections(Words(data), trace)
    except Damaged:
        trace.whole = False
    return trace


def read_sections(words, trace):
    if words.one() != 1:
        raise Damaged
    trace.model = words.one()
    if trace.model not in REAL_COUNTS:
        trace.whole = True  # what follows an unknown module is not looked at
        return
    for name, length, _ in CYCLES:
        count = words.one()
        if count not in (0, length):
            raise Damaged
        setattr(trace, name, words.take(count))
    for _ in range(words.one()):
        trace.samples.append(words.take(SAMPLE_WORDS))
    trace.whole = words.at == len(words.data)


SAMPLE_LINE = re.compile(r"([0-9]{1,5}) ([0-9]{1,5}) ([0-9]{1,5}) ([0-9a-f]{4}) ([0-9a-f]{4})")
REFUSED_LINE = re.compile(r"refused ([0-9]{1,2})")


def read_report(text):
    report = Report()
    for number, line in enumerate(text.splitlines(), 1):
        sample, refused = SAMPLE_LINE.fullmatch(line), REFUSED_LINE.fullmatch(line)
        if report.bad:
            raise Mismatch("Line %d of the report comes after `bad`." % number)
        if line == "bad":
            report.bad = True
        elif refused and not report.rows:
            report.refusals.append(int(refused[1]))
        elif sample and int(sample[1]) == len(report.rows) + 1:
            outputs = int(sample[4], 16) | int(sample[5], 16) << 16
            report.rows.append(Row(int(sample[2]), int(sample[3]), outputs))
        else:
            raise Mismatch("Line %d is not one that a report can have there." % number)
    return report


def accepted_cycles(trace, report):
    """The names of the accepted cycles. Whether a section's data was good is read from the report's refusals, in order."""
    left = list(report.refusals)
    accepted = set()
    error = True  # SUErr stands at power-up
    for name, _, data_refused in CYCLES:
        words = getattr(trace, name)
        if not words or not words[0] & TRANSMIT:
            continue
        error = error and not words[0] & CLEAR_ERRORS
        barred = name == "groups" and "setup" in accepted and is_independent(trace.setup)
        expected = ERROR_STANDS if error or barred else data_refused
        if left[:1] == [expected]:
            del left[0]
            error = error or not barred
        elif expected == ERROR_STANDS:
            raise Mismatch("The report lacks the `refused 5` of the trace's %s section." % name)
        else:
            accepted.add(name)
    if left:
        raise Mismatch("The trace has no section that prints `refused %d` there." % left[0])
    return accepted


def is_independent(setup):
    return bool(setup[0] & 0x0200)


def card_of(trace, report):
    if trace.model not in REAL_COUNTS:
        raise Mismatch("The trace names no module that there is, so it has no samples to draw.")
    accepted = accepted_cycles(trace, report)
    card = Card(REAL_COUNTS[trace.model])
    if "setup" in accepted:
        take_setup(card, trace.setup)
    if "groups" in accepted:
        card.groups = deal_groups(trace.groups)
    if "limits" in accepted:
        card.programmed = {n for n in range(1, 33) if any(trace.limits[19 * n - 17 : 19 * n + 2])}
        card.programmed -= set(range(card.real_count + 1, 17))
    return card


def take_setup(card, words):
    command = words[0]
    card.scale = words[1]
    # The Preset bit makes Machine Position the preset at raw 0, as no step came before.
    card.offset = words[2] if command & 0x0002 else words[3]
    card.counter_clockwise = bool(command & 0x0010)
    card.window_ms = 120 if command & 0x0020 else 504
    card.independent = is_independent(words)
    card.active_states = words[11]


def deal_groups(words):
    """The used groups; outputs are dealt consecutively, real ones from 1 and virtual ones from 17."""
    groups = []
    following = {0: 1, 16: 17}
    for number in range(1, 7):
        control, on, off, offset = words[4 * number - 2 : 4 * number + 2]
        if not control & 0x8000:
            continue
        first_of_type = 16 if control & 0x4000 else 0
        start = following[first_of_type]
        following[first_of_type] = end = start + (control & 0x1F)
        first_cycle = 24 if control & 0x2000 else 8
        mode = control >> 8 & 7
        groups.append(Group(number, mode, range(start, end), first_of_type + number, first_cycle, on, off, offset))
    return groups


def turned(card, raw):
    return (TURN - raw) % TURN if card.counter_clockwise else raw


def first_fault(trace):
    """The index of the first sample answered 11, or the number of samples. The fault stays latched: no cycle follows."""
    faults = (k for k, sample in enumerate(trace.samples) if sample[0] >= TURN)
    return next(faults, len(trace.samples))


def positions(card, trace):
    """Machine Position at each sample; a step answered 11 repeats the last one."""
    position = 0
    fault = first_fault(trace)
    for k, sample in enumerate(trace.samples):
        if k < fault:
            position = (turned(card, sample[0]) * card.scale // TURN + card.offset) % card.scale
        yield position


def active_inputs(card, sample):
    """The active inputs, input n as bit n - 1: currents against active states, then forces; missing ones are inactive."""
    current, virtual, on, off = sample[1:5]
    real = (~(current ^ card.active_states) | on) & ~off
    return real & ((1 << card.real_count) - 1) | virtual << 16


def read_pair(trace_bytes, report_text):
    """The trace, its report and the card, where they fit each other."""
    trace, report = read_trace(trace_bytes), read_report(report_text)
    card = card_of(trace, report)
    if trace.whole == report.bad:
        raise Mismatch("The trace is %s." % ("whole but its report ends with `bad`" if report.bad else "damaged but its report has no `bad`"))
    if len(trace.samples) != len(report.rows):
        raise Mismatch("The trace has %d samples and the report %d." % (len(trace.samples), len(report.rows)))
    if not trace.samples:
        raise Mismatch("The trace has no samples to draw.")
    for number, (position, row) in enumerate(zip(positions(card, trace), report.rows), 1):
        if position != row.position:
            raise Mismatch("Sample %d is at position %d by the trace and at %d in the report." % (number, position, row.position))
    return trace, report, card
