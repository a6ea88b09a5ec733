"""When each group's dwell holds and when the group is open: document 01's rules of groups as 02 amends them, over a trace and its report.

The report does not show it. Machine Position is the report's; inputs, and the speed that Mode 5 asks for, come from the trace.
"""
from trace_reader import STEPS_PER_MS, TURN, active_inputs, first_fault, turned


def speeds(card, samples):
    """Tenths of an rpm at each step, and whether the step is a stop: an update of 0 tenths."""
    travel = tenths = 0
    last = None
    for number, sample in enumerate(samples, 1):
        q = turned(card, sample[0])
        travel += (q - last + 512) % TURN - 512 if last is not None else 0
        last = q
        update = number % (card.window_ms * STEPS_PER_MS) == 0
        if update:
            window = TURN * card.window_ms
            tenths = (2 * abs(travel) * 600000 + window) // (2 * window)  # rounded half up
            travel = 0
        yield tenths, update and tenths == 0


class GroupRun:
    """One group from its start on. Before the first step the dwell did not hold and its inputs were inactive."""

    def __init__(self, group, scale):
        self.group, self.scale = group, scale
        self.shift = 0  # Modes 1 and 2: Group Position less Machine Position
        self.armed = True  # Modes 1 and 2: the next edge is taken
        self.in_dwell = self.input = self.first_cycle = False
        self.qualified = False  # Mode 5: a qualifying step came since the dwell began
        self.open = group.mode in (0, 1)

    def dwell_holds(self, position):
        group = self.group
        return (position - group.on) % self.scale < (group.off - group.on) % self.scale

    def step(self, machine, active, tenths, stop):
        group = self.group
        shift = self.shift if group.mode in (1, 2) else group.offset
        holds = self.dwell_holds(machine + shift)
        begins = holds and not self.in_dwell
        self.in_dwell = holds
        level = bool(active >> group.input - 1 & 1)
        edge = level and not self.input
        first = bool(active >> group.first_cycle - 1 & 1)
        first_edge = first and not self.first_cycle
        self.input, self.first_cycle = level, first
        if group.mode in (1, 2):
            self.preset_modes(machine, begins, edge)
        elif group.mode == 3:
            self.open = level
        elif group.mode == 4:
            self.open = (self.open and not begins) or (edge and holds)
        elif group.mode == 5:
            self.mode_5(begins, holds and level and tenths != 0, stop, first_edge)

    def preset_modes(self, machine, begins, edge):
        """A dwell's beginning arms, and closes Mode 2; a taken edge presets the position and opens. Closing comes first."""
        group = self.group
        self.armed = self.armed or begins
        taken = edge and self.armed
        if taken:
            self.armed = False
            self.shift = group.offset - machine
            self.in_dwell = self.dwell_holds(group.offset)
        self.open = group.mode == 1 or taken or (self.open and not begins)

    def mode_5(self, begins, qualifies, stop, first_edge):
        """A dwell's beginning closes and forgets, a qualifying step opens, a stop closes, then a First Cycle edge opens again."""
        self.qualified = qualifies or (self.qualified and not begins)
        self.open = qualifies or (self.open and not begins)
        if stop:
            self.open = False
        if first_edge and self.qualified:
            self.open = True


def group_course(card, group, trace, rows):
    """(dwell holds, group is open) at each sample; neither from the first step answered 11 on."""
    fault = first_fault(trace)
    sound = trace.samples[:fault]
    run = GroupRun(group, card.scale)
    course = []
    for sample, row, (tenths, stop) in zip(sound, rows, speeds(card, sound)):
        run.step(row.position, active_inputs(card, sample), tenths, stop)
        course.append((run.in_dwell, run.open))
    return course + [(False, False)] * (len(trace.samples) - fault)
