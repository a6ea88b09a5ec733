#!/usr/bin/env python3
"""The stored traces by name.

    python3 tools/traces.py         prints the names
    python3 tools/traces.py NAME    writes that trace to standard output

tests/traces/README.md says what each trace is for.
"""
import sys

import damaged_traces
import refused_traces
from trace_writer import (
    COUNTER_CLOCKWISE,
    INDEPENDENT,
    NORMAL,
    PULSE,
    RESPONSE_120_MS,
    TIMED,
    bits,
    group,
    groups,
    limit,
    limits,
    packed,
    sample,
    setup,
    trace,
)


def example():
    """Document 01's own input."""
    return packed([1, 8513, 0, 0, 0, 2] + [10, 0, 0, 0, 0, 5, 4, 0, 0] + [1023] + [0] * 8)


def carton_line():
    """An 8513 at SF 1000. Input 1 is the carton sensor, input 8 First Cycle. MD1 is on while the line runs.

    Four turns at 240 rpm, without a carton in the third; the line stops over the glue and is started again with First Cycle.
    """
    limit_words = limits(
        {
            1: limit(NORMAL, [200, 260, 400, 460], (30, 20), detector=1),  # glue gun
            2: limit(PULSE, [500, 620, 6, 10], (30, 30), detector=1),  # six dots of ten counts
            3: limit(TIMED, [700, 900, 40]),  # reject gate, at most 40 ms
            4: limit(NORMAL, [0, 100]),  # marker in the dwell
            17: limit(NORMAL, [0, 500]),
            18: limit(NORMAL, [250, 500, 750, 0]),
        }
    )
    return trace(
        8513,
        setup(1000, RESPONSE_120_MS, detector_1=(5, 400)),
        groups(group(5, 4, dwell=(0, 100)), group(0, 4, virtual=True)),
        limit_words,
        carton_samples(),
    )


def carton_samples():
    steps_per_turn = 1250  # 240 rpm
    stop = 530

    def turn(carton, start=0, end=steps_per_turn, first_cycle=False):
        for k in range(start, end):
            raw = k * 1024 // steps_per_turn
            at_sensor = bits(1) if carton and raw < 120 else 0
            restart = bits(8) if first_cycle and k < start + 20 else 0
            yield sample(raw, at_sensor | restart)

    standing = [sample(stop * 1024 // steps_per_turn)] * 1500
    return [
        *turn(False),
        *turn(True),
        *turn(False),
        *turn(True, end=stop),
        *standing,
        *turn(False, start=stop, first_cycle=True),
        *turn(True),
    ]


def bottle_line():
    """An 8513 at SF 720, counting counter-clockwise, that runs up to 420 rpm, slows down to 120 and speeds up again.

    The tachometer shows hundreds of bottles an hour. MD1 is on from 150 rpm, MD2 at 60 rpm or less and at 400 or more.
    """
    group_words = groups(
        group(2, 3, dwell=(600, 700)),  # bottles: input 1 presets to 0
        group(4, 2, dwell=(0, 60), offset=20),  # rejector: input 2 is the camera
        group(3, 2, virtual=True),  # label roll: input 19
        group(1, 1, dwell=(500, 520), offset=100),  # cutter: input 4 is the print mark
        group(0, 2, virtual=True),
    )
    limit_words = limits(
        {
            1: limit(NORMAL, [60, 130], (120, 80)),  # label pusher
            2: limit(PULSE, [200, 440, 8, 12], (20, 0), detector=1),  # ink jet
            3: limit(TIMED, [300, 560, 30]),  # blow-off
            4: limit(TIMED, [360, 600, 60], (150, 0)),  # rejector: at speed the OFF setpoint comes before the 60 ms
            5: limit(NORMAL, [100, 700]),  # reject lamp
            6: limit(NORMAL, [300, 340], (-50, -50), enable=True),  # cutter, with the guard closed
            17: limit(NORMAL, [0, 360]),
            18: limit(TIMED, [400, 700, 20]),
            19: limit(NORMAL, [0, 719], detector=2),  # speed lamp
            20: limit(NORMAL, [0, 90, 180, 270, 360, 450, 540, 630]),
        }
    )
    setup_words = setup(720, COUNTER_CLOCKWISE | RESPONSE_120_MS, 90, (150, 1000), (400, 60), (60, 1, 2))
    return trace(8513, setup_words, group_words, limit_words, bottle_samples())


def bottle_speed(step):
    """rpm of the line: up to 420 in 500 ms, down to 120 from 900 to 1100 ms, up to 220 from 1400 ms on."""
    if step < 4500:
        return min(step * 420 // 2500, 420)
    if step < 7000:
        return max(420 - (step - 4500) * 300 // 1000, 120)
    return 120 + (step - 7000) * 100 // 1000


def bottle_samples():
    no_bottle, reject, late_reject = 4, (2, 5), 3  # turns
    travel = 0  # in counts of 1/300000
    samples = []
    for step in range(8000):
        travel += bottle_speed(step) * 1024
        turn, q = divmod(travel // 300000, 1024)
        early = 7 * turn % 25  # bottles do not stand quite evenly
        bottle = turn != no_bottle and (80 - early <= q < 200 or 230 <= q < 240)
        camera = (turn in reject and 900 <= q < 960) or (turn == late_reject and 500 <= q < 560)
        mark = 400 + early <= q < 430
        guard = step < 5200 or step >= 6000
        current = bottle * bits(1) | camera * bits(2) | mark * bits(4) | guard * bits(7)
        roll = 1200 <= step < 6600
        samples.append(sample(-q % 1024, current, roll * bits(19)))
    return samples


def fast_line():
    """An 8512 at SF 1024 that comes up from 293 rpm over 879 to 1,400, with dwells whose ON and OFF advance differ.

    At 1,400 rpm c is 573 or 574: an advance of 2.0 ms shifts by 47 counts, 2.5 ms by 59, 4.0 ms by 95, 6.0 ms by 143.
    """
    limit_words = limits(
        {
            1: limit(NORMAL, [300, 320], (20, 25)),  # glue: 20 counts, 8 at 1,400 rpm
            2: limit(NORMAL, [300, 320], (20, 40)),  # glue: 28 counts less than none at 1,400 rpm
            3: limit(NORMAL, [300, 320], (60, 40)),  # 68 counts at 1,400 rpm
            4: limit(NORMAL, [0, 900], (60, 0)),  # more than a turn at 1,400 rpm
            5: limit(TIMED, [0, 900, 10], (60, 0)),  # the same pair, on for 10 ms each time it begins
            6: limit(PULSE, [300, 320, 3, 4], (20, 40)),  # keeps its length
        }
    )
    return trace(8512, setup(1024, RESPONSE_120_MS), groups(group(0, 6)), limit_words, fast_samples())


def fast_samples():
    slow = list(range(360))  # a count a step
    faster = [slow[-1] + 3 * n for n in range(1, 121)]
    fast = [faster[-1] + n * 1792 // 375 for n in range(1, 1021)]  # 1,400 rpm
    return [sample(count % 1024) for count in slow + faster + fast]


def independent_card():
    """An 8512 in Independent Mode at SF 360 and 600 rpm. Active states are 0: an input without current is active.

    Inputs and outputs are forced on, off and both; an unprogrammed output and missing ones are forced on.
    """
    limit_words = limits(
        {
            1: limit(NORMAL, [10, 100, 200, 300]),
            2: limit(NORMAL, [45, 180], enable=True),  # LS Enable is ignored in this mode
            3: limit(PULSE, [90, 270, 5, 9]),
            4: limit(TIMED, [20, 340, 25]),
            5: limit(NORMAL, [300, 60], (40, 40), detector=1),
            17: limit(NORMAL, [0, 180]),
            18: limit(TIMED, [180, 350, 12]),
        }
    )
    setup_words = setup(360, INDEPENDENT | RESPONSE_120_MS, detector_1=(300, 900), active_states=0)
    return trace(8512, setup_words, (), limit_words, independent_samples())


def independent_samples():
    steps_per_turn = 500  # 600 rpm

    def during(step, first, last, *numbers):
        return bits(*numbers) if first <= step < last else 0

    return [
        sample(
            step * 1024 // steps_per_turn % 1024,
            current=during(step, 300, 800, 2) | during(step, 900, 1100, 3),
            inputs_on=during(step, 950, 1050, 3, 12),
            inputs_off=during(step, 1300, 1500, 1),
            on=during(step, 400, 700, 1, 6, 9) | during(step, 600, 700, 4),
            off=during(step, 550, 900, 1) | during(step, 1550, 1700, 4),
            virtual_on=during(step, 1000, 1400, 17, 20),
            virtual_off=during(step, 1200, 1450, 17),
        )
        for step in range(2000)
    ]


def resolver_fault():
    """An 8512 whose resolver reads 1024 once in the middle of a run: the fault stays, forced outputs stay on."""
    limit_words = limits({1: limit(NORMAL, [100, 700]), 2: limit(TIMED, [200, 900, 30]), 17: limit(NORMAL, [0, 500])})
    samples = []
    for step in range(1500):
        raw = 1024 if step == 950 else step * 1024 // 400 % 1024
        forced = bits(3) if 600 <= step < 1200 else 0
        samples.append(sample(raw, bits(1) if step % 400 < 40 else 0, on=forced, virtual_on=bits(18) if step >= 1100 else 0))
    group_words = groups(group(4, 3, dwell=(0, 150)), group(0, 2, virtual=True))
    return trace(8512, setup(1000, RESPONSE_120_MS), group_words, limit_words, samples)


RUNS = (example, carton_line, bottle_line, fast_line, independent_card, resolver_fault)
TRACES = {make.__name__: make for make in RUNS + refused_traces.TRACES + damaged_traces.TRACES}


def main():
    if len(sys.argv) == 1:
        print("\n".join(TRACES))
        return 0
    if len(sys.argv) > 2 or sys.argv[1] not in TRACES:
        print("usage: traces.py [NAME], where NAME is one that traces.py alone prints", file=sys.stderr)
        return 2
    sys.stdout.buffer.write(TRACES[sys.argv[1]]())
    return 0


if __name__ == "__main__":
    sys.exit(main())
