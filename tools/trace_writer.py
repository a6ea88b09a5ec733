"""Builds a trace for camrun: setup, group and limit words as document 01 lays them out, samples, and the bytes of them all."""
import struct

TRANSMIT, CLEAR_ERRORS = 0x8000, 0x0001
COUNTER_CLOCKWISE, RESPONSE_120_MS, INDEPENDENT = 0x0010, 0x0020, 0x0200
NORMAL, PULSE, TIMED = 0, 1, 2


def bits(*numbers):
    """A word with the bits of these inputs or outputs: 1 or 17 is bit 0."""
    word = 0
    for n in numbers:
        word |= 1 << (n - 1) % 16
    return word


def setup(scale, command=0, offset=0, detector_1=(0, 0), detector_2=(0, 0), tach=(1, 1, 0), active_states=0xFFFF):
    words = [TRANSMIT | CLEAR_ERRORS | command, scale, 0, offset, *detector_1, *detector_2, *tach, active_states]
    return words + [0] * 8


def group(mode, outputs, virtual=False, dwell=(0, 0), offset=0):
    return [0x8000 | virtual << 14 | mode << 8 | outputs, *dwell, offset]


def groups(*blocks):
    words = [TRANSMIT, 0] + [word for block in blocks for word in block]
    return words + [0] * (80 - len(words))


def limit(kind, points, advances=(0, 0), detector=0, enable=False):
    on_advance, off_advance = advances
    words = [enable << 15 | detector << 13 | kind, on_advance & 0xFFFF, off_advance & 0xFFFF, *points]
    return words + [0] * (19 - len(words))


def limits(blocks):
    """`blocks` has a limit block for each programmed output's number."""
    words = [TRANSMIT] + [0] * 629
    for output, block in blocks.items():
        words[19 * output - 17 : 19 * output + 2] = block
    return words


def sample(raw, current=0, virtual=0, inputs_on=0, inputs_off=0, on=0, off=0, virtual_on=0, virtual_off=0):
    return [raw, current, virtual, inputs_on, inputs_off, on, off, virtual_on, virtual_off]


def packed(words):
    return struct.pack("<%dH" % len(words), *words)


def trace(model, setup_words=(), group_words=(), limit_words=(), samples=()):
    words = [1, model]
    for section in (setup_words, group_words, limit_words):
        words += [len(section), *section]
    words.append(len(samples))
    for row in samples:
        words += row
    return packed(words)
