"""Traces that end with `bad`, refusal 12: short, with a wrong count, or with trailing bytes."""
from trace_writer import NORMAL, group, groups, limit, limits, packed, sample, setup, trace


def whole():
    limit_words = limits({1: limit(NORMAL, [200, 400])})
    samples = [sample(100), sample(300), sample(500)]
    return trace(8513, setup(1000), groups(group(0, 4)), limit_words, samples)


# Where the sections of `whole` end, in bytes; each begins with its count.
MODULE_END = 4
SETUP_END = MODULE_END + 2 * 21
GROUP_END = SETUP_END + 2 * 81
LIMIT_END = GROUP_END + 2 * 631


def bad_empty():
    """No byte at all."""
    return b""


def bad_module_count():
    """The module section's count is 2."""
    return packed([2, 8513, 0, 0, 0, 0])


def bad_setup_count():
    """19 setup words: `bad` as soon as the count is read."""
    return packed([1, 8513, 19] + [0] * 19)


def bad_setup_cut():
    """The last setup word is missing."""
    return whole()[: SETUP_END - 2]


def bad_group_cut():
    """The group section ends halfway, after a refused setup cycle that has printed its line."""
    return trace(8513, setup(1))[:SETUP_END] + whole()[SETUP_END : SETUP_END + 80]


def bad_limit_cut():
    """The last limit word is missing."""
    return whole()[: LIMIT_END - 2]


def bad_no_sample_count():
    """The trace ends after the limit section."""
    return whole()[:LIMIT_END]


def bad_sample_cut():
    """The third sample has eight words: two lines, then `bad`."""
    return whole()[:-2]


def bad_odd_byte():
    """The third sample's last word has one byte."""
    return whole()[:-1]


def bad_trailing_byte():
    """One byte after the last sample: all three lines, then `bad`."""
    return whole() + b"\0"


def bad_trailing_word():
    """A word after the last sample."""
    return whole() + b"\0\0"


TRACES = (
    bad_empty,
    bad_module_count,
    bad_setup_count,
    bad_setup_cut,
    bad_group_cut,
    bad_limit_cut,
    bad_no_sample_count,
    bad_sample_cut,
    bad_odd_byte,
    bad_trailing_byte,
    bad_trailing_word,
)
