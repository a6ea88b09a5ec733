"""Traces with each refusal that camrun can print, 3 and 5 to 8. The samples after a refused cycle still run."""
from trace_writer import CLEAR_ERRORS, INDEPENDENT, NORMAL, bits, group, groups, limit, limits, packed, sample, setup, trace

SAMPLES = [sample(100), sample(300, on=bits(3)), sample(500, virtual_on=bits(17))]


def usual_groups():
    return groups(group(0, 4))


def usual_limits():
    return limits({1: limit(NORMAL, [200, 400])})


def refused_module():
    """3: there is no 8514, and what follows is not looked at."""
    return packed([1, 8514, 19, 0, 0])


def refused_setup():
    """6: SF 1. The error then stands, so the two other cycles are refused with 5."""
    return trace(8513, setup(1), usual_groups(), usual_limits(), SAMPLES)


def refused_group():
    """7: there is no Mode 6. The limit cycle is refused with 5."""
    return trace(8513, setup(1000), groups(group(6, 4)), usual_limits(), SAMPLES)


def refused_limit():
    """8: an equal pair that is not 0/0."""
    return trace(8513, setup(1000), usual_groups(), limits({1: limit(NORMAL, [200, 200])}), SAMPLES)


def refused_unassigned_output():
    """7, then 8: the limit cycle clears the error, but its output was dealt to no group."""
    limit_words = usual_limits()
    limit_words[0] |= CLEAR_ERRORS
    return trace(8513, setup(1000), groups(group(6, 4)), limit_words, SAMPLES)


def refused_standing_error():
    """5 three times: SUErr stands at power-up and no cycle clears it."""
    setup_words = setup(1000)
    setup_words[0] &= ~CLEAR_ERRORS
    return trace(8513, setup_words, usual_groups(), usual_limits(), SAMPLES)


def refused_group_independent():
    """5: a group cycle in Independent Mode. It sets no error, so the limit cycle is accepted."""
    return trace(8513, setup(1000, INDEPENDENT, active_states=0), usual_groups(), usual_limits(), SAMPLES)


def idle_sections():
    """Nothing is refused or programmed: the setup cycle comes without its transmit bit, the two others are absent."""
    setup_words = setup(1000)
    setup_words[0] = CLEAR_ERRORS
    return trace(8513, setup_words, (), (), SAMPLES)


TRACES = (
    refused_module,
    refused_setup,
    refused_group,
    refused_limit,
    refused_unassigned_output,
    refused_standing_error,
    refused_group_independent,
    idle_sections,
)
