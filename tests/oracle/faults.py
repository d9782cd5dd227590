"""Bad input for the stages: cases with faults, and what document 01's table of refusals and request 5's 18 say of them.

A fault is a change to an accepted case that makes one check fail. Each stands alone and beside every fault of another check.
The answer told is the number of the first failing check, which is 18 where the edition is a wrong one, and otherwise in every
stage the smallest; the memory that was lent is as it was, and synthesis's peak is 0. The Rust has no part in this: it refuses
nothing.
"""

import itertools
import struct

import cases

# What memory for outputs holds before a stage is run: 0.5.
OUTPUTS_BEFORE = 0x3F000000
# What stands for synthesis's peak at a refusal: 0.
NO_PEAK = bytes(4)
INFINITE, MINUS_INFINITE = 0x7F800000, 0xFF800000
NOT_NUMBERS = (0x7FC00000, 0x7F800001, 0xFFFFFFFF)
WRONG_EDITIONS = (0, 3, 255)
SEED = 5


def put(form, at, value):
    """A change to a case: a value in a form of struct from a place on."""
    return lambda case: struct.pack_into(form, case, at, value)


def number_not_finite(check, floats, count):
    """Faults of a run of floats from a place on: its first, its last and one between are not finite."""
    return [(check, put("<I", floats, INFINITE)),
            (check, put("<I", floats + 4 * (count - 1), MINUS_INFINITE)),
            (check, put("<I", floats + 4 * (count // 2 + 3), NOT_NUMBERS[check % 3]))]


def position_too_high(factors, last):
    """A position 8 of the first band that intensity applies to, or 15 of the last one, among the factors from a place on."""
    def change(case):
        longs, shorts = cases.applied(case[0], case[1], case[6] + 256 * case[7])
        places = [*longs, *(22 + 3 * band + window for band in shorts for window in range(3))]
        case[factors + places[-1 if last else 0]] = 15 if last else 8
    return change


def stereo_faults(positions):
    """Those of stereo where the positions are the factors from a place on. No factor that intensity reads as one is among those made 16."""
    return ([(3, put("B", 0, 3)), (4, put("<H", 4, 577)), (4, put("<H", 6, 65535)),
             (5, put("B", 8 + 21, 16)), (5, put("B", 72 + 60, 255)),
             (8, position_too_high(positions, False)), (8, position_too_high(positions, True))]
            + number_not_finite(9, 136, 576) + number_not_finite(9, 2440, 576))


# The faults of each stage: the number of the check that fails, and the change.
FAULTS = {
    "requantize": [
        (3, put("B", 0, 3)), (3, put("B", 0, 255)), (4, put("<H", 72, 577)), (4, put("<H", 72, 65535)),
        (5, put("B", 10, 16)), (5, put("B", 31, 255)), (5, put("B", 32, 255)), (5, put("B", 70, 16)),
        (6, put("B", 7, 255)), (6, put("B", 9, 8)),
        (7, put("<h", 74, 8207)), (7, put("<h", 74 + 2 * 575, -8207)), (7, put("<h", 74 + 2 * 300, -32768))],
    "reorder": [
        (3, put("B", 0, 3)), (3, put("B", 0, 255)), (4, put("<H", 2, 577)), (4, put("<H", 2, 65535))]
        + number_not_finite(9, 4, 576),
    "stereo": stereo_faults(8),
    "stereo-2": stereo_faults(72),
    "antialias": number_not_finite(9, 4, 576),
    "hybrid": number_not_finite(9, 4, 576) + number_not_finite(10, 2308, 576),
    "inversion": number_not_finite(9, 0, 576),
    "synthesis": number_not_finite(9, 0, 576) + number_not_finite(10, 2304, 1024),
}


def faults_of(stage):
    """The stage's faults; in edition 2 they are the same but for stereo's."""
    return FAULTS.get(stage) or FAULTS[cases.plain(stage)]


# How many floats at the end of a case are lent, and how many places for outputs an answer holds after them.
LENT = {"requantize": (0, 576), "reorder": (576, 0), "stereo": (1152, 0), "antialias": (576, 0), "hybrid": (1152, 0),
        "inversion": (576, 0), "synthesis": (1024, 577)}


def takes_faults(stage, case):
    """Whether each of the stage's faults can be put into the case: in stereo intensity has to apply to a band."""
    return cases.plain(stage) != "stereo" or (case[2] % 2 == 1 and any(cases.applied(case[0], case[1], case[6] + 256 * case[7])))


def together(stage, refused_anyway):
    """The stage's faults that are put in at once: each alone, and each pair that two checks refuse. Too little room and a wrong edition are
    faults too: beside these stands each, and none."""
    faults = [(f,) for f in faults_of(stage)]
    if refused_anyway:
        return [()] + faults
    return faults + [(f, g) for f, g in itertools.combinations(faults_of(stage), 2) if f[0] != g[0]]


def with_faults(case, faults):
    """The case with the faults put in: that of a later check first, for it may look at what an earlier one asks for."""
    out = bytearray(case)
    for _, change in sorted(faults, key=lambda fault: -fault[0]):
        change(out)
    return bytes(out)


def refused_answer(stage, case):
    """The answer to a refused case: the memory that the stage is lent as it was, and of synthesis the peak 0."""
    numbers, outputs = LENT[cases.plain(stage)]
    memory = case[len(case) - 4 * numbers:] + struct.pack("<I", OUTPUTS_BEFORE) * outputs
    return memory + NO_PEAK if stage == "synthesis" else memory


def first_failing(faults, room, edition):
    if edition not in (1, 2):
        return 18
    return min([check for check, _ in faults] + ([11] if room < 576 else []))


def refused(stage, room, edition):
    """The number told, and the stage's cases that it is told of, each followed by its answer."""
    accepted = (case for case in cases.cases(stage, 10000, SEED) if takes_faults(stage, case))
    found = {}
    for faults, base in zip(together(stage, room < 576 or edition not in (1, 2)), accepted):
        told = first_failing(faults, room, edition)
        case = with_faults(base, faults)
        found.setdefault(told, []).append(case + refused_answer(stage, case))
    return [(told, b"".join(found[told])) for told in sorted(found)]
