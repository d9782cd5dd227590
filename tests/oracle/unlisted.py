"""Looks for a difference between the standard and the Rust that docs/DIFFERENCES.md does not list.

    python3 tests/oracle/unlisted.py [COUNT [SEED]]

COUNT random cases (300 unless said) of requantize, reorder and stereo, and some of the other stages, go through the Rust (`driver STAGE`)
and through the standard's formulas (iso.py). Each place where the two lie farther apart than rounding takes them has to be one that a
row of the page speaks of, and each row that random cases can meet has to be met. The same cases go through edition 2 in Rust (`driver
STAGE-2`), where the rows that it mends speak of no place. Stereo's cases have the same block type and factors in
both channels, one position for a band's windows, and a right channel that is nonzero just below its `count1`, a band's start: rows 3, 4, 7
and 16 do not come in. Where rustc or the given Rust is missing, one line with the word `skipped` is printed.
"""

import collections
import struct
import subprocess
import sys

sys.dont_write_bytecode = True

import build
import cases
import iso
import tables

# The rows that cases can meet, and how far rounding may take numbers that are at most 1 (row 11's constants among them).
ROWS = (1, 2, 5, 6, 8, 12, 13, 14)
MENDED = (1, 2, 5)
OF_THE_EDITION = ("reorder", "stereo", "hybrid")
ROUNDING = 2e-5


def ordinary(draw, count):
    """Numbers within 1."""
    return [tables.value(bits) for bits in cases.filled(cases.ordinary)(draw, count)]


def floats(numbers):
    return struct.pack("<%df" % len(numbers), *numbers)


def near(rust, standard):
    return abs(rust - standard) <= ROUNDING


# ---- for each stage the cases, and what is seen of one: (place, whether the two agree, the row that speaks of the place)

def requantize_seen(case, answer):
    table, kind, gain, flags, subblock, count1 = case[0], case[4], case[5], case[6], case[7:10], case[72] + 256 * case[73]
    mult, long, short = 1.0 if flags & 1 else 0.5, case[10:32], case[32:71]
    for place, number in enumerate(struct.unpack_from("<576h", case, 74)):
        if iso.in_long_band(kind, place):
            band = iso.long_band(table, place)
            sent = (long[band] if band < 21 else 0) + (iso.PRETAB[band] if flags & 2 else 0)
            standard = iso.requantized(number, gain, 0, mult, sent)
            reached, last = kind == cases.MIXED_TYPE or place < count1, band == 21
        else:
            band, win, _ = iso.short_band(table, place)
            standard = iso.requantized(number, gain, subblock[win], mult, short[3 * band + win] if band < 12 else 0)
            reached, last = iso.SHORT3[table][band] < count1, band == 12
        agree = abs(answer[place] - standard) * 1048576 <= abs(standard)
        yield place, agree, 12 if not reached else 14 if last else None


def reorder_cases(count, seed):
    """Each place's number is the place."""
    for case in cases.cases("reorder", count, seed):
        yield case[:4] + floats(range(576))


def reorder_seen(case, answer):
    table, kind, count1 = case[0], case[1], case[2] + 256 * case[3]
    first = 0 if kind == cases.SHORT_TYPE else 3
    for place in range(576):
        if kind in cases.LONG_KINDS or iso.in_long_band(kind, place):
            yield place, answer[place] == place, None
        else:
            band, _, _ = iso.short_band(table, place)
            passed = band > first and iso.SHORT3[table][band] >= count1
            yield place, answer[iso.reordered(place, table)] == place, 13 if passed else 2 if band == 12 else None


def starts(table, kind):
    """Where a kind's bands begin."""
    long = iso.LONG[table][:22 if kind in cases.LONG_KINDS else 8]
    short = iso.SHORT3[table][:13]
    return {cases.SHORT_TYPE: short, cases.MIXED_TYPE: long + short[3:]}.get(kind, long)


def stereo_cases(count, seed):
    draw = cases.Draw(seed)
    for _ in range(count):
        table, kind, flags = draw.below(3), draw.below(5), draw.below(4)
        count0, count1 = draw.pick((0, 576)), draw.pick(starts(table, kind))
        factors = [draw.below(8) for _ in range(22)] + [position for _ in range(13) for position in [draw.below(8)] * 3] + [0] * 3
        right = [x + 1.5 if place < count1 else 0.0 for place, x in enumerate(ordinary(draw, 576))]
        yield (struct.pack("<BBBBHH", table, kind, flags, 0, count0, count1) + bytes(factors * 2)
               + floats(ordinary(draw, 576)) + floats(right))


def stereo_seen(case, answer):
    table, kind, flags, _, count0, count1 = struct.unpack_from("<BBBBHH", case)
    numbers = struct.unpack_from("<1152f", case, 136)
    for place in range(576):
        if iso.in_long_band(kind, place):
            band = iso.long_band(table, place)
            start, position, last = iso.LONG[table][band], case[8 + band], band == 21
        else:
            band, _, _ = iso.short_band(table, place)
            start, position, last = iso.SHORT3[table][band], case[30 + 3 * band], band == 12
        pair, row = (numbers[place], numbers[576 + place]), None
        if flags & 1 and start >= count1 and position != 7:
            pair = iso.intensity(pair[0], position)
            row = 8 if last else 5 if flags & 2 else None
        elif flags & 2:
            pair = iso.mid_side(*pair)
            row = 6 if place >= max(count0, count1) else None
        yield place, near(answer[place], pair[0]) and near(answer[576 + place], pair[1]), row


def antialias_cases(count, seed):
    draw = cases.Draw(seed)
    return [bytes([kind, 0, 0, 0]) + floats(ordinary(draw, 576)) for kind in range(5)]


def antialias_seen(case, answer):
    standard = iso.antialiased(case[0], struct.unpack_from("<576f", case, 4))
    for place in range(576):
        yield place, near(answer[place], standard[place]), None


def hybrid_cases(count, seed):
    draw = cases.Draw(seed)
    return [bytes([kind, 0, 0, 0]) + floats(ordinary(draw, 1152)) for kind in range(5)]


def hybrid_seen(case, answer):
    numbers = struct.unpack_from("<1152f", case, 4)
    samples, overlap = iso.hybrid(case[0], numbers[:576], numbers[576:])
    for place, standard in enumerate(samples + overlap):
        of_subband = place % 18 + (18 if place >= 576 else 0)
        overlapping = iso.window_kind(case[0], place % 576 // 18) == 2 and 12 <= of_subband < 24
        yield place, near(answer[place], standard), 1 if overlapping else None


def inversion_cases(count, seed):
    return [floats(ordinary(cases.Draw(seed), 576))]


def inversion_seen(case, answer):
    for place, standard in enumerate(iso.inverted(struct.unpack("<576f", case))):
        yield place, answer[place] == standard, None


def synthesis_cases(count, seed):
    return [floats(ordinary(cases.Draw(seed), 1600))]


def synthesis_seen(case, answer):
    numbers = struct.unpack("<1600f", case)
    history, outputs = iso.synthesis(numbers[:576], numbers[576:], [float(text) for text in tables.printed_window()])
    for place, standard in enumerate(history + outputs):
        yield place, near(answer[place], standard), None


STAGES = {
    "requantize": (lambda count, seed: cases.cases("requantize", count, seed), requantize_seen),
    "reorder": (reorder_cases, reorder_seen), "stereo": (stereo_cases, stereo_seen), "antialias": (antialias_cases, antialias_seen),
    "hybrid": (hybrid_cases, hybrid_seen), "inversion": (inversion_cases, inversion_seen), "synthesis": (synthesis_cases, synthesis_seen),
}


def answers(driver, stage, edition, inputs):
    """The Rust's answers as numbers."""
    case, answer = cases.SIZES[stage]
    word = stage + "-2" if edition == 2 and stage in OF_THE_EDITION else stage
    out = subprocess.run([driver, word], input=b"".join(inputs), stdout=subprocess.PIPE, check=True).stdout
    return [cases.answer_floats(stage, out[at:at + answer], "f") for at in range(case, len(out), case + answer)]


def apart(driver, edition, count, seed):
    """How many places part by the row that speaks of them, and a line for each that none speaks of."""
    rows, unlisted = collections.Counter(), []
    silent = (None, *MENDED) if edition == 2 else (None,)
    for stage, (make, seen) in STAGES.items():
        inputs = list(make(count, seed))
        for number, (case, answer) in enumerate(zip(inputs, answers(driver, stage, edition, inputs))):
            for place, agree, row in seen(case, answer):
                if not agree and row in silent:
                    unlisted.append("%s, case %d, place %d: the Rust has %r" % (stage, number, place, answer[place]))
                elif not agree:
                    rows[row] += 1
    return rows, unlisted


def listed(driver, edition, count, seed):
    """Prints where an edition and the standard part, and says whether the page's rows speak of all of it and each is met."""
    expected = [row for row in ROWS if edition == 1 or row not in MENDED]
    rows, unlisted = apart(driver, edition, count, seed)
    for line in unlisted[:10]:
        print("oracle: edition %d: on no list: %s" % (edition, line))
    for row in expected:
        if row not in rows:
            print("oracle: edition %d: no case met row %d" % (edition, row))
    print("oracle: the standard and the Rust of edition %d part at %d places of rows %s, and at %d on no list" % (
        edition, sum(rows.values()), ", ".join(map(str, sorted(rows))), len(unlisted)))
    return not unlisted and set(rows) == set(expected)


def main(words):
    try:
        driver = build.build()
    except build.Skipped as why:
        print("oracle:", why)
        return 0
    count, seed = ([int(w) for w in words] + [300, 1][len(words):])[:2]
    good = [listed(driver, edition, count, seed) for edition in (1, 2)]
    return 0 if all(good) else 1


if __name__ == "__main__":
    sys.exit(main(sys.argv[1:]))
