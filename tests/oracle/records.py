"""Records of 2,448 bytes for the whole back end: accepted ones, ones with faults, damaged ones.

    python3 tests/oracle/records.py COUNT SEED      writes a run of random records to standard output

A part of a record is a case of requantize (cases.py), so block types, tables, `count1` at every edge, gains, factors and
spectra come as they do there; channels, flags and channel 1's `count1` are dealt here.
"""

import sys

import cases

RECORD = 2448
LEFT, RIGHT = 4, 1226
COUNT1 = 68


def set_count1(record, part, count1):
    record[part + COUNT1:part + COUNT1 + 2] = count1.to_bytes(2, "little")


def low_positions(draw, record, part):
    """A channel's factors as intensity positions that are not refused."""
    for i in range(6, 67):
        record[part + i] = draw.below(8)


def accepted(draw):
    """Records of which few are refused: a position above 7 where intensity applies is left to chance."""
    lefts, rights = cases.requantize(draw), cases.requantize(cases.Draw(draw.next()))
    channels = cases.Deck(draw, (1, 2, 2))
    flags = cases.Deck(draw, range(4))
    positions = cases.Deck(draw, ("low", "low", "low", "any"))
    while True:
        left, right = next(lefts), next(rights)
        record = bytearray(left + right[4:])
        record[1] = channels.deal()
        if record[1] == 1:
            if draw.below(2):  # with one channel the second part is not read: anything may stand there
                record[RIGHT:] = bytes(draw.below(256) for _ in range(RECORD - RIGHT))
        else:
            record[2] = flags.deal()
            if record[2] & 1:
                set_count1(record, RIGHT, draw.pick(cases.all_edges(record[0])))
                if positions.deal() == "low":
                    low_positions(draw, record, LEFT)
        yield bytes(record)


def damaged(draw, record, place):
    """The record with another byte at a place."""
    out = bytearray(record)
    out[place] ^= 1 + draw.below(255)
    return bytes(out)


def faulty(draw, record):
    """The record with a fault of each refusal's kind in turn, in either channel."""
    out = bytearray(record)
    part = draw.pick((LEFT, RIGHT))
    kind = draw.below(9)
    if kind == 0:
        out[1] = draw.pick((0, 3, 255))
    elif kind == 1:
        out[part + draw.pick((0, 2, 67))] = draw.pick((5, 128, 255))
    elif kind == 2:
        out[1], out[2] = 1, 1 + draw.below(3)
    elif kind == 3:
        out[0] = 3 + draw.below(253)
    elif kind == 4:
        set_count1(out, part, draw.pick((577, 578, 1023, 65535)))
    elif kind == 5:
        out[part + 6 + draw.below(61)] = 16 + draw.below(240)
    elif kind == 6:
        out[part + 3 + draw.below(3)] = 8 + draw.below(248)
    elif kind == 7:
        place = part + 70 + 2 * draw.below(576)
        out[place:place + 2] = draw.pick((8207, 65536 - 8207, 32767, 32768)).to_bytes(2, "little")
    else:
        out[1], out[2] = 2, 1
        set_count1(out, RIGHT, 0)
        out[LEFT + 6 + draw.below(61)] = 8 + draw.below(8)
    return bytes(out)


def run(count, seed):
    """A run: two of three records as they are, then one with a fault; a refusal leaves the history to the next record."""
    draw = cases.Draw(seed)
    source = accepted(draw)
    for i in range(count):
        record = next(source)
        yield faulty(draw, record) if i % 3 == 2 else record


def every_byte(seed):
    """A run in which every place of a record with two channels is damaged once."""
    draw = cases.Draw(seed)
    source = (r for r in accepted(draw) if r[1] == 2)
    for place in range(RECORD):
        yield damaged(draw, next(source), place)


def main():
    count, seed = (int(w) for w in sys.argv[1:])
    for record in run(count, seed):
        sys.stdout.buffer.write(record)


if __name__ == "__main__":
    sys.dont_write_bytecode = True
    main()
