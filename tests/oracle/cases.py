"""Writes cases (inputs only) for a stage, or for a stage's step alone, to standard output.

    python3 tests/oracle/cases.py STAGE COUNT SEED

No case of a stage is one that document 01 refuses. `reorder-2`, `stereo-2` and
`hybrid-2` are those stages at edition 2, whose cases have the same form. A step
(`hybrid-step` and so on) takes any floats: its cases have infinite numbers and NaNs
in them too, and subbands of zeros. The first cases of a long run are the same as those of a short
one, and every class is taken in turn, so that a small COUNT covers them:
README.md says which. The numbers come from a generator of this file (splitmix64)
and from whole-number arithmetic alone, so every version of Python writes the same
bytes.
"""

import os
import struct
import sys

sys.dont_write_bytecode = True
sys.path.insert(0, os.path.join(os.path.dirname(os.path.abspath(__file__)), "..", "..", "tools"))
from tables import LONG, SHORT  # noqa: E402

LONG_TYPE, SHORT_TYPE, MIXED_TYPE, START_TYPE, END_TYPE = range(5)
LONG_KINDS = (LONG_TYPE, START_TYPE, END_TYPE)

# Where a short block's bands begin among its 576 positions.
SHORT3 = [[3 * start for start in row] for row in SHORT]

SIGN = 0x80000000
LARGEST = 0x7F7FFFFF

# Bit i is set where entry i of the synthesis window is below zero.
WINDOW_SIGNS = int(
    "0000000000000000fffff80000000000fffe000000000000ff00000000000000"
    "fffffffffffffe00ffffffffffff0000ffffffffffc00000fffffffffffffffe", 16)


class Draw:
    """splitmix64."""

    def __init__(self, seed):
        self.state = seed & 0xFFFFFFFFFFFFFFFF

    def next(self):
        self.state = (self.state + 0x9E3779B97F4A7C15) & 0xFFFFFFFFFFFFFFFF
        z = self.state
        z = ((z ^ (z >> 30)) * 0xBF58476D1CE4E5B9) & 0xFFFFFFFFFFFFFFFF
        z = ((z ^ (z >> 27)) * 0x94D049BB133111EB) & 0xFFFFFFFFFFFFFFFF
        return z ^ (z >> 31)

    def below(self, n):
        return (self.next() >> 11) * n >> 53

    def pick(self, seq):
        return seq[self.below(len(seq))]

    def shuffled(self, seq):
        out = list(seq)
        for i in range(len(out) - 1, 0, -1):
            j = self.below(i + 1)
            out[i], out[j] = out[j], out[i]
        return out


class Deck:
    """Deals a list's members in shuffled rounds: none comes again before all came."""

    def __init__(self, draw, members):
        self.draw = draw
        self.members = list(members)
        self.left = []

    def deal(self):
        if not self.left:
            self.left = self.draw.shuffled(self.members)
        return self.left.pop()


# ---- floats, as f32 bits ----

def bits_of_ratio(numerator, shift):
    """The f32 bits of numerator / 2**shift, |numerator| below 2**24, a normal result."""
    if numerator == 0:
        return 0
    sign = SIGN if numerator < 0 else 0
    size = abs(numerator)
    length = size.bit_length()
    return sign | ((126 + length - shift) << 23) | ((size << (24 - length)) & 0x7FFFFF)


def exponent_between(draw, low, high):
    """A random sign and fraction with an exponent field from low to high."""
    r = draw.next()
    return (r & (SIGN | 0x7FFFFF)) | ((low + draw.below(high - low + 1)) << 23)


def ordinary(draw):
    return bits_of_ratio(draw.below(1 << 24) - (1 << 23), 23)


def small(draw):
    return exponent_between(draw, 0x18, 0x68)


def subnormal(draw):
    r = draw.next()
    sign, fraction = r & SIGN, r & 0x7FFFFF
    return sign | (fraction >> ((r >> 40) % 23))


def tiny(draw):
    """Just above and below the smallest normal number."""
    return exponent_between(draw, 0, 3)


def zero(draw):
    return draw.next() & SIGN


def huge(draw):
    return exponent_between(draw, 0xF0, 0xFE)


def largest(draw):
    return (draw.next() & SIGN) | LARGEST


def anything(draw):
    return exponent_between(draw, 0, 0xFE)


def whole(draw):
    return bits_of_ratio(draw.below(16413) - 8206, 0)


def power(draw):
    r = draw.next()
    return (r & SIGN) | ((100 + (r >> 40) % 45) << 23)


NUMBERS = (ordinary, small, subnormal, tiny, zero, huge, largest, anything, whole, power)


def blend(draw, n):
    return [draw.pick(NUMBERS)(draw) for _ in range(n)]


def runs(draw, n):
    """Another kind of number in each run of 18."""
    out = []
    while len(out) < n:
        number = draw.pick(NUMBERS)
        out += [number(draw) for _ in range(18)]
    return out[:n]


def falling(draw, n):
    """Ordinary numbers up to a place, zeros of either sign after it."""
    end = draw.below(n + 1)
    return [ordinary(draw) if i < end else zero(draw) for i in range(n)]


def impulse(draw, n):
    """Zeros of one sign and up to three other numbers."""
    out = [zero(draw)] * n
    for _ in range(1 + draw.below(3)):
        out[draw.below(n)] = draw.pick(NUMBERS)(draw)
    return out


def quiet(draw, n):
    """Ordinary numbers with a few huge ones among them."""
    out = [ordinary(draw) for _ in range(n)]
    for _ in range(1 + draw.below(4)):
        out[draw.below(n)] = draw.pick((huge, largest))(draw)
    return out


def filled(number):
    return lambda draw, n: [number(draw) for _ in range(n)]


def same(bits):
    return lambda draw, n: [bits] * n


# What a case's samples, overlap or history may be made of.
SHAPES = (
    filled(ordinary), filled(small), filled(subnormal), filled(tiny), filled(zero),
    same(SIGN), filled(huge), filled(largest), filled(anything), filled(whole),
    blend, runs, falling, impulse, quiet,
)
ZEROS = 4


# Zeros whose signs make every product of some sum -0.0: a sum that does not start
# from +0.0 gives another zero. The signs of the cosines come from their angles.

def zeros_against_36(draw):
    """18 samples against one column of the 18 by 36 cosines (angle n * pi / 72)."""
    p = 18 + draw.below(18)
    return [0 if 36 < (2 * p + 19) * (2 * m + 1) % 144 < 108 else SIGN for m in range(18)]


def zeros_against_12(draw):
    """18 samples, each window's six against a column of the 6 by 12 (n * pi / 24)."""
    out = [0] * 18
    for i in range(3):
        p = (draw.below(6), draw.below(6), 6 + draw.below(6))[i]
        for m in range(6):
            if not 12 < (2 * p + 7) * (2 * m + 1) % 48 < 36:
                out[i + 3 * m] = SIGN
    return out


def faint(draw):
    """18 zeros and least numbers: times the window some sums become -0.0, which a place that starts from +0.0 does not keep."""
    return [draw.pick((0, SIGN, 1, SIGN | 1)) for _ in range(18)]


def zeros_against_hybrid(draw, block, short_windows):
    out = []
    for sb in range(32):
        short = block == SHORT_TYPE or (block == MIXED_TYPE and sb >= 2)
        out += short_windows(draw) if short else zeros_against_36(draw)
    return out


def zeros_against_matrixing(draw):
    """576 samples, each slot's 32 against one row of the matrixing (n * pi / 64)."""
    out = [0] * 576
    for slot in range(18):
        i = draw.below(64)
        for j in range(32):
            if not 32 < (16 + i) * (2 * j + 1) % 128 < 96:
                out[18 * j + slot] = SIGN
    return out


def zeros_against_window():
    """A history that in slot 0 meets the window with every product -0.0 (but for the
    first 32, which are the slot's own)."""
    out = [0] * 1024
    for i in range(8):
        for j in range(32):
            for u, v in ((64 * i + j, 128 * i + j), (64 * i + 32 + j, 128 * i + 96 + j)):
                if v >= 64 and not WINDOW_SIGNS >> u & 1:
                    out[v - 64] = SIGN
    return out


def floats(numbers):
    return struct.pack("<%dI" % len(numbers), *numbers)


# ---- count1 and its edges ----

def distinct_starts(tables, last):
    """(start, table) for every start of the first `last` bands (and the end where
    last goes that far), the table taken in turn among those that have the start."""
    starts = sorted({s for row in tables for s in row[:last]})
    out = []
    for turn, start in enumerate(starts):
        having = [t for t in range(3) if start in tables[t][:last]]
        out.append((start, having[turn % len(having)]))
    return out


def all_edges(table):
    """0, 1, 575, 576, and one below, at and one above every start of both kinds."""
    near = {s + d for s in LONG[table] + SHORT3[table] for d in (-1, 0, 1)}
    return sorted({c for c in near if 0 <= c <= 576} | {0, 1, 575, 576})


def interleaved(draw, cases):
    """The cases with the block types in turn, shuffled within each."""
    queues = [draw.shuffled([c for c in cases if c[0] == b]) for b in range(5)]
    out = []
    while any(queues):
        for queue in queues:
            if queue:
                out.append(queue.pop())
    return out


def edge_plan(draw, first):
    """Endless (block type, table, count1): first the edges that matter to the stage,
    each once, then every block type with every edge of every table, again and again."""
    seen = set()
    core = []
    for case in first:
        if 0 <= case[2] <= 576 and case not in seen:
            seen.add(case)
            core.append(case)
    for case in interleaved(draw, core):
        yield case
    every = [(b, t, c) for t in range(3) for b in range(5) for c in all_edges(t)]
    while True:
        for case in interleaved(draw, every):
            yield case


def corners(counts):
    """Every block type with every count, tables in turn."""
    return [(b, (b + k) % 3, c) for b in range(5) for k, c in enumerate(counts)]


def requantize_edges():
    out = corners((0, 1, 575, 576))
    for k, (start, table) in enumerate(distinct_starts(LONG, 23)):
        out.append((LONG_KINDS[k % 3], table, start + (0, 1, -1)[(k + k // 3) % 3]))
    for start, table in distinct_starts(SHORT3, 14):
        for d in (0, 1):
            out.append((SHORT_TYPE, table, start + d))
            if start >= 36:
                out.append((MIXED_TYPE, table, start + d))
        out.append(((SHORT_TYPE, MIXED_TYPE)[start // 3 % 2], table, start - 1))
    return out


def reorder_edges():
    out = corners((0, 1, 575, 576))
    for start, table in distinct_starts(SHORT3, 14):
        for d in (-1, 0, 1):
            out.append((SHORT_TYPE, table, start + d))
            if start >= 36 and d >= 0:
                out.append((MIXED_TYPE, table, start + d))
    return out


def reorder_2_edges():
    """The same, and all that decides on band 12, which edition 1 never reorders."""
    out = reorder_edges()
    for table in range(3):
        out += [(block, table, 576) for block in (SHORT_TYPE, MIXED_TYPE)]
        out += [(block, table, SHORT3[table][12] + d) for block in (SHORT_TYPE, MIXED_TYPE) for d in (-1, 0, 1)]
    return out


def stereo_edges():
    """Every start that intensity asks about, once: at it, one above, seldom one below."""
    out = []
    near = (0, 1, 0, 1, -1)
    for k, (start, table) in enumerate(distinct_starts(LONG, 21)):
        out.append((LONG_KINDS[k % 3], table, start + near[k % 5]))
    for k, (start, table) in enumerate(distinct_starts(SHORT3, 12)):
        block = MIXED_TYPE if start >= 36 and k % 2 else SHORT_TYPE
        out.append((block, table, start + near[k // 2 % 5]))
    out += [(MIXED_TYPE, k % 3, c) for k, c in enumerate((0, 4, 21, 36))]
    out += [(SHORT_TYPE, 1, 576), (LONG_TYPE, 2, 575)]
    return out


# ---- whole numbers of requantize ----

def spectrum(draw, kind, walk):
    """576 whole numbers in -8206 to 8206."""
    if kind == "ones":
        return [draw.below(3) - 1 for _ in range(576)]
    if kind == "small":
        return [draw.below(31) - 15 for _ in range(576)]
    if kind == "middle":
        return [draw.below(2001) - 1000 for _ in range(576)]
    if kind == "whole":
        return [draw.below(16413) - 8206 for _ in range(576)]
    if kind == "extremes":
        return [draw.pick((-8206, 8206, -8205, 8205, -8192, 8192, -1, 1, 0)) for _ in range(576)]
    if kind == "sparse":
        return [draw.below(16413) - 8206 if draw.below(20) == 0 else 0 for _ in range(576)]
    if kind == "falling":
        return [draw.below(2 * size + 1) - size for size in (8206 >> (i // 40) for i in range(576))]
    if kind == "cubes":
        return [draw.pick((-1, 1)) * draw.below(21) ** 3 for _ in range(576)]
    out = []
    for _ in range(576):  # "walk": every size with either sign, one after the other
        out.append(walk[0] - 8206)
        walk[0] = (walk[0] + 1) % 16413
    return out


SPECTRA = ("ones", "small", "middle", "whole", "extremes", "sparse", "falling", "cubes", "walk", "walk")


def some_factors(draw, kind, n):
    if kind == "zero":
        return [0] * n
    if kind == "most":
        return [15] * n
    if kind == "low":
        return [draw.below(4) for _ in range(n)]
    return [draw.below(16) for _ in range(n)]


FACTORS = ("zero", "most", "low", "all", "all", "all")


# ---- the stages ----

def requantize(draw):
    plan = edge_plan(draw, requantize_edges())
    flags = Deck(draw, range(4))
    spectra = Deck(draw, SPECTRA)
    factors = Deck(draw, FACTORS)
    gains = Deck(draw, ("edge", "usual", "any", "any"))
    blocks = Deck(draw, ("zero", "most", "any", "any"))
    walk = [0]
    while True:
        block, table, count1 = next(plan)
        kind = gains.deal()
        if kind == "edge":
            gain = draw.pick((0, 1, 254, 255, 210, 209, 211, 208))
        elif kind == "usual":
            gain = 140 + draw.below(80)
        else:
            gain = draw.below(256)
        kind = blocks.deal()
        if kind == "zero":
            subblock = [0, 0, 0]
        elif kind == "most":
            subblock = [7, 7, 7]
        else:
            subblock = [draw.below(8) for _ in range(3)]
        kind = factors.deal()
        yield (bytes([table, 0, 0, 0, block, gain, flags.deal()] + subblock
                     + some_factors(draw, kind, 61) + [0])
               + struct.pack("<H576h", count1, *spectrum(draw, spectra.deal(), walk)))


def reorder(draw, edges=reorder_edges):
    plan = edge_plan(draw, edges())
    shapes = Deck(draw, SHAPES)
    while True:
        block, table, count1 = next(plan)
        yield struct.pack("<BBH", table, block, count1) + floats(shapes.deal()(draw, 576))


def applied(table, block, count1):
    """The long bands and the short bands that intensity applies to."""
    if block == SHORT_TYPE:
        longs, shorts = (), range(0, 12)
    elif block == MIXED_TYPE:
        longs, shorts = range(0, 8), range(3, 12)
    else:
        longs, shorts = range(0, 21), ()
    return ([b for b in longs if LONG[table][b] >= count1],
            [b for b in shorts if SHORT3[table][b] >= count1])


def stereo(draw, positions=0):
    """`positions` is the channel whose factors are intensity's positions: those of the other may be anything."""
    plan = edge_plan(draw, stereo_edges())
    edges = 4 + len(set(stereo_edges()))
    on = Deck(draw, (1, 3))
    flags = Deck(draw, (1, 3, 1, 3, 1, 3, 0, 2))
    shapes = Deck(draw, SHAPES)
    others = Deck(draw, SHAPES + ("same", "opposite", "overflow", "overflow"))
    firsts = Deck(draw, ("edge", "edge", "none", "full", "lower"))
    number = 0
    while True:
        if number in (2, 3, 22, 23):  # among the edges, where intensity is on: it off
            block, table = draw.below(5), draw.below(3)
            count1 = draw.pick(all_edges(table))
            flag = number % 2 * 2
        else:
            block, table, count1 = next(plan)
            flag = on.deal() if number < edges else flags.deal()
        number += 1
        kind = firsts.deal()
        other = others.deal()
        if other == "overflow":  # infinite under mid-side, times 0.0 under intensity
            count0 = 576
        elif kind == "edge":
            count0 = draw.pick(all_edges(table))
        elif kind == "lower":
            count0 = draw.below(count1 + 1)
        else:
            count0 = 0 if kind == "none" else 576
        factors = [[draw.below(16) for _ in range(61)] for _ in range(2)]
        if flag & 1:
            longs, shorts = applied(table, block, count1)
            for b in longs:
                factors[positions][b] = draw.below(8)
            for b in shorts:
                for w in range(3):
                    factors[positions][22 + 3 * b + w] = draw.below(8)
        left = shapes.deal()(draw, 576)
        if other == "overflow":
            left, right = filled(largest)(draw, 576), filled(largest)(draw, 576)
        elif other == "same":
            right = list(left)
        elif other == "opposite":
            right = [x ^ SIGN for x in left]
        else:
            right = other(draw, 576)
        yield (struct.pack("<BBBBHH", table, block, flag, 0, count0, count1)
               + bytes(factors[0] + [0, 0, 0] + factors[1] + [0, 0, 0])
               + floats(left) + floats(right))


def shape_plan(draw, shapes):
    """Endless (block type, shape): every pair, the block types in turn."""
    while True:
        for case in interleaved(draw, [(b, s) for b in range(5) for s in shapes]):
            yield case


def with_against(shapes):
    """The shapes, the zeros of random sign giving way to those of chosen sign."""
    return ["against" if k == ZEROS else s for k, s in enumerate(shapes)]


def antialias(draw):
    for block, shape in shape_plan(draw, SHAPES):
        yield bytes([block, 0, 0, 0]) + floats(shape(draw, 576))


def hybrid(draw, short_windows=zeros_against_12):
    overlaps = Deck(draw, SHAPES)
    for block, shape in shape_plan(draw, with_against(SHAPES)):
        if shape == "against":
            samples = zeros_against_hybrid(draw, block, short_windows)
        else:
            samples = shape(draw, 576)
        yield (bytes([block, 0, 0, 0]) + floats(samples)
               + floats(overlaps.deal()(draw, 576)))


def inversion(draw):
    shapes = Deck(draw, SHAPES)
    while True:
        yield floats(shapes.deal()(draw, 576))


def synthesis(draw):
    shapes = Deck(draw, with_against(SHAPES))
    histories = Deck(draw, SHAPES)
    while True:
        shape = shapes.deal()
        if shape == "against":
            yield floats(zeros_against_matrixing(draw)) + floats(zeros_against_window())
        else:
            yield floats(shape(draw, 576)) + floats(histories.deal()(draw, 1024))


# ---- edition 2 of those that have one: band 12 is reordered, positions are channel 1's, every place of a window counts

def reorder_2(draw):
    return reorder(draw, reorder_2_edges)


def stereo_2(draw):
    return stereo(draw, positions=1)


def hybrid_2(draw):
    return hybrid(draw, faint)


# ---- the steps alone: what a stage refuses too ----

INFINITE, NAN = 0x7F800000, 0x7FC00000
# What is put into a case, and at how many of its places: none, one, a sixteenth, half.
ODD = ((INFINITE, INFINITE | SIGN, NAN), (INFINITE,), (INFINITE | SIGN,), (NAN,), (LARGEST, SIGN | LARGEST, INFINITE), (0, SIGN, 1, SIGN | 1))
SHARES = ("none", "one", "sixteenth", "half")
# What the samples end in: what they are, or zeros of one sign or of both.
TAILS = ((), (), (0,), (SIGN,), (0, SIGN))


def sprinkled(draw, out, start, odd, share):
    """Odd floats put among those from byte `start` on."""
    places = range(start, len(out), 4)
    odds = {"none": 0, "one": 0, "sixteenth": 16, "half": 2}[share]
    at = [draw.pick(places)] if share == "one" else [p for p in places if odds and not draw.below(odds)]
    for place in at:
        struct.pack_into("<I", out, place, draw.pick(odd))


def hushed(draw, out, start, zeros):
    """The 576 samples from byte `start` on end in zeros: from a subband's beginning on, or from a place beside it."""
    end = min(576, max(0, 18 * draw.below(33) + draw.below(3) - 1))
    struct.pack_into("<%dI" % (576 - end), out, start + 4 * end, *(draw.pick(zeros) for _ in range(576 - end)))


def step(source, start):
    """Cases of a stage for its step, whose floats begin at byte `start`, the samples first."""
    def made(draw):
        odd = Deck(draw, [(o, s) for o in ODD for s in SHARES])
        tails = Deck(draw, TAILS)
        for case in source(draw):
            out, zeros = bytearray(case), tails.deal()
            sprinkled(draw, out, start, *odd.deal())
            if zeros:
                hushed(draw, out, start, zeros)
            yield bytes(out)
    return made


# A stage's place here is part of its seed: what is new stands at the end.
STAGES = {
    "requantize": requantize, "reorder": reorder, "stereo": stereo, "antialias": antialias,
    "hybrid": hybrid, "inversion": inversion, "synthesis": synthesis,
    "antialias-step": step(antialias, 4), "hybrid-step": step(hybrid, 4), "inversion-step": step(inversion, 0),
    "synthesis-step": step(synthesis, 0),
    "reorder-2": reorder_2, "stereo-2": stereo_2, "hybrid-2": hybrid_2, "hybrid-2-step": step(hybrid_2, 4),
}
STEP, EDITION_2 = "-step", "-2"

# Bytes of a case and of its answer.
SIZES = {
    "requantize": (1226, 2304), "reorder": (2308, 2304), "stereo": (4744, 4608),
    "antialias": (2308, 2304), "hybrid": (4612, 4608), "inversion": (2304, 2304),
    "synthesis": (6400, 6408),
}


def whose(stage):
    """The stage itself, or the one that a step is of, in its edition: what the driver is asked for."""
    return stage.replace(STEP, "")


def plain(stage):
    """The stage without a word of step and edition."""
    return whose(stage).replace(EDITION_2, "")


def edition_of(stage):
    return 2 if whose(stage).endswith(EDITION_2) else 1


def sizes(stage):
    return SIZES[plain(stage)]


def answer_floats(stage, answer, form):
    """The floats of an answer, as numbers (form f) or as their bits (form I). Synthesis's peak, at the end, is none of them."""
    count = len(answer) // 4 - (1 if stage == "synthesis" else 0)
    return struct.unpack_from("<%d%s" % (count, form), answer)


def cases(stage, count, seed):
    """The first `count` cases of the stage's run with this seed."""
    source = STAGES[stage](Draw(seed * 1000003 + list(STAGES).index(stage)))
    for _ in range(count):
        case = next(source)
        assert len(case) == sizes(stage)[0]
        yield case


def main():
    if len(sys.argv) != 4 or sys.argv[1] not in STAGES:
        sys.exit("cases.py %s COUNT SEED" % "|".join(STAGES))
    for case in cases(sys.argv[1], int(sys.argv[2]), int(sys.argv[3])):
        sys.stdout.buffer.write(case)


if __name__ == "__main__":
    main()
