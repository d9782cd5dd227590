"""The rules of ISO/IEC 11172-3 for Layer III after Huffman decoding, in f64.

They are written from the standard's formulas and from nothing of the project's code. The band starts are document 01's, the block types
those of README.md; positions above 7 and the 22nd and 13th bands under intensity are left to the callers.
"""

import math
from functools import lru_cache

import cases

LONG, SHORT3 = cases.LONG, cases.SHORT3
PRETAB = [0] * 11 + [1, 1, 1, 1, 2, 2, 3, 3, 3, 2, 0]
ALIAS = [-0.6, -0.535, -0.33, -0.185, -0.095, -0.041, -0.0142, -0.0037]


def in_long_band(kind, place):
    """All places of long, start and end blocks, the first 36 of mixed ones."""
    return kind in cases.LONG_KINDS or (kind == cases.MIXED_TYPE and place < 36)


def long_band(table, place):
    return max(band for band in range(22) if LONG[table][band] <= place)


def short_band(table, place):
    """The band of a place, and its window and line there before reorder: all of window 0, then of 1, then of 2."""
    band = max(band for band in range(13) if SHORT3[table][band] <= place)
    start, end = SHORT3[table][band:band + 2]
    return (band, *divmod(place - start, (end - start) // 3))


def requantized(number, gain=210, subblock=0, mult=0.5, factor=0):
    """sign(is) · |is|^(4/3) · 2^((global_gain - 210 - 8 · subblock_gain)/4) · 2^(-mult · factor)."""
    size = abs(number) ** (4 / 3) * 2 ** ((gain - 210 - 8 * subblock) / 4) * 2 ** (-mult * factor)
    return math.copysign(size, number)


def reordered(place, table=0):
    """Position win · width + j of a short band goes to 3j + win."""
    band, win, j = short_band(table, place)
    return SHORT3[table][band] + 3 * j + win


def mid_side(mid, side):
    return (mid + side) / math.sqrt(2), (mid - side) / math.sqrt(2)


def intensity(left, position):
    """L · t/(1 + t) and L · 1/(1 + t) for t = tan(position · π/12), which has no bound at 6."""
    if position == 6:
        return left, 0.0
    t = math.tan(position * math.pi / 12)
    return left * t / (1 + t), left / (1 + t)


def alias_constants():
    """cs = 1/√(1 + c²) and ca = c/√(1 + c²)."""
    return [1 / math.sqrt(1 + c * c) for c in ALIAS], [c / math.sqrt(1 + c * c) for c in ALIAS]


def antialiased(kind, samples):
    """Eight butterflies at each of the 31 boundaries; none in short blocks, the first boundary only in mixed ones."""
    out = list(samples)
    last = {cases.SHORT_TYPE: 0, cases.MIXED_TYPE: 1}.get(kind, 31)
    for boundary in range(18, 18 * last + 1, 18):
        for i, (cs, ca) in enumerate(zip(*alias_constants())):
            a, b = out[boundary - 1 - i], out[boundary + i]
            out[boundary - 1 - i], out[boundary + i] = a * cs - b * ca, b * cs + a * ca
    return out


@lru_cache(maxsize=None)
def cosines(n):
    """Row i: cos(π/(2n) · (2i + 1 + n/2) · (2k + 1)) for k below n/2."""
    return [[math.cos(math.pi / (2 * n) * (2 * i + 1 + n // 2) * (2 * k + 1)) for k in range(n // 2)] for i in range(n)]


def imdct(samples):
    return [sum(x * c for x, c in zip(samples, row)) for row in cosines(2 * len(samples))]


def window(kind, i):
    """Kinds 0, 1 and 3 for i below 36, kind 2 for i below 12."""
    if kind == 2:
        return math.sin(math.pi / 12 * (i + 0.5))
    if kind == 1 and i >= 18:
        return 1.0 if i < 24 else window(2, i - 18) if i < 30 else 0.0
    if kind == 3 and i < 18:
        return 0.0 if i < 6 else window(2, i - 6) if i < 12 else 1.0
    return math.sin(math.pi / 36 * (i + 0.5))


def transformed(kind, samples):
    """A subband's 36 places under a kind of window; of kind 2 three windows at 6, 12, 18, overlapping halves added."""
    if kind != 2:
        return [x * window(kind, i) for i, x in enumerate(imdct(samples))]
    out = [0.0] * 36
    for win in range(3):
        for i, x in enumerate(imdct(samples[win::3])):
            out[6 + 6 * win + i] += x * window(2, i)
    return out


def window_kind(kind, subband):
    if kind == cases.MIXED_TYPE:
        return 0 if subband < 2 else 2
    return {cases.LONG_TYPE: 0, cases.START_TYPE: 1, cases.SHORT_TYPE: 2, cases.END_TYPE: 3}[kind]


def hybrid(kind, samples, overlap):
    """The samples and the overlap after a transform of each subband."""
    places = [transformed(window_kind(kind, sb), samples[18 * sb:18 * sb + 18]) for sb in range(32)]
    return [places[i // 18][i % 18] + overlap[i] for i in range(576)], [places[i // 18][18 + i % 18] for i in range(576)]


def inverted(samples):
    """Odd lines of odd subbands are negated."""
    return [-x if i // 18 % 2 and i % 18 % 2 else x for i, x in enumerate(samples)]


def synthesis(samples, history, d):
    """The history and the outputs after 18 slots, d being the printed window."""
    matrix = [[math.cos((16 + i) * (2 * k + 1) * math.pi / 64) for k in range(32)] for i in range(64)]
    v, out = list(history), []
    for slot in range(18):
        v = [sum(c * samples[18 * k + slot] for k, c in enumerate(row)) for row in matrix] + v[:960]
        u = [v[128 * (i // 64) + i % 64 + (64 if i % 64 >= 32 else 0)] for i in range(512)]
        out += [sum(u[j + 32 * i] * d[j + 32 * i] for i in range(16)) for j in range(32)]
    return v, out
