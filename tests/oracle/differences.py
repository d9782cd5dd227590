"""Holds docs/DIFFERENCES.md to what runs: the smallest input of each row, through the given Rust and through this project.

    python3 tests/oracle/differences.py

A case stands under the number of its row. It hands the row's input to the Rust (`driver STAGE`) and to the proved program
replay_stages, or a record to `render`; takes the standard's numbers from its formulas (iso.py); and makes the row's last
cell with the numbers that were found. The page must have this very cell, its cell "here" or "edition 1" must say what the project
did, and its cell "Rust" where the Rust panics. Reorder, stereo and hybrid run at edition 2 too, beside the one in Rust that was
written apart (`driver STAGE-2`), and the cell "edition 2" must say whether it mends the row, does as edition 1, or refuses. A row that cannot be run stands in NOT_RUN with the reason. It exits with 1 where the page says
something else. The programs are built by `rt ci`, or by `rt run` in crates/replay_stages and in crates/render. Where rustc or the
given Rust is missing, one line with the word `skipped` is printed.
"""

import math
import os
import re
import struct
import subprocess
import sys

sys.dont_write_bytecode = True

import build
import cases
import faults
import iso
import lists
import tables  # cases has put tools/ on the path

PAGE = os.path.join(build.ROOT, "docs", "DIFFERENCES.md")
PROGRAMS = ("replay_stages", "render")
NOT_RUN = {
    30: "the crate's table of MPEG-2's ratios was not at hand, and no input of this project names a version",
}

LONG, SHORT, MIXED, START = cases.LONG_TYPE, cases.SHORT_TYPE, cases.MIXED_TYPE, cases.START_TYPE
INTENSITY, MID_SIDE, BOTH = 1, 2, 3
# Where the bands of table 0 begin among the 576 places.
LONGS, SHORTS = cases.LONG[0], cases.SHORT3[0]
LAST_BANDS = 21, 12
# The stages that take the edition.
EDITIONED = ("reorder", "stereo", "hybrid")
# No stage answers this number. Told it, replay_stages compares requantize's numbers to the bit too.
NEVER = 255


# ---- inputs: numbers by their places, all others 0; table 0 and gain 210 unless said

def laid(count, given):
    out = [0] * count
    for place, x in dict(given).items():
        out[place] = x
    return out


def floats(given, count=576):
    return struct.pack("<%df" % count, *laid(count, given))


def short_factor(band, window):
    """The place of a short band's factor among the 61."""
    return 22 + 3 * band + window


def requantize(kind, count1, numbers, factors=(), subblock=0, table=0, gain=210):
    return (bytes([table, 0, 0, 0, kind, gain, 0] + [subblock] * 3 + laid(61, factors) + [0])
            + struct.pack("<H576h", count1, *laid(576, numbers)))


def requantize_floats(kind, count1, numbers, subblock=0.0):
    """The driver's alone: subblock gains and numbers as the Rust has them."""
    return requantize(kind, count1, {}) + struct.pack("<3f", *[subblock] * 3) + floats(numbers)


def reorder(count1, samples, kind=SHORT, table=0):
    return struct.pack("<BBH", table, kind, count1) + floats(samples)


def stereo(flags, counts, left, factors=((), ()), kind=LONG, right=(), table=0):
    return (struct.pack("<BBBBHH", table, kind, flags, 0, *counts) + b"".join(bytes(laid(64, f)) for f in factors)
            + floats(left) + floats(right))


def antialias(kind, samples):
    return bytes([kind, 0, 0, 0]) + floats(samples)


def hybrid(kind, samples, overlap=()):
    return bytes([kind, 0, 0, 0]) + floats(samples) + floats(overlap)


def synthesis(samples):
    return floats(samples) + floats((), 1024)


def record(channels, flags, *parts):
    """A record whose channels are cases of requantize."""
    parts = (parts + (requantize(LONG, 0, {}),))[:2]
    return bytes([0, channels, flags, 0]) + b"".join(part[4:] for part in parts)


# ---- numbers as the page has them

def f32(x):
    return struct.unpack("<f", struct.pack("<f", x))[0]


def of_bits(*patterns):
    return struct.unpack("<%df" % len(patterns), struct.pack("<%dI" % len(patterns), *patterns))


def shown(x):
    """The shortest decimal of the nearest f32."""
    return tables.shortest(struct.unpack("<I", struct.pack("<f", x))[0])


def sides(left, right):
    return "left %s and right %s" % (shown(left), shown(right))


# ---- a row, and what its case does

class Row:
    """A row of the page, and what its case has shown of it."""

    def __init__(self, number, cells, driver):
        self.number, self.driver, self.cells = number, driver, cells
        by_edition = len(cells) == 7
        self.rust_cell, self.here_cell = cells[-4:-2] if by_edition else cells[-3:-1]
        self.second_cell, self.input_cell = cells[-2] if by_edition else None, cells[-1]
        self.faults, self.sections = [], []
        self.refusals, self.as_the_rust, self.panic = set(), False, False
        self.second_refusals, self.as_the_first, self.mended = set(), True, False

    def expect(self, what, got, wanted):
        if got != wanted:
            self.faults.append("%s: %s instead of %s" % (what, got, wanted))

    def apart(self, standard, rust):
        """The Rust's number is not the standard's, nor the f32 nearest to it."""
        if f32(standard) == rust:
            self.faults.append("the standard and the Rust both give %s" % shown(rust))

    def says(self, *texts):
        """The row has these words somewhere."""
        for text in texts:
            self.expect("the row says", text if text in " | ".join(self.cells) else "something else", text)

    def run(self, stage, case, words=()):
        return subprocess.run([self.driver, stage, *words], input=case, capture_output=True)

    def answered(self, stage, case):
        """The bytes of the Rust's answer."""
        done = self.run(stage, case)
        if done.returncode != 0:
            sys.exit("oracle: row %d: driver %s ended with status %d: %s" % (self.number, stage, done.returncode, done.stderr.decode()))
        return done.stdout[len(case):]

    def rust(self, stage, case):
        """The numbers of the Rust's answer."""
        return list(cases.answer_floats(stage, self.answered(stage, case), "f"))

    def panics(self, stage, case, *words):
        """One of the given files ends the run."""
        done = self.run(stage, case, words)
        self.panic = True
        said = re.search(r"panicked at [^\n]*\b(requantize|stereo|synthesis)\.rs", done.stderr.decode())
        self.expect("%s panics in a given file" % stage, done.returncode != 0 and said is not None, True)

    def section(self, stage, case, answer, told=0, room=576, otherwise=0):
        """A case for replay_stages, with the answer that it should give."""
        name = "row %d, %s" % (self.number, stage)
        self.sections.append((lists.header(name, stage, 1, told, room) + case + answer, lists.line(name, 1, otherwise)))

    def alike(self, stage, case):
        """The numbers of the Rust's answer, which this project gives too: requantize's within the tests' tolerance, any NaN for any."""
        answer = self.answered(stage, case)
        self.section(stage, case, answer)
        return list(cases.answer_floats(stage, answer, "f"))

    def both(self, stage, case):
        """The same, where the page says it of the row; and whether edition 2 gives it too."""
        self.as_the_rust = True
        numbers = self.alike(stage, case)
        if stage in EDITIONED:
            self.as_the_first &= self.alike(stage + "-2", case) == numbers
        return numbers

    def mends(self, stage, case, place, standard, right=None):
        """Edition 2 gives the standard's number at a place, and in the right channel if one is named, but for the rounding."""
        out = self.alike(stage + "-2", case)
        self.mended = True
        for at, wanted in ((place, standard), (576 + place, right)):
            if wanted is not None:
                self.expect("edition 2's number is the standard's", abs(out[at] - wanted) * 4194304 <= abs(wanted), True)

    def edge(self, text, stage, *taken):
        """The row says from where on it holds, and the cases at the edge are taken as the Rust takes them."""
        self.says(text)
        for case in taken:
            self.alike(stage, case)

    def ours(self, stage, case, answer):
        """This project's answer to the bit."""
        self.section(stage, case, struct.pack("<%df" % len(answer), *answer), NEVER, otherwise=1)

    def refused(self, number, stage, case, room=576):
        """This project refuses with a number, all memory is as lent, and a peak is 0."""
        (self.second_refusals if stage.endswith("-2") else self.refusals).add(number)
        self.section(stage, case, faults.refused_answer(stage, case), number, room)

    def refused_record(self, number, bytes_of_it):
        self.refusals.add(number)
        done = program("render", bytes_of_it)
        self.expect("render", (done.stdout, done.stderr), (b"", b"record 0 refused %d\n" % number))

    def whole(self, bytes_of_it):
        """The record's outputs are the Rust's."""
        ours, theirs = program("render", bytes_of_it), self.run("records", bytes_of_it)
        self.expect("outputs and lines that are the Rust's", (ours.stdout, ours.stderr) == (theirs.stdout, theirs.stderr), True)
        self.expect("bytes of outputs", len(theirs.stdout), 4 * 576 * bytes_of_it[1])

    def judge(self, sentence):
        """Holds the page's cells to what the case has found."""
        told = re.findall(r"refused with (\d+(?: or \d+)*)", self.here_cell)
        self.expect("the smallest input", self.input_cell, sentence)
        self.expect("refusals here", {int(n) for numbers in told for n in numbers.split(" or ")}, self.refusals)
        self.expect('"as the Rust" here', "as the Rust" in self.here_cell, self.as_the_rust)
        if self.second_cell is not None:
            refused = {int(n) for n in re.findall(r"refused with (\d+)", self.second_cell)}
            self.expect("refusals at edition 2", refused, self.second_refusals)
            self.expect('"as the standard" at edition 2', "as the standard" in self.second_cell, self.mended)
            self.expect('"as edition 1" at edition 2', "as edition 1" in self.second_cell, self.as_the_first and not self.mended and not refused)
        self.expect("a panic of the Rust", "panics" in self.rust_cell, self.panic)


def program(name, stream):
    return subprocess.run([os.path.join(build.ROOT, "tools", "run"), name], input=stream, capture_output=True)


CASES = {}


def of_row(number):
    """Makes a function the case of a row: it is given the row, and answers the row's last cell."""
    def put(function):
        assert number not in CASES, number
        CASES[number] = function
        return function
    return put


# ---- the standard and the Rust

@of_row(1)
def windows_that_overlap(row):
    sample, x, place = 0, 1.0, 12
    p = place - 6
    standard = iso.transformed(2, laid(18, {sample: x}))[place]
    row.expect("the product", f32(math.cos((2 * p + 7) * math.pi / 24) * math.sin((2 * p + 1) * math.pi / 24)), f32(standard))
    rust = row.both("hybrid", hybrid(SHORT, {sample: x}))[place]
    row.apart(standard, rust)
    row.mends("hybrid", hybrid(SHORT, {sample: x}), place, standard)
    return (f"Short, sample {sample} is {x}, all else 0: place {place} is cos({2 * p + 7}π/24) · sin({2 * p + 1}π/24) = "
            f"{standard:.3f} by the standard, +{shown(rust)} in the Rust")


def left_alone(row, count1, sample):
    """A short block's number that the standard moves and the Rust does not."""
    to = iso.reordered(sample)
    out = row.both("reorder", reorder(count1, {sample: 1.0}))
    row.expect("where the Rust has it", out.index(1.0), sample)
    row.expect("the standard moves it", to != sample, True)
    return f"Short, table 0, `count1` {count1}, sample {sample} is 1.0: the standard moves it to {to}, the Rust leaves it"


@of_row(2)
def reorder_of_band_12(row):
    band = 12
    row.says(f"band {band}")
    sample = SHORTS[band] + 1
    reaching = sample  # the least `count1` that the band begins below
    row.mends("reorder", reorder(reaching, {sample: 1.0}), iso.reordered(sample), 1.0)
    return left_alone(row, reaching, sample)


@of_row(3)
def positions_of_the_right(row):
    count1, place, band, left, right = 0, 0, 0, 6, 0
    case = stereo(INTENSITY, (0, count1), {place: 1.0}, ({band: left}, {band: right}))
    out = row.both("stereo", case)
    standard = iso.intensity(1.0, right)
    row.mends("stereo", case, place, *standard)
    row.apart(standard[0], out[place])
    return (f"Long, table 0, `count1` of the right {count1}, left 1.0 at place {place}, left factor {left}, right factor {right} in "
            f"band {band}: by the standard {sides(*standard)}, in the Rust {sides(out[place], out[576 + place])}")


@of_row(4)
def numbers_of_a_window(row):
    count1, place, band, factors = 0, 1, 0, (6, 0, 0)
    positions = {short_factor(band, win): factor for win, factor in enumerate(factors)}
    case = stereo(INTENSITY, (0, count1), {place: 1.0}, (positions, positions), SHORT)
    out = row.both("stereo", case)
    window = place % 3  # reorder has interleaved them
    row.mends("stereo", case, place, *iso.intensity(1.0, factors[window]))
    standard = iso.intensity(1.0, factors[window])[0]
    row.apart(standard, out[place])
    return (f"Short, table 0, `count1` of the right {count1}, factors {', '.join(map(str, factors))} in band {band}, left 1.0 at "
            f"place {place}: window {window}'s number, by the standard left {shown(standard)}, in the Rust left {shown(out[place])}")


@of_row(5)
def mid_side_with_intensity(row):
    counts, place, position = (1, 0), 0, 6
    case = stereo(BOTH, counts, {place: 1.0}, ({0: position}, {0: position}))
    out = row.both("stereo", case)
    row.mends("stereo", case, place, *iso.intensity(1.0, position))
    standard = iso.intensity(1.0, position)[0]
    row.apart(standard, out[place])
    return (f"both on, `count1` {counts[0]} and {counts[1]}, left 1.0 at place {place}, position {position}: "
            f"by the standard left {shown(standard)}, in the Rust {shown(out[place])}")


@of_row(6)
def end_of_mid_side(row):
    count1, number, place = 2, 8, 1
    to = iso.reordered(place)
    numbers = requantize(SHORT, count1, {place: number})
    powf = row.both("requantize", numbers)[place]
    row.ours("requantize", numbers, laid(576, {place: iso.requantized(number)}))
    out = row.both("reorder", reorder(count1, {place: iso.requantized(number)}))
    out = row.both("stereo", stereo(MID_SIDE, (count1, 0), {to: out[to]}, kind=SHORT))
    standard = iso.mid_side(iso.requantized(number), 0.0)
    row.expect("the standard's right number", standard[1], standard[0])
    row.apart(standard[0], out[to])
    return (f"Short, `count1` {count1}, number {number} at place {place} lands at place {to}: {sides(out[to], out[576 + to])} "
            f"({shown(powf)} by the Rust's power), where the standard gives {standard[0]:.2f} twice")


@of_row(7)
def begin_of_intensity(row):
    count1, place, position = 4, 0, 0
    out = row.both("stereo", stereo(INTENSITY, (0, count1), {place: 1.0}, ({0: position}, {0: position})))
    standard = iso.intensity(1.0, position)  # the right has no nonzero number: all bands lie above the last one
    row.apart(standard[0], out[place])
    return (f"Long, table 0, `count1` of the right {count1} with numbers all 0, left 1.0 at place {place}, factors {position}: band 0 is "
            f"intensity by the standard, {sides(*standard)}, and not in the Rust, {sides(out[place], out[576 + place])}")


@of_row(8)
def last_bands(row):
    count1, (long, short), position = 0, LAST_BANDS, 0
    places = LONGS[long], SHORTS[short]
    row.says(f"bands {long} and {short}")
    decoders = iso.intensity(1.0, position)  # the band before has position 0 as well
    for kind, place in zip((LONG, SHORT), places):
        out = row.both("stereo", stereo(INTENSITY, (0, count1), {place: 1.0}, ({}, {}), kind))
        row.apart(decoders[0], out[place])
        rust = sides(out[place], out[576 + place])
    return (f"Long, table 0, `count1` of the right {count1}, factors {position}, left 1.0 at place {places[0]}, or Short and "
            f"place {places[1]}: {sides(*decoders)} in those decoders, {rust} in the Rust")


@of_row(9)
def start_with_the_mixed_flag(row):
    sample, x, place = 0, 1.0, 30
    standard = iso.transformed(0, laid(18, {sample: x}))[place]
    row.expect("the product", f32(math.cos((2 * place + 19) * math.pi / 72) * math.sin((2 * place + 1) * math.pi / 72)), f32(standard))
    rust = row.both("hybrid", hybrid(START, {sample: x}))[576 + place - 18]
    row.apart(standard, rust)
    return (f"block type 1 with the mixed flag, sample {sample} is {x}, all else 0: place {place} is cos({2 * place + 19}π/72) · "
            f"sin({2 * place + 1}π/72) = {standard:.3f} by the standard, {shown(rust)} in the Rust, as without the flag")


@of_row(10)
def the_power(row):
    count1, number, place = 1, 8, 0
    numbers = requantize(LONG, count1, {place: number})
    rust = row.rust("requantize", numbers)[place]
    row.ours("requantize", numbers, laid(576, {place: iso.requantized(number)}))
    row.apart(iso.requantized(number), rust)
    return f"`count1` {count1}, number {number} at place {place}: {shown(iso.requantized(number))}; the Rust {shown(rust)}"


@of_row(11)
def alias_constants_of_six_decimals(row):
    first, last = 10, 17
    out = row.both("antialias", antialias(LONG, {place: 1.0 for place in range(first, last + 1)}))
    cs, ca = iso.alias_constants()
    standard = cs[::-1] + ca  # place 17 - i is CS i, place 18 + i is CA i
    others = sum(f32(x) != y for x, y in zip(standard, out[first:]))
    row.apart(cs[0], out[last])
    return (f"Long, samples {first} to {last} are 1.0, all else 0: of places {first} to {first + 15}, the {len(standard)} constants, "
            f"{others} are not the nearest f32 of the formula; place {last}, CS 0, is {shown(out[last])} for {cs[0]:.8f}")


@of_row(12)
def reach_of_requantize(row):
    number, k6, k7, k8 = 8, (LONG, 3, 3), (SHORT, 1, 12), (MIXED, 0, 36)
    standard = iso.requantized(number)
    for kind, count1, place in (k6, k7, k8):
        out = row.both("requantize", requantize(kind, count1, dict.fromkeys(range(576), number)))
        row.expect("the place before is requantized", abs(out[place - 1] - standard) * 1048576 <= standard, True)
        row.expect("the raw number", out[place], number)
    row.apart(standard, out[place])
    row.says(f"Mixed 0 to {place - 1} always")
    return (f"all {number}, Long, `count1` {k6[1]}: place {k6[2]} is {shown(standard)} by the standard, {shown(out[place])} in the Rust "
            f"(K6); so is place {k7[2]} of Short with table 0 and `count1` {k7[1]} (K7), and place {k8[2]} of Mixed with "
            f"`count1` {k8[1]} (K8)")


@of_row(13)
def reorder_up_to_count1(row):
    return left_alone(row, 0, SHORTS[1] + 1)


@of_row(14)
def factors_that_are_not_sent(row):
    number, factor, (long, short) = 1, 2, LAST_BANDS
    places, counts = (LONGS[long], SHORTS[short]), (LONGS[long] + 1, SHORTS[short] + 1)
    row.says(f"bands {long} and {short}", f"`scalefac_l[{long}]` and `scalefac_s[{short}]`")
    standard = iso.requantized(number)  # none is transmitted: 0
    for kind, count1, place, at in zip((LONG, SHORT), counts, places, (long, short_factor(short, 0))):
        rust = row.both("requantize", requantize(kind, count1, {place: number}, {at: factor}))[place]
        row.expect("the Rust's number", rust, iso.requantized(number, factor=factor))
    row.apart(standard, rust)
    return (f"Long, table 0, `count1` {counts[0]}, number {number} at place {places[0]}, factor {factor} in band {long}: "
            f"{shown(standard)} by the standard, {shown(rust)} in the Rust; so with Short, `count1` {counts[1]}, place {places[1]} and "
            f"factor {factor} in band {short}")


@of_row(15)
def positions_above_7(row):
    count1, place, band, position = 0, 0, 0, 8
    numbers = stereo(INTENSITY, (0, count1), {place: 1.0}, ({band: position}, {band: position}))
    row.panics("stereo", numbers)
    row.refused(8, "stereo", numbers)
    row.refused(8, "stereo-2", numbers)
    left, right = iso.intensity(1.0, position)
    none = next(p for p in range(16) if abs(1 + math.tan(p * math.pi / 12)) < 1e-9)
    row.says(f"positions {position} to 15", f"of which {none} has none", f"end at {len(tables.intensity_ratios()) - 1}")
    return (f"Long, table 0, `count1` of the right {count1}, left 1.0 at place {place}, factor {position} in band {band}: "
            f"by the standard left {left:.3f} and right {right:.3f}")


@of_row(16)
def block_type_of_intensity(row):
    count1, place, band, long, short = 0, 0, 0, 6, 0
    factors = {band: long, short_factor(band, 0): short}
    # the stage has no place for the right channel's block type; a record has
    out = row.both("stereo", stereo(INTENSITY, (0, count1), {place: 1.0}, (factors, factors)))
    row.whole(record(2, INTENSITY, requantize(LONG, 0, {place: 1}, factors), requantize(SHORT, count1, {}, factors)))
    standard = iso.intensity(1.0, short)
    row.apart(standard[0], out[place])
    return (f"the left Long, the right Short, table 0, `count1` of the right {count1}, in both factor {long} in long band {band} and "
            f"{short} in short band {band}, left 1.0 at place {place}: by the standard {sides(*standard)}, in the Rust "
            f"{sides(out[place], out[576 + place])}")


# ---- the Rust and this port

def every_size(gain):
    """Cases of requantize with every size from 0 to 8206."""
    return [requantize(LONG, 576, {i: min(first + i, 8206) for i in range(576)}, gain=gain) for first in range(0, 8207, 576)]


def farthest(row):
    """How far this project's requantize and the Rust's lie apart: every size with a gain of each remainder. Another gain of the same
    remainder multiplies both by a power of two."""
    powers, roots, most = of_bits(*tables.powers()), of_bits(*tables.roots()), 0.0
    for gain in range(210, 214):
        for first, numbers in enumerate(every_size(gain)):
            sizes = [powers[min(576 * first + i, 8206)] for i in range(576)]
            here = [f32(size * roots[gain - 210]) for size in sizes]
            row.ours("requantize", numbers, here)
            most = max(most, max(abs(x - y) / y for x, y in zip(here, row.rust("requantize", numbers)) if y))
    return most


@of_row(17)
def nearest_power_times_nearest_gain(row):
    count1, number, place, gain = 1, 8, 0, 210
    numbers = requantize(LONG, count1, {place: number}, gain=gain)
    rust, here = row.rust("requantize", numbers)[place], iso.requantized(number)
    row.ours("requantize", numbers, laid(576, {place: here}))
    row.says(f"within a relative {farthest(row):.2e} of the Rust".replace("e-0", "e-"))
    return f"`count1` {count1}, number {number} at place {place}, gain {gain}: {shown(rust)} in the Rust, {shown(here)} here"


@of_row(18)
def numbers_that_are_not_whole(row):
    count1, number, place = 1, 1.5, 0
    rust = row.rust("requantize-floats", requantize_floats(LONG, count1, {place: number}))[place]
    row.expect("the whole number's power", rust, iso.requantized(int(number)))
    return f"number {number} at place {place}, `count1` {count1}: {shown(rust)} in the Rust, as for {int(number)}"


@of_row(19)
def gains_that_are_not_whole(row):
    gain, number, place, count1 = 0.5, 1, 0, 1
    rust = row.rust("requantize-floats", requantize_floats(SHORT, count1, {place: number}, gain))[place]
    return f"Short, subblock gain {gain}, number {number} at place {place}, `count1` {count1}: {shown(rust)} in the Rust"


@of_row(20)
def stereo_of_one_channel(row):
    counts, place = (1, 0), 0
    out = row.rust("stereo", stereo(MID_SIDE, counts, {place: 1.0}))
    row.expect("the right number", out[576 + place], out[place])
    scaled = row.rust("stereo", stereo(INTENSITY, counts, {place: 1.0}))
    for flags in (MID_SIDE, INTENSITY):
        row.refused_record(2, record(1, flags, requantize(LONG, counts[0], {place: 1})))
    return (f"Long, table 0, `count1` {counts[0]} and {counts[1]}, left 1.0 at place {place}, right all 0, factors 0: "
            f"with mid-side {shown(out[place])} twice in the Rust, with intensity {sides(scaled[place], scaled[576 + place])}")


@of_row(21)
def tables_above_2(row):
    table, counts, place = 3, (1, 0), 0
    for stage, numbers in (("requantize", requantize(LONG, 0, {}, table=table)), ("reorder", reorder(0, {}, LONG, table)),
                           ("stereo", stereo(INTENSITY, (0, 0), {}, table=table))):
        row.panics(stage, numbers)
        row.refused(3, stage, numbers)
    numbers = stereo(MID_SIDE, counts, {place: 1.0}, table=table)
    rust = row.rust("stereo", numbers)[place]
    row.refused(3, "stereo", numbers)
    row.edge(f"above {table - 1}", "requantize", requantize(LONG, 1, {0: 1}, table=table - 1))
    return (f"table {table}; stereo with mid-side alone, `count1` {counts[0]} and {counts[1]}, left 1.0 at place {place}: "
            f"left {shown(rust)} in the Rust")


@of_row(22)
def count1_above_576(row):
    count1 = 577
    for kind in (LONG, SHORT, MIXED):
        row.panics("requantize", requantize(kind, count1, {}))
        row.refused(4, "requantize", requantize(kind, count1, {}))
        row.edge(f"above {count1 - 1}", "requantize", requantize(kind, count1 - 1, {0: 1}))
    row.panics("stereo", stereo(MID_SIDE, (count1, 0), {}))
    row.refused(4, "stereo", stereo(MID_SIDE, (count1, 0), {}))
    for stage, numbers in (("reorder", lambda count1: reorder(count1, {1: 1.0})),
                           ("stereo", lambda count1: stereo(INTENSITY, (0, count1), {0: 1.0}))):
        row.expect("as with 1 less", row.rust(stage, numbers(count1)) == row.rust(stage, numbers(count1 - 1)), True)
        row.refused(4, stage, numbers(count1))
    row.says(f"do as with {count1 - 1}")
    return f"`count1` {count1}"


@of_row(23)
def factors_above_15(row):
    number, place, count1, factor, band = 1, 0, 1, 16, 0
    numbers = requantize(LONG, count1, {place: number}, {band: factor})
    rust = row.rust("requantize", numbers)[place]
    row.refused(5, "requantize", numbers)
    row.edge(f"above {factor - 1}", "requantize", requantize(LONG, count1, {place: number}, {band: factor - 1}))
    unread = stereo(MID_SIDE, (1, 0), {0: 1.0}, ({band: factor}, ()))
    other = stereo(MID_SIDE, (1, 0), {0: 1.0})
    row.expect("stereo does not read it", row.rust("stereo", unread) == row.rust("stereo", other), True)
    row.refused(5, "stereo", unread)
    return f"Long, number {number} at place {place}, `count1` {count1}, factor {factor} in band {band}: {shown(rust)} in the Rust"


@of_row(24)
def gains_above_7(row):
    number, place, count1, gain = 1, 0, 1, 8
    numbers = requantize(SHORT, count1, {place: number}, subblock=gain)
    rust = row.rust("requantize", numbers)[place]
    row.refused(6, "requantize", numbers)
    row.edge(f"above {gain - 1}", "requantize", requantize(SHORT, count1, {place: number}, subblock=gain - 1))
    return f"Short, number {number} at place {place}, `count1` {count1}, subblock gain {gain}: {shown(rust)} in the Rust"


@of_row(25)
def numbers_beyond_8206(row):
    number, place, count1, found = 8207, 0, 1, []
    for sign in (1, -1):
        numbers = requantize(LONG, count1, {place: sign * number})
        found.append(row.rust("requantize", numbers)[place])
        row.refused(7, "requantize", numbers)
        row.edge(f"-{number - 1} to {number - 1}", "requantize", requantize(LONG, count1, {place: sign * (number - 1)}))
    row.expect("the other sign", found[1], -found[0])
    return f"Long, number {number} or -{number} at place {place}, `count1` {count1}: {found[0]:.0f} and its negative in the Rust"


@of_row(26)
def positions_of_8_or_more(row):
    count1, position, band = 0, 8, 0
    for kind, at in ((LONG, band), (SHORT, short_factor(band, 0))):
        numbers, below = (stereo(INTENSITY, (0, count1), {0: 1.0}, ({at: p}, ()), kind) for p in (position, position - 1))
        row.panics("stereo", numbers)
        row.refused(8, "stereo", numbers)
        row.edge(f"position of {position} or more", "stereo", below)
        seen, unseen = (stereo(INTENSITY, (0, count1), {0: 1.0}, factors, kind) for factors in (((), {at: position}), ({at: position}, ())))
        row.refused(8, "stereo-2", seen)
        row.alike("stereo-2", unseen)
    return f"Long or Short, intensity on, `count1` of the right {count1}, left factor {position} in band {band}, or right factor {position} at edition 2"


@of_row(27)
def not_finite(row):
    place, first, top = 17, 0, math.inf
    out = row.rust("antialias", antialias(LONG, {place: top}))
    row.refused(9, "antialias", antialias(LONG, {place: top}))
    sum_of_two = row.rust("hybrid", hybrid(LONG, {}, {first: top}))[first]
    row.refused(10, "hybrid", hybrid(LONG, {}, {first: top}))
    return (f"antialias, Long, sample {place} is {top:+}: places {place} and {place + 1} are {out[place]:+} and {out[place + 1]:+} in "
            f"the Rust; hybrid, Long, place {first} of the overlap is {top:+}: sample {first} is {sum_of_two:+} in the Rust")


@of_row(28)
def too_little_room(row):
    room = 575
    row.panics("synthesis", synthesis({}), str(room))
    row.refused(11, "synthesis", synthesis({}), room)
    row.edge(f"fewer than {room + 1} outputs", "synthesis", synthesis({0: 1.0}))
    return f"room {room}"


@of_row(29)
def bits_of_a_nan(row):
    """Both give a NaN, and its bits but for the sign as the peak. The sign is not seen: the driver writes each NaN as 0x7fc00000, and
    replay_stages takes any for any."""
    first, second = 0, 18
    largest, = of_bits(cases.LARGEST)
    output = row.alike("synthesis", synthesis({first: largest, second: -largest}))[1024]
    row.expect("output 0 is a NaN", math.isnan(output), True)
    return f"synthesis, sample {first} is the largest f32 and sample {second} its negative: output 0 has the term +inf × 0.0"


# ---- the page

def rows_of_the_page():
    """The cells of each row by its number, and the numbers as they come."""
    with open(PAGE, encoding="utf-8") as f:
        rows = [[cell.strip() for cell in line.strip().strip("|").split("|")] for line in f if re.match(r"\| \d+ \|", line)]
    return {int(cells[0]): cells for cells in rows}, [int(cells[0]) for cells in rows]


def replayed(rows):
    """Puts a fault in each row of which the program writes another line than it should. It reads no more than 256 sections."""
    listed = [(row, *section) for row in rows for section in row.sections]
    lines = program("replay_stages", b"".join(section for _, section, _ in listed)).stdout.decode().splitlines()
    for (row, _, wanted), got in zip(listed, lines + ["nothing"] * len(listed)):
        row.expect("replay_stages", got.strip(), wanted)


def judged(driver, page):
    """The rows with their cases run."""
    rows = []
    for number in sorted(CASES.keys() & page.keys()):
        row = Row(number, page[number], driver)
        row.judge(CASES[number](row))
        rows.append(row)
    replayed(rows)
    return rows


def misnumbered(page, order):
    """What is wrong with the numbers: each row of the page has a case or a reason, and no case is without a row."""
    if order != list(range(1, len(order) + 1)):
        yield "the rows are not numbered from 1 on: %s" % order
    for number in sorted(page.keys() | CASES.keys() | NOT_RUN.keys()):
        if number not in page:
            yield "there is no row %d, of which the script has a case or a reason" % number
        elif (number in CASES) == (number in NOT_RUN):
            yield "row %d has to have a case, or a reason in NOT_RUN" % number


def main():
    try:
        driver = build.build()
    except build.Skipped as why:
        print("oracle:", why)
        return 0
    build.stop_unless_built(*PROGRAMS)
    page, order = rows_of_the_page()
    rows = judged(driver, page)
    found = list(misnumbered(page, order)) + ["row %d: %s" % (row.number, fault) for row in rows for fault in row.faults]
    for fault in found:
        print("oracle: docs/DIFFERENCES.md: %s" % fault)
    for number, reason in NOT_RUN.items():
        print("oracle: docs/DIFFERENCES.md: row %d is not run: %s" % (number, reason))
    print("oracle: docs/DIFFERENCES.md: %d of %d rows run, %d faults" % (len(rows), len(page), len(found)))
    return 1 if found else 0


if __name__ == "__main__":
    sys.exit(main())
