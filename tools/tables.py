#!/usr/bin/env python3
"""Writes the project's tables: for each its source file and its copy among the definitions.

    tools/tables.py              write the files
    tools/tables.py --check      say which files are not as written; exit 1 where there are any
    tools/tables.py --rust FILE  write the module `tables` that the given Rust wants

All arithmetic is on whole numbers and fractions, so an entry does not turn on the machine's floats or its
cosines. A number that is not rational is shut in between two fractions, and is written only where both of them
have the same nearest f32.
"""

import sys
from fractions import Fraction
from functools import lru_cache
from pathlib import Path

ROOT = Path(__file__).resolve().parent.parent
WINDOW_FILE = ROOT / "tools" / "window.txt"

# ---- what no formula gives

# The band starts of document 01: 44.1, 48 and 32 kHz.
LONG = [
    [0, 4, 8, 12, 16, 20, 24, 30, 36, 44, 52, 62, 74, 90, 110, 134, 162, 196, 238, 288, 342, 418, 576],
    [0, 4, 8, 12, 16, 20, 24, 30, 36, 42, 50, 60, 72, 88, 106, 128, 156, 190, 230, 276, 330, 384, 576],
    [0, 4, 8, 12, 16, 20, 24, 30, 36, 44, 54, 66, 82, 102, 126, 156, 194, 240, 296, 364, 448, 550, 576],
]
SHORT = [
    [0, 4, 8, 12, 16, 22, 30, 40, 52, 66, 84, 106, 136, 192],
    [0, 4, 8, 12, 16, 22, 28, 38, 50, 64, 80, 100, 126, 192],
    [0, 4, 8, 12, 16, 22, 30, 42, 58, 78, 104, 138, 180, 192],
]
PRETAB = [0] * 11 + [1, 1, 1, 1, 2, 2, 3, 3, 3, 2, 0]

# The alias constants as puremp3's src/synthesis.rs prints them. They are kept as printed: six decimals are not enough
# for the f32 nearest to the standard's formula.
CS = ["0.857493", "0.881742", "0.949629", "0.983315", "0.995518", "0.999161", "0.999899", "0.999993"]
CA = ["-0.514496", "-0.471732", "-0.313377", "-0.181913", "-0.094574", "-0.040966", "-0.014199", "-0.003700"]

# ---- f32 by whole numbers

SIGN = 1 << 31
INFINITY = 0x7F800000  # the pattern of +infinity: every pattern below it is a finite f32 that is not negative


def split(bits):
    """(m, e): the f32 of a pattern without sign is m * 2^e."""
    field, digits = divmod(bits, 1 << 23)
    return (digits, -149) if field == 0 else (digits + (1 << 23), field - 150)


def value(bits):
    m, e = split(bits % SIGN)
    size = Fraction(m) * Fraction(2) ** e
    return -size if bits >= SIGN else size


def middle(bits):
    """(m, e): the number half way between a pattern's f32 and the next larger one is m * 2^e."""
    m, e = split(bits)
    return 2 * m + 1, e - 1


def largest(holds):
    """The largest pattern of a finite f32 at which a test holds that holds up to some pattern and not beyond."""
    low, high = 0, INFINITY
    while high - low > 1:
        mid = (low + high) // 2
        if holds(*split(mid)):
            low = mid
        else:
            high = mid
    return low


def nearest(x):
    """The pattern of the f32 nearest to a fraction; of two that are as near, the one whose pattern is even."""
    if x < 0:
        return SIGN + nearest(-x)
    below = largest(lambda m, e: m * Fraction(2) ** e <= x)
    m, e = middle(below)
    tie = m * Fraction(2) ** e
    return below + 1 if x > tie or (x == tie and below % 2 == 1) else below


@lru_cache(maxsize=None)
def between(low, high):
    """The pattern of the f32 nearest to a number that lies somewhere from low to high."""
    bits = nearest(low)
    if bits != nearest(high):
        raise SystemExit(f"tables: the bounds {low} and {high} do not settle the nearest f32")
    return bits


def power_order(m, e, k, num, den):
    """Compares (m * 2^e)^k with num / den, by whole numbers: below 0, 0 or above 0."""
    left, right = m**k * den, num
    if e >= 0:
        left <<= k * e
    else:
        right <<= -k * e
    return left - right


def nearest_root(k, num, den=1):
    """The pattern of the f32 nearest to the k-th root of num / den: k-th powers are compared, no root is taken."""
    below = largest(lambda m, e: power_order(m, e, k, num, den) <= 0)
    order = power_order(*middle(below), k, num, den)
    if order == 0:
        raise SystemExit(f"tables: root {k} of {num}/{den} lies half way between two f32")
    return below + 1 if order < 0 else below


def decimal(digits, exponent):
    """digits * 10^exponent, for an exponent below 0, as a decimal point is written."""
    text = str(digits).rjust(-exponent + 1, "0")
    return text[:exponent] + "." + text[exponent:]


@lru_cache(maxsize=None)
def shortest(bits):
    """The shortest decimal whose nearest f32 has the pattern; of those, the one nearest to it."""
    if bits >= SIGN:
        return "-" + shortest(bits - SIGN)
    x = value(bits)
    for places in range(1, 150):
        floor = x * 10**places // 1
        for digits in sorted((floor, floor + 1), key=lambda d: abs(Fraction(d, 10**places) - x)):
            if nearest(Fraction(digits, 10**places)) == bits:
                return decimal(digits, -places)
    raise SystemExit(f"tables: no decimal for {bits}")


# ---- bounds of cosines and sines

POINT = 1 << 128  # bounds of pi are rounded outward to this many parts of one


def arctan_bounds(n):
    """Bounds of the arc whose tangent is 1/n. The series alternates and falls, so two sums in a row are bounds."""
    total, sums = Fraction(0), []
    for k in range(120):
        total += Fraction((-1) ** k, (2 * k + 1) * n ** (2 * k + 1))
        sums.append(total)
    return min(sums[-2:]), max(sums[-2:])


@lru_cache(maxsize=None)
def pi_bounds():
    """Machin: pi = 16 arctan(1/5) - 4 arctan(1/239)."""
    (a_low, a_high), (b_low, b_high) = arctan_bounds(5), arctan_bounds(239)
    low, high = 16 * a_low - 4 * b_high, 16 * a_high - 4 * b_low
    return Fraction(low * POINT // 1, POINT), Fraction(high * POINT // 1 + 1, POINT)


def taylor_bounds(x):
    """Bounds of the cosine of a fraction: two sums of Taylor's series in a row, since each next term's sign is that
    of what is left out."""
    term, total, sums = Fraction(1), Fraction(0), []
    for k in range(16):
        total += term
        sums.append(total)
        term = -term * x * x / ((2 * k + 1) * (2 * k + 2))
    return min(sums[-2:]), max(sums[-2:])


@lru_cache(maxsize=None)
def cos_bounds(turn):
    """Bounds of the cosine of turn * pi, turn a fraction. A zero is exact: an angle near it has no nearest sign."""
    turn = abs(turn) % 2
    if turn > 1:
        turn = 2 - turn
    if turn == Fraction(1, 2):
        return Fraction(0), Fraction(0)
    if turn > Fraction(1, 2):
        low, high = cos_bounds(1 - turn)
        return -high, -low
    pi_low, pi_high = pi_bounds()
    # the cosine falls from 0 to pi/2
    return taylor_bounds(turn * pi_high)[0], taylor_bounds(turn * pi_low)[1]


def sin_bounds(turn):
    return cos_bounds(Fraction(1, 2) - turn)


def nearest_cos(turn):
    return between(*cos_bounds(turn))


def nearest_sin(turn):
    return between(*sin_bounds(turn))


# ---- the tables, as patterns


def powers():
    """n to the 4/3 is the cube root of n to the 4."""
    return [nearest_root(3, n**4) for n in range(8207)]


def signed_powers():
    """Those of -255 to 255: the sign's bit is set below zero."""
    sizes = powers()[:256]
    return [SIGN + b for b in sizes[:0:-1]] + sizes


def roots():
    """2 to the r/4."""
    return [nearest_root(4, 2**r) for r in range(4)]


def printed_window():
    """The standard's 512 numbers, as printed."""
    lines = [line.split() for line in WINDOW_FILE.read_text().splitlines() if not line.startswith("#")]
    if [int(line[0]) for line in lines] != list(range(512)):
        raise SystemExit("tables: tools/window.txt does not have the places 0 to 511 in order")
    return [line[1] for line in lines]


def matrixing():
    """Row j, place i: cos((16 + i)(2j + 1) pi/64). The rows are the slot's samples, the places the sums: so a sum over
    rows runs along whole rows."""
    return [[nearest_cos(Fraction((16 + i) * (2 * j + 1), 64)) for i in range(64)] for j in range(32)]


def imdct_cosines(n):
    """Row k, place i: cos(pi/(2n) (2i + 1 + n/2)(2k + 1))."""
    return [[nearest_cos(Fraction((2 * i + 1 + n // 2) * (2 * k + 1), 2 * n)) for i in range(n)] for k in range(n // 2)]


def imdct_windows():
    """The windows of kinds 0 to 3: long, start, short (its places from 12 on are not used), end."""
    one = nearest(Fraction(1))
    long = [nearest_sin(Fraction(2 * i + 1, 72)) for i in range(36)]
    short = [nearest_sin(Fraction(2 * i + 1, 24)) for i in range(12)]
    start = long[:18] + [one] * 6 + short[6:] + [0] * 6
    end = [0] * 6 + short[:6] + [one] * 6 + long[18:]
    return [long, start, short + [0] * 24, end]


def intensity_ratios():
    """Position p: t/(1 + t) and 1/(1 + t) for t = tan(p pi/12). With t = s/c these are s/(s + c) and c/(s + c)."""
    return [[share(*pair(p)), share(*reversed(pair(p)))] for p in range(6)]


def pair(p):
    return sin_bounds(Fraction(p, 12)), cos_bounds(Fraction(p, 12))


def share(x, y):
    """The f32 nearest to x/(x + y), which grows with x and falls with y."""
    return between(x[0] / (x[0] + y[1]), x[1] / (x[1] + y[0]))


def half_root():
    """The root of one half."""
    return nearest_root(2, 1, 2)


def patterns(decimals):
    return [nearest(Fraction(text)) for text in decimals]


def literals(table):
    """A table of patterns, or of rows of them, as decimals."""
    return [literals(x) if isinstance(x, list) else shortest(x) for x in table]


# ---- source files

NOTE = "tools/tables.py writes this file."

# the layout of `rt fmt`: the longest list on one line, the widest item that shares a line in a longer one, the longest line
SHORT_LIST, SHORT_ITEM, LINE = 60, 10, 99


def packed(texts, room):
    """Items over several lines: as many a line as there is room for where all are short, else each on its own."""
    lines, short = [], max(map(len, texts)) <= SHORT_ITEM
    for text in texts:
        if short and lines and len(f"{lines[-1]} {text},") <= room:
            lines[-1] += f" {text},"
        else:
            lines.append(f"{text},")
    return lines


def laid_out(items, indent):
    """A list's lines in the layout of `rt fmt`, from its opening bracket on."""
    pad = "    " * (indent + 1)
    lines = ["["]
    if isinstance(items[0], list):
        for item in items:
            first, *rest = laid_out(item, indent + 1)
            lines += [pad + first, *rest]
            lines[-1] += ","
    else:
        line = ", ".join(map(str, items))
        if len(line) <= SHORT_LIST:
            return [f"[{line}]"]
        lines += [pad + line for line in packed([str(item) for item in items], LINE - len(pad))]
    return [*lines, "    " * indent + "]"]


def constant(name, kind, items, word="const"):
    return f"pub {word} {name}: {kind} = " + "\n".join(laid_out(items, 0)) + ";\n"


def source(about, *items):
    return f"// {about} {NOTE}\n" + "\n".join(items)


# ---- copies among the definitions

WIDTH = 10


def chain(numbers, indent, first="", last=""):
    """A list over several lines, ten numbers a line."""
    rows = [numbers[i : i + WIDTH] for i in range(0, len(numbers), WIDTH)]
    texts = [" ∷ ".join(str(n) for n in row) for row in rows]
    pad = "    " * indent
    lines = [pad + (first if i == 0 else "∷ ") + text for i, text in enumerate(texts)]
    lines[-1] += " ∷ []" + last
    return lines


def definition(name, kind, lines):
    return "\n".join([f"unfoldable pub {name} : {kind}", f"{name} =", *lines]) + "\n"


def list_of(name, numbers):
    return definition(name, "List ℕ", chain(numbers, 1))


def list_of_rows(name, rows):
    lines = []
    for i, row in enumerate(rows):
        lines += chain(row, 1, "(" if i == 0 else "∷ (", ")")
    return definition(name, "List (List ℕ)", lines + ["    ∷ []"])


def row_a_line(name, rows):
    """A list of short rows, each on one line."""
    texts = ["(" + " ∷ ".join(str(n) for n in row) + " ∷ [])" for row in rows]
    lines = ["    " + ("" if i == 0 else "∷ ") + text for i, text in enumerate(texts)]
    return definition(name, "List (List ℕ)", lines + ["    ∷ []"])


def read_as(name, kind, reader):
    """The floats that a list of patterns stands for."""
    return f"unfoldable pub {name} : {kind}\n{name} = {reader} {name}_bits\n"


def row_of_floats(name, numbers):
    return list_of(name + "_bits", numbers) + "\n" + read_as(name, "List Float", "floats")


def rows_of_floats(name, rows):
    return list_of_rows(name + "_bits", rows) + "\n" + read_as(name, "List (List Float)", "rows")


def one_float(name, bits):
    return f"unfoldable pub {name} : Float\n{name} = of_bits binary32 {bits}\n"


LISTS = "List, [], ◌∷◌, ℕ"


def copied(about, uses, items):
    return f"-- {about} {NOTE} Assumes nothing.\n" + "".join(f"use Rattle.{it}\n" for it in uses) + "\n" + "\n".join(items)


def whole_copy(about, *items):
    return copied(about, [f"std.specs.Prelude.{{{LISTS}}}"], items)


def float_copy(about, readers, *items, uses=()):
    return copied(about, [f"std.specs.Prelude.{{{LISTS}, Float}}", *uses, f"laws.specs.Patterns.{{{readers}}}"], items)


# ---- the files


def powers_files():
    powers_about = "The bits of the f32 nearest to n to the 4/3, n from 0 to 8206."
    signed_about = "The bits of the f32 nearest to |x| to the 4/3 with the sign of x, x from -255 to 255: entry x + 255."
    roots_about = "The bits of the f32 nearest to 2 to the r/4, r from 0 to 3."
    return {
        "crates/power_table/src/table.rt": source(powers_about, constant("POWERS", "[u32; 8207]", powers())),
        "crates/power_table/src/small.rt": source(signed_about, constant("SIGNED", "[u32; 511]", signed_powers())),
        "crates/powers/src/table.rt": source(roots_about, constant("ROOTS", "[u32; 4]", roots())),
    }


def bands_files():
    about = "The band starts of document 01, for 44.1, 48 and 32 kHz, and what preflag adds to each long band's factor."
    return {
        "crates/bands/src/table.rt": source(
            about,
            constant("LONG", "[[usize; 23]; 3]", LONG),
            constant("SHORT", "[[usize; 14]; 3]", SHORT),
            constant("PRETAB", "[u8; 22]", PRETAB),
        ),
        "crates/bands/specs/Starts.antt": whole_copy(
            about,
            row_a_line("long_tables", LONG),
            row_a_line("short_tables", SHORT),
            definition("pretab", "List ℕ", ["    " + " ∷ ".join(str(n) for n in PRETAB) + " ∷ []"]),
        ),
    }


def window_files():
    about = "The standard's window of 512 numbers, as printed."
    printed = printed_window()
    return {
        "crates/synthesis_tables/src/window.rt": source(about, constant("WINDOW", "[f32; 512]", printed)),
        "crates/synthesis_tables/specs/Window.antt": float_copy(
            about, "floats", row_of_floats("window", patterns(printed))
        ),
    }


def matrixing_files():
    about = "The matrixing table: row j, place i is the f32 nearest to cos((16 + i)(2j + 1)π/64)."
    table = matrixing()
    return {
        "crates/synthesis_tables/src/matrixing.rt": source(about, constant("MATRIXING", "[[f32; 64]; 32]", literals(table))),
        "crates/synthesis_tables/specs/Matrixing.antt": float_copy(
            about, "rows", rows_of_floats("matrixing", table)
        ),
    }


def cosines_files():
    about = "The cosines of the long and the short transform, and the four windows: each the f32 nearest to the formula."
    n36, n12, windows = imdct_cosines(36), imdct_cosines(12), imdct_windows()
    return {
        "crates/tables/src/cosines.rt": source(
            about,
            constant("COS_N36", "[[f32; 36]; 18]", literals(n36)),
            constant("COS_N12", "[[f32; 12]; 6]", literals(n12)),
            constant("IMDCT_WIN", "[[f32; 36]; 4]", literals(windows)),
        ),
        "crates/tables/specs/Cosines.antt": float_copy(
            about,
            "rows",
            rows_of_floats("cos_n36", n36),
            rows_of_floats("cos_n12", n12),
            rows_of_floats("imdct_win", windows),
        ),
    }


def antialias_files():
    about = "The eight pairs of alias constants, as puremp3 prints them."
    return {
        "crates/tables/src/antialias.rt": source(
            about, constant("CS", "[f32; 8]", CS), constant("CA", "[f32; 8]", CA)
        ),
        "crates/tables/specs/Antialias.antt": float_copy(
            about, "floats", row_of_floats("cs", patterns(CS)), row_of_floats("ca", patterns(CA))
        ),
    }


def stereo_files():
    about = "The ratios of intensity positions 0 to 5, left and right, and the root of one half: each the nearest f32."
    ratios, root = intensity_ratios(), half_root()
    return {
        "crates/tables/src/stereo.rt": source(
            about,
            constant("INTENSITY_STEREO_RATIOS", "[[f32; 2]; 6]", literals(ratios)),
            f"pub const FRAC_1_SQRT_2: f32 = {shortest(root)};\n",
        ),
        "crates/tables/specs/Stereo.antt": float_copy(
            about,
            "rows",
            rows_of_floats("intensity_ratios", ratios),
            one_float("half_root", root),
            uses=("std.specs.Float.{binary32}", "std.specs.Float.Ieee.{of_bits}"),
        ),
    }


def files():
    makers = powers_files, bands_files, window_files, matrixing_files, cosines_files, antialias_files, stereo_files
    return {name: text for maker in makers for name, text in maker().items()}


# ---- the module for the given Rust


def band_pairs():
    rows = [f"    ({long}, {short})," for long, short in zip(LONG, SHORT)]
    return "\n".join(["pub static SCALE_FACTOR_BAND_INDICES: [([u32; 23], [u32; 14]); 3] = [", *rows, "];"]) + "\n"


def rust_module():
    def floats(name, kind, items):
        return constant(name, kind, items, "static")

    transposed = [list(column) for column in zip(*matrixing())]
    return source(
        "The module `tables` of the given Rust, with this project's numbers.",
        band_pairs(),
        floats("INTENSITY_STEREO_RATIOS", "[[f32; 2]; 6]", literals(intensity_ratios())),
        "// Read for MPEG-2 alone, which is not taken over: the name has to be there, its numbers do not matter.\n"
        "pub static LFS_INTENSITY_STEREO_RATIOS: [f32; 21] = [0.0; 21];\n",
        floats("COS_N12", "[[f32; 12]; 6]", literals(imdct_cosines(12))),
        floats("COS_N36", "[[f32; 36]; 18]", literals(imdct_cosines(36))),
        floats("IMDCT_WIN", "[[f32; 36]; 4]", literals(imdct_windows())),
        floats("SBS_N_WIN", "[[f32; 32]; 64]", literals(transposed)),
        floats("SYNTH_DTBL", "[f32; 512]", printed_window()),
    )


# ---- the commands


def write():
    for name, text in files().items():
        path = ROOT / name
        path.parent.mkdir(parents=True, exist_ok=True)
        path.write_text(text)
    return 0


def check():
    written = files()
    differ = [name for name, text in written.items() if not same(ROOT / name, text)]
    for name in differ:
        print(f"tables: {name} is not as written")
    if not differ:
        print(f"tables: {len(written)} files as written")
    return 1 if differ else 0


def same(path, text):
    return path.is_file() and path.read_text() == text


def main(arguments):
    if arguments == []:
        return write()
    if arguments == ["--check"]:
        return check()
    if len(arguments) == 2 and arguments[0] == "--rust":
        Path(arguments[1]).write_text(rust_module())
        return 0
    print("usage: tools/tables.py [--check | --rust FILE]", file=sys.stderr)
    return 2


if __name__ == "__main__":
    sys.exit(main(sys.argv[1:]))
