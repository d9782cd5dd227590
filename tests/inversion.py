#!/usr/bin/env python3
"""Inversion's step on floats that the stage refuses: infinite numbers and NaNs, alone and among others.

The step takes a subband as a whole where no NaN is in it, and number by number where one is. bench_stages runs it once and writes the bits of +0.0
plus place 19, with 0x7fc00000 for a NaN: the highest bit is turned over, and a NaN is one still. The other places, and both zeros, are in the lists
of tests/oracle, whose samples are finite. Call it after rt ci, or rt run in crates/bench_stages."""
import pathlib
import struct
import subprocess
import sys

RUN = pathlib.Path(__file__).resolve().parent.parent / "tools" / "run"
STEP_OF_INVERSION = 16 + 5
PLACE, HIGHEST, NAN = 19, 0x80000000, 0x7FC00000
# 1.0, -2.5, the least number, the greatest negated, both infinities, a NaN (the reader of bytes makes one NaN of all)
VALUES = [0x3F800000, 0xC0200000, 0x00000001, 0xFF7FFFFF, 0x7F800000, 0xFF800000, 0x7FC00000]
# none; an even place beside it; the place of its subband that the sixteen leave over; two in other subbands
NAN_AT = [None, 20, 35, 91, 559]


def written(value, nan_at):
    samples = [0x3F000000] * 576
    if nan_at is not None:
        samples[nan_at] = 0xFFC00000
    samples[PLACE] = value
    given = bytes([STEP_OF_INVERSION, 0, 0, 0]) + struct.pack("<I576I", 1, *samples)
    done = subprocess.run([RUN, "bench_stages"], input=given, capture_output=True)
    if done.returncode != 0 or done.stderr:
        sys.exit(f"inversion: bench_stages failed: {done.stderr.decode(errors='replace')[:300]}")
    return done.stdout.decode().strip()


faults = []
for value in VALUES:
    wanted = "%08x" % (NAN if value % HIGHEST > 0x7F800000 else value ^ HIGHEST)
    for nan_at in NAN_AT:
        found = written(value, nan_at)
        if found != wanted:
            faults.append(f"{value:08x} at place {PLACE}, a NaN at {nan_at}: {found}, and not {wanted}")
for fault in faults:
    print("inversion:", fault, file=sys.stderr)
if faults:
    sys.exit(1)
print(f"inversion: {len(VALUES) * len(NAN_AT)} runs with infinite numbers and NaNs: the highest bit is turned over, and a NaN is one still")
