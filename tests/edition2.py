#!/usr/bin/env python3
"""Edition 2 on real streams: the archive behind a C program, `host editions`, beside what mpg123 made of the same streams (samples/README.md).

Each set is rendered twice from a fresh history. At edition 2 every output lies within 1e-6 of mpg123's. At edition 1 the outputs are those of
the record program to the byte, and somewhere further than 0.05 from mpg123's: so neither edition passes for the other. Nothing is refused.
Call it after tests/host/run and rt ci, or rt run in crates/render."""
import array
import math
import pathlib
import subprocess
import sys

ROOT = pathlib.Path(__file__).resolve().parent.parent
SAMPLES = ROOT / "samples" / "edition2"
HOST = [ROOT / "tests" / "host" / "run", "--built", "editions"]
RENDER = [ROOT / "tools" / "run", "render"]
RECORD = 2448
SETS = ("m1_clicks_stereo44_cbr128", "m1_speech_mono44_cbr64", "m1_allshort_stereo48_cbr128", "is_t0_long_pos7", "is_t0_short_base",
        "is_t0_mixed_base", "ismsboth_t0_long_base", "ismsboth_t0_short_base")
# full scale is 1.0; the least of the eight largest distances at edition 1 is 0.0798
NEAR, FAR = 1e-6, 0.05


def rendered(command, stream):
    """The outputs' bytes, where the program ends well and says nothing."""
    done = subprocess.run(command, input=stream, capture_output=True)
    if done.returncode != 0 or done.stderr:
        sys.exit(f"edition 2: {command[-1]} ended with {done.returncode}: {done.stderr.decode(errors='replace')[:300]}")
    return done.stdout


def at_edition(edition, granules):
    return rendered(HOST, b"".join(bytes([edition]) + granule for granule in granules))


def floats(stream):
    numbers = array.array("f", stream)
    if sys.byteorder == "big":
        numbers.byteswap()
    return numbers


def largest_distance(outputs, wanted):
    """Over all outputs; infinite where one is no number or their counts differ."""
    ours, theirs = floats(outputs), floats(wanted)
    if len(ours) != len(theirs) or not all(map(math.isfinite, ours)):
        return math.inf
    return max(abs(a - b) for a, b in zip(ours, theirs))


faults = []
for name in SETS:
    records = (SAMPLES / f"{name}.rec").read_bytes()
    wanted = (SAMPLES / f"{name}.mpg123.f32").read_bytes()
    granules = [records[at:at + RECORD] for at in range(0, len(records), RECORD)]
    first, second = at_edition(1, granules), at_edition(2, granules)
    far, near = largest_distance(first, wanted), largest_distance(second, wanted)
    print(f"edition 2: {name}: {len(granules)} granules, largest distance {near:.2e} at edition 2, {far:.3f} at edition 1")
    if near > NEAR:
        faults.append(f"{name}: edition 2 lies {near:.2e} from mpg123's outputs")
    if far <= FAR:
        faults.append(f"{name}: edition 1 lies no further than {far:.3f} from mpg123's outputs")
    if first != rendered(RENDER, records):
        faults.append(f"{name}: the outputs at edition 1 are not the record program's")
for fault in faults:
    print("edition 2:", fault, file=sys.stderr)
sys.exit(1 if faults else 0)
