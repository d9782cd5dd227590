"""Compares the whole back end with the given Rust: records in, outputs, refusal lines and peaks out.

    python3 tests/oracle/whole.py [COUNT [SEED]]    COUNT random records (20,000 unless said), every byte of a record damaged,
                                                    cut-off tails, the real samples
    python3 tests/oracle/whole.py --store           writes the list that the gate replays, with the Rust's answers
    python3 tests/oracle/whole.py --check           says whether the stored list is what --store would write

The proved program `render` and the Rust's `driver records` get the same bytes. What they write to descriptors 1 and 2 must be equal to the
byte. The program does not say the peaks: these come from the proved archive behind a C program, `host peaks`, and have to be the lines of the
Rust's `driver peaks`. The programs are built by `rt ci`, or by `rt run` in crates/render, and by tests/host/run. Where rustc or the given Rust is
missing, one line with the word `skipped` is printed.
"""

import os
import subprocess
import sys

sys.dont_write_bytecode = True

import build
import cases
import records

PROGRAM = "render"
HOST = os.path.join(build.ROOT, "tests", "host", "run")
SAMPLES = os.path.join(build.ROOT, "samples")
STORED = {
    "records": os.path.join(build.ROOT, "crates", PROGRAM, "stdin"),
    "outputs": os.path.join(build.ROOT, "crates", PROGRAM, "stdout"),
    "lines": os.path.join(build.ROOT, "tests", "render.lines"),
    "peaks": os.path.join(build.ROOT, "tests", "render.peaks"),
}


def sample(name):
    with open(os.path.join(SAMPLES, name), "rb") as f:
        return f.read()


def answer(command, stream):
    done = subprocess.run(command, input=stream, capture_output=True)
    if done.returncode != 0:
        sys.exit("oracle: %s ended with status %d: %s" % (command[-1], done.returncode, done.stderr.decode(errors="replace")))
    return done.stdout, done.stderr


def place_of(ours, theirs):
    """Where two byte strings or lists first differ."""
    return next((i for i, (a, b) in enumerate(zip(ours, theirs)) if a != b), min(len(ours), len(theirs)))


def of_the_project(stream):
    """Outputs, refusal lines, and the lines of peaks."""
    return (*answer([os.path.join(build.ROOT, "tools", "run"), PROGRAM], stream), answer([HOST, "--built", "peaks"], stream)[0])


def of_the_rust(driver, stream):
    return (*answer([driver, "records"], stream), answer([driver, "peaks"], stream)[0])


def apart(ours, theirs):
    """What differs, in words."""
    for what, a, b in zip(("descriptor 1", "descriptor 2"), ours, theirs):
        if a != b:
            yield "%s differs from byte %d on (%d and %d bytes)" % (what, place_of(a, b), len(a), len(b))
    ours, theirs = ours[2].splitlines(), theirs[2].splitlines()
    if ours != theirs:
        yield "the peaks differ from record %d on (%d and %d lines)" % (place_of(ours, theirs), len(ours), len(theirs))


def compare(driver, name, stream):
    """Prints what came of one run and says whether it is as it must be."""
    theirs = of_the_rust(driver, stream)
    bad = list(apart(of_the_project(stream), theirs))
    print("oracle: %s: %d records, %d refused, %d bytes of outputs, %d lines of peaks: %s" % (
        name, -(-len(stream) // records.RECORD), theirs[1].count(b"\n"), len(theirs[0]), theirs[2].count(b"\n"),
        "; ".join(bad) or "equal"), flush=True)
    return not bad


def streams(count, seed):
    """(name, bytes) of each run that is compared."""
    for first in range(0, count, 5000):
        n = min(5000, count - first)
        yield "random from %d on" % first, b"".join(records.run(n, seed + first))
    yield "every byte damaged", b"".join(records.every_byte(seed))
    head = b"".join(records.run(3, seed))
    whole = next(records.accepted(cases.Draw(seed)))
    for length in (0, 1, 2, 4, 5, 70, 1225, 1226, 1227, 2446, 2447):
        yield "a tail of %d bytes" % length, head + whole[:length]
    for name in ("speech.rec", "joint.rec"):
        yield name, sample(name)


def stored_stream():
    """Real granules, random ones and damaged ones in one run, which ends in a cut-off record."""
    speech, joint = sample("speech.rec"), sample("joint.rec")
    size = records.RECORD
    draw = cases.Draw(3)
    source = records.accepted(draw)
    parts = [speech[60 * size:110 * size], joint[20 * size:70 * size], b"".join(records.run(120, 1))]
    parts.append(b"".join(records.damaged(draw, next(source), place) for place in (0, 1, 2, 3, 4, 6, 7, 10, 32, 71, 72, 1226, 1228, 1293)))
    return b"".join(parts) + next(source)[:1000]


def store(driver, check):
    stream = stored_stream()
    made = dict(zip(STORED, (stream, *of_the_rust(driver, stream))))
    bad = 0
    for what, path in STORED.items():
        if check:
            with open(path, "rb") as f:
                same = f.read() == made[what]
            print("oracle: the stored %s are %s" % (what, "what the Rust gives" if same else "NOT what the Rust gives"))
            bad += not same
        else:
            with open(path, "wb") as f:
                f.write(made[what])
    return 1 if bad else 0


def main(words):
    try:
        driver = build.build()
    except build.Skipped as why:
        print("oracle:", why)
        return 0
    if words[:1] in (["--store"], ["--check"]):
        return store(driver, words[0] == "--check")
    build.stop_unless_built(PROGRAM)
    if not os.path.isfile(os.path.join(build.ROOT, "target", "host")):
        sys.exit("oracle: target/host is not there: tests/host/run builds it")
    count, seed = ([int(w) for w in words] + [20000, 1][len(words):])[:2]
    good = [compare(driver, name, stream) for name, stream in streams(count, seed)]
    return 0 if all(good) else 1


if __name__ == "__main__":
    sys.exit(main(sys.argv[1:]))
