"""Compares the whole back end in both editions with the Rust's: entries in, outputs, refusal lines and peaks out.

    python3 tests/oracle/editions.py [COUNT [SEED]]    COUNT random entries (20,000 unless said), cut-off tails, the real samples

An entry is the edition's number and a record. The editions are mixed within a random run, so that each granule starts from a history that either
may have left; one entry in fifty names a wrong one. The samples run mixed and wholly at each edition. The archive behind a C program, `host editions`, and the Rust's `driver editions` get the same
bytes, and what they write to descriptors 1 and 2 must be equal to the byte; so must the peaks, by `host edition-peaks` and
`driver edition-peaks`. The host is built by tests/host/run. Where rustc or the given Rust is missing, one line with the word `skipped` is printed.
"""

import glob
import os
import sys

sys.dont_write_bytecode = True

import build
import cases
import records
import whole

LEFT, RIGHT = records.LEFT, records.RIGHT
ENTRY = 1 + records.RECORD
WRONG_EDITIONS = (0, 3, 4, 18, 128, 255)
EDITION2 = os.path.join("edition2", "*.rec")


def some_count1(draw, table):
    """At an edge of the bands, below most of them, or above."""
    return draw.pick((draw.pick(cases.all_edges(table)), draw.below(60), 400 + draw.below(177)))


def set_positions(draw, record, part):
    """A channel's factors: where intensity applies positions up to 7, 7 often, and elsewhere anything."""
    factors = [draw.below(16) for _ in range(61)]
    count1 = int.from_bytes(record[RIGHT + records.COUNT1:RIGHT + records.COUNT1 + 2], "little")
    longs, shorts = cases.applied(record[0], record[LEFT], count1)
    for place in [*longs, *(22 + 3 * band + win for band in shorts for win in range(3))]:
        factors[place] = draw.pick((7, draw.below(8), draw.below(8)))
    record[part + 6:part + 67] = bytes(factors)


def telling(draw):
    """Records that the editions render differently, most of them: short windows, intensity and mid-side in all pairs, positions and factors that
    differ from channel to channel. Either channel's positions are now and then left to chance, which one edition refuses and the other does not."""
    kinds = cases.Deck(draw, (cases.SHORT_TYPE, cases.SHORT_TYPE, cases.MIXED_TYPE, cases.MIXED_TYPE, cases.LONG_TYPE, cases.START_TYPE, cases.END_TYPE))
    flags = cases.Deck(draw, (0, 1, 1, 2, 3, 3))
    for base in records.accepted(draw):
        record = bytearray(base)
        record[LEFT] = kinds.deal()
        records.set_count1(record, LEFT, some_count1(draw, record[0]))
        if record[1] == 2:
            record[2] = flags.deal()
            record[RIGHT] = record[LEFT] if draw.below(8) else draw.below(5)
            records.set_count1(record, RIGHT, some_count1(draw, record[0]))
            for part in (LEFT, RIGHT):
                if draw.below(12):
                    set_positions(draw, record, part)
        yield bytes(record)


def usual(draw, count, seed):
    """The records of the whole comparison, faults among them. Where intensity is on, channel 1's positions are mostly such that edition 2 takes them."""
    for record in records.run(count, seed):
        out = bytearray(record)
        if out[1:3] in (b"\2\1", b"\2\3") and draw.below(6) and max(out[RIGHT + 6:RIGHT + 67]) <= 15:
            records.low_positions(draw, out, RIGHT)
        yield bytes(out)


def entry(draw, record):
    """The record with an edition before it; in one of fifty a wrong one, half of these beside another fault."""
    if draw.below(50):
        return bytes([1 + draw.below(2)]) + record
    return bytes([draw.pick(WRONG_EDITIONS)]) + (records.faulty(draw, record) if draw.below(2) else record)


def run(count, seed):
    """A run of random entries: one of the usual records, then two of the telling ones."""
    draw = cases.Draw(seed)
    source, others = telling(cases.Draw(draw.next())), usual(draw, count, seed)
    for i in range(count):
        yield entry(draw, next(source) if i % 3 else next(others))


def granules(name):
    records_of = whole.sample(name)
    return [records_of[at:at + records.RECORD] for at in range(0, len(records_of), records.RECORD)]


def streams(count, seed):
    """(name, bytes) of each run that is compared."""
    for first in range(0, count, 5000):
        yield "random from %d on" % first, b"".join(run(min(5000, count - first), seed + first))
    draw = cases.Draw(seed)
    head, last = b"".join(run(3, seed)), next(telling(draw))
    for edition in (1, 2, 0):
        for length in (0, 1, 2, 1226, 2447):
            yield "edition %d and a tail of %d bytes" % (edition, length), head + bytes([edition]) + last[:length]
    for name in ("speech.rec", "joint.rec", *sorted(glob.glob(EDITION2, root_dir=whole.SAMPLES))):
        yield name + ", mixed", b"".join(entry(draw, granule) for granule in granules(name))
        for edition in (1, 2):
            yield "%s, edition %d" % (name, edition), b"".join(bytes([edition]) + granule for granule in granules(name))


def of_the_project(stream):
    """Outputs, refusal lines, and the lines of peaks."""
    return (*whole.answer([whole.HOST, "--built", "editions"], stream), whole.answer([whole.HOST, "--built", "edition-peaks"], stream)[0])


def of_the_rust(driver, stream):
    return (*whole.answer([driver, "editions"], stream), whole.answer([driver, "edition-peaks"], stream)[0])


def accepted_of(edition, stream, lines):
    """How many entries of an edition there are, and how many of them are not refused."""
    refused = {int(line.split()[1]) for line in lines.splitlines()}
    named = [n for n, at in enumerate(range(0, len(stream), ENTRY)) if stream[at] == edition]
    return "%d of %d" % (sum(n not in refused for n in named), len(named))


def compare(driver, name, stream):
    """Prints what came of one run and says whether it is as it must be."""
    theirs = of_the_rust(driver, stream)
    bad = list(whole.apart(of_the_project(stream), theirs))
    print("oracle: editions: %s: %s of edition 1 and %s of edition 2 taken, %d refused, %d bytes of outputs, %d lines of peaks: %s" % (
        name, accepted_of(1, stream, theirs[1]), accepted_of(2, stream, theirs[1]), theirs[1].count(b"\n"), len(theirs[0]), theirs[2].count(b"\n"),
        "; ".join(bad) or "equal"), flush=True)
    return not bad


def main(words):
    try:
        driver = build.build()
    except build.Skipped as why:
        print("oracle: editions:", why)
        return 0
    if not os.path.isfile(os.path.join(build.ROOT, "target", "host")):
        sys.exit("oracle: target/host is not there: tests/host/run builds it")
    count, seed = ([int(w) for w in words] + [20000, 1][len(words):])[:2]
    good = [compare(driver, name, stream) for name, stream in streams(count, seed)]
    return 0 if all(good) else 1


if __name__ == "__main__":
    sys.exit(main(sys.argv[1:]))
