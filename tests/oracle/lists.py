"""The stored list of replay_stages: cases of each stage with the given Rust's answers, and of edition 2 with those of edition2.rs, then
bad input with the documents' refusals.

    python3 tests/oracle/lists.py --store    writes crates/replay_stages/stdin, and stdout, the program's lines
    python3 tests/oracle/lists.py --check    remakes and compares both

Where rustc or the given files are missing, one line with the word `skipped` is
printed and the exit code is 0. A section that differs gives the exit code 1.
"""

import os
import struct
import subprocess
import sys

sys.dont_write_bytecode = True

import build
import cases
import faults

LIST = os.path.join(build.ROOT, "crates", "replay_stages", "stdin")
LINES = os.path.join(build.ROOT, "crates", "replay_stages", "stdout")
SEED = 1
# The stages in the order of their numbers, then those of edition 2, and how many cases of each stage's run are taken as they come.
FIRST = {
    "requantize": 192, "reorder": 147, "stereo": 76, "antialias": 75,
    "hybrid": 75, "inversion": 30, "synthesis": 54,
    "reorder-2": 154, "stereo-2": 76, "hybrid-2": 75,
}
# Of the stages that look at bands, cases further on in the run are taken too, where they meet an edge not met before.
FURTHER = {"requantize": 2000, "reorder": 2000, "stereo": 8000, "reorder-2": 2000, "stereo-2": 8000}
# The steps, and how many cases of each: every kind of odd float at every share of the places, and every ending.
STEPS = {"antialias-step": 24, "hybrid-step": 48, "inversion-step": 24, "synthesis-step": 24, "hybrid-2-step": 24}
# The bytes of a section's header, and of the name in it.
HEADER, NAME = 40, 31


def header(name, stage, count, told=0, room=576, edition=None):
    """What stands before a section's cases: the stage (16 more for its step alone), the number that it should answer, the room for outputs,
    the edition, the stage's own unless another is said, and the name, after which a space is left."""
    number = list(FIRST).index(cases.plain(stage)) + (16 if stage.endswith(cases.STEP) else 0)
    edition = cases.edition_of(stage) if edition is None else edition
    assert len(name) < NAME
    return struct.pack("<BBHIB31s", number, told, room, count, edition, name.encode().ljust(NAME))


def edge(stage, case):
    """The edge that a case meets: the table, the long or the short bands, and a count1 at, one below or one above a start of them; or None."""
    stage, table = cases.plain(stage), case[0]
    kind = case[4] if stage == "requantize" else case[1]
    at = {"requantize": 72, "reorder": 2, "stereo": 6}[stage]
    count1 = case[at] + 256 * case[at + 1]
    if stage == "stereo" and case[2] % 2 == 0:
        return None
    long = kind in cases.LONG_KINDS
    if stage == "reorder" and long:
        return None
    starts = cases.LONG[table] if long else cases.SHORT3[table]
    near = any(abs(count1 - start) <= 1 for start in starts)
    return (table, "long" if long else kind, count1) if near else None


def chosen(stage):
    """The stage's cases: the first of its run, and each further one that meets an edge for the first time."""
    met, out = set(), []
    for n, case in enumerate(cases.cases(stage, FURTHER.get(stage, FIRST[stage]), SEED)):
        key = edge(stage, case) if stage in FURTHER else None
        if n < FIRST[stage] or (key is not None and key not in met):
            out.append(case)
        met.add(key)
    return out


def answered(driver, stage, inputs):
    """The cases, each followed by the driver's answer."""
    run = subprocess.run([driver, cases.whose(stage)], input=b"".join(inputs), stdout=subprocess.PIPE, check=True)
    if len(run.stdout) != len(inputs) * sum(cases.sizes(stage)):
        raise SystemExit("%s: the driver answered with another number of bytes" % stage)
    return run.stdout


def line(name, count, otherwise=0, differ=0):
    """What the program writes of a section."""
    return name.ljust(NAME) + "%d cases, %d answered otherwise, %d places differ" % (count, otherwise, differ)


class Section:
    """A section of the list: its header's numbers, the cases with their answers, and how many of these are wrong on purpose."""

    def __init__(self, stage, data, told=0, room=576, edition=None):
        self.stage, self.data, self.told, self.room, self.edition = stage, data, told, room, edition
        self.count = len(data) // sum(cases.sizes(stage))
        self.name = stage + (" refused %d" % told if told else "") + (", room %d" % room if room != 576 else "")
        self.wrong = (0, 0)

    def bytes(self):
        return header(self.name, self.stage, self.count, self.told, self.room, self.edition) + self.data

    def line(self):
        return line(self.name, self.count, *self.wrong)


def misled(stage):
    """A refused case that is told to be accepted, two numbers of its answer wrong: that the program counts."""
    _, data = faults.refused(stage, 576, cases.edition_of(stage))[0]
    return with_faults(stage, data, 1)


def of_wrong_edition(stage, edition):
    """A stage of edition 2 with all its faults and none, where another edition is named."""
    (told, data), = faults.refused(stage, 576, edition)
    section = Section(stage, data, told, edition=edition)
    section.name = "%s, edition %d refused" % (cases.plain(stage), edition)
    return section


def seen(bits):
    """Whether another top bit is another number: any not-a-number equals any other."""
    return int.from_bytes(bits, "little") & 0x7fffffff <= 0x7f800000


def with_faults(stage, data, otherwise):
    """The first of the cases in which that shows, the first and the last number of its answer with another top bit. The last is synthesis's
    peak, and of each other stage a float."""
    case, answer = cases.sizes(stage)
    each = (data[at:at + case + answer] for at in range(0, len(data), case + answer))
    wrong = bytearray(next(one for one in each if seen(one[case:case + 4]) and seen(one[-4:])))
    wrong[case + 3] ^= 0x80
    wrong[case + answer - 1] ^= 0x80
    section = Section(stage, bytes(wrong))
    section.name += ", misled"
    section.wrong = (otherwise, 2)
    return section


def sections(driver):
    """The list: the driver's answers by stage, some of synthesis with a place too many; what each stage refuses; wrong editions; wrong answers;
    and the steps."""
    for stage in FIRST:
        yield Section(stage, answered(driver, stage, chosen(stage)))
    yield Section("synthesis", answered(driver, "synthesis", chosen("synthesis")[:6]), room=577)
    for stage in FIRST:
        for room in (576, 575, 0) if stage == "synthesis" else (576,):
            for told, data in faults.refused(stage, room, cases.edition_of(stage)):
                yield Section(stage, data, told, room)
    for stage in FIRST:
        if cases.edition_of(stage) == 2:
            for edition in faults.WRONG_EDITIONS:
                yield of_wrong_edition(stage, edition)
    for stage in FIRST:
        yield misled(stage)
    for stage, count in STEPS.items():
        steps = answered(driver, stage, list(cases.cases(stage, count, SEED)))
        yield Section(stage, steps)
        yield with_faults(stage, steps, 0)


def answer_numbers(stage, data):
    """The f32 bits of all answers in the section."""
    case, answer = cases.sizes(stage)
    out = []
    for at in range(case, len(data), case + answer):
        out += cases.answer_floats(stage, data[at:at + answer], "I")
    return out


def near(one, other):
    """Requantize rests on the platform's powf: equal within a relative 1/1,048,576."""
    if len(one) != len(other):
        return False
    case, answer = cases.SIZES["requantize"]
    for at in range(0, len(one), case + answer):
        if one[at:at + case] != other[at:at + case]:
            return False
        form = "<%df" % (answer // 4)
        for x, y in zip(struct.unpack_from(form, one, at + case),
                        struct.unpack_from(form, other, at + case)):
            if abs(x - y) * 1048576.0 > abs(y):
                return False
    return True


def compared(section, stored):
    """The word for what a stored section is to the one made now."""
    made = section.bytes()
    if stored == made:
        return "same"
    if section.stage == "requantize" and stored[:HEADER] == made[:HEADER] and near(stored[HEADER:], section.data):
        return "same within the tolerance"
    return "DIFFERS"


def counted(section):
    """A written section's line."""
    numbers = answer_numbers(section.stage, section.data)
    return "%4d cases %7d bytes, answers: %6d infinite, %6d not a number" % (
        section.count, len(section.data),
        sum(1 for x in numbers if x & 0x7FFFFFFF == 0x7F800000),
        sum(1 for x in numbers if x & 0x7FFFFFFF > 0x7F800000))


def store(made):
    with open(LIST, "wb") as f:
        for section in made:
            f.write(section.bytes())
            print(section.name.ljust(NAME) + counted(section))
    with open(LINES, "w") as f:
        f.writelines(section.line() + "\n" for section in made)


def check(made):
    """Whether the stored files are what is made now."""
    words = []
    with open(LIST, "rb") as f:
        for section in made:
            words.append(compared(section, f.read(len(section.bytes()))))
            print(section.name.ljust(NAME) + words[-1])
        rest = f.read()
    if rest:
        print("%d bytes stand after the last section" % len(rest))
    with open(LINES) as f:
        lines = f.read() == "".join(section.line() + "\n" for section in made)
    if not lines:
        print("the lines in %s are others" % os.path.relpath(LINES))
    return lines and not rest and "DIFFERS" not in words


def main():
    if sys.argv[1:] not in (["--store"], ["--check"]):
        sys.exit("lists.py --store | --check")
    try:
        made = list(sections(build.build()))
    except build.Skipped as why:
        print(why)
        return
    if sys.argv[1] == "--store":
        store(made)
    elif not check(made):
        sys.exit(1)


if __name__ == "__main__":
    main()
