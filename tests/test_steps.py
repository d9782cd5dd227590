#!/usr/bin/env python3
"""Holds docs/STEPS.md to the code: the definitions that it names are there, its band starts and constants are those of
tools/tables.py, and each row of its refusals names those that test for it, in the order in which they do."""
import pathlib
import re
import sys

sys.dont_write_bytecode = True
ROOT = pathlib.Path(__file__).resolve().parent.parent
sys.path.insert(0, str(ROOT / "tools"))
import tables  # noqa: E402

PAGE = (ROOT / "docs/STEPS.md").read_text(encoding="utf-8")
# What the page calls a tester, and the list of checks that says what it tests.
TESTERS = {
    "requantize": ("requantize", "requantize_checks"), "reorder": ("reorder", "reorder_checks"),
    "stereo": ("stereo", "stereo_checks"), "antialias": ("antialias", "samples_check"),
    "hybrid": ("hybrid", "hybrid_checks"), "inversion": ("antialias", "samples_check"),
    "synthesis": ("synthesis", "synthesis_checks"), "granule": ("granule", "granule_checks"),
    "reader": ("records", "record_checks"), "the record program": ("records", "end_checks"),
}


def specs(crate):
    """The definitions that hold, without those of before that edition 1 is proved to be."""
    return "\n".join(path.read_text(encoding="utf-8") for path in sorted(ROOT.glob(f"crates/{crate}/specs/*.antt")) if path.stem != "EditionOne")


def checks(crate, name):
    """The numbers of a list of checks in their order, those of the lists that it puts together among them."""
    body = re.search(rf"^{name}\b[^\n]*=(.*?)(?:\n\n|\Z)", specs(crate), re.M | re.S).group(1)
    found = []
    for number, other in re.findall(r"\bcheck (\d+)|\b(\w+_checks)\b", body):
        found += [int(number)] if number else checks(crate, other)
    return found


def rows(title):
    """The cells of each row of a section's tables."""
    section = PAGE.split(f"\n## {title}\n")[1].split("\n## ")[0]
    return [[cell.strip() for cell in line.strip("|").split("|")] for line in section.splitlines() if line.startswith("|")]


def cells(title, label):
    """The row of a section that has this label, without it."""
    return next(row[1:] for row in rows(title) if row[0] == label)


faults = []


def expect(what, got, wanted):
    if got != wanted:
        faults.append(f"{what}: {got} instead of {wanted}")


named = [part.split(" ", 1) for row in rows("Where each stands in specs/")[2:] for part in row[1].split("; ")]
definitions = [(crate, name) for crate, names in named for name in re.findall(r"`(\w+)`", names)]
for crate, name in definitions:
    if not re.search(rf"^(?:(?:abbrev|unfoldable) )?pub (?:record )?{name}(?![\w'-])", specs(crate), re.M):
        faults.append(f"{crate} has no definition {name}")
for t, kilohertz in enumerate(("44.1", "48", "32")):
    long, short = cells("Bands", f"{t} ({kilohertz} kHz)")
    expect(f"table {t}", [[int(n) for n in long.split()], [int(n) for n in short.split()]], [tables.LONG[t], tables.SHORT[t]])
expect("pre", [0] * 10 + [int(n) for n in cells("1. Requantize", "pre")], tables.PRETAB)
expect("CS and CA", [cells("4. Antialias", "CS"), cells("4. Antialias", "CA")], [tables.CS, tables.CA])
refusals = [(int(number), by) for number, _, by in rows("Refusals")[2:]]
expect("the refusals' order", [number for number, _ in refusals], [14, 13, 18, 1, 12, *range(2, 12)])
for tester, (crate, name) in TESTERS.items():
    expect(f"what {tester} tests", [number for number, by in refusals if re.search(rf"(?:^|[,;] ){tester}\b", by)], checks(crate, name))
for fault in faults:
    print(f"docs/STEPS.md: {fault}", file=sys.stderr)
if faults:
    sys.exit(1)
print(f"steps: {len(definitions)} definitions are there, tables and {len(refusals)} refusals as in the code")
