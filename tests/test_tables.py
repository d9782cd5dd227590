#!/usr/bin/env python3
"""tools/tables.py --check notices a wrong digit, and the window's rule holds in the data that the script reads.

The first part works on a copy of the tables, changes one digit in each of several files and expects the check to name those files and no other."""
import pathlib
import re
import shutil
import subprocess
import sys
import tempfile

ROOT = pathlib.Path(__file__).resolve().parent.parent


def change_one_digit(path):
    """Another last digit for the last number that has eight digits or more, or else the last number of the file."""
    text = path.read_text(encoding="utf-8")
    numbers = list(re.finditer(r"\d{8,}", text)) or list(re.finditer(r"\d+(?!.*\d)", text, re.S))
    end = numbers[-1].end()
    digit = text[end - 1]
    path.write_text(text[: end - 1] + ("1" if digit == "0" else "0") + text[end:], encoding="utf-8")


def wrong_digits(work):
    files = ["crates/powers/src/table.rt", "crates/bands/src/table.rt", "crates/bands/specs/Starts.antt",
             "crates/synthesis_tables/src/window.rt", "crates/synthesis_tables/specs/Matrixing.antt", "crates/tables/src/cosines.rt"]
    for name in files:
        change_one_digit(work / name)
    answer = subprocess.run([sys.executable, "tools/tables.py", "--check"], cwd=work, capture_output=True, text=True)
    said = answer.stdout + answer.stderr
    named = set(re.findall(r"crates/[\w/]+\.(?:rt|antt)", said))
    if answer.returncode != 1 or named != set(files):
        raise SystemExit(f"with a wrong digit in each of {sorted(files)} the check names {sorted(named)}: {said}")
    return len(files)


def window_rule():
    """Entries i and 512 - i have equal size, and equal sign exactly where 64 divides i."""
    rows = [line.split() for line in (ROOT / "tools/window.txt").read_text().splitlines() if line and line[0] != "#"]
    entry = {int(i): number for i, number in rows}
    if sorted(entry) != list(range(512)):
        raise SystemExit("tools/window.txt does not hold 512 entries")
    for i in range(1, 256):
        a, b = entry[i], entry[512 - i]
        same_sign = a.startswith("-") == b.startswith("-")
        if a.lstrip("-") != b.lstrip("-") or same_sign != (i % 64 == 0):
            raise SystemExit(f"the window's rule breaks at entry {i}: {a} and {b}")


with tempfile.TemporaryDirectory() as folder:
    copy = pathlib.Path(folder) / "copy"
    shutil.copytree(ROOT, copy, ignore=shutil.ignore_patterns(".git", "out", "target"))
    count = wrong_digits(copy)
window_rule()
print(f"tables: {count} wrong digits named, the window's rule holds at 255 pairs")
