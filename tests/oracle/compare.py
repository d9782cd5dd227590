"""Compares the stages with the given Rust at scale, edition 2 of three with edition2.rs, and the steps of four, which take infinite
numbers and NaNs too.

    python3 tests/oracle/compare.py [COUNT [SEED]] [STAGE ...]

For each stage, for each that has an edition 2 (`hybrid-2` and so on), and for each step (`hybrid-step` and so on), COUNT random
cases (10,000 unless said) go through the driver, and inputs and answers as one section through the proved program replay_stages,
which counts the places that differ. It exits with 1 where one differs or a case is refused. The program is built by `rt ci`, or by
`rt run` in crates/replay_stages. Where rustc or the given Rust is missing, one line with the word `skipped` is printed.
"""

import os
import shutil
import subprocess
import sys

sys.dont_write_bytecode = True

import build
import cases
import lists

PROGRAM = "replay_stages"


def compare(driver, stage, count, seed):
    """The program's line, and whether it is the one for a section without a difference."""
    made = subprocess.Popen([sys.executable, os.path.join(build.HERE, "cases.py"), stage, str(count), str(seed)],
                            stdout=subprocess.PIPE)
    rust = subprocess.Popen([driver, cases.whose(stage)], stdin=made.stdout, stdout=subprocess.PIPE)
    made.stdout.close()  # the Rust's alone, so that the cases end where it ends early
    ours = subprocess.Popen([os.path.join(build.ROOT, "tools", "run"), PROGRAM], stdin=subprocess.PIPE,
                            stdout=subprocess.PIPE)
    try:
        ours.stdin.write(lists.header(stage, stage, count))
        shutil.copyfileobj(rust.stdout, ours.stdin, 1 << 20)
    except BrokenPipeError:
        pass  # the program has ended early, which its line or its status says
    line = ours.communicate()[0].decode().strip()
    statuses = [made.wait(), rust.wait(), ours.returncode]
    return line, statuses == [0, 0, 0] and line == lists.line(stage, count)


def main(words):
    numbers = [int(w) for w in words if w.isdigit()]
    stages = [w for w in words if not w.isdigit()] or list(cases.STAGES)
    count, seed = (numbers + [10000, 1][len(numbers):])[:2]
    for stage in stages:
        if stage not in cases.STAGES:
            sys.exit("oracle: there is no stage %s" % stage)
    try:
        driver = build.build()
    except build.Skipped as why:
        print("oracle:", why)
        return 0
    build.stop_unless_built(PROGRAM)
    bad = 0
    for stage in stages:
        line, good = compare(driver, stage, count, seed)
        print("oracle:", line, flush=True)
        bad += not good
    return 1 if bad else 0


if __name__ == "__main__":
    sys.exit(main(sys.argv[1:]))
