"""Builds the oracle's driver: the given Rust, unchanged, over the project's tables, and edition 2, written apart.

    python3 tests/oracle/build.py        prints the path of the built driver

The given files are looked for in $SHARED/docs/src/src, SHARED being ../shared
seen from the repository's root unless the variable says otherwise. The build
folder is target/oracle. Where rustc or the given files are missing, one line
with the word `skipped` is printed and the exit code is 0.
"""

import os
import shutil
import subprocess
import sys
import tempfile

HERE = os.path.dirname(os.path.abspath(__file__))
ROOT = os.path.dirname(os.path.dirname(HERE))
GIVEN = ("requantize.rs", "stereo.rs", "synthesis.rs", "types.rs")
OWN = ("driver.rs", "records.rs", "edition2.rs")


class Skipped(Exception):
    """There is nothing to build the oracle with; the text says what is missing."""


def shared():
    """The folder of the library's papers."""
    return os.environ.get("SHARED") or os.path.join(ROOT, "..", "shared")


def build():
    """Builds and returns the path of the driver."""
    source = os.path.join(shared(), "docs", "src", "src")
    rustc = shutil.which("rustc")
    if rustc is None:
        raise Skipped("skipped: no rustc here")
    for name in GIVEN:
        if not os.path.isfile(os.path.join(source, name)):
            raise Skipped("skipped: the given Rust (%s) is not here" % name)
    made = os.path.join(ROOT, "target", "oracle")
    driver = os.path.join(made, "driver")
    if newer(driver, inputs(source)):
        return driver
    os.makedirs(made, exist_ok=True)
    with tempfile.TemporaryDirectory(dir=made) as folder:
        return compiled(rustc, source, folder, driver)


def stop_unless_built(*programs):
    """The programs of crates/ that a script runs by tools/run are there."""
    for name in programs:
        if not os.path.isfile(os.path.join(ROOT, "crates", name, "out", name)):
            sys.exit("oracle: %s is not built: rt run in crates/%s" % (name, name))


def inputs(source):
    """What the driver is made of."""
    tables = [os.path.join(ROOT, "tools", name) for name in ("tables.py", "window.txt")]
    return [os.path.join(source, name) for name in GIVEN] + [os.path.join(HERE, name) for name in OWN] + tables


def newer(driver, made_of):
    """Whether the driver is there, and made after the last change of what it is made of."""
    return os.path.isfile(driver) and all(os.path.getmtime(path) < os.path.getmtime(driver) for path in made_of)


def compiled(rustc, source, folder, driver):
    """Builds in a folder of its own and puts the driver in its place at the end, so that two runs at once do not meet."""
    for name in GIVEN:
        shutil.copyfile(os.path.join(source, name), os.path.join(folder, name))
    for name in OWN:
        shutil.copyfile(os.path.join(HERE, name), os.path.join(folder, name))
    run([sys.executable, os.path.join("tools", "tables.py"), "--rust",
         os.path.join(folder, "tables.rs")])
    built = os.path.join(folder, "driver")
    run([rustc, "--edition", "2018", "-C", "opt-level=3", "--cap-lints", "allow",
         "-o", built, os.path.join(folder, "driver.rs")])
    os.replace(built, driver)
    return driver


def run(command):
    if subprocess.run(command, cwd=ROOT, stdout=sys.stderr).returncode != 0:
        sys.exit("the oracle could not be built: %s failed" % os.path.basename(command[0]))


def main():
    try:
        print(os.path.relpath(build()))
    except Skipped as why:
        print(why)


if __name__ == "__main__":
    main()
