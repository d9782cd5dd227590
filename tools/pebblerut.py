#!/usr/bin/env python3
"""pebblerut render [IN [OUT]]: renders records of 2,448 bytes to sound.

IN is a file of records (standard input if it is left out or `-`), OUT gets each granule's f32 outputs, little endian: the left or only
channel's 576, then the right one's (standard output if it is left out or `-`). A refused record writes `record N refused K` to
standard error, and the next is taken; docs/STEPS.md says what K means. The program is proved and built the first time,
which takes some minutes.

Exit status: 0 all was rendered, 1 a record was refused, 2 input or output failed.

Example:
    bin/pebblerut render samples/speech.rec speech.f32
"""
import os
import re
import stat
import subprocess
import sys
import threading
import time

ROOT = os.path.dirname(os.path.dirname(os.path.realpath(__file__)))
FOLDER = os.path.join(ROOT, "crates", "render")
PROGRAM = os.path.join(FOLDER, "out", "render")
RECORD = 2448
STANDARD_INPUT = 3  # bin/pebblerut says why it is not 0
ALL_RENDERED, REFUSED, FAILED = 0, 1, 2


def say(text):
    sys.stderr.write("pebblerut: %s\n" % text)
    sys.stderr.flush()


class Failed(Exception):
    """What keeps the run from starting."""


def is_open(descriptor):
    try:
        os.fstat(descriptor)
        return True
    except OSError:
        return False


def opened(path, flags, standard, what):
    """The descriptor of a file, or the standard one."""
    if path is None or path == "-":
        if not is_open(standard):
            raise Failed("%s is closed" % what)
        return standard
    try:
        return os.open(path, flags, 0o666)
    except OSError as why:
        raise Failed("%s: %s" % (path, why.strerror)) from None


class Progress:
    """A line on the terminal that says how far the work is. It is rewritten in place, and other lines take its place."""

    def __init__(self):
        self.lock, self.shown = threading.Lock(), False

    def show(self, text):
        with self.lock:
            self.write(("\r%s\033[K" % text).encode())
            self.shown = True

    def clear(self, line=b""):
        """Takes it away, for a line or for nothing."""
        with self.lock:
            self.write((b"\r\033[K" if self.shown else b"") + line)
            self.shown = False

    def write(self, text):
        sys.stderr.buffer.write(text)
        sys.stderr.buffer.flush()


# ---- the build

def listed_crates(text):
    """The crates that crates.txt lists, each with the names of those that it uses."""
    lines = (line.split("#")[0].partition(":") for line in text.splitlines())
    return {name.split()[0]: uses.split() for name, colon, uses in lines if name.strip()}


def needed_for(crate, listed):
    """A crate and all that it uses, as far as they are listed, since the toolchain's own are built: in the order in which rt builds them."""
    found = []

    def reach(name):
        if name in listed and name not in found:
            for used in listed[name]:
                reach(used)
            found.append(name)

    reach(crate)
    return found


def proved_crates(lines):
    """The crates that rt's lines say are proved, each as its line comes: one line names the crate, and the next that says so is about it."""
    name = None
    for line in lines:
        said = re.match(rb"crate (\w+): ", line)
        if said:
            name = said.group(1).decode()
        elif name and line.startswith(b"logic=proved "):
            yield name
            name = None


class Building(threading.Thread):
    """Keeps what rt prints, and the crates that it has proved."""

    def __init__(self, pipe):
        super().__init__(daemon=True)
        self.pipe, self.said, self.proved = pipe, [], []

    def kept(self):
        for line in self.pipe:
            self.said.append(line)
            yield line

    def run(self):
        for crate in proved_crates(self.kept()):
            self.proved.append(crate)


def how_far(proved, needed, seconds):
    """rt says nothing of a crate that is built already, so the last one's place says how many are."""
    done = needed.index(proved[-1]) + 1 if proved else 0
    last = ": %s proved" % proved[-1] if proved else ""
    return "pebblerut: building, %d of %d%s, %d s" % (done, len(needed), last, seconds)


def needed_crates():
    try:
        with open(os.path.join(ROOT, "crates.txt"), encoding="utf-8") as listed:
            return needed_for("render", listed_crates(listed.read()))
    except OSError as why:
        raise Failed("crates.txt: %s" % why.strerror) from None


def build_watched(building, needed):
    """Waits for rt's last line, and says meanwhile which crate of how many was proved last."""
    progress, start = Progress(), time.monotonic()
    try:
        while building.is_alive():
            progress.show(how_far(building.proved, needed, time.monotonic() - start))
            building.join(0.2)
    finally:
        progress.clear()


def build():
    """By `rt run`, which builds the program and runs it: on no input it writes nothing."""
    if os.access(PROGRAM, os.X_OK):
        return
    needed = needed_crates() if sys.stderr.isatty() else []
    say("building for the first time: rt run in crates/render")
    try:
        rt = subprocess.Popen(["rt", "run"], cwd=FOLDER, stdin=subprocess.DEVNULL, stdout=subprocess.PIPE, stderr=subprocess.STDOUT)
    except FileNotFoundError:
        raise Failed("the command rt is not on PATH: the Rattle toolchain is needed") from None
    building = Building(rt.stdout)
    building.start()
    if needed:
        build_watched(building, needed)
    building.join()
    if rt.wait() != 0:
        sys.stderr.buffer.write(b"".join(building.said))
        raise Failed("rt run failed in crates/render")


# ---- the run

class Lines(threading.Thread):
    """Passes the program's lines on, and keeps what they say of the run."""

    def __init__(self, pipe, progress):
        super().__init__(daemon=True)
        self.pipe, self.progress, self.status = pipe, progress, ALL_RENDERED

    def run(self):
        for line in self.pipe:
            self.status = max(self.status, REFUSED if line.startswith(b"record ") else FAILED)
            self.progress.clear(line)


def regular_size(descriptor):
    """The size of a regular file, and 0 of anything else."""
    about = os.fstat(descriptor)
    return about.st_size if stat.S_ISREG(about.st_mode) else 0


def watched(program, progress, source):
    """Waits for the program. On a terminal, if the input is a file, it says how far the run is: the descriptor is shared
    with the program, and so is its place."""
    size = regular_size(source) if sys.stderr.isatty() else 0
    start = time.monotonic()
    while True:
        try:
            return program.wait(timeout=0.2 if size else None)
        except subprocess.TimeoutExpired:
            if time.monotonic() - start > 0.5:
                progress.show("pebblerut: %d of %d records" % (os.lseek(source, 0, os.SEEK_CUR) // RECORD, size // RECORD))


def render(words):
    source = opened(words[0] if words else None, os.O_RDONLY, STANDARD_INPUT, "standard input")
    target = opened(words[1] if len(words) > 1 else None, os.O_WRONLY | os.O_CREAT, 1, "standard output")
    if os.path.sameopenfile(source, target) and regular_size(source):
        raise Failed("input and output are one file")
    if os.isatty(target):
        raise Failed("the outputs are binary: name a file, or send them to another program")
    if len(words) > 1 and words[1] != "-" and stat.S_ISREG(os.fstat(target).st_mode):
        os.ftruncate(target, 0)
    program = subprocess.Popen([os.path.join(ROOT, "tools", "run"), "render"], stdin=source, stdout=target, stderr=subprocess.PIPE)
    progress = Progress()
    lines = Lines(program.stderr, progress)
    lines.start()
    ended = watched(program, progress, source)
    lines.join()
    progress.clear()
    if ended != 0:
        say("the program ended with status %d" % ended if ended > 0 else "the program was ended by signal %d" % -ended)
        return FAILED
    return lines.status


def told(text):
    try:
        print(text, flush=True)
        return ALL_RENDERED
    except BrokenPipeError:
        os.dup2(os.open(os.devnull, os.O_WRONLY), 1)  # so that the interpreter's last flush is quiet
        return FAILED


def main(words):
    if not is_open(2):
        return FAILED  # there is no one to tell
    if words and words[0] in ("--help", "-h", "help"):
        return told(__doc__.strip())
    if not words or words[0] != "render" or len(words) > 3:
        say("usage: pebblerut render [IN [OUT]]; pebblerut --help tells more")
        return FAILED
    try:
        build()
        return render(words[1:])
    except Failed as why:
        say(why)
        return FAILED


if __name__ == "__main__":
    sys.exit(main(sys.argv[1:]))
