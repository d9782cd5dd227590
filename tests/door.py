#!/usr/bin/env python3
"""The door, bin/pebblerut, and the program that it runs: outputs, lines on descriptor 2 and exit statuses, also if input,
output or the first build fails.

The records and answers of the main run are the stored ones, which the given Rust made (tests/oracle/README.md)."""
import concurrent.futures
import os
import pty
import shutil
import subprocess
import sys
import tempfile
import threading
import time

sys.dont_write_bytecode = True
ROOT = os.path.dirname(os.path.dirname(os.path.abspath(__file__)))
sys.path.insert(0, os.path.join(ROOT, "tools"))
import pebblerut  # noqa: E402

DOOR = os.path.join(ROOT, "bin", "pebblerut")
RUN = [os.path.join(ROOT, "tools", "run"), "render"]
SILENT = bytes([0, 1]) + bytes(2446)  # one zero mono record but for its channel count
MOST = 65535

faults = []


def expect(what, got, wanted):
    if got != wanted:
        faults.append("%s: %r instead of %r" % (what, short(got), short(wanted)))


def short(x):
    if isinstance(x, tuple):
        return tuple(short(y) for y in x)
    return x if not isinstance(x, (bytes, str)) or len(x) < 200 else "%d bytes, .. %r" % (len(x), x[-40:])


def stored(*path):
    with open(os.path.join(ROOT, *path), "rb") as f:
        return f.read()


def door(stream=b"", words=(), command=None, **more):
    """What is written to descriptor 1 and 2, and the status."""
    if "stdin" not in more:
        more["input"] = stream
    more.setdefault("stdout", subprocess.PIPE)
    done = subprocess.run(command or [DOOR, "render", *words], stderr=subprocess.PIPE, **more)
    return done.stdout, done.stderr.decode(), done.returncode


def stored_run():
    records, outputs, lines = stored("crates", "render", "stdin"), stored("crates", "render", "stdout"), stored("tests", "render.lines").decode()
    expect("the stored records", door(records), (outputs, lines, 1))
    with tempfile.TemporaryDirectory() as folder:
        source, target = os.path.join(folder, "in"), os.path.join(folder, "out")
        with open(source, "wb") as f:
            f.write(records)
        with open(target, "wb") as f:
            f.write(bytes(len(outputs) + 1000))  # what stood there before is gone
        expect("the stored records by name", door(words=(source, target)), (b"", lines, 1))
        with open(target, "rb") as f:
            expect("the file that is written", f.read(), outputs)
        before = stored(source)
        expect("one file for both", door(words=(source, source)), (b"", "pebblerut: input and output are one file\n", 2))
        expect("the file afterwards", stored(source), before)


def small_inputs():
    expect("a silent record", door(SILENT), (bytes(2304), "", 0))
    expect("no input", door(b""), (b"", "", 0))
    expect("2,447 bytes", door(SILENT[:-1]), (b"", "record 0 refused 13\n", 1))
    expect("a refusal in the middle", door(SILENT + bytes(2448) + SILENT), (bytes(4608), "record 1 refused 1\n", 1))


def failures():
    with open("/dev/full", "wb") as full:
        expect("a full output", door(SILENT, stdout=full), (None, "render: write failed at record 0\n", 2))
    folder = os.open(ROOT, os.O_RDONLY)
    expect("a directory on descriptor 0", door(stdin=folder), (b"", "render: read failed at record 0\n", 2))
    os.close(folder)
    expect("a directory by name", door(words=(ROOT,)), (b"", "render: read failed at record 0\n", 2))
    expect("no such file", door(words=("/nowhere/in.rec",)), (b"", "pebblerut: /nowhere/in.rec: No such file or directory\n", 2))
    expect("no such folder", door(words=("-", "/nowhere/out")), (b"", "pebblerut: /nowhere/out: No such file or directory\n", 2))
    closed = ["sh", "-c", 'exec "$0" "$@" >&-']
    expect("a closed output", door(SILENT, command=[*closed, DOOR, "render"]), (b"", "pebblerut: standard output is closed\n", 2))
    expect("a closed output, at the program itself", door(SILENT, command=[*closed, *RUN])[:2], (b"", "render: write failed at record 0\n"))
    closed_input = ["sh", "-c", 'exec "$0" "$@" <&-']
    expect("a closed input", door(command=[*closed_input, DOOR, "render"]), (b"", "pebblerut: standard input is closed\n", 2))
    expect("a closed input, at the program itself", door(command=[*closed_input, *RUN])[:2], (b"", "render: read failed at record 0\n"))
    for words in ((), ("sing",), ("render", "a", "b", "c")):
        expect("usage %s" % (words,), door(command=[DOOR, *words])[1:], ("pebblerut: usage: pebblerut render [IN [OUT]]; pebblerut --help tells more\n", 2))


def broken_pipe():
    """Whoever reads the outputs goes away: the run ends and says so."""
    read, write = os.pipe()
    os.close(read)
    out, lines, status = door(SILENT * 100, stdout=write)
    os.close(write)
    expect("a broken pipe's status", status, 2)
    expect("a broken pipe's line", bool(lines), True)


def touch(*path):
    open(os.path.join(*path), "wb").close()


def on_a_terminal(command, text, then=lambda: None, **more):
    """What a run writes to descriptor 1, which is read only once the text stands on descriptor 2, a terminal, and something
    more is done then; what it writes there; and its status."""
    terminal, theirs = pty.openpty()
    program = subprocess.Popen(command, stdin=subprocess.DEVNULL, stdout=subprocess.PIPE, stderr=theirs, **more)
    os.close(theirs)
    said = []

    def listen():
        try:
            while True:
                part = os.read(terminal, 4096)
                if not part:
                    return
                said.append(part)
        except OSError:
            return  # the terminal's other side is closed

    listener = threading.Thread(target=listen)
    listener.start()
    last = time.monotonic() + 60
    while text not in b"".join(said).decode() and time.monotonic() < last:
        time.sleep(0.1)
    then()
    outputs = program.stdout.read()
    status = program.wait()
    listener.join()
    os.close(terminal)
    return outputs, b"".join(said).decode(), status


def most_records():
    """65,535 records, the first and the last of them rendered and the others refused, which takes less time than to render them all; alone, and with one byte more."""
    refused = "".join("record %d refused 1\n" % n for n in range(1, MOST - 1))
    cases = (("65,535 records", b"", ""), ("65,535 records and one byte", b"\0", "record 65535 refused 14\n"))
    with tempfile.TemporaryDirectory() as folder, concurrent.futures.ThreadPoolExecutor() as both:

        def run(case):
            what, more, line = case
            path = os.path.join(folder, "%d.rec" % len(more))
            with open(path, "wb") as f:
                f.write(SILENT)
                f.truncate((MOST - 1) * 2448)  # zeros: no channel
                f.seek(0, os.SEEK_END)
                f.write(SILENT + more)
            expect(what, os.path.getsize(path), MOST * 2448 + len(more))
            expect(what, door(words=(path,)), (bytes(2 * 2304), refused + line, 1))

        list(both.map(run, cases))


def progress():
    """A run that has to wait for its reader lasts until progress is shown, on any machine."""
    count = 200  # more outputs than a pipe holds
    shown = "of %d records" % count
    with tempfile.TemporaryDirectory() as folder:
        path = os.path.join(folder, "some.rec")
        with open(path, "wb") as f:
            f.write(SILENT * count)
        outputs, said, status = on_a_terminal([DOOR, "render", path], shown)
    expect("on a terminal", (outputs, status), (bytes(count * 2304), 0))
    expect("progress on a terminal", shown in said, True)
    expect("progress is taken away", said.endswith("\r\x1b[K"), True)


CRATES = """# render needs three of these five; anyhow is the toolchain's
laws:
history: laws
settling: laws history
archive staticlib: history
render: history laws anyhow
"""
BUILDING = "pebblerut: building for the first time: rt run in crates/render\n"
RT_SAID = "".join("%scrate %s: modules loaded=0 checked=9\nlogic=proved functions=2\n" % more for more in (
    ("", "laws"), ("library laws: modules loaded=9 checked=0\n", "history"), ("library history: modules loaded=9 checked=0\n", "render")))
RT = """#!/bin/sh
[ "$*" = run ] || exit 1
cd ../..
head -n 5 said
while [ ! -e seen ]; do sleep 0.1; done
tail -n +6 said
%s
"""
BUILT = 'mkdir -p crates/render/out && cp "$REAL_PROGRAM" crates/render/out/render'


def rt_lines():
    """Which crates rt has proved, and how many there are, from its lines and from crates.txt."""
    more = ["crate bands: modules loaded=0 checked=9", "logic=not-proved", "linked target=x86_64-unknown-linux-gnu", "rt: running out/render; to give it other input, run that file yourself"]
    lines = [line.encode() + b"\n" for line in RT_SAID.splitlines() + more]
    expect("the crates proved", list(pebblerut.proved_crates(lines)), ["laws", "history", "render"])
    needed = pebblerut.needed_for("render", pebblerut.listed_crates(CRATES))
    expect("the crates needed", needed, ["laws", "history", "render"])
    expect("before the first", pebblerut.how_far([], needed, 0.5), "pebblerut: building, 0 of 3, 0 s")
    expect("after the second", pebblerut.how_far(["laws", "history"], needed, 71.9), "pebblerut: building, 2 of 3: history proved, 71 s")
    expect("after the second, the first being built already", pebblerut.how_far(["history"], needed, 71.9), "pebblerut: building, 2 of 3: history proved, 71 s")


def unbuilt(folder, end):
    """A tree with nothing built: its door, and the environment to call it in. Its rt says RT_SAID, waits after two crates for
    the file `seen`, and ends so."""
    for name in ("bin", "tools"):
        shutil.copytree(os.path.join(ROOT, name), os.path.join(folder, name), ignore=shutil.ignore_patterns("__pycache__"))
    os.makedirs(os.path.join(folder, "crates", "render"))
    for name, text in (("crates.txt", CRATES), ("said", RT_SAID), ("rt", RT % end)):
        with open(os.path.join(folder, name), "w") as f:
            f.write(text)
    os.chmod(os.path.join(folder, "rt"), 0o755)
    real = {"REAL_PROGRAM": os.path.join(ROOT, "crates", "render", "out", "render")}
    return os.path.join(folder, "bin", "pebblerut"), {**os.environ, **real, "PATH": folder + os.pathsep + os.environ["PATH"]}


def first_build():
    """Off a terminal one line says that it builds; if rt fails, what it printed is shown."""
    for what, end, wanted in (("a first build", BUILT, (bytes(2304), BUILDING, 0)),
                              ("a failed build", "exit 1", (b"", BUILDING + RT_SAID + "pebblerut: rt run failed in crates/render\n", 2))):
        with tempfile.TemporaryDirectory() as folder:
            path, env = unbuilt(folder, end)
            touch(folder, "seen")
            expect(what, door(SILENT, command=[path, "render"], env=env), wanted)


def first_build_on_a_terminal():
    with tempfile.TemporaryDirectory() as folder:
        path, env = unbuilt(folder, BUILT)
        shown = "\rpebblerut: building, 2 of 3: history proved, "
        outputs, said, status = on_a_terminal([path, "render"], shown, lambda: touch(folder, "seen"), env=env)
    expect("the first build on a terminal", (outputs, status), (b"", 0))
    expect("the first build's line", said.startswith(BUILDING.replace("\n", "\r\n")), True)
    expect("the first build's progress", shown in said, True)
    expect("the first build's progress is taken away", said.endswith("\r\x1b[K"), True)


for part in (stored_run, small_inputs, failures, broken_pipe, most_records, progress, rt_lines, first_build, first_build_on_a_terminal):
    part()
for fault in faults:
    print("door:", fault, file=sys.stderr)
if faults:
    sys.exit(1)
print("door: outputs, lines and statuses as they must be")
