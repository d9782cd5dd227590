#!/usr/bin/env python3
"""Each wrong answer of the must-fail edits is refused for itself.

    tests/wrong_answers.py [CRATE ..]
                                     tries each edit (of the crates named) in copies of the checkout: in what `rt check` says of it, each answer that
                                     the edit holds is refused at the place that the edit names, and not only in consequence of another;
                                     answers of an edit that share a place are tried alone
    tests/wrong_answers.py --apart [CRATE ..]
                                     that the places tell the answers apart: each edit is tried without each of its answers in turn, and then
                                     nothing is refused at the place of the one left out (not part of the gate)

A copy is made for each processor, and each works at one crate at a time. `rt check` begins there with what checks on this machine kept, so that
only what an edit changes is proved. target/must-fail/CRATE/EDIT.log keeps what was said of an edit.
"""
import collections
import concurrent.futures
import os
import pathlib
import queue
import shutil
import subprocess
import sys
import tempfile

from answers import ROOT, answers

LOGS = ROOT / "target" / "must-fail"
NOT_COPIED = shutil.ignore_patterns(".git", "target", "out", "must-fail", "__pycache__")


def check(folder):
    """What `rt check` says of the crate in this folder, and whether it is proved."""
    ran = subprocess.run(
        ["rt", "check", "--jobs", "1"], cwd=folder, stdin=subprocess.DEVNULL, stdout=subprocess.PIPE, stderr=subprocess.STDOUT, encoding="utf-8", errors="replace"
    )
    return ran.stdout, ran.returncode == 0


def changed(folder, held):
    """The texts of a crate's files with these answers in place of what they change, by path, and as they were. As rt applies an edit: each text that is
    to go stands once in what the changes before made of the file."""
    were, texts = {}, {}
    for answer in held:
        for file, old, new in answer.changes:
            if file not in texts:
                were[file] = texts[file] = (folder / file).read_text(encoding="utf-8")
            if texts[file].count(old) != 1:
                raise SystemExit(f"wrong answers: {answer} changes `{old}`, which stands {texts[file].count(old)} times in {file}")
            texts[file] = texts[file].replace(old, new)
    return texts, were


def write(folder, texts):
    for file, text in texts.items():
        (folder / file).write_text(text, encoding="utf-8")


def tried(folder, held, log):
    """What is said of the crate with these answers. It is written to the log; the crate's files are then as they were."""
    texts, were = changed(folder, held)
    try:
        write(folder, texts)
        said, _ = check(folder)
    finally:
        write(folder, were)
    log.parent.mkdir(parents=True, exist_ok=True)
    log.write_text(said, encoding="utf-8")
    return said


def has_its_place(answer, held):
    """Whether no other answer of the edit names the same place."""
    return [(other.place, other.part) for other in held].count((answer.place, answer.part)) == 1


def refused(folder, edit, held):
    """The answers of an edit that are not refused where they should be. Those that share a place are tried alone too."""
    together = LOGS / held[0].crate / f"{edit.stem}.log"
    of_all = tried(folder, held, together)
    for answer in held:
        log, said = together, of_all
        if not has_its_place(answer, held):
            log = LOGS / answer.crate / f"{edit.stem}_{answer.name}.log"
            said = tried(folder, [answer], log)
        if not answer.refused_by(said):
            yield f"{answer} is not refused at {answer.place} ({log.relative_to(ROOT)} has what the prover said)"


def apart(folder, edit, held):
    """The answers of an edit at whose place the rest of it is refused too."""
    for answer in held:
        rest = [other for other in held if other is not answer]
        log = LOGS / answer.crate / f"{edit.stem}_without_{answer.name}.log"
        if rest and has_its_place(answer, held) and answer.refused_by(tried(folder, rest, log)):
            yield f"the edit without {answer} is refused at {answer.place} too ({log.relative_to(ROOT)} has what the prover said)"


def main(words):
    judge = refused
    if words[:1] == ["--apart"]:
        judge, words = apart, words[1:]
    held = [answer for answer in answers() if not words or answer.crate in words]
    edits = collections.defaultdict(lambda: collections.defaultdict(list))
    for answer in held:
        edits[answer.crate][answer.edit].append(answer)
    listed = [line.partition("#")[0].partition(":")[0].split()[:1] for line in (ROOT / "crates.txt").read_text(encoding="utf-8").splitlines()]
    crates = [names[0] for names in listed if names and names[0] in edits]
    if set(words) - set(crates):
        raise SystemExit(f"wrong answers: no edits of {', '.join(sorted(set(words) - set(crates)))}")
    at_once = max(1, min(len(os.sched_getaffinity(0)), len(crates)))
    with tempfile.TemporaryDirectory(prefix="wrong-answers-") as room:
        copies = queue.SimpleQueue()
        for number in range(at_once):
            copy = pathlib.Path(room) / str(number)
            copy.mkdir()
            shutil.copytree(ROOT / "crates", copy / "crates", ignore=NOT_COPIED)
            shutil.copy(ROOT / "crates.txt", copy)
            copies.put(copy)

        def judged(crate):
            copy = copies.get()
            try:
                folder = copy / "crates" / crate
                said, proved = check(folder)
                if not proved:
                    return [f"{crate} is not proved as it stands, so no edit of it was tried:\n{said}"]
                return [fault for edit, its in edits[crate].items() for fault in judge(folder, edit, its)]
            finally:
                copies.put(copy)

        with concurrent.futures.ThreadPoolExecutor(at_once) as pool:
            faults = [fault for found in pool.map(judged, crates) for fault in found]
    for fault in faults:
        print(f"wrong answers: {fault}", file=sys.stderr)
    if faults:
        return 1
    what = "and no other is refused at its place" if judge is apart else "each refused at its own place"
    print(f"wrong answers: {len(held)} in {len({answer.edit for answer in held})} edits, {what}")
    return 0


if __name__ == "__main__":
    sys.exit(main(sys.argv[1:]))
