#!/usr/bin/env python3
"""Holds docs/PROMISES.md to the code: each public function has a row there or stands among the exceptions, each row names a function
that is there and at least two wrong answers of its crate's must-fail edits, and each answer is named, says where it is refused and changes one
place a line. A public function's contract is not bare, says something of what is returned, promises nothing under a condition, and cites the
definitions that its row names. Each definition of what an entry point answers is all that one public function of its crate promises, of what
lent memory held at entry and holds at exit, and is proved to determine the answer; the whole granule, a record and the server's call promise
their one equation. A promise by a statement that is no equation is proved to determine what it is said of. Each public function with a
`requires` is named under "What crates ask of each other", no other is, and no entry point for users. Every other promise is an equation for
what is returned or for what lent memory holds. A row of "Theorems" names theorems of proofs/ that end in its statements of specs/ and do not
assume them, and wrong statements. A row of "Programs" names a function of a program that promises something, and two wrong answers."""
import re
import sys

from answers import ROOT, answers
from antt import NAME, clauses, declared, signature_of, signatures, uncommented

PAGE = (ROOT / "docs/PROMISES.md").read_text(encoding="utf-8")


# what the function returns, in a contract
RESULT = re.compile(r"(?<![\w.])result\b")


def ensured(signature):
    """What each clause of a contract ensures."""
    return [said for kind, said in clauses(signature) if kind == "ensures"]


def lent(signature):
    """(name, whether it may be changed, whether it is one number) of each parameter that is a reference."""
    return [(name, bool(mutable), bool(number)) for name, mutable, number in re.findall(r"(\w+): &(mut )?(u\d+\b)?", signature)]


def memory_as_it_should_be(signature):
    """Whether the contract speaks once of what each lent parameter held at entry, and once of what each one that may be changed holds at exit. A
    promise that names the exit where it means the entry would allow any memory. One number that may be changed is an answer, stored whatever
    was there: of that the exit alone is said."""
    def said(name, when):
        return len(re.findall(rf"(?<![\w.])«?{name}»?\.{when}\b", signature))

    def as_it_should_be(name, mutable, number):
        wanted = {"now": not mutable, "old": mutable and not number, "new": mutable}
        return all(said(name, when) == times for when, times in wanted.items())

    return all(as_it_should_be(*one) for one in lent(signature))


def functions():
    """(crate, name, signature) of each function that another crate can call: those of lib.rt, and those of a module
    that lib.rt passes on."""
    for root in sorted(ROOT.glob("crates/*/src/lib.rt")):
        crate, text = root.parts[-3], root.read_text(encoding="utf-8")
        passed_on = set(re.findall(r"\w+", " ".join(re.findall(r"^pub use \w+::(\w+|\{[^}]*\});", text, re.M))))
        for name, signature in signatures(text):
            yield crate, name, signature
        for source in sorted(root.parent.glob("*.rt")):
            if source != root:
                for name, signature in signatures(source.read_text(encoding="utf-8")):
                    if name in passed_on:
                        yield crate, name, signature


def rows():
    """(crate, name, definitions cited, wrong answers) of each row."""
    for line in PAGE.splitlines():
        m = re.match(r"\| (\w+)::(\w+) \|.*\|([^|]*)\|([^|]*)\|$", line)
        if m:
            cited = [name.split()[0] for name in re.findall(r"`([^`]+)`", m.group(3))]
            yield m.group(1), m.group(2), cited, [answer.strip() for answer in m.group(4).split(",")]


def theorem_rows():
    """(crate, file, theorems, [(crate, file, statements)], wrong statements) of each row of "Theorems"."""
    for line in PAGE.split("## Theorems")[1].split("\n## ")[0].splitlines():
        m = re.match(r"\| (\w+) ([A-Z]\w+) ([\w, -]+) \|.*\|([^|]*)\|([^|]*)\|$", line)
        if m:
            cited = [(a, b, re.findall(r"`([^`]+)`", names)) for a, b, names in re.findall(r"(\w+) ([A-Z]\w+) ([^;]*)", m.group(4))]
            yield m.group(1), m.group(2), m.group(3).split(", "), cited, [answer.strip() for answer in m.group(5).split(",")]


def program_rows():
    """(crate, function, wrong answers) of each row of "Programs"."""
    for line in PAGE.split("## Programs")[1].split("\n## ")[0].splitlines():
        m = re.match(r"\| (\w+), (\w+) \|.*\|([^|]*)\|$", line)
        if m and (ROOT / "crates" / m.group(1)).is_dir():
            yield m.group(1), m.group(2), [answer.strip() for answer in m.group(3).split(",")]


def says(theorem, statements):
    """Whether a theorem ends in one of the statements and assumes none, or says of any two values of which one of them holds that they are equal."""
    assumed, _, end = " ".join(theorem.split()).rpartition("→ ")
    names = "|".join(re.escape(name) for name in statements)
    said = re.compile(rf"(?<![\w-])(?:{names})(?![\w-])")
    alike = re.search(rf"(?:^|[→:)] )({names}) (.*?) (\w+) → \1 \2 (\w+) → $", assumed + "→ ")
    if alike:
        return re.fullmatch(rf"{alike[3]} ≡ {alike[4]}", end) is not None and not said.search(assumed[: alike.start(1)])
    return said.search(end) is not None and not said.search(assumed)


def asked():
    """The functions that "What crates ask of each other" names."""
    part = PAGE.split("## What crates ask of each other")[1].split("\n## ")[0]
    return {pair for line in part.splitlines() if line.startswith("| ") for pair in re.findall(r"(\w+)::(\w+)", line.split(" | ")[0])}


def answer_definitions():
    """(crate, name) of each definition of specs/ that says what an entry point answers: `..Answer`, over laws' Answered."""
    for path in sorted(ROOT.glob("crates/*/specs/*.antt")):
        for name in re.findall(r"^(\w+Answer)\b[^\n]*=\s+Answered\b", path.read_text(encoding="utf-8"), re.M):
            yield path.parts[-3], name


def alone(signature):
    """What a contract of one clause ensures; of any other nothing."""
    return ensured(signature) if len(re.findall(r"\b(?:ensures|requires)\b", signature)) == 1 else []


def all_returned(text, signature, said):
    """Whether what is said speaks of all that is returned: of a number as it is, of a struct field by field, each once; of a result once of the number
    that it tells, which is 0 or the refusal's, and of the value beside a 0, where there is one, once more."""
    answer = re.search(r"\) -> Result<(.*), Refusal>", signature)
    if answer:
        return len(re.findall(r"\(told result\)", said)) == 1 and len(RESULT.findall(said)) == (1 if answer[1] == "()" else 2)
    struct = re.search(r"\) -> ([A-Z]\w*)", signature)
    if not struct:
        return re.search(r" result(?![\w.])", said) is not None
    fields = re.findall(r"pub (\w+):", re.search(rf"pub struct {struct[1]} \{{(.*?)\n\}}", text, re.S)[1])
    return sorted(re.findall(r"(?<![\w.])result\.(\w+)", said)) == sorted(fields)


def promised_alone(crate, name):
    """Whether a public function of the crate ensures the definition and nothing else, and requires nothing: of what it was lent, then of all
    that it answers and of what it leaves."""
    for source in sorted(ROOT.glob(f"crates/{crate}/src/*.rt")):
        text = source.read_text(encoding="utf-8")
        for _, signature in signatures(text):
            for said in alone(signature):
                given, *left = re.split(r"(?= \(?(?:told )?result\b)", said, maxsplit=1)
                if re.match(rf"{name} [^→×⊎]*$", said) and ".new" not in given and left and not re.search(r"\.(?:old|now)\b", left[0]):
                    return all_returned(text, signature, said) and memory_as_it_should_be(signature)
    return False


# the entry points for users: whoever calls them owes nothing
FOR_USERS = {
    ("requantize", "requantize"), ("reorder", "reorder"), ("stereo", "stereo"), ("antialias", "antialias"), ("hybrid", "hybrid_synthesis"),
    ("inversion", "frequency_inversion"), ("synthesis", "subband_synthesis"), ("history", "fresh"), ("history", "history_not_finite"),
    ("granule", "accepted"), ("backend", "render"), ("backend", "render_in_place"), ("records", "read_record"), ("records", "end_refusal"), ("render_record", "render_record"),
    ("render_record", "render_in_place"),
    ("pebblerut", "pebblerut_fresh"), ("pebblerut", "pebblerut_render"), ("pebblerut", "pebblerut_render_edition"), ("pebblerut", "pebblerut_not_finite"),
}


def equations(said):
    """Whether each part of what is promised is an equation for the result, a field of it, what it tells, or what lent memory holds at exit."""
    whole = r"(?:(?:told )?result(?:\.[\w«»]+)*|[\w«»]+\.new) ≡ "
    parts = re.split(r"\) × \(", said[1:-1]) if said.startswith("(") and ") × (" in said else [said]
    return all(re.match(whole, part) for part in parts)


def of_the_value(said):
    """Whether what is promised is an equation for the value of a result that is no refusal, or for a part of it."""
    m = re.fullmatch(r"IfOk result \(λ (\w+)\. (.*)\)", said)
    return m is not None and re.match(rf"\(?{m[1]}(?:\.\w+)* ≡ ", m[2]) is not None


# what the calls that are no stage promise, word for word: a number, lent memory and the history are one answer
WHOLE = {
    ("backend", "render"): "as_answer h result out.new ≡ answer (lent g.now out.old) h",
    ("backend", "render_in_place"): "told_answer result h.new out.new ≡ answer (lent g.now out.old) h.old",
    ("render_record", "render_in_place"): "told_answer result h.new out.new ≡ record_answer edition s.now out.old h.old",
    ("render_record", "render_record"): "as_answer h result out.new ≡ record_answer edition s.now out.old h",
    **{("pebblerut", name): f"InPlace (record_answer {edition} bytes.now out.old h.old) result h.new out.new left_peak.new right_peak.new"
        for name, edition in (("pebblerut_render_edition", "edition"), ("pebblerut_render", 1))},
}


def proved_determined(crate, name):
    """Whether the crate's proofs/Determined.antt says of any two answers that the definition allows that they are equal, number and memory."""
    path = ROOT / "crates" / crate / "proofs/Determined.antt"
    text = " ".join(path.read_text(encoding="utf-8").split()) if path.is_file() else ""
    shape = rf"[→:] {name} (.+?) (\w+) (\w+) → {name} \1 (\w+) (\w+) → \(\2 ≡ \4\) × \(\3 ≡ \5\) "
    return any(len(set(m.groups()[1:])) == 4 for m in re.finditer(shape, text))


def proved_in_place():
    """Whether render_record's proofs/Determined.antt says of any two answers in place that they are equal in all that InPlace speaks of."""
    spec = (ROOT / "crates/render_record/specs/RecordAnswer.antt").read_text(encoding="utf-8")
    spoken = " ".join(re.findall(r"\(([^:()]*) :", re.search(r"record InPlace \(a : Answer\) (.*) : Type", spec)[1])).split()
    text = " ".join((ROOT / "crates/render_record/proofs/Determined.antt").read_text(encoding="utf-8").split())
    m = re.search(r"→ InPlace a ([\w ]+) → InPlace a ([\w ]+) → (.*?) in_place_determined", text)
    pairs = list(zip(m[1].split(), m[2].split()))
    return len(pairs) == len(spoken) and len(set(sum(pairs, ()))) == 2 * len(pairs) and m[3] == " × ".join(f"({x} ≡ {y})" for x, y in pairs)


def proved_unique(crate, name):
    """Whether the crate's proofs/Determined.antt says of any two values of which the statement holds that they are equal."""
    path = ROOT / "crates" / crate / "proofs/Determined.antt"
    text = " ".join(path.read_text(encoding="utf-8").split()) if path.is_file() else ""
    m = re.search(rf"pub (?:\w+_)?determined : \{{(\w+) (\w+) : [^}}]*\}} → {name} (\w+) → {name} (\w+) → (\w+) ≡ (\w+) ", text)
    return m is not None and m.group(1, 2) == m.group(3, 4) == m.group(5, 6) and m.group(1) != m.group(2)


faults = []
determined = list(answer_definitions())
for crate, name in determined:
    if not promised_alone(crate, name):
        faults.append(f"{crate}: no public function promises {name} and nothing else")
    if not proved_determined(crate, name):
        faults.append(f"{crate}: proofs/Determined.antt does not prove {name} determined")
if not proved_in_place():
    faults.append("render_record: proofs/Determined.antt does not prove all of InPlace determined")
rows = list(rows())
listed = {(crate, name) for crate, name, _, _ in rows}
excepted = set(re.findall(r"`(\w+)::(\w+)`", PAGE.split("## Exceptions")[1]))
found = set()
asking = asked()
cited = {(crate, name): definitions for crate, name, definitions, _ in rows}
answering = re.compile(r"\b(?:\w*Answer|answer|InPlace)\b")
for crate, name, signature in functions():
    found.add((crate, name))
    if (crate, name) not in listed and (crate, name) not in excepted:
        faults.append(f"{crate}::{name} has no row in docs/PROMISES.md")
    if "ensures" not in signature and (crate, name) not in excepted:
        faults.append(f"{crate}::{name} promises nothing and is no exception")
    promises = ensured(signature)
    promise = " ".join(promises)
    if len(list(clauses(signature))) != len(re.findall(r"\b(?:ensures|requires)\b", signature)):
        faults.append(f"{crate}::{name} has a clause that is not read here")
    if re.search("[→⊎]", promise) and (crate, name) in listed:
        faults.append(f"{crate}::{name} promises something under a condition")
    if re.search(r"\) -> [^{]*\bensures\b", signature) and not RESULT.search(promise):
        faults.append(f"{crate}::{name} promises nothing of what it returns")
    for said in promises:
        alone_of = re.fullmatch(r"([A-Z]\w*) result", said)
        if alone_of and not proved_unique(crate, alone_of.group(1)):
            faults.append(f"{crate}::{name} promises {alone_of.group(1)}, and proofs/Determined.antt does not prove that it holds of one value alone")
        named_whole = re.match(r"(\w+)Answer ", said) or (crate, name) in WHOLE
        bound = any(map(equations, promises)) and re.fullmatch(r"result ≤ .*|IfOk result \(λ _\. .* ≤ .*\)", said)
        # what is said of the value stands beside what is said of the refusals
        value = of_the_value(said) and any(other.startswith("told result ≡ ") for other in promises)
        if not (alone_of or named_whole or bound or value or equations(said)):
            faults.append(f"{crate}::{name} promises something that is no equation for what it returns or leaves: {said}")
    if ("requires" in signature) != ((crate, name) in asking):
        faults.append(f"{crate}::{name} " + ("has a requires and is not" if "requires" in signature else "has no requires and is") + ' named under "What crates ask of each other"')
    if (crate, name) in FOR_USERS and "requires" in signature:
        faults.append(f"{crate}::{name} is for users, and has a requires")
    if (crate, name) in WHOLE and alone(signature) != [WHOLE[crate, name]]:
        faults.append(f"{crate}::{name} does not promise its whole answer, and that alone")
    for definition in cited.get((crate, name), []):
        if not re.search(rf"(?<![\w.'-]){re.escape(definition)}(?![\w'-])", promise):
            faults.append(f"{crate}::{name} does not cite {definition}, which its row names")
        if re.fullmatch(r"[A-Z]\w*Answer", definition) and (crate, definition) not in determined:
            faults.append(f"{crate}: {definition} is not said by Answered")
    if any(answering.fullmatch(definition) for definition in cited.get((crate, name), [])) and not memory_as_it_should_be(signature):
        faults.append(f"{crate}::{name} does not say once what each lent memory held and holds")
for crate, name in sorted((listed | excepted | asking | FOR_USERS) - found):
    faults.append(f"{crate}::{name} stands in docs/PROMISES.md and not in the code")
theorems = list(theorem_rows())
for crate, file, names, statements, row in theorems:
    for name in names:
        theorem = signature_of(crate, file, name)
        if not theorem:
            faults.append(f"docs/PROMISES.md: {crate} {file} proves no {name}")
        elif not says(theorem, [wanted for _, _, wanted_names in statements for wanted in wanted_names]):
            faults.append(f"docs/PROMISES.md: {crate} {file} {name} does not end in a statement of its row, or assumes one")
    for stated_in, stated_file, statement in statements:
        for name in statement:
            if name not in declared(stated_in, "specs", stated_file):
                faults.append(f"docs/PROMISES.md: {stated_in} {stated_file} states no {name}")
    if not statements or not row:
        faults.append(f"docs/PROMISES.md: the row of {crate} {file} names no statement or no wrong one")
named = {(crate, answer) for crate, _, _, row in rows for answer in row} | {(crate, answer) for crate, _, _, _, row in theorems for answer in row}
for crate, name, _, row in rows:
    if len(set(row)) < 2:
        faults.append(f"{crate}::{name} names fewer than two wrong answers")
programs = list(program_rows())
for crate, name, row in programs:
    promised = dict(signatures((ROOT / "crates" / crate / "src/main.rt").read_text(encoding="utf-8"), marked=""))
    if not ensured(promised.get(name, "")):
        faults.append(f"{crate}: main.rt has no function {name} that promises something")
    if len(set(row)) < 2:
        faults.append(f"{crate}, {name} names fewer than two wrong answers")
named |= {(crate, answer) for crate, _, row in programs for answer in row}
held = list(answers())
for crate, name in sorted(named - {(answer.crate, answer.name) for answer in held}):
    faults.append(f"{name} is no wrong answer of an edit of {crate}")
for answer in held:
    if (answer.crate, answer.name) not in named:
        faults.append(f"{answer} stands in no row of docs/PROMISES.md")
    if not answer.place:
        faults.append(f"{answer} names no place that refuses it")
    # answers that name one and the same place are tried alone; one that names a part of another's place would hide that other
    if any(other.edit == answer.edit and other.place == answer.place and answer.part and not other.part for other in held if other is not answer):
        faults.append(f"{answer} is not told apart: another answer of the edit names all of its place")
    for file, old, _ in answer.changes:
        places = (ROOT / "crates" / answer.crate / file).read_text(encoding="utf-8").count(old)
        if places != 1:
            faults.append(f"what {answer} changes stands at {places} places of {file}")
if len(held) != len(named):
    faults.append(f"the edits hold {len(held)} wrong answers, and {len(named)} are named: a name stands twice")
for fault in faults:
    print(f"promises: {fault}", file=sys.stderr)
if faults:
    sys.exit(1)
print(f"promises: {len(rows)} functions, {len(asking)} that ask, {len(theorems)} rows of theorems, {len(named)} wrong answers named, {len(determined)} answers determined")
