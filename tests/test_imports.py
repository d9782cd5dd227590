#!/usr/bin/env python3
"""No proof, definition or source brings in a name that it does not use, and none keeps a printed skeleton's lines. What a source brings in for
its contracts (`ghost use`) is used in a clause, or by a ghost field or member."""
import re
import sys

from antt import ROOT, clauses, closing, uncommented

USE = re.compile(r"^[ \t]*(?:pub )?((?:ghost )?)use ([^\s{;]+?)(?:(?:\.|::)\{([^}]*)\})?(?: as ([^\s;]+))?;?$", re.M)
WORD = re.compile(r"[^\s(){}\[\];,.«»⟦⟧⌜⌝]+")
# traits that are brought in for the calls of their methods, and are seldom named
METHODS = {"Read": r"\.(?:read\w*|take|bytes|by_ref)\(", "Write": r"\.(?:write\w*|flush)\(|\bwrite(?:ln)?!\(", "BufRead": r"\.(?:lines|read_line|read_until|fill_buf|consume)\("}


def names(path, group, alias):
    """The names that a use line brings in."""
    last = re.split(r"\.|::", path)[-1]
    if not group:
        return [alias or last]
    parts = [part.split(" as ")[-1].strip() for part in group.split(",") if part.strip()]
    return [last if part == "self" else part for part in parts]


def words_of(text):
    """The words of code, an antt comment aside."""
    words = set()
    for line in text.splitlines():
        if "[]" in line:
            words.add("[]")
        for word in WORD.findall(re.split(r"(?:^|\s)--(?:\s|$)", line)[0]):
            words.add(word)
            words.update(re.split(r"::|[&*!<>]|-(?=\d)", word))
    return words


def ghosts(body):
    """What each ghost field and ghost member says, on one line: `ghost NAME: { .. }`, or `ghost NAME = { .. }`."""
    for m in re.finditer(r"\bghost \w+(?::| =) \{", body):
        yield body[m.end():closing(body, m.end() - 1)]


def used(name, words, body):
    """An operator is used by its parts, a trait by its methods too, a name by itself."""
    parts = [p for p in name.split("◌") if p] if "◌" in name else [name]
    return all(p in words for p in parts) or (name in METHODS and re.search(METHODS[name], body) is not None)


faults = []
for path in sorted(path for part in ("src/**/*.rt", "specs/**/*.antt", "proofs/**/*.antt") for path in ROOT.glob(f"crates/*/{part}")):
    where, text = path.relative_to(ROOT), path.read_text(encoding="utf-8")
    source = uncommented(text) if path.suffix == ".rt" else text
    body = USE.sub("", source)
    for m in re.finditer(r"^[ \t]*(?:pub )?(?:ghost )?use .*", body, re.M):
        faults.append(f"{where}: a use that is not read here: {m[0].strip()}")
    words = words_of(body)
    in_clauses = words_of("\n".join([*(said for _, said in clauses(body)), *ghosts(body)])) if path.suffix == ".rt" else words
    for m in USE.finditer(source):
        number = source.count("\n", 0, m.start()) + 1
        for name in names(*m.groups()[1:]):
            if not used(name, in_clauses if m[1] else words, body):
                faults.append(f"{where}:{number}: {name} is brought in and not used")
    for number, line in enumerate(text.splitlines(), 1):
        if re.match(r"-- src/\w+\.rt:\d+:\d+$", line) or re.search(r"(Reads|Lts) as ", line):
            faults.append(f"{where}:{number}: a line of a printed skeleton")
for fault in faults:
    print(fault, file=sys.stderr)
if faults:
    sys.exit(1)
print("imports: each name brought in is used")
