#!/usr/bin/env python3
"""Brings the repository's own names to the spelling of the newer Rattle, once, after the kit's port.py (docs/PORT.md).

    tools/respell.py [FOLDER]     rewrites crates/ (specs, proofs, the clauses and comments of src, and the edits) and the pages
    tools/respell.py --list       prints what would be renamed

Definitions, fields and constructors go from `allTo` and `at-least-each` to `all_to` and `at_least_each`. In a lemma's name a dash
stays where it joins the names of two definitions, as in `length-tab`; else it becomes `_`, as in `tab_same`. A name keeps its dash where
the other spelling is taken in a file that has it, and a name of the library stays. Functions of src/, exported names, strings, inputs and
outputs are not touched.
"""
import pathlib
import re
import sys

WORD = re.compile(r'[^\s(){}\[\].;,@"«»`]+')
BARE = re.compile(r'(?<![^\s(){}\[\],;@"«»`])' + WORD.pattern + r"(?!\.\S)")
DECLARED = re.compile(r"^(\s*)((?:abbrev |unfoldable |pub |data |record |ruleset )*)([^\s(){}:;,.=\[\]]+)\s*(?::(?!:)|\(|\{)")
# words of the library that lemmas are named after
LIBRARY = set(
    "length take drop set get_or map append replicate add mul sub div neg round of_bits to_bits max min cond sum signed_add eq lt le".split()
)
# names that the older Rattle gave to goals and proofs
GOAL = re.compile(r"^(?:invariant|decreases|loop\d*|returns)-|-(?:spec|requires(?:-\d+)?)$")
# a lemma that port.py has spelled as a definition will be
APART = [("crates/records/proofs/read/read_part/Proof.antt", "head_read", "head_said")]
CLAUSE = re.compile(r"^\s*(?:requires|ensures|ghost)\b")


def snake(name):
    """`allTo` as `all_to`, and a dash as it is."""
    name = re.sub(r"(?<=[a-z0-9])(?=[A-Z])", "_", name)
    return name.lower().replace("′", "'")


def files(root, pattern):
    return sorted(p for p in root.glob(pattern) if "out" not in p.relative_to(root).parts)


def declared(root):
    """Each name that specs/ and the lemma files declare: whether it is a definition's, a field's or a constructor's."""
    plain, lemmas = set(), set()
    for path in files(root, "crates/*/specs/**/*.antt") + files(root, "crates/*/proofs/**/*.antt"):
        inside = None
        for line in path.read_text(encoding="utf-8").splitlines():
            if line.lstrip().startswith(("--", "use ", "pub use ")):
                continue
            found = DECLARED.match(line)
            if not found:
                continue
            indent, words, name = len(found[1]), found[2].split(), found[3]
            if inside is not None and indent <= inside:
                inside = None
            if "record" in words or "data" in words:
                inside = indent
            definition = inside is not None or "abbrev" in words or "unfoldable" in words or "/specs/" in str(path)
            (plain if definition else lemmas).add(name)
    return plain, lemmas - plain


def library():
    """The names that the kit declares, where it can be found; they are not ours to respell."""
    import shutil

    rt = shutil.which("rt")
    names = set()
    if rt:
        kit = pathlib.Path(rt).resolve().parent.parent
        for path in (kit / "rattle").rglob("*.antt"):
            if "examples" in path.parts:
                continue
            for line in path.read_text(encoding="utf-8", errors="replace").splitlines():
                found = DECLARED.match(line)
                if found and not line.lstrip().startswith(("--", "use ", "pub use ")):
                    names.add(found[3])
    return names


def lemma(name, definitions):
    """A lemma's name: its dashes stay between the names of definitions."""
    parts = snake(name).split("-")
    out, here = parts[0], parts[0]
    for i, part in enumerate(parts[1:], 1):
        ahead = ["_".join(parts[i:j]) for j in range(i + 1, len(parts) + 1)]
        if here in definitions and any(a in definitions for a in ahead):
            out, here = out + "-" + part, part
        else:
            out, here = out + "_" + part, here + "_" + part
    return out


def table(root):
    plain, lemmas = declared(root)
    theirs = library()
    new = {}
    definitions = {snake(n).replace("-", "_") for n in plain if n[:1].islower()} | LIBRARY
    for name in plain:
        if name[:1].islower() and name not in theirs:
            new[name] = snake(name).replace("-", "_")
    for name in lemmas:
        if name[:1].islower() and name not in theirs and not GOAL.search(name):
            new[name] = lemma(name, definitions)
    new = {old: to for old, to in new.items() if old != to}
    # names that fall together: in no file may two words become one
    while True:
        clash = set()
        for path in files(root, "crates/*/specs/**/*.antt") + files(root, "crates/*/proofs/**/*.antt"):
            words = set(BARE.findall(path.read_text(encoding="utf-8")))
            ends = {}
            for w in words:
                ends.setdefault(new.get(w, w), set()).add(w)
            for to, several in ends.items():
                if len(several) > 1:
                    gives = {w for w in several if w in new and w in lemmas} or {w for w in several if w in new}
                    print(f"respell: {sorted(several)} would be `{to}` in {path.relative_to(root)}", file=sys.stderr)
                    clash |= gives
        if not clash:
            return new
        for old in clash:
            kept = snake(old) if old in lemmas else new[old] + "_of"
            if kept == new[old]:
                raise SystemExit(f"respell: no spelling is left for {old}")
            new[old] = kept
            if kept == old:
                del new[old]


def turned(text, new, camel_alone=False):
    def word(found):
        w = found[0]
        if w in new and not (camel_alone and not re.search(r"[a-z0-9][A-Z]", w)):
            return new[w]
        return w

    return WORD.sub(word, text)


def antt(text, new):
    lines = []
    for line in text.split("\n"):
        code, mark, comment = line, "", ""
        at = re.search(r"(?:^|\s)--(?:\s|$)", line)
        if at:
            code, mark, comment = line[: at.start()], line[at.start() : at.end()], line[at.end() :]
        comment = turned(comment, new, camel_alone=True)
        comment = re.sub(r"`[^`]*`", lambda m: turned(m[0], new), comment)
        lines.append(turned(code, new) + mark + comment)
    return "\n".join(lines)


def rt(text, new):
    lines, depth = [], 0
    for line in text.split("\n"):
        if line.lstrip().startswith("//"):
            lines.append(turned(line, new, camel_alone=True))
            continue
        if depth > 0 or CLAUSE.match(line):
            depth = max(0, depth + line.count("{") - line.count("}"))
            lines.append(turned(line, new))
            continue
        lines.append(line)
    return "\n".join(lines)


def edit(text, new):
    """An edit of specs/ or proofs/ reads as antt; of src/ only its names in camel case turn."""
    lines, src = [], False
    for line in text.split("\n"):
        if line.startswith("file:"):
            src = line.endswith(".rt")
        lines.append(turned(line, new, camel_alone=src) if line.startswith(("old:", "new:", "refused:")) else line)
    return "\n".join(lines)


def page(text, new):
    return re.sub(r"`[^`\n]*`", lambda m: turned(m[0], new, camel_alone=True) if " " in m[0] or re.search("[a-z][A-Z]", m[0]) else turned(m[0], new), text)


def main():
    words = [w for w in sys.argv[1:] if not w.startswith("--")]
    root = pathlib.Path(words[0] if words else pathlib.Path(__file__).resolve().parent.parent)
    for path, old, to in APART:
        path = root / path
        path.write_text(re.sub(rf"\b{old}\b(?!\.)", to, path.read_text(encoding="utf-8")), encoding="utf-8")
    new = table(root)
    if "--list" in sys.argv:
        for old, to in sorted(new.items()):
            print(f"{old}\t{to}")
        return
    kinds = [("crates/*/specs/**/*.antt", antt), ("crates/*/proofs/**/*.antt", antt), ("crates/*/src/**/*.rt", rt), ("crates/*/must-fail/*.edit", edit), ("README.md", page), ("docs/*.md", page)]
    for pattern, turn in kinds:
        for path in files(root, pattern):
            text = path.read_text(encoding="utf-8")
            after = turn(text, new)
            if after != text:
                path.write_text(after, encoding="utf-8")
    print(f"respell: {len(new)} names")


if __name__ == "__main__":
    main()
