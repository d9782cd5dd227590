"""What a file of specs/ or proofs/ declares, the whole statement of a theorem, and what a contract of src/ says: for the tests of the documents."""
import pathlib
import re

ROOT = pathlib.Path(__file__).resolve().parent.parent
# a name, as `sums_right`, `row-length` or `at'`
NAME = r"[\w'-]+"
DECLARED = re.compile(rf"^\s*(?:abbrev |unfoldable |opaque )?pub (?:record |data |ruleset )?({NAME})", re.M)
WORD = re.compile(r"[^\s(){}\[\];,.]+")
CLAUSE = re.compile(r"\b(requires|ensures)(?: (\w+))? \{")


def text_of(crate, folder, file):
    path = ROOT / "crates" / crate / folder / f"{file}.antt"
    return path.read_text(encoding="utf-8") if path.is_file() else ""


def uncommented(source):
    """A file of src/ without its comments."""
    return re.sub(r"//.*", "", source)


def closing(text, opening):
    """The place of the brace that closes the one at a place."""
    depth = 0
    for at in range(opening, len(text)):
        depth += {"{": 1, "}": -1}.get(text[at], 0)
        if depth == 0:
            return at
    raise SystemExit(f"no brace closes `{text[opening:opening + 60]}`")


def clauses(source):
    """(kind, what is said, on one line) of each clause of a contract, in source without comments."""
    for m in CLAUSE.finditer(source):
        yield m[1], " ".join(source[m.end():closing(source, m.end() - 1)].split())


def signatures(source, marked="pub "):
    """(name, signature) of each function that is marked pub, or so marked. A signature ends where its body opens."""
    source = uncommented(source)
    for m in re.finditer(rf'^[ \t]*{marked}(?:extern "C" )?fn (\w+)', source, re.M):
        body = source.index("{", m.end())
        while re.search(r"\b(?:requires|ensures)(?: \w+)? $", source[m.end():body]):
            body = source.index("{", closing(source, body))
        yield m[1], source[m.start():body]


def declared(crate, folder, file):
    """What a file declares for others."""
    return set(DECLARED.findall(text_of(crate, folder, file)))


def telescopes(lines, indent):
    """What the sections that enclose a line of such an indent bind: those of the lines above it, from the last one up."""
    bound = []
    for line in reversed(lines):
        depth = len(line) - len(line.lstrip())
        m = re.match(r"\s*module _ (.*) where$", line)
        if m and depth < indent:
            bound.insert(0, m[1])
            indent = depth
    return bound


def signature_of(crate, file, name):
    """The statement of a public theorem of proofs/, with what the sections around it assume before it; nothing where there is none."""
    lines = text_of(crate, "proofs", file).splitlines()
    for n, line in enumerate(lines):
        m = re.match(rf"( *)pub {re.escape(name)} :(.*)", line)
        if m:
            said = [m[2]]
            for more in lines[n + 1:]:
                if re.match(rf"{m[1]}(?:unfolding |{re.escape(name)}(?![\w'-]))", more):
                    break
                said.append(more)
            return " → ".join(telescopes(lines[:n], len(m[1])) + [" ".join(said)])
    return ""


def words_of(statement):
    """The words of a statement that it does not bind itself."""
    bound = {word for group in re.findall(r"[({]([^(){}:]*) :", statement) for word in group.split()}
    bound |= {word for group in re.findall(r"λ ([^.]*)\.", statement) for word in group.split()}
    return set(WORD.findall(statement)) - bound


def from_proofs(crate, file):
    """The names that a file of proofs/ has from proofs/: its own, and those that it brings in from such files of any crate."""
    text = text_of(crate, "proofs", file)
    own = set(re.findall(rf"^\s*(?:abbrev |unfoldable |opaque )?(?:pub )?(?:record |data |ruleset )?({NAME})(?: [^:\n]*)? :", text, re.M))
    brought = set()
    for path, group, alias in re.findall(r"^(?:pub )?use Rattle\.\w+\.proofs\.([^\s{]+?)(?:\.\{([^}]*)\})?(?: as (\S+))?$", text, re.M):
        brought |= {name.split(" as ")[-1].strip() for name in group.split(",")} if group else {alias or path.split(".")[-1]}
    return own | brought
