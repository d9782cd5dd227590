#!/usr/bin/env python3
"""Holds docs/READING.md to the code: each file that its table names is there, and each definition or theorem is declared in the file that it is
said to stand in. What a theorem's statement is said with, and what the sections around it assume, stands in specs/, where a reader looks, and
not in proofs/. Each function that the table of forms names is there and takes the form, comments aside; inversion negates no float.
And no crate declares a foreign function or uses the kit's crates whose contracts are assumed, and no library what std has over them."""
import re
import sys

from antt import DECLARED, ROOT, from_proofs, signature_of, words_of

CRATES = {folder.name: sorted([*folder.glob("specs/**/*.antt"), *folder.glob("proofs/**/*.antt")]) for folder in sorted(ROOT.glob("crates/*")) if folder.is_dir()}
ASSUMED = {"libc", "io", "os"}
# what of std calls the system, and a block that declares functions of another language
OVER_THEM = re.compile(r"\bstd\s*::\s*(?:\{[^;]*\b)?(?:env|fs|io|net|os|process|rt|thread|time)\b")
FOREIGN = re.compile(r"\bextern\s*(?:\"[^\"]*\"\s*)?\{|#\s*\[\s*link\b")
# a file, as `laws Checks`, or a name, as `first`
NAMED = re.compile(r"\b(?P<crate>%s) (?P<file>[A-Z]\w+)|`(?P<name>[\w-]+)`" % "|".join(CRATES))
STEMS = {path.stem for paths in CRATES.values() for path in paths}


def declared(paths):
    return {name for path in paths for name in DECLARED.findall(path.read_text(encoding="utf-8"))}


# what only shows that a statement can be met, or cannot be sharpened, needs no believing: any value would do
WITNESSES = "settling_witnesses"
ANYWHERE = declared(path for paths in CRATES.values() for path in paths)
faults, named = [], 0
for line in (ROOT / "docs/READING.md").read_text(encoding="utf-8").splitlines():
    for cell in line.split(" | ")[1:] if line.startswith("|") else []:
        where, here, crate, proofs = "no file", ANYWHERE, None, []
        for m in NAMED.finditer(cell):
            named += 1
            if m["file"]:
                where, files = f"{m['crate']} {m['file']}", [path for path in CRATES[m["crate"]] if path.stem == m["file"]]
                here = declared(files)
                if not files:
                    faults.append(f"docs/READING.md: {m['crate']} has no file {m['file']}.antt")
                crate, proofs = m["crate"], [path for path in files if path.parent.name == "proofs" and m["crate"] != WITNESSES]
            elif m["name"] not in here and m["name"] not in STEMS:
                faults.append(f"docs/READING.md: {where} declares no {m['name']}")
            else:
                for word in sorted(word for path in proofs for word in words_of(signature_of(crate, path.stem, m["name"])) & from_proofs(crate, path.stem)):
                    faults.append(f"{where} `{m['name']}` is said with {word}, which stands in proofs/: a reader looks in specs/")
# what docs/PROMISES.md has a row of theorems for stands on this page too: one of them at least
reading = (ROOT / "docs/READING.md").read_text(encoding="utf-8")
for crate, file, names in re.findall(r"^\| (\w+) ([A-Z]\w+) ([\w, -]+) \|", (ROOT / "docs/PROMISES.md").read_text(encoding="utf-8").split("## Theorems")[1].split("\n## ")[0], re.M):
    if not any(re.search(rf"\b{crate} {file}\b[^|;]*`{re.escape(name)}`", reading) for name in names.split(", ")):
        faults.append(f"docs/READING.md names none of {names} of {crate} {file}, which docs/PROMISES.md has a row for")
# document 01's "Code places and their forms", and request 3's: for each form the functions that take it, and what of their source shows it
FORMS = [
    {"powers::split": r"q >> 2"},
    {"backend::granule_step": r"&mut out\[576\.\.\]"},
    {"intensity::choose": r"match p \{.*0\.\.=5 =>.*6 =>.*7 =>.*_ => Err\(Refusal::PositionTooHigh\)"},
    {"power_table::powers": r"table::POWERS", "power_table::low_powers": r"let all = powers\(\);", "power_table::high_powers": r"let all = powers\(\);",
     "power_table::signed_powers": r"small::SIGNED"},
    {"requantize::scaled": r"\* gain", "requantize::signs": r"if numbers\[i\] < 0 \{ -v \} else \{ v \}", "power_table::signed_powers": r"small::SIGNED"},
    {"intensity::choose": r"Ok\(Some\(Ratios \{", "intensity::scale": r"by: Ratios"},
    {"records::byte_at": r"-> Result<\(u8, usize\), Refusal>", "records::field_at": r"let \(byte, next\) = byte_at\(s, place\)\?",
     "records::half_field": r"-> Result<\(u16, usize\), Refusal>", "records::read_top": r"let \(table, place\) = byte_at\(s, 0\)\?",
     "records::read_head": r"let \(count1, _\) = half_field\(s, count_at\)\?"},
    {"imdct::long_sums": r"let row = tables\.cos36\[m\];", "imdct::short_sums": r"let row = tables\.cos12\[m\];"},
    {"pebblerut::pebblerut_fresh": r"h: &mut History", "pebblerut::pebblerut_render_edition": r"h: &mut History", "pebblerut::pebblerut_render": r"h: &mut History", "pebblerut::pebblerut_not_finite": r"h: &History"},
    {"inversion::turned": r"from_bits\(f32::to_bits\(x\) \^ sign_bit\(turn\)\)", "inversion::negate_odd": r"samples\[n\] = turned\(x, true\)",
     "inversion::turn_subband": r"samples\[k\] = turned\(samples\[k\], k % 2 == 1\).*samples\[k\] = turned\(samples\[k\], true\)"},
]


def sources_of(crate):
    """The crate's source files, without comments."""
    return [re.sub(r"//.*", "", path.read_text(encoding="utf-8")) for path in sorted((ROOT / "crates" / crate / "src").glob("*.rt"))]


def source_of(function):
    """A function's source, from its head to the end of its body."""
    crate, name = function.split("::")
    for text in sources_of(crate):
        m = re.search(rf"^(?:pub )?(?:extern \"C\" )?fn {name}\b.*?\n}}\n", text, re.M | re.S)
        if m:
            return m[0]
    return ""


rows = [line for line in reading.split("## The forms that the paper names")[1].split("\n## ")[0].splitlines() if line.startswith('| "')]
if len(rows) != len(FORMS):
    faults.append(f"docs/READING.md: the papers name {len(FORMS)} forms, and the table has {len(rows)}")
for row, form in zip(rows, FORMS):
    named += len(form)
    if set(re.findall(r"\w+::\w+", row)) != set(form):
        faults.append(f"docs/READING.md: the form {row.split(' | ')[0][2:]} is taken by {', '.join(form)}")
    for function, shown in form.items():
        if not re.search(shown, source_of(function), re.S):
            faults.append(f"{function} does not take the form that docs/READING.md says")
# a sign before a name, or a number with a point, which a float would be taken from or multiplied by
NEGATES = re.compile(r"(?:[=(,{;\[&|+*/<>^]|\breturn)\s*-(?!>)|\d\.\d")
if not NEGATES.search("samples[n] = -x;") or not NEGATES.search("samples[n] = 0.0 - x;"):
    faults.append("the search for negations finds none where there are some")
for text in sources_of("inversion"):
    for m in NEGATES.finditer(text):
        faults.append(f"inversion negates a float, or may: {text[m.start():m.end() + 20]!r}")
for line in (ROOT / "crates.txt").read_text(encoding="utf-8").splitlines():
    head, _, used = line.partition("#")[0].partition(":")
    if ASSUMED & set(used.split()):
        faults.append(f"crates.txt: {head} uses {', '.join(sorted(ASSUMED & set(used.split())))}")
for crate in CRATES:
    folder, sources = ROOT / "crates" / crate, sources_of(crate)
    if (folder / "c").exists() or any(map(FOREIGN.search, sources)):
        faults.append(f"{crate} declares a foreign function, whose contract nothing proves")
    if (folder / "src/lib.rt").is_file() and any(map(OVER_THEM.search, sources)):
        faults.append(f"{crate} is a library and uses what of std calls the system")
for fault in faults:
    print(fault, file=sys.stderr)
if faults:
    sys.exit(1)
print(f"reading: {named} files and names are there")
