"""The wrong answers of the must-fail edits. An edit holds one or more of them, each a name (`# answer:`), the place that refuses it
(`# refused:`, a function or a file of proofs/, and after a comma which goal of the function or what of that file) and what it changes. Answers
share an edit where neither's place rests on the other's, so that one run of the prover tries several."""
import pathlib
import re

ROOT = pathlib.Path(__file__).resolve().parent.parent
# What an error says that follows from another's refusal, from a name that is gone, or from a proof that no longer fits the code: none of them
# shows a fact that is false.
NO_FACT = (
    r"was not admitted|that depends? on|is not in scope(?! here, so)|has no field|has no `|can be named from here|is no name|has room for only"
    r"|needs a function|no occurrence of the path|does not read the part|no clause covers"
)


class Answer:
    def __init__(self, edit, name):
        self.edit, self.name, self.crate, self.place, self.part, self.changes = edit, name, edit.parts[-3], None, None, []

    def __str__(self):
        return f"{self.crate}/{self.edit.stem}: the wrong answer {self.name}"

    def refused_by(self, log):
        """Whether the prover refused this answer for itself, by what `rt check` printed: an error in the place's own proof that speaks of a fact,
        values at which one of its goals is false, or, where the toolchain makes the answer to a goal, a search that finds none."""
        log = re.sub(r"\n  +(?=\S)", " ", log)  # a message goes on in indented lines
        part = f"`{re.escape(self.part)}`" if self.part else "`[^`]*`"
        error = rf"(?:\./)?proofs/{self.place}(?:/(?:Answers|Invariants|Proof))?\.antt:\d+:\d+: error: {part}(?!.*(?:{NO_FACT}))"
        # what is said of a function's goals stands before its own line
        false = rf"note: src/.*: it is not proved that .*\({part}\).*allow values at which this goal is false"
        function = rf"fn {self.crate}::{self.place.replace('/', '::')}: "
        made = rf"{function}no proof: .*did not prove .*{part}"
        return re.search(rf"^(?:{error}|{made}|{false}\n(?:note: .*\n)*{function})", log, re.M) is not None


def answers():
    """Every wrong answer. A line of an edit that says nothing of one is an error."""
    for edit in sorted(ROOT.glob("crates/*/must-fail/*.edit")):
        answer, file, old = None, None, None
        for line in edit.read_text(encoding="utf-8").splitlines():
            word, _, rest = line.partition(": ")
            if word == "# answer":
                if answer:
                    yield answer
                answer = Answer(edit, rest)
            elif line and not answer:
                raise SystemExit(f"{edit.relative_to(ROOT)}: `{line}` stands before any answer")
            elif word == "# refused":
                answer.place, _, answer.part = rest.partition(", ")
            elif word == "file":
                file = rest
            elif word == "old":
                old = rest
            elif word == "new":
                answer.changes.append((file, old, rest))
            elif line:
                raise SystemExit(f"{edit.relative_to(ROOT)}: `{line}` is no line of an edit")
        if not answer:
            raise SystemExit(f"{edit.relative_to(ROOT)}: it holds no wrong answer")
        yield answer
