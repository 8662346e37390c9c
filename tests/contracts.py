"""The contracts of a crate's sources, as the scripts that hold them to rules read them: functions, and the
clauses of each."""
import os
import re
from glob import glob
from typing import Iterator, List, NamedTuple, Optional

from edits import TOP, text_of

# What begins a function, and what begins that in which an indented one stands, which is at the left margin by
# `rt fmt`.
FUNCTION = re.compile(r"(?m)^( *)(pub )?(?:\w+ |\w+ \"C\" |pub\(\w+\) )*fn (\w+)")
OWNER = re.compile(r"(?m)^(?:pub(?:\(\w+\))? )?(?:unsafe )?(trait|impl)\b([^{]*)")
PART = re.compile(r"\s*(ghost|requires|ensures)\b(\*?)([^{]*)\{")
WHERE = re.compile(r"\s*where\b[^{]*?(?=\s*(?:\b(?:ghost|requires|ensures)\b|[{;]))")
OPENERS = {"(": ")", "[": "]", "{": "}", "<": ">"}


class Clause(NamedTuple):
    kind: str
    label: str
    text: str


class Function(NamedTuple):
    crate: str
    name: str
    # `trait`, `impl`, `impl .. for`, or nothing.
    owner: str
    is_public: bool
    parameters: List[str]
    answer: str
    clauses: List[Clause]

    def is_met(self) -> bool:
        """Whether callers meet it: it is public, or stands in a trait, or in what a type has of one."""
        return self.is_public or self.owner in ("trait", "impl .. for")

    def ensures(self) -> List[str]:
        return [clause.text for clause in self.clauses if clause.kind == "ensures"]


def code_of(path: str) -> str:
    """The file's text without its comments."""
    return re.sub(r"//.*", "", text_of(path))


def end_of(text: str, at: int) -> int:
    """Behind the bracket that closes the one at this place."""
    opener, closer, depth = text[at], OPENERS[text[at]], 0
    while True:
        is_arrow = text[at] == ">" and text[at - 1] in "-="
        depth += (text[at] == opener) - (text[at] == closer and not is_arrow)
        at += 1
        if depth == 0:
            return at


def split_at(text: str, mark: str) -> List[str]:
    """The text's parts between marks that stand in no bracket."""
    parts, depth, start = [], 0, 0
    for at, letter in enumerate(text):
        is_arrow = letter == ">" and text[at - 1 : at] in ("-", "=")
        depth += (letter in "([{<") - (letter in ")]}>" and not is_arrow)
        if letter == mark and depth == 0:
            parts.append(text[start:at])
            start = at + 1
    return [part.strip() for part in (*parts, text[start:]) if part.strip()]


def owner_of(text: str, head) -> str:
    owners = list(OWNER.finditer(text, 0, head.start()))
    if not head[1] or not owners:
        return ""
    return "impl .. for" if owners[-1][1] == "impl" and re.search(r"\bfor\b", owners[-1][2]) else owners[-1][
        1
    ]


def function_at(crate: str, text: str, head) -> Function:
    at = head.end()
    if text[at] == "<":
        at = end_of(text, at)
    end = end_of(text, at)
    parameters = split_at(text[at + 1 : end - 1], ",")
    answer = re.compile(r"\s*->\s*([^{;]*?)\s*(?=\n\s*(?:ghost|requires|ensures|where)\b|[{;])").match(
        text, end
    )
    at, clauses = answer.end() if answer else end, []
    bounds = WHERE.match(text, at)
    at = bounds.end() if bounds else at
    while part := PART.match(text, at):
        at = end_of(text, part.end() - 1)
        clauses.append(Clause(part[1], part[3].strip(), " ".join(text[part.end() : at - 1].split())))
    return Function(
        crate, head[3], owner_of(text, head), bool(head[2]), parameters, answer[1] if answer else "", clauses
    )


def functions_of(path: str) -> Iterator[Function]:
    """The functions of a file, in its order."""
    text, crate = code_of(path), os.path.relpath(path, f"{TOP}/crates").split(os.sep)[0]
    for head in FUNCTION.finditer(text):
        yield function_at(crate, text, head)


# Who speaks of a Result's Ok alone, and labels of clauses that say no cause: what a refusal leaves, and which
# may come at all, unless that goes by the parameters, or is want of memory alone.
OK_ONLY = {"IsOk", "IfOk", "IsOkAnd", "OnOk"}
LEAVINGS = {"unchanged", "left", "kept", "stays", "steady", "again"}
WHICH = {"faults", "refusals"}
IS_MEMORY_ALONE = re.compile(r"\(λ e\. e ≡ \w+\.Memory\)$")
IS_RESULT = re.compile(r"(?:\w+::)?\w*Result\b")
# What can be refused but by want of memory: no contract speaks of what an allocator has.
IS_MEMORY = re.compile(r"(?:Alloc|Jobs)Result\b|Result<.*\bAllocError>$")
MUTABLE = re.compile(r"(?:(\w+): )?(?:mut )?&(?:'\w+ )?mut (self\b|\[?)")
IS_UNSAID = re.compile(r"\(*\s*IsErr(?:And|Of)?\s+result\b[^→]*⊎")


def result_of(function: Function) -> Optional[str]:
    """How clauses name the Result that a function answers, or None if it answers none: `result`, or a part of
    it."""
    if not function.answer.startswith("("):
        return "result" if IS_RESULT.match(function.answer) else None
    parts = split_at(function.answer[1:-1], ",")
    return next((f"result.{at}" for at, part in enumerate(parts) if IS_RESULT.match(part)), None)


def speakers(clause: str, result: str) -> List[str]:
    """What the Result is given to in a clause: the words that begin the applications."""
    found = []
    for place in re.finditer(rf"\b{re.escape(result)}\b(?!\.\d)", clause):
        depth, at = 0, place.start()
        while at > 0 and not (depth == 0 and clause[at - 1] in "([{→×⊎,↔≡≢≤<∈λ¬"):
            at -= 1
            depth += (clause[at] in ")]}") - (clause[at] in "([{")
        found.append((clause[at : place.start()].split() or ["≡"])[0])
    return found


def changed_by(function: Function) -> Iterator[str]:
    """The parameters that a function may change, but buffers of bytes, whose length stays by their type."""
    for parameter in function.parameters:
        found = MUTABLE.match(parameter)
        if found and found[2] != "[":
            yield found[1] or found[2]


def unsaid(function: Function) -> Iterator[str]:
    """The clauses that are met by any Err."""
    for clause in function.clauses:
        if clause.kind == "ensures" and IS_UNSAID.match(clause.text):
            yield f"clause `{clause.label}` holds of any Err"


def is_cause(function: Function, clause: Clause) -> bool:
    """Whether a clause that speaks of an Err says when it comes."""
    if clause.label not in WHICH:
        return clause.label not in LEAVINGS
    names = [re.sub(r"\s*:.*", "", re.sub(r"^(&|'\w+ |mut )*", "", it)) for it in function.parameters]
    by_parameter = any(re.search(rf"\b{re.escape(name)}\b", clause.text) for name in names)
    return by_parameter or bool(IS_MEMORY_ALONE.search(clause.text))


def untold(function: Function) -> Iterator[str]:
    """What the contract of a function that answers a Result says too little of: an Err without a cause, or
    without what it leaves."""
    result = result_of(function)
    if result is None:
        return
    said = [clause for clause in function.clauses if clause.kind == "ensures"]
    of_err = [clause for clause in said if any(word not in OK_ONLY for word in speakers(clause.text, result))]
    is_caused = any(is_cause(function, clause) for clause in of_err)
    if not is_caused and not IS_MEMORY.match(function.answer):
        yield "no clause has the cause of an Err"
    for name in changed_by(function):
        if not any(
            re.search(rf"\b{name}\.(new|exit|entry)\b", clause.text)
            for clause in said if clause in of_err or result not in clause.text
        ):
            yield f"no clause says what an Err leaves of {name}"


def sources(without: Optional[str] = None) -> List[str]:
    """The source files of all crates but those of this name."""
    found = sorted(glob(f"{TOP}/crates/*/src/**/*.rt", recursive=True))
    return [path for path in found if os.path.basename(path) != without]
