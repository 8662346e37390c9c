#!/usr/bin/env python3
"""Holds what the pages, the specs and the code cite to what is there: python3 tests/citations.py

A citation is a link of a page, with its heading; `PAGE, "HEADING"`, or a heading of the page itself as `see "HEADING"` or `("HEADING", below)`, where
what begins a paragraph in bold letters is a heading too; a path from the top, or from the crate of which a page or a file is; a script by its name alone;
and in backquotes on a page a name of the code, as of a clause, a function, a definition, an edit or a trial. CHANGELOG.md tells of what was, and the
pages of integrations/ of others' code: their names are left out. What is gone, or has another name, is a failure. The crates that a page trusts, as
"`itoa` and `memchr` of the kit", are those that crates.txt has for it, or for docs/PROMISES.md all of these: no more and no fewer. It reads the texts of
the repository alone. The last line is `N passed, M failed`.
"""
import os
import re
import sys

from prose import parts as prose_of
from trials import Trials, main_alone

TOP = os.path.dirname(os.path.dirname(os.path.abspath(__file__)))
KINDS = (".md", ".svg", ".antt", ".rt", ".rattle", ".py", ".sh", ".c", ".h", ".1", ".3", ".edit")
UNDER = r'([A-Z_]+\.md)(?:,| has (?:it|them) under) "([^"]+)"'
ON_PAGE = r'(?:[Ss]ee|\() ?"([A-Z][^"]+)"(?:[.)]|, (?:below|above))'
# Of lib/ the sources, since what is installed stands in a folder of that name too.
PATH = r"(?<![\w./-])(?:(?:crates|docs|tests|bench|integrations|include|examples|completions)/|(?:nl_\w+|nlog)/(?:src|specs|proofs|edits)/|(?:src|specs)/)[\w./-]*\w|\blib/\w+\.(?:c|h|sh|names)\b"
FILE = r"(?<![\w./*-])[A-Za-z]\w+\.(?:py|sh|antt|rt|rattle|edit)\b"
NAME = r"`([A-Za-z]\w*(?:::\w+)*[a-z\d])`"
# What stands for any name, or is a folder that a run makes.
ANY = re.compile(r"\b(NAME|PART|VERSION|TO|MOD|FN|WHAT_THE_BUG_DOES|FOLDER|out)\b")
KIT = r"((?:`\w+`(?:, | and | ))+)of the kit\b"
# What crates.txt names of the toolchain's standard library.
STANDARD = {"core", "std_alloc"}
# Names of C++'s library, and of Ninja.
FOREIGN = {"std::unordered_map", "std::string_view", "RecomputeOutputDirty"}


def texts():
    """The texts of the repository, by their paths."""
    found = {}
    for folder, below, names in os.walk(TOP):
        below[:] = [it for it in below if it not in ("out", ".git", "__pycache__")]
        for name in names:
            path = os.path.relpath(f"{folder}/{name}", TOP)
            if name.endswith(KINDS) or "." not in name:
                with open(f"{TOP}/{path}", encoding="utf-8", errors="replace") as it:
                    found[path] = it.read()
    return found


def slug(heading):
    """A heading as a link has it."""
    return re.sub(r"[^\w -]", "", heading.lower()).replace(" ", "-")


def plain(heading):
    return heading.replace("`", "").lower()


def headings(text):
    text = re.sub(r"(?ms)^```.*?^```$", "", text)
    return [re.sub(r"^\d+\. | \(`\w+`\)$", "", it) for it in re.findall(r"(?m)^#+ (.*)$", text)], re.findall(r"(?m)^(?:[->] )?\*\*(.+?)\.?\*\*", re.sub(r"(?<!\n)\n(?!\n|- )", " ", text))


class Repository:
    """What can be cited: the files, their headings, and the names in the code."""

    def __init__(self, found):
        self.texts, self.headings = found, {path: headings(text) for path, text in found.items() if path.endswith(".md")}
        # (a page may say what a file holds that a user makes)
        self.names = {os.path.basename(it) for it in found} | {it for path in self.headings for it in re.findall(r"`([\w.]+)`(?:, without a newline at its end,)?\s+holds", found[path])}
        self.words = {word for path, text in found.items() if not path.endswith(".md") for word in re.findall(r"\w+", text)}
        self.words |= {word for path in found for word in re.split(r"\W+", path)}

    def page(self, path, name):
        """A page by its name, beside another one or at the top or in docs/."""
        return next((it for it in (os.path.join(os.path.dirname(path), name), name, f"docs/{name}") if it in self.headings), None)

    def has_heading(self, page, heading):
        heads, bold = self.headings.get(page, ((), ()))
        return plain(heading) in map(plain, heads) or any(re.match(rf"{re.escape(plain(heading))}\b", plain(it)) for it in bold)

    def has_path(self, path, cited):
        """Whether a path is there, from the top, or from a crate: that of the file which cites it, or any."""
        own = re.match(r"crates/\w+/", path)
        places = [f"{own[0]}{cited}"] if own else [f"crates/{it}/{cited}" for it in os.listdir(f"{TOP}/crates")]
        return any(os.path.exists(f"{TOP}/{it}{end}") for it in (cited, f"crates/{cited}", *places) for end in ("", ".antt", ".rt"))


def citations(repository, path, text):
    """Each citation of a text, and whether it is of something."""
    is_page, has = path.endswith(".md"), repository
    flat = re.sub(r"\s+(?:(?:--|//[/!]?|#|\*|>)\s+)?", " ", text)
    for name, heading in re.findall(UNDER, flat):
        yield f'{name}, "{heading}"', has.has_heading(has.page(path, name), heading)
    if is_page:
        for target in re.findall(r"\]\(([^)\s]+)\)", text):
            page, _, anchor = target.partition("#")
            page = os.path.normpath(os.path.join(os.path.dirname(path), page)) if page else path
            yield f"({target})", page in has.texts and (not anchor or anchor in map(slug, has.headings.get(page, [()])[0]))
        for heading in re.findall(ON_PAGE, flat):
            pages = [path, *(has.page(path, it) for it in re.findall(r"[A-Z_]+\.md", text))]
            yield f'"{heading}"', any(has.has_heading(it, heading) for it in pages)
    # (in blocks, in tests and in scripts there are names of files that they make)
    prose = " ".join(prose_of(text) if is_page else re.findall(r"(?m)(?:--|//[/!]?) (.*)$", text) if path.endswith((".antt", ".rt")) else ())
    is_own = not path.startswith(("CHANGELOG.md", "integrations/"))
    for cited in re.findall(PATH, prose) if is_own else []:
        if not ANY.search(cited):
            yield cited, has.has_path(path, cited)
    for cited in re.findall(FILE, prose) if is_own else []:
        if not ANY.search(cited):
            yield cited, cited in has.names
    for cited in re.findall(NAME, prose) if is_own and is_page else []:
        if re.search(r"_|::|[a-z][A-Z]", cited) and not ANY.search(cited) and cited not in FOREIGN:
            yield f"`{cited}`", all(it in has.words for it in cited.split("::"))


def kit_below(lines):
    """The crates of the toolchain's kit below each crate of crates.txt."""
    rows = [it.partition(":") for it in lines.split("\n") if ":" in it and not it.startswith("#")]
    stands = {crate.split()[0]: set(below.split()) for crate, _, below in rows}
    return {crate: below - set(stands) - STANDARD for crate, below in stands.items()}


def trusted(repository):
    """Each page that has to say what it trusts of the kit, with what that is, and what it says."""
    with open(f"{TOP}/crates.txt", encoding="utf-8") as it:
        below = kit_below(it.read())
    for path, wanted in [("docs/PROMISES.md", set().union(*below.values())), *((f"crates/{it}/README.md", below[it]) for it in below)]:
        said = re.findall(KIT, " ".join(repository.texts[path].split()))
        yield path, wanted, {name for names in said for name in re.findall(r"\w+", names.replace(" and ", " "))}


def main():
    trials, repository = Trials(__file__), Repository(texts())
    for path, wanted, said in trusted(repository):
        trials.check(f"what {path} trusts of the kit", said == wanted, f"it lacks {sorted(wanted - said)}, and has {sorted(said - wanted)} too many")
    for path, text in sorted(repository.texts.items()):
        for cited, is_there in citations(repository, path, text):
            trials.check(f"{path} cites {cited}", is_there, "which isn't there")
    return trials.end()


if __name__ == "__main__":
    sys.exit(main_alone(__file__, main))
