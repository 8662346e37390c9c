#!/usr/bin/env python3
"""Holds the pages to plain English: how long they are, and their sentences and lines, how a sentence begins, and that none says a thing twice.

    python3 tests/prose.py [PAGE..]
    python3 tests/prose.py --show PAGE

A sentence ends at a full stop, a colon at the end of a line, a question mark, or where a paragraph, an item of a list, a heading or a cell of
a table ends. What stands in backquotes counts as one word, of a link its text alone, and what stands in an indented or a fenced block isn't
prose. Of a header the comments are read, and of a manual page the source, whose synopsis and examples are blocks. A page is held to the
limits of `LIMITS`: columns (of a page outside of indented blocks), words of a sentence on average, and words of the longest one. Each page that
`PAGES` finds has a budget, of words as `wc -w` counts them or of lines. All together have one too, of the words that are written by hand: what a
script makes of other texts, or compares with them word by word, stands once for whoever keeps it. `--show` prints the sentences of a page, the
longest first.

The last line is `N passed, M failed`.
"""
import os
import re
import sys
from fnmatch import fnmatch
from glob import glob

from trials import Trials, main_alone, usage

TOP = os.path.dirname(os.path.dirname(os.path.abspath(__file__)))

# What the pages are, and their words at the most: of a page, of several together, and of all.
PAGES = ("*.md", "docs/*.md", "crates/*/README.md", "integrations/*/README.md", "tests/*/README.md", "man/*.[13]", "include/*.h")
WORDS = {
    "README.md": 440,
    "CHANGELOG.md": 2100,
    "CONTRIBUTING.md": 2480,
    "docs/ARCHITECTURE.md": 1010,
    "docs/CLI.md": 7480,
    "docs/DAMAGE.md": 750,
    "docs/DECISIONS.md": 2580,
    "docs/DESIGN.md": 1500,
    "docs/DISK_MODEL.md": 3190,
    "docs/FORMAT.md": 4150,
    "docs/GATE.md": 570,
    "docs/HELP.md": 5590,
    "docs/LIBRARY.md": 2360,
    "docs/BUILDS.md": 1370,
    "docs/RELEASE.md": 540,
    "docs/NINJA_TIMES.md": 520,
    "docs/PERFORMANCE.md": 1020,
    "docs/PROMISES.md": 4260,
    "docs/RECIPES.md": 710,
    "docs/REPLAY.md": 800,
    "docs/SECURITY.md": 940,
    "integrations/*/README.md": 2640,
    "tests/*/README.md": 280,
    "include/nlog.h": 4240,
    "man/nlog.1": 1890,
    "man/nlog.3": 2370,
    "crates/*/README.md": 2560,
}
WHOLE = 48_390
# Pages of which WHOLE counts nothing: man/make.py makes the help, and CHANGELOG.md grows with each version.
UNCOUNTED = ("CHANGELOG.md", "docs/HELP.md")
# The lines of a crate's page, at the most.
LINES = 12
# Each page has: its columns; the words of a sentence on average; those of the longest.
LIMITS = {
    "README.md": (100, 18, 25),
    "docs/CLI.md": (100, 18, 25),
    "docs/DAMAGE.md": (100, 18, 25),
    "docs/HELP.md": (100, 18, 25),
    "docs/REPLAY.md": (100, 18, 25),
    "docs/RECIPES.md": (100, 18, 25),
    "docs/DECISIONS.md": (100, 18, 25),
    "docs/DESIGN.md": (100, 18, 25),
    "docs/PROMISES.md": (100, 18, 25),
    "docs/DISK_MODEL.md": (100, 18, 25),
    "docs/FORMAT.md": (100, 18, 25),
    "docs/ARCHITECTURE.md": (100, 18, 25),
    "CONTRIBUTING.md": (100, 18, 25),
    "docs/PERFORMANCE.md": (100, 18, 25),
    "docs/GATE.md": (100, 18, 25),
    "CHANGELOG.md": (100, 18, 25),
    "docs/LIBRARY.md": (100, 18, 25),
    "docs/BUILDS.md": (100, 18, 25),
    "docs/RELEASE.md": (100, 18, 25),
    "docs/NINJA_TIMES.md": (100, 18, 25),
    "docs/SECURITY.md": (100, 18, 25),
    "integrations/ninja/README.md": (115, 18, 25),
    "integrations/samurai/README.md": (125, 18, 25),
    "tests/library/README.md": (100, 18, 25),
    "include/nlog.h": (80, 18, 25),
    "man/nlog.1": (80, 18, 25),
    "man/nlog.3": (80, 18, 25),
}
# With what no sentence begins: a reader has to go back for what it is of.
BEGINNING = re.compile(r"\W*(?:So is|So it is|That of|Of)\b")
# A paragraph of as many words stands on one page, once.
REPEATED = 12
ENDS = re.compile(r"(?<=[.?!])[)\"*]*\s+(?=[^a-z\s])|(?<=:)\s*$")
# A function of the library, which may begin a sentence as it is.
CALL = re.compile(r"\bnlog_\w+(?:\(\))?")
# What a manual page writes by an escape, and the macros whose words are text, with a space between two of them or none. Any other is refused,
# so that no text is passed over.
ESCAPES = {r"\-": "-", r"\e": "\\", r"\&": "", r"\(aq": "'", r"\(dq": '"', r"\(lq": '"', r"\(rq": '"', r"\fB": "", r"\fI": "", r"\fR": "", r"\fP": ""}
APART, JOINED, BREAKS = ("B", "I"), ("BR", "RB", "BI", "IB", "IR", "RI"), ("P", "PP", "IP", "RS", "RE", "TP", "TQ", "in")


def columns_of_page(text):
    return max(len(it) for it in text.split("\n") if not it.startswith("    "))


def comments(text):
    """Where each comment of a header begins and ends."""
    return [it.span() for it in re.finditer(r"(?s)/\*.*?\*/", text)]


def page_of_header(text):
    """The comments of a header as a page, each a paragraph or more of it."""
    bare = (re.sub(r"(?m)^ *\* ?", "", text[start + 2 : end - 2].strip(" -")) for start, end in comments(text))
    return CALL.sub("CODE", "\n\n".join(bare))


def columns_of_header(text):
    return max(len(it) for it in text.split("\n"))


def lines_of_manual(source):
    """The lines of a manual page's source outside of its blocks: each with its macro, or None, and the words that are its text."""
    is_block = False
    for line in source.split("\n"):
        macro, rest = re.fullmatch(r"(?:\.(\S*) *)?(.*)", line).groups()
        if macro in ("nf", "EX", "SY", "fi", "EE", "YS"):
            is_block = macro in ("nf", "EX", "SY")
        elif not is_block and macro not in ("TH", '\\"'):
            yield line, macro, [it.strip('"') for it in re.findall(r'"[^"]*"|\S+', rest)] if macro else [rest]


def page_of_manual(source):
    """A manual page's source as a page. A heading is a paragraph of its own, and so is what an item begins with."""
    page, is_tag = [], False
    for line, macro, given in lines_of_manual(source):
        if macro in BREAKS:
            page.append("")
            is_tag = macro in ("TP", "TQ")
            continue
        said = ("" if macro in JOINED else " ").join(given)
        said = re.sub(r"\\(?:\(..|f.|.)", lambda it: ESCAPES[it[0]], said)
        if macro in ("SH", "SS"):
            page += ["", said, ""]
        elif macro is None or macro in APART + JOINED:
            page += [said, ""] if is_tag else [said]
        else:
            raise ValueError(f"a macro that isn't read: {line}")
        is_tag = False
    return CALL.sub("CODE", "\n".join(page))


def columns_of_manual(source):
    return max(len(line) for line, _, _ in lines_of_manual(source))


def kind_of(page):
    """How a page's text becomes one of paragraphs, and how its columns are counted."""
    if page.endswith(".h"):
        return page_of_header, columns_of_header
    return (page_of_manual, columns_of_manual) if page.startswith("man/") else (str, columns_of_page)


def text_of(page):
    with open(f"{TOP}/{page}", encoding="utf-8") as it:
        return it.read()


def read(page):
    return kind_of(page)[0](text_of(page))


def parts(text):
    """The paragraphs, items, headings and cells of a page, each as one line, without its code."""
    # A fenced block, and then an indented one: one that stands behind an empty line.
    text = re.sub(r"(?ms)^```.*?^```$", "", text)
    text = re.sub(r"(?m)(?:(?<=\n\n)|\A)(?: {4}.*\n|\n(?= {4}))+", "", text)
    # What begins a part of its own, and ends the one before it.
    text = re.sub(r"(?m)^(#+|>|[-*]|\d+\.) (.*)$", r"\n\2", text)
    for block in re.split(r"\n\s*\n", text):
        rows = [it for it in block.split("\n") if it.startswith("|")]
        for row in rows:
            yield from (it.strip() for it in re.split(r"(?<!\\)\|", row) if it.strip(" -"))
        rest = " ".join(it.strip() for it in block.split("\n") if not it.startswith("|"))
        if rest.strip():
            yield rest.strip()


def sentences(text):
    for part in parts(text):
        said = re.sub(r"\]\([^)\s]*\)", "]", re.sub(r"`[^`]*`", "CODE", part))
        yield from (it.strip() for it in ENDS.split(said) if it.strip())


def words(sentence):
    return len(re.findall(r"[^\W_][\w'./^-]*", sentence))


def figures(page):
    """The columns of a page, the words of its average sentence, and of its longest."""
    counts = [words(it) for it in sentences(read(page))]
    # A heading or a cell of a word or two is no sentence.
    whole = [it for it in counts if it > 3]
    return kind_of(page)[1](text_of(page)), sum(whole) / max(1, len(whole)), max(counts, default=0)


def pages():
    """The pages of the repository, by their paths."""
    return sorted(os.path.relpath(it, TOP) for pattern in PAGES for it in glob(f"{TOP}/{pattern}"))


def by_hand(page):
    """The part of a page that is written by hand. Of man/nlog.1 man/make.py makes the rest, of man/nlog.3 tests/manual.py compares the synopsis with
    the header, and the example with docs/LIBRARY.md."""
    if page in UNCOUNTED:
        return ""
    if page == "man/nlog.1":
        return text_of("man/nlog.1.in")
    if page == "man/nlog.3":
        return re.sub(r"(?ms)^\.(?:nf|EX)$.*?^\.(?:fi|EE)$", "", text_of(page))
    return text_of(page)


def lengths(found):
    """What is counted of the pages: its name, how much it is, and how much it may be, or None where no budget is of it."""
    counts = {it: len(text_of(it).split()) for it in found}
    for pattern, limit in WORDS.items():
        yield f"{pattern}: words", sum(count for it, count in counts.items() if fnmatch(it, pattern)), limit
    for page in found:
        if not any(fnmatch(page, it) for it in WORDS):
            yield f"{page}: words", counts[page], None
        if page.startswith("crates/"):
            yield f"{page}: lines", text_of(page).count("\n"), LINES
    yield "all pages: words that are written by hand", sum(len(by_hand(it).split()) for it in found), WHOLE


def repeated(pages):
    """The long paragraphs that stand twice, each with where."""
    seen = {}
    for page in pages:
        for part in parts(read(page)):
            if words(part) >= REPEATED:
                seen.setdefault(part, []).append(page)
    return {it: where for it, where in seen.items() if len(where) > 1}


def main():
    given = sys.argv[1:]
    if given[:1] == ["--show"] and len(given) == 2:
        for it in sorted(sentences(read(given[1])), key=words, reverse=True):
            print(f"{words(it):4} {it}")
        return 0
    if any(it not in LIMITS for it in given):
        return usage(__file__)
    trials = Trials("prose.py")
    for page in given or LIMITS:
        for what, is_now, limit in zip(("columns", "words of a sentence on average", "words of the longest sentence"), figures(page), LIMITS[page]):
            trials.check(f"{page}: {what}", is_now <= limit, f"{is_now:.1f} in place of {limit} at most")
        begun = [it for it in sentences(read(page)) if BEGINNING.match(it)]
        trials.check(f"{page}: how sentences begin", not begun, "; ".join(begun))
    for what, is_now, limit in [] if given else lengths(pages()):
        trials.check(what, limit is not None and is_now <= limit, f"{is_now} in place of {limit} at most" if limit else "which has no budget")
    for part, where in repeated(LIMITS).items():
        trials.check("a paragraph stands once", False, f"{', '.join(where)}: {part}")
    return trials.end()


if __name__ == "__main__":
    sys.exit(main_alone(__file__, main))
