#!/usr/bin/env python3
"""Writes the file `tags` at the top, by which an editor jumps to a definition: python3 lib/tags.py

It has each function, type, trait, constant and macro of Rattle, each clause by its label, as `append.call`, and each
definition of the `.antt` files, in the format that Vim, Emacs and others read (that of `ctags`), sorted by name.
"""
import os
import re
from glob import glob
from typing import Iterator, NamedTuple

TOP = os.path.dirname(os.path.dirname(os.path.realpath(__file__)))
ITEM = re.compile(r"\s*(?:(?:pub(?:\([^)]*\))?|const|unsafe|extern \"C\") +)*"
                  r"(fn|struct|enum|trait|type|const|static|macro_rules!) +(\w+)")
CLAUSE = re.compile(r"\s*(?:ensures|requires)\*? +(\w+) *\{")
# A definition begins its line, and has its type behind a colon.
DEFINITION = re.compile(r"(?!--)(?:(?:pub|abbrev|data|record|opaque|postulate) +)*([^\s(){}:;=,.]+)(?: [^=:]*)? : ")


class Tag(NamedTuple):
    """A line of the file: a name, and where it is defined."""

    name: str
    file: str
    line: int
    kind: str

    def __str__(self) -> str:
        return f'{self.name}\t{self.file}\t{self.line};"\t{self.kind}'


def tags_of(file: str, text: str) -> Iterator[Tag]:
    owner = ""
    for line, row in enumerate(text.split("\n"), 1):
        item = ITEM.match(row) if file.endswith(".rt") else None
        if item:
            owner = item[2]
            yield Tag(owner, file, line, item[1][:1])
        elif file.endswith(".rt") and CLAUSE.match(row):
            yield Tag(f"{owner}.{CLAUSE.match(row)[1]}", file, line, "e")
        elif file.endswith(".antt") and DEFINITION.match(row):
            yield Tag(DEFINITION.match(row)[1], file, line, "d")


def main() -> None:
    found = []
    for path in glob(f"{TOP}/crates/*/*/**/*.*t", recursive=True):
        file = os.path.relpath(path, TOP)
        if file.endswith((".rt", ".antt")) and file.split("/")[2] != "out":
            with open(path, encoding="utf-8") as text:
                found += tags_of(file, text.read())
    with open(f"{TOP}/tags", "w", encoding="utf-8") as tags:
        print("!_TAG_FILE_SORTED\t1\t/0=unsorted, 1=sorted/", *sorted(set(map(str, found))), sep="\n", file=tags)


if __name__ == "__main__":
    main()
