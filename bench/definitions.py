#!/usr/bin/env python3
"""Prints what a reader of a contract's clause has to believe: ROOT [CRATE FILE FUNCTION CLAUSE], else the clause `done` of `asyncify`.

From the clause on, each definition of the crates' specs that is named, and what that names, is counted with its comment; names that a file only passes
on lead to where they are defined. The kit's definitions don't count, nor types that the program declares: those stand in its sources. Each file has a line
with its lines that count and their number of definitions, and the last line has the sum, which `docs/THEOREM.md` has too (`tests/names` compares them)."""

import functools
import os
import re
import sys

WORD = re.compile(r"[^\W\d][\w'-]*(?:\.[^\W\d][\w'-]*)?")
USE = re.compile(r"^[ \t]*(?:pub )?(?:ghost )?use Rattle\.(\w+)\.specs\.([\w.]+?)(?:\.\{([^}]*)\}| as (\w+))?;?[ \t]*$", re.M)
HEAD = re.compile(r"^(?:(?:abbrev|unfoldable|pub|private|instance)\s+)*(?:(record|data)\s+)?([^\s:({]+)")


def text_of(path):
    with open(path, encoding="utf-8") as file:
        return file.read()


@functools.lru_cache(None)
def place(root, crate, part):
    """The file that holds this part of a crate's specs, which may only pass it on; None for the kit's and for declared types."""
    path = f"{root}/crates/{crate}/specs/{part}.antt"
    if os.path.isfile(path):
        return path
    passing = f"{root}/crates/{crate}/specs/Lib.antt"
    if os.path.isfile(passing):
        for home, name in re.findall(r"^pub use Rattle\.(\w+)\.specs\.(\w+)", text_of(passing), re.M):
            if name == part:
                return place(root, home, part)
    return None


@functools.lru_cache(None)
def imports(root, path):
    """What the names of a file mean: each imported name its file and the name there; an alias of a file the file and None."""
    found = {}
    for crate, part, names, alias in USE.findall(text_of(path)):
        file = place(root, crate, part)
        if file is None:
            continue
        if not names:
            found[alias or part] = (file, None)
        for one in filter(None, map(str.strip, names.split(","))):
            there, _, here = one.partition(" as ")
            found[(here or there).strip()] = (file, there.strip())
    return found


@functools.lru_cache(None)
def definitions(path):
    """The definitions of a file: each name its text, with the comment before it; a constructor has its type's."""
    found, comment, name, opened = {}, [], None, None
    for line in text_of(path).split("\n"):
        if line.startswith("--"):
            comment.append(line)
            name = None
        elif not line.strip():
            comment, name = [], None
        elif re.match(r"(pub )?(use|mod|module|unfolding|open) ", line):
            comment, name = ([] if line.startswith("use") else comment), None
        elif line[0] in " \t":
            if name:
                found[name].append(line)
                if opened == "data" and ":" in line:
                    for made in line.split(":")[0].split():
                        found.setdefault(made, found[name])
        else:
            head = HEAD.match(line)
            if head[2] in found and not head[1]:
                name = head[2]
                found[name].append(line)
            else:
                opened, name = head[1], head[2]
                found[name] = [*comment, line]
            comment = []
    return found


def clause_of(text, function, clause):
    """The text of one clause of a function."""
    body = text[text.index(f"pub fn {function}") :]
    at = body.index("{", body.index(f"ensures {clause} {{"))
    depth = 0
    for end in range(at, len(body)):
        depth += (body[end] == "{") - (body[end] == "}")
        if depth == 0:
            return body[at : end + 1]
    raise ValueError(clause)


def named(root, path, text):
    """The definitions that a text of this file names, each its file and name."""
    own, brought = definitions(path) if path.endswith(".antt") else {}, imports(root, path)
    for word in WORD.findall(text):
        first, _, rest = word.partition(".")
        if word in own or first in own:
            yield path, word if word in own else first
        elif first in brought:
            file, name = brought[first]
            yield file, name or rest
    # operators and names with a dot in between
    for name in own:
        if "◌" in name and any(part and part in text for part in name.split("◌")):
            yield path, name


def behind(root, crate, file, function, clause):
    """The definitions behind the clause: each file and its names."""
    start = f"{root}/crates/{crate}/src/{file}"
    todo, done = list(named(root, start, clause_of(text_of(start), function, clause))), {}
    while todo:
        path, name = todo.pop()
        if name not in definitions(path) or name in done.get(path, ()):
            continue
        done.setdefault(path, set()).add(name)
        todo += named(root, path, "\n".join(it for it in definitions(path)[name] if not it.startswith("--")))
    return done


def main(root, crate="asyncify_app", file="command.rt", function="asyncify", clause="done"):
    found, total = behind(root, crate, file, function, clause), 0
    for path in sorted(found):
        texts = {id(text): text for name, text in definitions(path).items() if name in found[path]}
        lines = sum(map(len, texts.values()))
        total += lines
        print(f"{lines:5} lines, {len(texts):3} definitions: {os.path.relpath(path, root + '/crates')}")
    print(f"{total} lines in {len(found)} files")


if __name__ == "__main__":
    main(*sys.argv[1:])
