#!/usr/bin/env python3
"""Spells the repository's own definitions and lemmas as today's Rattle does, once, after port.py: words in snake case
(`all-at` becomes `all_at`), types and facts in camel case (`Placed-tree` becomes `PlacedTree`).

usage: python3 tools/respell.py [--table] [--docs]      at the top of the repository

A name turns if a file of specs/, or a file of proofs/ that several proofs share, declares it. In the proof of a function
what Rattle names stays: goals and what stands behind `tie.`. Comments turn where they cite a name and not a word.
--table prints the names, old and new, and writes nothing; --docs turns the code spans of README.md, CONTRIBUTING.md and
docs/ instead of the crates.
"""

import os
import re
import sys

WORD = re.compile(r"[^\s(){}\[\].;,@\"«»|]+")
HYPHENED = re.compile(r"[^\W_][\w']*(?:-[\w']+)+$")
DECLARED = re.compile(
    r"^ *(?:(?:pub|abbrev|unfoldable) +)*([^\s(){}\[\].;,@\"«»|]+(?: +[^\s(){}\[\].;,@\"«»|]+)*?)(?: *\{[^{}\n]*\})* *: ",
    re.M,
)
MADE = re.compile(r"^ *(?:(?:pub|abbrev|unfoldable) +)*(?:data|record) +(?:pub +)?([^\s(){}\[\].;,@\"«»|]+)", re.M)
USE = re.compile(r"\buse ([^\s;{]+)\{([^}]*)\}")

# Names that would fall together with a variant or an enum of the code, or with a word of the library.
APART = {
    "All-found": "FoundAllStates",
    "Does-not-fit": "CannotFit",
    "No-room": "HasNoRoom",
    "Not-good": "IsNotGood",
    "Not-marks": "AreNotMarks",
    "Read-answer": "ReadsAnswer",
    "Too-few-classes": "HasTooFewClasses",
    "Too-long": "IsTooLong",
    "bit-and": "bit_of_and",
    "bit-or": "bit_of_or",
    "bit-xor": "bit_of_xor",
}

# Names that are also words: they stay in comments.
WORDS = {"stand-in"}


def texts(endings):
    for folder, folders, files in os.walk("crates"):
        folders[:] = sorted(it for it in folders if it != "out")
        for name in sorted(files):
            if name.endswith(endings):
                yield os.path.join(folder, name)


def read(path):
    with open(path, encoding="utf-8") as file:
        return file.read()


def of_a_function(path):
    """Whether the file belongs to the proof of one function."""
    return re.search(r"/proofs/.*Proof(\.antt|/)", path) is not None


def code(text):
    return re.sub(r"--[^\n]*", "", text)


def respelled(name):
    if name in APART:
        return APART[name]
    if name[0].isupper():
        return "".join(part[:1].upper() + part[1:] for part in name.split("-"))
    return name.replace("-", "_")


def declared_in(text):
    names = {it for found in DECLARED.finditer(text) for it in found.group(1).split()}
    return {it for it in names | set(MADE.findall(text)) if HYPHENED.match(it)}


def table():
    names = set()
    for path in texts(".antt"):
        if not of_a_function(path):
            names |= declared_in(code(read(path)))
    return {it: respelled(it) for it in sorted(names)}


def from_libraries(text):
    """The names that a file takes from modules that are not this repository's."""
    names = set()
    for path, items in USE.findall(text):
        ours = re.match(r"Rattle\.(\w+)\.", path)
        if not (ours and os.path.isdir(os.path.join("crates", ours.group(1)))):
            names |= set(WORD.findall(items))
    return names


def turned(text, names):
    """Whole words alone; behind `tie.` a name is Rattle's."""

    def one(found):
        if text[: found.start()].endswith("tie."):
            return found.group(0)
        return names.get(found.group(0), found.group(0))

    return WORD.sub(one, text)


def turned_comment(text, names):
    kept = {old: new for old, new in names.items() if old not in WORDS}
    return re.sub(r"[^\W_][\w']*(?:-[\w']+)+", lambda it: kept.get(it.group(0), it.group(0)), text)


def turn_antt(text, names):
    kept = {old: new for old, new in names.items() if old not in from_libraries(text)}
    parts = re.split(r"(--[^\n]*)", text)
    return "".join(turned_comment(it, kept) if it.startswith("--") else turned(it, kept) for it in parts)


def turn_rt(text, names):
    parts = re.split(r"(//[^\n]*|\"(?:[^\"\\]|\\.)*\")", text)
    out = []
    for part in parts:
        if part.startswith('"'):
            out.append(part)
        elif part.startswith("//"):
            out.append(turned_comment(part, names))
        else:
            out.append(turned(part, names))
    return "".join(out)


def goals(text):
    """In a function's proof: the names that Rattle gives, which stay."""
    return set(re.findall(r"(?m)^(?:abbrev )?(?:pub )?(\S+) : (?:\{[^}]*\} → )*tie\.", text))


def helpers(text):
    """In a function's proof: the lemmas of its own."""
    return {it for it in declared_in(code(text)) if it not in goals(text) and not it.endswith("-spec")}


def turn_crates(names):
    for path in texts((".antt", ".rt")):
        before = read(path)
        if path.endswith(".rt"):
            after = turn_rt(before, names)
        else:
            here = dict(names)
            if of_a_function(path):
                here.update({it: respelled(it) for it in helpers(before)})
                for it in goals(before):
                    here.pop(it, None)
            after = turn_antt(before, here)
        if after != before:
            with open(path, "w", encoding="utf-8") as file:
                file.write(after)


def turn_docs(names):
    paths = ["README.md", "CONTRIBUTING.md"]
    for folder, _, files in os.walk("docs"):
        paths += [os.path.join(folder, it) for it in sorted(files) if it.endswith(".md")]
    for path in paths:
        before = read(path)
        after = re.sub(r"`[^`\n]*`", lambda it: turned_comment(it.group(0), names), before)
        if after != before:
            with open(path, "w", encoding="utf-8") as file:
                file.write(after)


def meet(names):
    """Names of which two would be spelled alike in a file."""
    for path in texts((".antt", ".rt")):
        words = set(WORD.findall(code(read(path)) if path.endswith(".antt") else read(path)))
        for old in sorted(words & set(names)):
            if names[old] in words:
                yield f"{path}: {old} and {names[old]}"


def main(arguments):
    names = table()
    if "--table" in arguments:
        print("\n".join(f"{old}\t{new}" for old, new in names.items()))
        print("\n".join(meet(names)), file=sys.stderr)
    elif "--docs" in arguments:
        turn_docs(names)
    else:
        turn_crates(names)


if __name__ == "__main__":
    main(sys.argv[1:])
