#!/usr/bin/env python3
"""Makes docs/LAWS.md: every law by crate, lowest first, by its comment and the definitions that its contract names.

    tools/laws.py            writes docs/LAWS.md
    tools/laws.py --check    says whether docs/LAWS.md is what it would write; where it isn't, the status is 1, and the
                             first line that differs is told

A law is a public function of a crate's src/laws.rt, or of another file of src/ whose first lines say that its
functions do nothing; its contract is the law. What is said of it here is its comment, so that is where to change it. A
definition is a name of the contract that the file takes from a specs/ folder.
"""

import argparse
import os
import re
import sys
import textwrap

TOP = os.path.join(os.path.dirname(os.path.abspath(__file__)), "..")
PAGE = os.path.join(TOP, "docs", "LAWS.md")
COLUMNS = 120
HEAD = """\
# Every law by name

A law is a public function without code, whose contract is the law. It stands in `src/laws.rt` of its crate, or, in a
crate of laws, in a file of `src/` that is named for what they are about. Here they stand by crate, lowest first. Each
has its comment, and after it the definitions that its contract names, with the files in which these stand; paths are
within `crates/`. The laws of `isis_pdu`, and those that say numbers, are written out in the contract. `DEFINITIONS.md`
says what the words mean, and `PROOFS.md` what is proved by which law.

This page is made by `tools/laws.py` of the comments, so it is changed there.
"""


class Wrong(Exception):
    """Something that isn't as it has to be, in a file that is read."""


def read(path):
    with open(os.path.join(TOP, path), encoding="utf-8") as file:
        return file.read()


def crates():
    """The names of all crates, lowest first."""
    return re.findall(r"(?m)^(\w+)(?: [^:]*)?:", read("crates.txt"))


def place_of(parts):
    """The file, within crates/, that the parts of a path behind `Rattle` name, without the last one's items."""
    crate, _, *inner = parts
    if inner[0] == "declared":
        # What the code declares: a module, and in it a type, or the constants.
        return f"{crate}/src/{inner[1]}.rt"
    return f"{crate}/specs/{'/'.join(inner)}.antt"


def folders(text):
    """The files of this repository's specs that a file takes under a name of its own, by that name."""
    aliases = re.findall(r"(?m)^(?:pub |ghost )*use Rattle\.(\w+\.specs\.[\w.]+) as (\w+);?$", text)
    return {alias: place_of(path.split(".")) for path, alias in aliases if not path.startswith("std.")}


def imported(text):
    """The name and the file of each item that a file takes from this repository's specs, by its name in the file."""
    places = {}
    for path, items in re.findall(r"(?m)^(?:pub |ghost )*use Rattle\.([\w.]+)\.\{([^}]*)\};?$", text):
        if path.startswith("std.") or ".specs" not in path:
            continue
        for item in items.split(","):
            name, *other = item.strip().split(" as ")
            places[other[0] if other else name] = (name, place_of(path.split(".")))
    return places


def is_defined(name, text):
    """Whether a file defines a name, has it as a constructor, or declares it in code."""
    words = r"(?:(?:pub|abbrev|unfoldable|record|data|const|struct|enum) )+"
    return re.search(rf"(?m)^(?: *{words}{name}\b|  {name} :)", text) is not None


def home_of(name, place):
    """The file that defines a name which is taken from a file: this one, or one from which it is handed on."""
    text = read(os.path.join("crates", place))
    if is_defined(name, text):
        return place
    handed = imported(text).get(name)
    if handed is None:
        raise Wrong(f"{place} doesn't define {name}")
    return home_of(*handed)


def named_in(contract, text):
    """The definitions that a contract of a file names, in order, by the files in which they stand."""
    places, aliases, files = imported(text), folders(text), {}
    clauses = " ".join(clause.partition("{")[2] for clause in contract.split("ensures"))
    for alias, word in dict.fromkeys(re.findall(r"(?<![\w.])(?:(\w+)\.)?([A-Za-z_]\w*)", clauses)):
        if alias in aliases:
            files.setdefault(home_of(word, aliases[alias]), []).append(word)
        elif word in places and not alias:
            name, place = places[word]
            files.setdefault(home_of(name, place), []).append(name)
    return files


def laws_in(path):
    """The laws of a file: of each its name, the paragraphs of its comment, and its definitions by file."""
    text = read(path)
    found = re.findall(r"(?m)((?:^///.*\n)+)^pub fn (\w+)(?:<[^>]*>)?\(\)\n((?:^[ ].*\n)+)", text)
    if len(found) != text.count("\npub fn "):
        raise Wrong(f"{path} has a function without a comment or a contract")
    for comment, name, contract in found:
        words = re.sub(r"(?m)^/// ?", "", comment).strip()
        yield name, [" ".join(part.split()) for part in re.split(r"\n\s*\n", words)], named_in(contract, text)


def wrapped(first, text):
    """A paragraph behind a mark, in lines that fit. What stands between backticks isn't broken."""
    kept = re.sub(r"`[^`]*`", lambda code: code.group().replace(" ", "\0"), text)
    return textwrap.fill(kept, COLUMNS, initial_indent=first, subsequent_indent=" " * len(first),
                         break_long_words=False, break_on_hyphens=False).replace("\0", " ")


def entry(name, paragraphs, files):
    """What the page says of a law."""
    said = [wrapped("- ", f"**`{name}`**: {paragraphs[0]}")]
    said += ["\n" + wrapped("  ", paragraph) for paragraph in paragraphs[1:]]
    listed = [f"{', '.join(f'`{one}`' for one in names)} in `{place}`" for place, names in files.items()]
    if listed:        said.append(wrapped("  ", f"Definitions: {'; '.join(listed)}."))
    return "\n".join(said) + "\n"


def has_laws(path):
    """Whether a file of src/ is one of laws: by its name, or by its first lines."""
    head = " ".join(re.findall(r"(?m)^//! ?(.*)$", read(path)))
    is_file_of_laws = "contract of a function that does nothing" in head
    return os.path.basename(path) == "laws.rt" or is_file_of_laws and os.path.basename(path) != "lib.rt"


def files_of_laws(crate):
    """The files of laws of a crate, by name."""
    folder = f"crates/{crate}/src"
    paths = [f"{folder}/{name}" for name in sorted(os.listdir(os.path.join(TOP, folder))) if name.endswith(".rt")]
    return [path for path in paths if has_laws(path)]


def page():
    """The whole page."""
    parts = [HEAD]
    for crate in crates():
        paths = files_of_laws(crate)
        if paths:
            parts.append(f"\n## `{crate}`\n\n")
            parts += [entry(*law) for path in paths for law in laws_in(path)]
    return "".join(parts)


def check(made):
    """Whether the page is what was made; says the first line that differs."""
    there = read(PAGE).split("\n") if os.path.exists(PAGE) else []
    lines = made.split("\n")
    if there == lines:
        return True
    differ = [k for k in range(min(len(there), len(lines))) if there[k] != lines[k]]
    number = differ[0] if differ else min(len(there), len(lines))
    print(f"docs/LAWS.md, line {number + 1}, isn't what tools/laws.py makes:")
    print(f"  there: {there[number] if number < len(there) else '(the page ends)'}")
    print(f"  made:  {lines[number] if number < len(lines) else '(the page ends)'}")
    return False


def main():
    parser = argparse.ArgumentParser(description=__doc__, formatter_class=argparse.RawDescriptionHelpFormatter)
    parser.add_argument("--check", action="store_true", help="write nothing, and compare")
    words = parser.parse_args()
    try:
        made = page()
    except Wrong as wrong:
        print(f"tools/laws.py: {wrong}", file=sys.stderr)
        return 1
    if words.check:
        return 0 if check(made) else 1
    with open(PAGE, "w", encoding="utf-8") as file:
        file.write(made)
    return 0


if __name__ == "__main__":
    sys.exit(main())
