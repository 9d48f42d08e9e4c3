#!/usr/bin/env python3
"""Brings this repository's own names in specs/, proofs/ and clauses to the spelling of today's Rattle: words in snake case, types and facts in
camel case. Run once, after the kit's port.py, at the top of the repository. Functions of src/, strings and paths keep their names.

usage: tools/respell.py [--tell]     --tell prints each old name with its new one, and changes nothing
"""
import os
import re
import sys

# A name ends where one of these stands. A dash joins names, so each part of a name is spelled by itself.
TOKEN = re.compile(r"""[^\s(){}\[\].,;:"`]+""")
CAMEL = re.compile(r"^[a-z][A-Za-z0-9_']*[A-Z]")

# Names that port.py made equal to another name of the same file.
IN_FILE = {
    "crates/gather/specs/WholeLaw.antt": {"renamed_by": "renamed-by_notes"},
    "crates/good/specs/WalkLaw.antt": {"same_key": "rivals-same_key"},
}

# Functions and facts of one module: in its own file, and where a file imports them from there.
OF_MODULE = {
    "growth/specs/Labels/Paths": {"on": "On", "on-⊑": "On-⊑", "on-shorter": "On-shorter", "on-along": "On-along", "allL-anchor": "AllL-anchor"},
    "lists/specs/ListsLaw": {"All·head": "All-head", "All·tail": "All-tail"},
    "border/specs/Segment": {"Ahead": "ahead_expr"},
    "border/specs/Under": {"Left": "left_expr"},
    "border/specs/Meet": {"Cofactor": "cofactor_expr"},
    "proper/specs/OnLine": {"Along": "along_expr", "Facing": "facing_expr"},
    "proper/specs/Sums": {"At": "at_expr"},
    "proper/specs/Sharing": {"Val": "value_expr", "Left": "left_expr"},
    "proper/specs/Fine": {"Four": "four_expr"},
    "proper/specs/Radon": {"Det": "det_expr", "Cramer": "cramer_expr", "Minor": "minor_expr"},
    "laws/specs/Red": {"Turn": "turn_expr"},
    "laws/specs/Area": {"Turn": "turn_expr"},
    "points/specs/Refined": {"After": "after_mesh"},
}


def snake(part):
    """One part of a name: from camel case, where it begins with a small letter, to snake case."""
    if part == "getD":  # the library's word is now get_or
        return "get_or"
    if not CAMEL.match(part):
        return part
    part = re.sub(r"([a-z0-9])([A-Z])", lambda m: m.group(1) + "_" + m.group(2).lower(), part)
    return re.sub(r"[A-Z]", lambda m: "_" + m.group(0).lower(), part)


def spelled(name):
    return "-".join(snake(part) for part in name.split("-"))


def imported(text, module):
    """The names that a text imports from a module: those between the braces."""
    path = "Rattle." + module.replace("/", ".")
    return {name.split(" as ")[0].strip() for found in re.findall(re.escape(path) + r"\.\{([^}]*)\}", text) for name in found.split(",")}


def own(path, text):
    """The names to be turned in this file alone, beside camel case."""
    here = dict(IN_FILE.get(path, {}))
    for module, names in OF_MODULE.items():
        if path == "crates/" + module + ".antt":
            here.update(names)
        else:
            here.update({old: names[old] for old in imported(text, module) & set(names)})
    return here


def quoted(line, at):
    return line[:at].count('"') % 2 == 1


def comment(path, line):
    """Where the line's comment begins: names in it are turned by camel case alone."""
    at = line.find("//" if path.endswith(".rt") else "-- ")
    return len(line) if at < 0 else at


def turned(path, text, told):
    here = own(path, text)

    def line_of(line):
        end = comment(path, line)

        def one(found):
            name, at = found.group(0), found.start()
            if path.endswith(".rt") and quoted(line, at):
                return name
            new = spelled(name)
            if at < end and (at == 0 or line[at - 1] != "."):
                new = here.get(name, new)
            if new != name:
                told.setdefault(name, set()).add(new)
            return new

        return TOKEN.sub(one, line)

    return "\n".join(line_of(line) for line in text.split("\n"))


def main():
    tell = "--tell" in sys.argv[1:]
    told = {}
    for folder, dirs, files in os.walk("crates"):
        dirs[:] = sorted(d for d in dirs if d != "out")
        for name in sorted(files):
            if not name.endswith((".antt", ".rt")):
                continue
            path = os.path.join(folder, name)
            with open(path, encoding="utf-8") as file:
                text = file.read()
            new = turned(path, text, told)
            if new != text and not tell:
                with open(path, "w", encoding="utf-8") as file:
                    file.write(new)
    if tell:
        for old in sorted(told):
            print(old, *sorted(told[old]))


if __name__ == "__main__":
    main()
