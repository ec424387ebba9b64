#!/usr/bin/env python3
"""Counts what a reader must believe for a definition: that one, and those that it names, one through the other.

    bench/believed.py [--names] [CRATE/MODULE.NAME ..]

Run at the top of a clone. It follows names through specs/, by their imports, from each definition that is given: where
none is, the wire promise, what a search finds and the order of hits. Words of the toolchain and types of the code are
not counted. It prints definitions, lines without blanks and comments, files and crates; --names lists the definitions
by file.
"""
import collections
import glob
import os
import re
import sys

STARTS = ["search_server/Served.Serves", "index_core/Found.found", "search_base/Hits.hits_of"]
WORD = re.compile(r"[^\s(){}\[\],;.:`]+")
HEAD = re.compile(r"^(?:(?:abbrev|unfoldable|pub|record|data|opaque)\s+)*([^\s:(]+)")
OPENS = re.compile(r"^(?:abbrev|unfoldable|pub|record|data)\b")


def read(root):
    files = {}
    for path in glob.glob(f"{root}/crates/*/specs/**/*.antt", recursive=True):
        parts = path[len(root) + 1:].split("/")
        files[parts[1], "/".join(parts[3:])[:-5]] = open(path, encoding="utf-8").read()
    return files


def is_passed(line):
    """Whether a line defines nothing."""
    return not line.strip() or line.lstrip().startswith(("use ", "--", "mod ", "pub mod", "pub use"))


def parse(files):
    definitions, imports = {}, {}
    for (crate, module), text in files.items():
        names = {}
        for found in re.finditer(r"^use (Rattle(?:\.\w+)+)(?:\.\{([^}]*)\})?(?: as (\w+))?", text, re.M):
            path = tuple(found.group(1).split(".")[1:])
            for name in filter(None, (it.strip() for it in (found.group(2) or "").split(","))):
                both = name.split(" as ")
                names[both[-1].strip()] = path, both[0].strip()
            if found.group(3):
                names["@" + found.group(3)] = path, "*"
        imports[crate, module] = names
        current = None
        for line in text.splitlines():
            if line.startswith(("infix", "module ")) or is_passed(line):
                continue
            if line[0] == " " and (re.match(r"^\s+(?:abbrev|unfoldable|pub record|pub data)\b", line)
                                   or current and re.match(r"^  " + re.escape(current[2]) + r"(?!\S)", line)):
                line = line.strip()
            if line[0] not in " |":
                found = HEAD.match(line)
                if not found:
                    continue
                if OPENS.match(line) or (current and found.group(1) == current[2]):
                    current = crate, module, found.group(1)
                definitions.setdefault(current, []).append(line)
            elif current:
                definitions[current].append(line)
    return definitions, imports


def closure(starts, definitions, imports, files):
    fields = collections.defaultdict(set)
    for key, lines in definitions.items():
        for line in lines[1:]:
            found = re.match(r"^\s+(?:pub )?([^\s:]+)\s*:", line)
            if found and key:
                fields[key[0], key[1], found.group(1)].add(key)
    seen, left = set(), list(starts)
    while left:
        key = left.pop()
        if key in seen:
            continue
        seen.add(key)
        crate, module, _ = key
        names, text = imports[crate, module], "\n".join(definitions[key])
        for one, two in re.findall(r"\b(\w+)\.(\w+)", text):
            path = names.get("@" + one, ((), ""))[0]
            if len(path) > 2 and (path[0], path[2], two) in definitions:
                left.append((path[0], path[2], two))
        for word in set(WORD.findall(text)):
            if (crate, module, word) in definitions:
                left.append((crate, module, word))
            left.extend(fields.get((crate, module, word), ()))
            if word in names:
                path, name = names[word]
                if len(path) > 2 and path[1] == "specs" and (path[0], path[2]) in files:
                    if (path[0], path[2], name) in definitions:
                        left.append((path[0], path[2], name))
                    left.extend(fields.get((path[0], path[2], name), ()))
    return seen


def main():
    words = [it for it in sys.argv[1:] if it != "--names"]
    files = read(os.getcwd())
    definitions, imports = parse(files)
    for start in words or STARTS:
        crate, rest = start.split("/", 1)
        module, name = rest.rsplit(".", 1)
        if (crate, module, name) not in definitions:
            sys.exit(f"{start}: not found")
        seen = closure([(crate, module, name)], definitions, imports, files)
        lines = sum(len(definitions[it]) for it in seen)
        inside, crates = {it[:2] for it in seen}, {it[0] for it in seen}
        print(f"{start}: {len(seen)} definitions, {lines} lines, {len(inside)} of {len(files)} files, "
              f"{len(crates)} crates")
        if "--names" in sys.argv:
            by = collections.defaultdict(list)
            for crate, module, name in sorted(seen):
                by[f"{crate}/specs/{module}.antt"].append(name)
            for file, inside in by.items():
                print(f"  {file}: {' '.join(inside)}")
    whole = sum(not is_passed(line) for text in files.values() for line in text.splitlines())
    print(f"all of specs/: {whole} lines in {len(files)} files")


if __name__ == "__main__":
    main()
