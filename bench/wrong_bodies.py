#!/usr/bin/env python3
"""Tries the wrong bodies that the gate does not try: those in `crates/NAME/must-fail/aside.md`.

    bench/wrong_bodies.py NAME..

It copies the crates into a new folder, with the libraries that `rt lib` or `rt check` have built here and that still
stand; makes a file of each body on the pages of the named crates, and has the prover try them: each must be refused. It
prints those that were refused and those that were not, says whether all were, takes the copy away, and ends with status
1 if one was not refused, or cannot be applied. The repository itself stays as it is. Try a crate's when its text
changes. What takes time are the libraries below it that are not built yet, and two checks of the crate from nothing; a
body takes ten to forty seconds more.
"""
import os
import pathlib
import re
import shutil
import subprocess
import sys
import tempfile

REPOSITORY = pathlib.Path(__file__).resolve().parent.parent
BODY = re.compile(r"^## (\w+)\n\n```\n(.*?)^```$", re.MULTILINE | re.DOTALL)


def bodies(name):
    """The names of a crate's wrong bodies, each with its text."""
    page = REPOSITORY / "crates" / name / "must-fail" / "aside.md"
    if not page.exists():
        sys.exit(f"{name} has no must-fail/aside.md")
    return dict(BODY.findall(page.read_text()))


def linked(built, copy):
    try:
        os.link(built, copy)
    except OSError:
        shutil.copy2(built, copy)


def copied(folder):
    """A copy of the crates with their built libraries, without a body to try."""
    ignored = shutil.ignore_patterns("out", "must-fail")
    shutil.copytree(REPOSITORY / "crates", folder / "crates", ignore=ignored)
    for stamp in REPOSITORY.glob("crates/*/out/rlib/stamp"):
        library = stamp.parent
        shutil.copytree(library, folder / library.relative_to(REPOSITORY), copy_function=linked)
    for name in ("crates.txt", "HANDLES"):
        shutil.copy(REPOSITORY / name, folder)
    subprocess.run(["git", "init", "-q", folder], check=True)
    return folder


def ran(words, folder):
    done = subprocess.run(words, cwd=folder, stdin=subprocess.DEVNULL, stdout=subprocess.PIPE,
                          stderr=subprocess.STDOUT, text=True, errors="replace")
    return done.returncode, done.stdout


def all_refused(folder, name):
    """Whether each wrong body of a crate was refused. Begins with its proof: only of a proved crate does that tell."""
    crate = folder / "crates" / name
    tried = bodies(name)
    status, said = ran(["rt", "check", "--jobs", "1"], crate)
    if status:
        print(f"{name} is not proved:\n{said}", flush=True)
        return False
    (crate / "must-fail").mkdir()
    for body, text in tried.items():
        (crate / "must-fail" / f"{body}.edit").write_text(text)
    status, said = ran(["rt", "must-fail", name], folder)
    refused = [body for body in tried if re.search(rf"^.*\b{body}\.edit: refused", said, re.MULTILINE)]
    for body in tried:
        print(f"{name}: {body}: {'refused' if body in refused else 'NOT refused'}", flush=True)
    if status or len(refused) < len(tried):
        print(said, flush=True)
        return False
    return True


def main():
    names = sys.argv[1:]
    if not names:
        sys.exit(__doc__)
    with tempfile.TemporaryDirectory(prefix="wrong-bodies-") as room:
        folder = copied(pathlib.Path(room))
        holds = [all_refused(folder, name) for name in names]
    if not all(holds):
        sys.exit("not all were refused")
    print("all were refused")


if __name__ == "__main__":
    main()
