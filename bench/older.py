#!/usr/bin/env python3
"""Opens files that an older program wrote, and compares what is read from them.

    bench/older.py [BIN]

The folders of bench/older hold files as the program of revision 198475c left them, with images of version 1: in
`journal` the image of nothing and nine tasks behind it, in `image` two indexes, their settings and documents, and three
tasks behind them; beside them are requests that read, and what that program replied to these over either. The program
is run with `pipe` on a copy of each, and must reply the same. Then the file that counts must be the other one, with an
image of version 2 and the same documents, as examples/read_disk.py reads them, and the program must reply the same over
it once more. Prints a line for each folder.
"""
import pathlib
import shutil
import subprocess
import sys
import tempfile

import load
from kill import read_disk

OLDER = pathlib.Path(__file__).resolve().parent / "older"


def replied(binary, folder):
    """What the program replies to the requests over the files of a folder."""
    with open(OLDER / "requests", "rb") as requests:
        done = subprocess.run([binary, "pipe"], cwd=folder, stdin=requests, stdout=subprocess.PIPE)
    return done.stdout if done.returncode == 0 else f"status {done.returncode}".encode()


def documents(contents):
    """The documents that are held, by the uids of their indexes."""
    return {uid: index.documents for uid, index in read_disk.held(contents).items()}


def fault(binary, folder):
    """What is wrong with the program over a copy of older files, or None."""
    wanted, before = (OLDER / "replies").read_bytes(), read_disk.contents_of(folder)
    if replied(binary, folder) != wanted:
        return "other replies"
    after = read_disk.contents_of(folder)
    generation, disk, _ = read_disk.active(after)
    if after[1 - disk] != before[1 - disk] or generation != read_disk.active(before)[0] + 1:
        return "the older file was touched, or is the one that counts"
    if after[disk][read_disk.HEADER] != 2 or documents(after) != documents(before):
        return "another version, or other documents"
    return None if replied(binary, folder) == wanted else "other replies when it was opened again"


def main():
    if len(sys.argv) > 2:
        sys.exit(__doc__)
    binary = pathlib.Path(sys.argv[1] if len(sys.argv) == 2 else load.BINARY).resolve()
    wrong = False
    for name in ("journal", "image"):
        with tempfile.TemporaryDirectory(prefix="older-") as room:
            shutil.copytree(OLDER / name, room, dirs_exist_ok=True)
            found = fault(binary, pathlib.Path(room))
        wrong = wrong or found is not None
        print(f"{name}: {found or 'the same'}")
    sys.exit(1 if wrong else 0)


if __name__ == "__main__":
    main()
