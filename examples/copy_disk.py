#!/usr/bin/env python3
"""Copies the two files of a rank_server, also while it serves and takes changes.

    examples/copy_disk.py FROM TO

FROM is the folder with search-a.dat and search-b.dat, TO another one, which is made where it is not there, and in which
no program may run. Each file is read from the front to the end, and the headers of both before and after: where one
changed, a checkpoint was begun or ended meanwhile, and both are copied again. What a copy holds is a state that was:
all changes that were answered before it was begun, and of those made meanwhile the first ones. No lock is taken. The
files of TO stand for a whole copy at each moment, the one before or this one. It prints how often it copied, and ends
with 1 where no copy was made in 60 seconds.
"""
import os
import pathlib
import sys
import time

FILES = ("search-a.dat", "search-b.dat")
HEADER = 24
PIECE = 1 << 20
PATIENCE = 60


def headers(folder):
    """The first bytes of each file; none of a file that is not there."""
    found = []
    for name in FILES:
        try:
            with open(folder / name, "rb", buffering=0) as file:
                found.append(file.read(HEADER))
        except FileNotFoundError:
            found.append(b"")
    return found


def is_open(header):
    """Whether the file of this header may be the one that counts."""
    return len(header) == HEADER and header[0] != 0


def generation(file):
    """That of the file, or 0 where it cannot be the one that counts: the file of the greater one counts."""
    with open(file, "rb") as read:
        header = read.read(HEADER)
    return int.from_bytes(header[8:16], "little") if is_open(header) else 0


def copy_file(source, target):
    """Copies from the front to the end, up to where the file ends then; a file that is not there as an empty one."""
    with open(target, "wb") as written:
        if source.exists():
            with open(source, "rb", buffering=0) as read:
                while piece := read.read(PIECE):
                    written.write(piece)
        written.flush()
        os.fsync(written.fileno())


def copied(held, kept):
    """Copies both files once, and says whether they stand for one state."""
    before = headers(held)
    if not any(map(is_open, before)):
        return False
    for name in FILES:
        copy_file(held / name, kept / (name + ".part"))
    return headers(held) == before


def copy(held, kept):
    """Copies both files until they stand for one state, and says how often that was; none where the time is over."""
    held, kept = pathlib.Path(held), pathlib.Path(kept)
    kept.mkdir(parents=True, exist_ok=True)
    times, end = 0, time.monotonic() + PATIENCE
    while time.monotonic() < end:
        times += 1
        if copied(held, kept):
            # The file that counts comes first, so that what stands there meanwhile is the copy before or this one.
            for name in sorted(FILES, key=lambda name: generation(kept / (name + ".part")), reverse=True):
                os.replace(kept / (name + ".part"), kept / name)
            return times
        time.sleep(0.05)
    return None


def main():
    if len(sys.argv) != 3:
        sys.exit(__doc__.split("\n\n")[1].strip())
    times = copy(*sys.argv[1:])
    if times is None:
        sys.exit(f"copy_disk: no copy of {sys.argv[1]} was made")
    print(f"copied {times} times" if times > 1 else "copied once")


if __name__ == "__main__":
    main()
