#!/usr/bin/env python3
"""Prints what keeping changes on disk costs: small writes with and without syncs that reach a disk, and opening.

    bench/durable.py [BIN] [--folder FOLDER] [--writes N]

First one small document is replaced again and again through `rank_server pipe`, 16 times in one batch, with the two
files in FOLDER (the working folder where none is given) and then in memory, and beside it two small writes, each with
a sync, are made in FOLDER by this script alone: what is left of the first time without the third is the program's own.
Then documents of 80 bytes and of 1 KiB are added in bodies of 1,000, the program ends, and is started again on the
files that it left: once from a journal, and once from an image, where a checkpoint was made. The time of opening a
document stands beside that of adding it. Times are by the clock, the least of three. Nothing tests these numbers.
"""
import argparse
import os
import pathlib
import random
import subprocess
import tempfile
import time

import demo
import load

BATCH = 1000


def pipe(binary, folder):
    return subprocess.Popen([binary, "pipe"], cwd=folder, stdin=subprocess.PIPE, stdout=subprocess.PIPE)


def ask(server, sent):
    server.stdin.write(sent)
    server.stdin.flush()
    status, body = demo.reply(lambda most: os.read(server.stdout.fileno(), most))
    if status not in (200, 202):
        raise SystemExit(body.decode())


def ended(server):
    server.stdin.close()
    if server.wait() != 0:
        raise SystemExit("the server failed")


def best(times):
    return min(times)


def replacing(binary, place, writes):
    """Microseconds that one replacing write takes."""
    with tempfile.TemporaryDirectory(prefix="durable-", dir=place) as folder:
        server = pipe(binary, folder)
        sent = demo.request(b"POST", b"/indexes/shop/documents", [{"id": 1, "title": "amber bridge", "year": 2001}])
        ask(server, sent)
        times = []
        for _ in range(3):
            begun = time.monotonic()
            for _ in range(writes):
                ask(server, sent)
            times.append((time.monotonic() - begun) / writes)
        ended(server)
    return 1e6 * best(times)


def two_syncs(place, writes):
    """Microseconds that two small writes take with a sync behind each."""
    times = []
    with tempfile.NamedTemporaryFile(prefix="durable-", dir=place) as file:
        for _ in range(3):
            begun = time.monotonic()
            for _ in range(writes):
                for size in (120, 1):
                    file.write(b"\0" * size)
                    file.flush()
                    os.fdatasync(file.fileno())
            times.append((time.monotonic() - begun) / writes)
    return 1e6 * best(times)


def bodies(make, count):
    draw = random.Random(7)
    for first in range(1, count + 1, BATCH):
        rows = [make(draw, number) for number in range(first, first + BATCH)]
        yield load.request(("[" + ",".join(rows) + "]").encode())


def opening(binary, make, count):
    """Microseconds a document of adding, and of opening what was added."""
    added, read = [], []
    for _ in range(3):
        with tempfile.TemporaryDirectory(prefix="durable-", dir=load.IN_MEMORY) as folder:
            server = pipe(binary, folder)
            ask(server, b"GET /health HTTP/1.1\r\n\r\n")
            begun = time.monotonic()
            for sent in (*bodies(make, count), *load.SETTLED):
                ask(server, sent)
            added.append(time.monotonic() - begun)
            ended(server)
            sizes = [os.path.getsize(pathlib.Path(folder) / name) for name in ("search-a.dat", "search-b.dat")
                     if (pathlib.Path(folder) / name).exists()]
            begun = time.monotonic()
            server = pipe(binary, folder)
            ask(server, b"GET /health HTTP/1.1\r\n\r\n")
            read.append(time.monotonic() - begun)
            ended(server)
    return 1e6 * best(added) / count, 1e6 * best(read) / count, sizes


def main():
    parser = argparse.ArgumentParser()
    parser.add_argument("binary", nargs="?", default=load.BINARY)
    parser.add_argument("--folder", default=".")
    parser.add_argument("--writes", type=int, default=200)
    asked = parser.parse_args()
    binary = os.path.abspath(asked.binary)
    whole, bare = replacing(binary, asked.folder, asked.writes), two_syncs(asked.folder, asked.writes)
    work = replacing(binary, load.IN_MEMORY, asked.writes)
    print(f"one small write: {whole:.0f} µs; in memory {work:.0f} µs; two writes with syncs alone {bare:.0f} µs; "
          f"ratio to the sum of the two {whole / (work + bare):.2f}")
    for name, make, count in (("small", load.small, 50_000), ("1 KiB", load.catalogue, 20_000)):
        add, read, sizes = opening(binary, make, count)
        print(f"{count:,} {name} documents: adding {add:.1f} µs a document, opening {read:.1f} µs "
              f"({read / add:.2f}); files of {' and '.join(f'{size:,}' for size in sizes)} bytes")


if __name__ == "__main__":
    main()
