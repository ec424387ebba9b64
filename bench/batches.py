#!/usr/bin/env python3
"""Stores documents one a request and 16 a request through `rank_server pipe`, and prints what the first takes more.

    bench/batches.py [BIN] [--documents N] [--turns N]

10,000 documents go to a new index in three ways: 16 in a request with a read behind it; one in a request, with a read
behind every 16 of them, so that these are stored in one batch; and one in a request with a read behind each, so that
each is stored by itself. The requests up to a read are written at once, and the next ones when the read is answered. By
turns each way has a new program. The documents have about 80 bytes, and then about 1 KiB. A line for each turn tells the
microseconds a document of each way and the ratios of the second and of the third to the first, of a processor and in
brackets by the clock; behind the turns stand the medians of the ratios. For the second way at most 1.3 is aimed at.
Nothing depends on time.
"""
import argparse
import os
import random
import statistics
import subprocess
import sys
import time

import demo
import load

TOGETHER = 16
READ = load.SETTLED[0]


def rows(make, count):
    draw = random.Random(7)
    return [make(draw, number).encode() for number in range(1, count + 1)]


def ways(documents):
    """Of each way the requests up to each read, as they are written, and how many they are."""
    groups = [documents[first:first + TOGETHER] for first in range(0, len(documents), TOGETHER)]
    single = [load.request(b"[%s]" % one) for one in documents]
    return [
        [(load.request(b"[%s]" % b",".join(group)) + READ, 2) for group in groups],
        [(b"".join(single[first:first + TOGETHER]) + READ, 1 + len(single[first:first + TOGETHER]))
         for first in range(0, len(single), TOGETHER)],
        [(one + READ, 2) for one in single],
    ]


def answered(server, sent, count):
    """Writes some requests and reads so many replies, of which the last one is that to a read."""
    server.stdin.write(sent)
    server.stdin.flush()
    raw = b""
    while raw.count(b"HTTP/1.1 ") < count or not raw.endswith(b"}"):
        piece = os.read(server.stdout.fileno(), 1 << 16)
        if not piece:
            sys.exit("batches.py: the server ended early")
        raw += piece
    if raw.count(b"HTTP/1.1 202 ") != count - 1:
        sys.exit(f"batches.py: a request was not accepted: {raw.decode()}")


def spent(binary, sent, documents):
    """Microseconds a document, of a processor and by the clock, until the last one is stored."""
    server = load.started(binary, "pipe", stdin=subprocess.PIPE, stdout=subprocess.PIPE)
    answered(server, READ, 1)
    had, begun = demo.processor(server), time.monotonic()
    for requests, count in sent:
        answered(server, requests, count)
    answered(server, READ, 1)
    times = demo.processor(server) - had, time.monotonic() - begun
    server.stdin.close()
    if server.wait() != 0:
        sys.exit("batches.py: the server failed")
    return [1e6 * passed / documents for passed in times]


def measure(binary, name, make, count, turns):
    all_ways, found = ways(rows(make, count)), []
    for _ in range(turns):
        (base, clock), *others = times = [spent(binary, sent, count) for sent in all_ways]
        found.append([(one / base, one_clock / clock) for one, one_clock in others])
        cells = ", ".join(f"{one:.1f} ({one_clock:.1f})" for one, one_clock in times)
        print(f"{name:>6}: {cells} us a document, {told(found[-1])}", flush=True)
    medians = [[statistics.median(ratios) for ratios in zip(*way)] for way in zip(*found)]
    print(f"{name:>6}: the median {told(medians)}", flush=True)


def told(ratios):
    return " and ".join(f"{ratio:.2f} ({clock:.2f})" for ratio, clock in ratios)


def main():
    parser = argparse.ArgumentParser()
    parser.add_argument("binary", nargs="?", default=load.BINARY)
    parser.add_argument("--documents", type=int, default=10_000)
    parser.add_argument("--turns", type=int, default=5)
    asked = parser.parse_args()
    for name, make in (("small", load.small), ("1 KiB", load.catalogue)):
        measure(asked.binary, name, make, asked.documents, asked.turns)


if __name__ == "__main__":
    main()
