#!/usr/bin/env python3
"""Loads the documents of `rank_server demo` through `rank_server pipe` and runs the demo's ten searches on them.

    bench/demo.py [BIN] [--seed N] [--repeats N]

With 1,000, 10,000 and 100,000 documents it prints what the load takes and each search, the least of the repeats, and
the peak memory after the load and after the searches. Of a time there are two: what the server had of a processor,
with the ratio to 1,000 documents in brackets, and then, from when a request is sent until its reply is there, what
passed by the clock. On a busy machine only the first says something. Nothing tests these numbers.
"""
import argparse
import json
import os
import subprocess
import sys
import time

import load

WORDS = ("amber bridge cloud delta ember forest garden harbor island jungle kettle lantern meadow north ocean "
         "pebble").split()
TAGS = "red green blue white".split()
BATCH = 1000
COUNTS = (1000, 10000, 100000)
SETTINGS = {"filterableAttributes": ["tags", "year"], "sortableAttributes": ["year"]}
SEARCHES = [
    {"q": "cloud garden"},
    {"q": "amber bri"},
    {"q": '"north pebble"'},
    {"q": "ocean delta forest"},
    {"q": "delta", "filter": "year > 2005"},
    {"q": "", "sort": ["year:desc"], "limit": 5},
    {"facets": ["tags"], "limit": 0},
    {"q": "ember", "matchingStrategy": "all", "filter": "tags = red"},
    {"q": "harb our"},
    {"q": "kettle lantern", "page": 2, "hitsPerPage": 3},
]


def draws(seed):
    while True:
        seed = seed * 48271 % 2147483647
        yield seed


def documents(count, seed):
    drawn = draws(seed)
    for number in range(1, count + 1):
        title = " ".join(WORDS[next(drawn) % 16] for _ in range(4))
        yield {"id": number, "tags": [TAGS[next(drawn) % 4]], "title": title, "year": 1990 + next(drawn) % 30}


def request(method, target, members):
    body = json.dumps(members, separators=(",", ":")).encode()
    return b"%s %s HTTP/1.1\r\ncontent-length: %d\r\n\r\n" % (method, target, len(body)) + body


def loading(count, seed):
    """The requests that fill the index, and wait until it is filled."""
    rows = list(documents(count, seed))
    batches = [rows[first:first + BATCH] for first in range(0, count, BATCH)]
    return [request(b"PATCH", b"/indexes/demo/settings", SETTINGS),
            *(request(b"POST", b"/indexes/demo/documents", batch) for batch in batches), *load.SETTLED]


def searches():
    return [request(b"POST", b"/indexes/demo/search", members) for members in SEARCHES]


def reply(read):
    """The status and body of one reply, by a function that reads a number of bytes at most."""
    kept = b""
    while True:
        head, found, body = kept.partition(b"\r\n\r\n")
        if found:
            length = next(int(line[16:]) for line in head.split(b"\r\n") if line.startswith(b"content-length: "))
            if len(body) == length:
                return int(head[9:12]), body
        piece = read(1 << 16)
        if not piece:
            sys.exit("the server ended early")
        kept += piece


def processor(process):
    """The seconds that a process of one thread had of a processor."""
    with open(f"/proc/{process.pid}/schedstat") as file:
        return int(file.read().split()[0]) / 1e9


def seconds(process, ask, sent):
    """What it takes to answer all of these requests, one after the other: of a processor, and by the clock."""
    had, begun = processor(process), time.monotonic()
    for one in sent:
        status, body = ask(one)
        if status not in (200, 202):
            sys.exit(f"a request was refused: {body.decode()}")
    return processor(process) - had, time.monotonic() - begun


def milliseconds(process, ask, search, repeats):
    """The least of the repeats, of a processor and by the clock."""
    times = [seconds(process, ask, [search]) for _ in range(repeats)]
    return [1e3 * min(spent) for spent in zip(*times)]


def peak(process):
    """The most memory that a process held, in bytes."""
    return load.entry(f"/proc/{process.pid}/status", "VmHWM:")


def figures(process, ask, count, seed, repeats):
    """What was measured, by name: its unit and its one or two numbers."""
    found = {"load": ("s", *seconds(process, ask, loading(count, seed)))}
    found["peak, loaded"] = ("MB", peak(process) / 1e6)
    for number, search in enumerate(searches(), 1):
        found[f"search {number}"] = ("ms", *milliseconds(process, ask, search, repeats))
    found["peak, searched"] = ("MB", peak(process) / 1e6)
    return found


def measure(binary, count, seed, repeats):
    server = load.started(binary, "pipe", stdin=subprocess.PIPE, stdout=subprocess.PIPE)

    def ask(sent):
        server.stdin.write(sent)
        server.stdin.flush()
        return reply(lambda most: os.read(server.stdout.fileno(), most))

    found = figures(server, ask, count, seed, repeats)
    server.stdin.close()
    if server.wait() != 0:
        sys.exit("the server failed")
    return found


def cell(base, unit, value, clock=None):
    passed = "" if clock is None else f"{clock:.3g} {unit}"
    return f"{value:>10.3g} {unit:<2} {f'({value / base:.3g})':>7} {passed:>9}"


def table(columns):
    """Prints a line for each figure and a column for each number of documents."""
    print(f"{'documents':>25}" + "".join(f"{count:>31,}" for count in columns))
    first = next(iter(columns.values()))
    for name, (_, base, *_) in first.items():
        print(f"{name:>25}{''.join(cell(base, *found[name]) for found in columns.values())}".rstrip())


def arguments():
    parser = argparse.ArgumentParser()
    parser.add_argument("binary", nargs="?", default=load.BINARY)
    parser.add_argument("--seed", type=int, default=7)
    parser.add_argument("--repeats", type=int, default=5)
    return parser.parse_args()


def main():
    asked = arguments()
    table({count: measure(asked.binary, count, asked.seed, asked.repeats) for count in COUNTS})


if __name__ == "__main__":
    main()
