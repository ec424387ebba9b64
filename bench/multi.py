#!/usr/bin/env python3
"""Sends `rank_server pipe` several searches at once and one by one, and searches of a facet's values; prints ratios.

    bench/multi.py [BIN] [--documents N] [--turns N]

An index of the demo's documents (20,000) is asked for 1, 5 and 20 of the demo's searches: in one multi-search, and then
each in a request of its own. Then 100,000 documents with as many values of one facet are asked for the ten values that
begin alike, where all documents match, where 20,000 do and where 50 do, beside a search of the same documents that
counts the facet and shows no hit. Of each thing the least time of the turns is printed, and the median of the turns'
ratios, with the least and the greatest of them: of a processor, and of the clock in brackets. Nothing depends on time.
"""
import argparse
import itertools
import json
import os
import statistics
import subprocess
import sys

import demo
import load

TOGETHER = (1, 5, 20)
VALUES = 100_000
BEGIN_ALIKE = 10
SETTINGS = {"filterableAttributes": ["id", "key"], "searchableAttributes": []}
# The documents that match, as a filter, and how many values with the beginning they have.
MATCHING = (("all match", None, BEGIN_ALIKE), ("20,000 match", f"id >= {VALUES - 20_000}", 2),
            ("50 match", f"id >= {VALUES - 50}", 1))


class Server:
    """A server that made some changes."""

    def __init__(self, binary, changes):
        self.process = load.started(binary, "pipe", stdin=subprocess.PIPE, stdout=subprocess.PIPE)
        self.spent([*changes, *load.SETTLED])

    def ask(self, sent):
        self.process.stdin.write(sent)
        self.process.stdin.flush()
        return demo.reply(lambda most: os.read(self.process.stdout.fileno(), most))

    def spent(self, sent):
        """The seconds of a processor and of the clock that these requests take, one after the other."""
        return demo.seconds(self.process, self.ask, sent)

    def end(self):
        self.process.stdin.close()
        if self.process.wait() != 0:
            sys.exit("the server failed")


def ratio(first, second):
    """The median of some ratios, the least and the greatest."""
    found = sorted(one / other for one, other in zip(first, second))
    return f"{statistics.median(found):.3f}, {found[0]:.3f} to {found[-1]:.3f}"


def compare(server, turns, name, first, second):
    """Sends the requests of the first and those of the second by turns, and prints a line."""
    times = [(*server.spent(first), *server.spent(second)) for _ in range(turns)]
    ours, our_clock, theirs, their_clock = zip(*times)
    print(f"{name:>16} {1e6 * min(ours):>9.0f} µs {1e6 * min(theirs):>9.0f} µs  {ratio(ours, theirs)}"
          f" ({ratio(our_clock, their_clock)})", flush=True)


def together(binary, documents, turns):
    server = Server(binary, demo.loading(documents, 7))
    print(f"{documents:,} documents: several searches in one request, each in its own, and the ratio")
    for count in TOGETHER:
        members = list(itertools.islice(itertools.cycle(demo.SEARCHES), count))
        queries = [{"indexUid": "demo", **search} for search in members]
        multi = demo.request(b"POST", b"/multi-search", {"queries": queries})
        alone = [demo.request(b"POST", b"/indexes/demo/search", search) for search in members]
        compare(server, turns, f"{count} together", [multi], alone)
    server.end()


def valued(count):
    """Documents with a value each that no other has; every so many of them begin alike."""
    every = count // BEGIN_ALIKE
    for number in range(count):
        yield {"id": number, "key": f"{'same' if number % every == every - 1 else 'other'} {number}"}


def values(binary, turns):
    rows = list(valued(VALUES))
    batches = [rows[first:first + demo.BATCH] for first in range(0, VALUES, demo.BATCH)]
    server = Server(binary, [demo.request(b"PATCH", b"/indexes/shop/settings", SETTINGS),
                             *(demo.request(b"POST", b"/indexes/shop/documents", batch) for batch in batches)])
    print(f"{VALUES:,} documents and values: those that begin so, the counts of a search, and the ratio")
    for name, condition, found in MATCHING:
        members = {"facetName": "key", "facetQuery": "same", "filter": condition}
        facet = demo.request(b"POST", b"/indexes/shop/facet-search", members)
        counts = {"facets": ["key"], "filter": condition, "limit": 0}
        _, body = server.ask(facet)
        if len(json.loads(body)["facetHits"]) != found:
            sys.exit(f"{found} values begin so, and the reply is {body.decode()}")
        compare(server, turns, name, [facet], [demo.request(b"POST", b"/indexes/shop/search", counts)])
    server.end()


def main():
    parser = argparse.ArgumentParser()
    parser.add_argument("binary", nargs="?", default=load.BINARY)
    parser.add_argument("--documents", type=int, default=20_000)
    parser.add_argument("--turns", type=int, default=15)
    asked = parser.parse_args()
    together(asked.binary, asked.documents, asked.turns)
    values(asked.binary, asked.turns)


if __name__ == "__main__":
    main()
