#!/usr/bin/env python3
"""Asks for pages of a sort through `rank_server pipe`, and prints what they cost.

    bench/sorts.py BIN...

Some of all documents match, any of them or the dearest, and each document has a price of its own, in no order. For each
number of both and each direction it prints the mean processor time of a page of twenty hits at several offsets, in
microseconds, and in brackets the ratio to the first page. Several programs are asked by turns, and their replies
compared. Nothing here is a test: it prints, and nothing depends on it.
"""
import random
import sys

from catalogue import BATCH, Program

SIZES = [(2000, 2000), (100, 20_000), (1000, 20_000), (2000, 20_000), (500, 100_000), (5000, 100_000), (20_000, 100_000)]
CASES = [(matching, many, which, way) for matching, many in SIZES
         for which, way in [("any", "asc"), ("any", "desc"), ("dearest", "asc")]]
OFFSETS = [0, 100, 500, 980]
SECONDS = 0.2


def loaded(path, matching, many, which):
    """The program with its documents, of which as many match as are asked for: any of them, or the dearest."""
    rng = random.Random(5)
    prices = list(range(many))
    rng.shuffle(prices)
    found = set(rng.sample(range(many), matching)) if which == "any" else \
        {number for number in range(many) if prices[number] >= many - matching}
    program = Program(path)
    program.change("PATCH", "/indexes/c/settings", {"searchableAttributes": ["text"], "sortableAttributes": ["price"]})
    for first in range(0, many, BATCH):
        batch = [{"id": number, "text": "word" if number in found else "other", "price": prices[number]}
                 for number in range(first, min(first + BATCH, many))]
        program.change("POST", "/indexes/c/documents", batch)
    program.settle()
    return program


def page(program, offset, way):
    """The mean processor time of a page, in microseconds, and its reply."""
    body = {"q": "word ", "sort": [f"price:{way}"], "offset": offset, "limit": 20}
    times, start = 0, program.cpu()
    while times < 3 or program.cpu() - start < SECONDS:
        status, reply, _ = program.ask("POST", "/indexes/c/search", body)
        times += 1
    if b" 200 " not in status:
        sys.exit(f"{status} {reply[:200]}")
    return (program.cpu() - start) / times * 1e6, reply


def main():
    paths = sys.argv[1:]
    if not paths:
        sys.exit(__doc__)
    for matching, many, which, way in CASES:
        replies = []
        for path in paths:
            program = loaded(path, matching, many, which)
            pages = [page(program, offset, way) for offset in OFFSETS if offset < matching]
            program.process.stdin.close()
            program.process.wait()
            replies.append([reply for _, reply in pages])
            row = ", ".join(f"{offset}: {time:.0f} ({time / pages[0][0]:.1f})"
                            for offset, (time, _) in zip(OFFSETS, pages))
            print(f"{which} {matching} of {many} match, {way}, {path}: {row}", flush=True)
        if any(reply != replies[0] for reply in replies):
            print("the replies differ")


if __name__ == "__main__":
    main()
