#!/usr/bin/env python3
"""Searches an index beside many other searchable paths through `rank_server pipe`, and prints what a search takes.

    bench/attributes.py BIN... [--documents N] [--rounds N]

Before the documents, whose words stand in `title` and `text`, one document is stored with 0, 100, 300 or 900 other
paths, so that these have the better ranks. The documents and words are those of bench/catalogue.py. Each search goes to
every program by turns, and the best of the rounds counts: microseconds of processor a search, in brackets the ratio to
the same search beside no other path, and of several programs each has behind it the ratio to the first one. Replies
that differ are told. Nothing tests these numbers.
"""
import argparse
import sys

import catalogue

COUNTS = (0, 100, 300, 900)
SEARCHES = 20


def filled(binary, others, documents):
    """A program in a folder of its own, with an index of these documents, and one with other paths before them."""
    program, made = catalogue.Program(binary), catalogue.Catalogue()
    bodies = [[{"id": documents, **{f"other{number}": "x" for number in range(others)}}]]
    for first in range(0, documents, catalogue.BATCH):
        batch = [made.document(number) for number in range(first, min(first + catalogue.BATCH, documents))]
        bodies.append([{name: one[name] for name in ("id", "title", "text")} for one in batch])
    for body in bodies:
        program.change("POST", "/indexes/c/documents", body)
    program.settle()
    return program


def queries():
    made = catalogue.Catalogue(11)
    common = made.words[:2000]

    def drawn(many):
        return " ".join(made.rng.choices(common, cum_weights=made.sums[:2000], k=many)) + " "

    return {f"{many} words": [drawn(many) for _ in range(SEARCHES)] for many in (1, 2, 3)}


def spent(program, texts):
    """The microseconds of a search, and what they were answered."""
    begun = program.cpu()
    replies = [program.ask("POST", "/indexes/c/search", {"q": text}) for text in texts]
    spent = (program.cpu() - begun) / len(texts) * 1e6
    if any(b" 200 " not in status for status, *_ in replies):
        sys.exit("attributes.py: a search was refused")
    return spent, [reply for _, reply, _ in replies]


def measured(binaries, others, asked):
    """The least microseconds of each program, by the number of words."""
    programs = [filled(binary, others, asked.documents) for binary in binaries]
    found = {}
    for name, texts in queries().items():
        least = [float("inf")] * len(programs)
        for _ in range(asked.rounds):
            turns = [spent(program, texts) for program in programs]
            least = [min(known, time) for known, (time, _) in zip(least, turns)]
            if any(replies != turns[0][1] for _, replies in turns):
                print(f"{name} beside {others} paths: replies differ")
        found[name] = least
    for program in programs:
        program.process.stdin.close()
        program.process.wait()
    return found


def main():
    made = argparse.ArgumentParser()
    made.add_argument("binaries", nargs="+")
    made.add_argument("--documents", type=int, default=20_000)
    made.add_argument("--rounds", type=int, default=3)
    asked = made.parse_args()
    alone = None
    for others in COUNTS:
        found = measured(asked.binaries, others, asked)
        alone = alone or found
        for name, times in found.items():
            cells = "  ".join(f"{time:9.0f} ({time / least:.2f}) {time / times[0]:.3f}"
                              for time, least in zip(times, alone[name]))
            print(f"{others:4} other paths, {name}: {cells}", flush=True)


main()
