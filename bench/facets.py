#!/usr/bin/env python3
"""Asks for counts of values and for documents of a range through `rank_server pipe`, and prints what they cost.

    bench/facets.py BIN... [--thousands N]

There are N thousand documents (100), each with a brand and a price out of 300 and a number of its own. Counted are the
300 brands of 71 of each 100 documents (`many`), those of 7 of each 1,000 (`few`), the 300 prices of the many
(`prices`), and the first hundred numbers of the few (`numbers`); `narrow` finds the documents of a hundred numbers, and
`wide` those of half of the prices. No search gives a hit. A row has the mean processor time, without that of the same
search which counts nothing or has no range, the better of two runs, and in brackets the ratio to a plain scan of as
many numbers of eight bytes as there are documents, which this script does in the same run. Several programs are asked
by turns, and their replies compared. Nothing here is a test: it prints, and nothing depends on it.
"""
import argparse
import array
import sys
import time

from catalogue import BATCH, Program

MANY = {"limit": 0, "filter": "share = many"}
FEW = {"limit": 0, "filter": "share = few"}
ALL = {"limit": 0}

# What is asked, the same without what is measured, and how many values are shown at most.
QUESTIONS = {
    "many": ({**MANY, "facets": ["brand"]}, MANY, 1000),
    "few": ({**FEW, "facets": ["brand"]}, FEW, 1000),
    "prices": ({**MANY, "facets": ["price"]}, MANY, 1000),
    "numbers": ({**FEW, "facets": ["number"]}, FEW, 100),
    "narrow": ({**ALL, "filter": "number 0 TO 99"}, ALL, 100),
    "wide": ({**ALL, "filter": "price 0 TO 149"}, ALL, 100),
}
SECONDS = 0.5


def mixed(number):
    """A number below 300, in no order."""
    return (number * 2_654_435_761 & 0xFFFF_FFFF) // 0x1000 % 300


def document(number):
    place = number * 7919 % 1000
    return {
        "id": number,
        "brand": f"Brand {mixed(number)}",
        "price": mixed(number + 1),
        "number": number,
        "share": ["many"] * (place < 710) + ["few"] * (place < 7),
    }


def loaded(path, many):
    """The program with its documents, in a folder that is empty."""
    program = Program(path)
    program.change("PATCH", "/indexes/c/settings", {
        "searchableAttributes": ["text"],
        "filterableAttributes": ["brand", "price", "number", "share"],
    })
    program.settle()
    cpu, memory = program.cpu(), program.memory()
    for first in range(0, many, BATCH):
        batch = [document(number) for number in range(first, min(first + BATCH, many))]
        program.change("POST", "/indexes/c/documents", batch)
    program.settle()
    print(f"{many:,} documents loaded: {(program.cpu() - cpu) / many * 1e6:.1f} µs a document, "
          f"{(program.memory() - memory) / many:.0f} bytes a document, {path}", flush=True)
    return program


def asked(program, body):
    """The mean processor time of a search, in microseconds, and its reply."""
    times, start = 0, program.cpu()
    while times < 3 or program.cpu() - start < SECONDS:
        status, reply, _ = program.ask("POST", "/indexes/c/search", body)
        times += 1
    if b" 200 " not in status:
        sys.exit(f"{status} {reply[:200]}")
    return (program.cpu() - start) / times * 1e6, reply


def scan(count):
    """Microseconds of a plain scan: what the sum of that many numbers takes."""
    numbers = array.array("Q", range(count))
    begun = time.process_time()
    for _round in range(20):
        sum(numbers)
    return (time.process_time() - begun) / 20 * 1e6


def main():
    parser = argparse.ArgumentParser()
    parser.add_argument("binaries", nargs="+")
    parser.add_argument("--thousands", type=int, default=100)
    told = parser.parse_args()
    many = told.thousands * 1000
    plain = scan(many)
    programs = [loaded(path, many) for path in told.binaries]
    for what, (body, without, most) in QUESTIONS.items():
        replies = []
        for path, program in zip(told.binaries, programs):
            program.change("PATCH", "/indexes/c/settings", {"faceting": {"maxValuesPerFacet": most}})
            program.settle()
            rest = min(asked(program, without)[0] for _ in range(2))
            spent, reply = min(asked(program, body) for _ in range(2))
            spent = max(spent - rest, 0)
            print(f"{what:8} {spent:10.1f} µs a question ({spent / plain:.3f} of a plain scan), {path}", flush=True)
            replies.append(reply)
        if any(reply != replies[0] for reply in replies):
            print("the replies differ")
    for program in programs:
        program.process.stdin.close()
        program.process.wait()


if __name__ == "__main__":
    main()
