#!/usr/bin/env python3
"""Asks `rank_server pipe` for hits of which each value has one, and prints ratios to the same searches without that.

    bench/distinct.py [BIN] [--documents N] [--groups N] [--turns N]

Of 100,000 documents each is in one of 1,000 groups, in two ways: drawn, so that the first few thousand have nearly all
groups, and in a row, so that the last group begins where nearly all documents are passed. Of each way there are two
members with the same values: one that is filterable, whose values the index keeps, and one that is not, for which
documents are read. A search that all documents match, and one for a word that a sixteenth of them have, ask for 20 hits
at offset 0 and at offset 980 (20 less than there are groups) with each of the four as `distinct`; by turns with it the
same search is sent without it. Of each search the least time of the turns is printed, and the median of the turns'
ratios, with the least and the greatest of them: of a processor, and of the clock in brackets. Nothing depends on time.
"""
import argparse
import json
import random
import sys

import demo
import load
from multi import Server, compare

HITS = 20
WORDS = demo.WORDS
SETTINGS = {"filterableAttributes": ["drawn", "row"], "pagination": {"maxTotalHits": 1_000_000}}
WAYS = {"drawn": "drawn, kept", "drawn_read": "drawn, read", "row": "in a row, kept", "row_read": "in a row, read"}
QUERIES = {"all match": {}, "a word matches": {"q": WORDS[0] + " "}}


def rows(count, groups):
    draw = random.Random(7)
    for number in range(count):
        drawn, row = f"group {draw.randrange(groups)}", f"group {number * groups // count}"
        yield {"id": number, "title": f"{draw.choice(WORDS)} {number}", "drawn": drawn, "drawn_read": drawn, "row": row,
               "row_read": row}


def loading(count, groups):
    """The requests that fill the index."""
    documents = list(rows(count, groups))
    batches = [documents[first:first + demo.BATCH] for first in range(0, count, demo.BATCH)]
    return [demo.request(b"PATCH", b"/indexes/groups/settings", SETTINGS),
            *(demo.request(b"POST", b"/indexes/groups/documents?primaryKey=id", batch) for batch in batches)]


def search(members):
    return demo.request(b"POST", b"/indexes/groups/search", members)


def compare_ways(server, members, turns):
    """Compares a search with each of the attributes as distinct to one without, after a look at its hits."""
    for attribute, name in WAYS.items():
        distinct = search({**members, "distinct": attribute, "attributesToRetrieve": [attribute]})
        _, body = server.ask(distinct)
        groups = [hit[attribute] for hit in json.loads(body)["hits"]]
        if len(set(groups)) != len(groups) or "q" not in members and len(groups) != HITS:
            sys.exit(f"not {HITS} groups: {body.decode()}")
        compare(server, turns, name, [distinct], [search({**members, "attributesToRetrieve": [attribute]})])


def main():
    parser = argparse.ArgumentParser()
    parser.add_argument("binary", nargs="?", default=load.BINARY)
    parser.add_argument("--documents", type=int, default=100_000)
    parser.add_argument("--groups", type=int, default=1_000)
    parser.add_argument("--turns", type=int, default=15)
    asked = parser.parse_args()
    server = Server(asked.binary, loading(asked.documents, asked.groups))
    print(f"{asked.documents:,} documents in {asked.groups:,} groups: distinct hits, all hits, and the ratio")
    for name, query in QUERIES.items():
        for offset in (0, asked.groups - HITS):
            print(f"{name}, offset {offset}")
            compare_ways(server, {**query, "offset": offset, "limit": HITS}, asked.turns)
    server.end()


if __name__ == "__main__":
    main()
