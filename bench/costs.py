#!/usr/bin/env python3
"""Searches an index through `rank_server pipe` and prints what a search costs for each of its documents, by the query.

    bench/costs.py [BIN] [--documents N] [--searches N] [--rounds N]

An index of small documents (about 80 bytes) is searched by queries of 1, 2, 5 and 10 words, under the rules of a new
index; then again with three synonyms of two words each for every word. Printed are the microseconds of a search by the
number of documents of the index, and in brackets the ratio to one word without synonyms. The time of the load alone is
taken off, and the best of the rounds counts. Nothing tests these numbers.
"""
import argparse
import json
import os
import subprocess
import sys
import threading
import time

import load

COUNTS = (1, 2, 5, 10)


def request(method, target, body):
    text = json.dumps(body).encode()
    return b"%s %s HTTP/1.1\r\ncontent-length: %d\r\n\r\n" % (method, target, len(text)) + text


def synonyms():
    others = load.WORDS[1:] + load.WORDS[:1]
    return {word: [f"{other} {word}", f"{word} {other}", f"{other} {other}"] for word, other in zip(load.WORDS, others)}


def seconds(binary, requests):
    server = load.started(binary, "pipe", stdin=subprocess.PIPE, stdout=subprocess.PIPE)
    begun = time.monotonic()
    writer = threading.Thread(target=load.send, args=(server.stdin, b"".join(requests)))
    writer.start()
    count = 0
    while count < len(requests):
        piece = os.read(server.stdout.fileno(), 1 << 16)
        if not piece:
            sys.exit("costs.py: the server ended early")
        if b"HTTP/1.1 4" in piece or b"HTTP/1.1 5" in piece:
            sys.exit("costs.py: a request was refused")
        count += piece.count(b"HTTP/1.1 ")
    spent = time.monotonic() - begun
    writer.join()
    server.stdin.close()
    server.wait()
    return spent


def main():
    parser = argparse.ArgumentParser()
    parser.add_argument("binary", nargs="?", default=load.BINARY)
    parser.add_argument("--documents", type=int, default=20_000)
    parser.add_argument("--searches", type=int, default=200)
    parser.add_argument("--rounds", type=int, default=5)
    asked = parser.parse_args()
    begin = [load.request(body) for body in load.bodies(asked.documents, 1000)] + load.SETTLED
    one = None
    for name, settings in (("no synonyms", {}), ("synonyms", {"synonyms": synonyms()})):
        first = [request(b"PATCH", b"/indexes/shop/settings", settings)] + begin
        base = min(seconds(asked.binary, first) for _ in range(asked.rounds))
        for count in COUNTS:
            query = {"q": " ".join(load.WORDS[:count]), "limit": 1}
            searches = [request(b"POST", b"/indexes/shop/search", query)] * asked.searches
            spent = min(seconds(asked.binary, first + searches) for _ in range(asked.rounds)) - base
            each = spent / asked.searches / asked.documents * 1e6
            one = one or each
            print(f"{name:>12} {count:>3} words {each:>8.2f} us a document ({each / one:.1f})")


if __name__ == "__main__":
    main()
