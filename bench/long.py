#!/usr/bin/env python3
"""Searches one document of many words, and prints how the time of a search grows with its words.

    bench/long.py [BIN] [--rounds N]

BIN is crates/rank_server/out/rank_server, which `rt run` in crates/rank_server makes. The document has one word again
and again, two words in turn, or words of which none comes twice. Each search is asked N times of the longest
document, and of a shorter one as many times more as it is shorter, by one process with `pipe`, which hands out no hits;
what a process takes that asks for none is taken off. Counted is the time of the
processor, the best of three runs. In brackets stands the time a word of the document against that of the shortest
one: 1 where a search takes time in proportion to the words. Nothing tests these numbers.
"""
import argparse
import json
import os
import resource
import subprocess
import tempfile

SIZES = (1_024, 8_192, 65_536)
TEXTS = {
    "one word": lambda n: ["dark"] * n,
    "two words in turn": lambda n: ["dark", "knight"] * (n // 2),
    "all different": lambda n: ["dark", "knight"] + ["w%d" % i for i in range(2, n)],
}
QUERIES = ("dark", "dark knight", '"dark knight"', "dark dark knight")


# Behind its reply the document is stored.
HEALTH = b"GET /health HTTP/1.1\r\nhost: a\r\n\r\n"


def request(path, body):
    return b"POST %s HTTP/1.1\r\nhost: a\r\ncontent-length: %d\r\n\r\n%s" % (path, len(body), body)


def processor_time(binary, text, query, rounds):
    """Seconds of a process that adds the document and asks so many times."""
    document = json.dumps([{"id": 1, "text": text}]).encode()
    search = request(b"/indexes/a/search", json.dumps({"q": query, "limit": 0}).encode())
    raw = request(b"/indexes/a/documents", document) + HEALTH + search * rounds
    with tempfile.TemporaryDirectory() as folder:
        before = resource.getrusage(resource.RUSAGE_CHILDREN)
        subprocess.run([binary, "pipe"], input=raw, cwd=folder, check=True, stdout=subprocess.DEVNULL)
        after = resource.getrusage(resource.RUSAGE_CHILDREN)
    return after.ru_utime + after.ru_stime - before.ru_utime - before.ru_stime


def main():
    parser = argparse.ArgumentParser()
    parser.add_argument("binary", nargs="?", default="crates/rank_server/out/rank_server")
    parser.add_argument("--rounds", type=int, default=2_000)
    arguments = parser.parse_args()
    binary = os.path.abspath(arguments.binary)
    for title, words in TEXTS.items():
        print(title)
        for query in QUERIES:
            first, told = None, []
            for size in SIZES:
                text = " ".join(words(size))
                rounds = arguments.rounds * max(SIZES) // size
                busy, idle = (min(processor_time(binary, text, query, n) for _ in range(3)) for n in (rounds, 0))
                spent = max(busy - idle, 1e-9) / rounds
                first = first or spent / size
                told.append("%6d words %9.1f µs (%.2f)" % (size, spent * 1e6, spent / size / first))
            print("  %-18s %s" % (query, "   ".join(told)))


if __name__ == "__main__":
    main()
