#!/usr/bin/env python3
"""Formats the hits of a search, and prints what each costs.

    bench/formats.py [BIN..] [--rounds N]
    bench/formats.py --server [PROGRAM..] [--turns N]

BIN is crates/bench_parts/out/bench_parts, which `rt run` in crates/bench_parts makes; given more than one, they are
measured by turns, and each is compared with the first. A search has 20 hits of 1 KiB each, in ASCII or in six
scripts, shown with tags and cropped to 30 words, and a query of one, two or ten words, of which two have 30 and 1,000
terms more. Beside it stands what it takes only to cut the same texts into words. Each search is done N times by one
process, and what a process takes that does it no time is taken off. Counted is the time of the processor, the best of
three turns.

With --server the same texts are the documents of an index of PROGRAM, rank_server where none is named, and a search
hands out those that it finds: as they are stored, and by turns with that with their texts cropped to 30 words, with
tags too, and with the places of their words too. Printed are the hits, what a search takes as it stands, and what each
of these takes more, in microseconds a hit: the median of the turns' differences, with the least and the greatest; and
the median of the ratios, of a processor. Nothing tests these numbers.
"""
import argparse
import json
import os
import random
import statistics
import subprocess
import tempfile

import demo
import load
from multi import Server
from words import ASCII, MARKS, MIXED

HITS, SIZE = 20, 1024
QUERIES = [("one word", "quick", 0), ("two words", "quick 東京", 0), ("ten words", " ".join(ASCII[:10]), 0),
           ("30 terms more", "quick 東京", 30), ("1,000 terms more", "quick 東京", 1_000)]
# What a search of a server asks for, beside the hits as they are stored.
CROPPED = {"attributesToCrop": ["text:30"]}
TAGGED = {**CROPPED, "attributesToHighlight": ["text"]}
SHOWN = [("cropped", CROPPED), ("tagged too", TAGGED), ("places too", {**TAGGED, "showMatchesPosition": True})]
# How often a search is sent in a turn, since one takes little.
OFTEN = 50


def hits(vocabulary):
    draw = random.Random(7)
    lines = []
    for _ in range(HITS):
        line = ""
        while len(line.encode()) < SIZE:
            line += draw.choice(vocabulary) + draw.choice(MARKS)
        lines.append(line)
    return "\n".join(lines).encode()


def seconds(binary, what, query, more, rounds, text):
    """Seconds of the processor."""
    with tempfile.TemporaryFile() as file:
        file.write(text)
        file.seek(0)
        command = [binary, "formats", what, query, str(more), str(rounds)]
        with subprocess.Popen(command, stdin=file, stdout=subprocess.DEVNULL) as process:
            _pid, status, used = os.wait4(process.pid, 0)
            process.returncode = status
    if status:
        raise SystemExit(f"{binary} formats {what} ended with {status}")
    return used.ru_utime + used.ru_stime


def costs(binaries, what, query, more, rounds, text):
    """Microseconds a hit, of each program."""
    best = [float("inf")] * len(binaries)
    for _turn in range(3):
        for k, binary in enumerate(binaries):
            idle = seconds(binary, what, query, more, 0, text)
            busy = seconds(binary, what, query, more, rounds, text)
            best[k] = min(best[k], max(busy - idle, 0) / rounds / HITS * 1e6)
    return best


def told(all_costs):
    first = all_costs[0]
    return "   ".join(f"{cost:8.2f} µs ({cost / first:.2f})" for cost in all_costs)


def of_server(program, name, vocabulary, turns):
    """Prints what the hits of a search take more where their texts are formatted, by the number of its words."""
    text = hits(vocabulary)
    rows = [{"id": number, "text": line} for number, line in enumerate(text.decode().split("\n"))]
    server = Server(program, [demo.request(b"POST", b"/indexes/hits/documents?primaryKey=id", rows)])

    def search(query, more):
        return demo.request(b"POST", b"/indexes/hits/search", {"q": query, "limit": HITS, **more})

    for words in (1, 2, 10):
        query = " ".join(vocabulary[:words])
        plain = search(query, {})
        count = len(json.loads(server.ask(plain)[1])["hits"])
        for shown, members in SHOWN:
            formatted = search(query, members)
            times = [(server.spent([plain] * OFTEN)[0], server.spent([formatted] * OFTEN)[0]) for _ in range(turns)]
            least = min(before for before, _ in times) / OFTEN * 1e6
            more = sorted((after - before) / OFTEN / count * 1e6 for before, after in times)
            ratio = statistics.median(after / before for before, after in times)
            print(f"{name:14} {words:2} words {shown:11} {count:2} hits {least:8.0f} µs, a hit more "
                  f"{statistics.median(more):7.2f} µs ({more[0]:.2f} to {more[-1]:.2f}), {ratio:.2f}", flush=True)
    server.end()


def main():
    parser = argparse.ArgumentParser()
    parser.add_argument("binaries", nargs="*")
    parser.add_argument("--rounds", type=int, default=500)
    parser.add_argument("--server", action="store_true")
    parser.add_argument("--turns", type=int, default=15)
    asked = parser.parse_args()
    if asked.server:
        for program in asked.binaries or [load.BINARY]:
            for name, vocabulary in (("ASCII prose", ASCII), ("mixed scripts", MIXED)):
                of_server(program, name, vocabulary, asked.turns)
        return
    asked.binaries = asked.binaries or ["crates/bench_parts/out/bench_parts"]
    for name, vocabulary in (("ASCII prose", ASCII), ("mixed scripts", MIXED)):
        text = hits(vocabulary)
        print(f"{name:14} {'only cut':18} {told(costs(asked.binaries, 'words', 'quick', 0, asked.rounds, text))}")
        for query_name, query, more in QUERIES:
            print(f"{name:14} {query_name:18} {told(costs(asked.binaries, 'format', query, more, asked.rounds, text))}")


if __name__ == "__main__":
    main()
