#!/usr/bin/env python3
"""Cuts texts into words, and prints megabytes a second beside a plain scan of the same bytes in the same run.

    bench/words.py [BIN] [--rounds N]

BIN is crates/bench_parts/out/bench_parts, which `rt run` in crates/bench_parts makes. The texts are a megabyte of ASCII
prose and a megabyte of prose in six scripts. Each is cut N times by one process and scanned 20 N times by another,
and what a process takes that does neither is taken off. Nothing tests these numbers.
"""
import argparse
import random
import subprocess
import time

SIZE = 1 << 20
ASCII = ("the quick brown fox jumps over a lazy dog while seven engineers prove that every answer of their search "
         "server is the answer of a plain machine don't 1,000 times e.g. twice").split()
MIXED = ("straße Ελλάς ΣΊΣΥΦΟΣ Москва быстрая лиса 東京 検索 サーバー ความเร็ว ค้นหา مرحبا محرك café naïve ﬁne ＡＢＣ １２３ 👩‍🚀 "
         "don't 3.14 words").split()
MARKS = [" ", " ", " ", " ", " ", ", ", ". "]


def prose(vocabulary):
    draw = random.Random(7)
    pieces, size = [], 0
    while size < SIZE:
        piece = draw.choice(vocabulary) + draw.choice(MARKS)
        pieces.append(piece)
        size += len(piece.encode())
    return "".join(pieces).encode()


def seconds(binary, what, rounds, text):
    begun = time.monotonic()
    subprocess.run([binary, "words", what, str(rounds)], input=text, check=True, stdout=subprocess.DEVNULL)
    return time.monotonic() - begun


def rate(binary, what, rounds, text):
    """Megabytes a second."""
    idle = min(seconds(binary, what, 0, text) for _ in range(3))
    busy = min(seconds(binary, what, rounds, text) for _ in range(3))
    return rounds * len(text) / 1e6 / max(busy - idle, 1e-6)


def main():
    parser = argparse.ArgumentParser()
    parser.add_argument("binary", nargs="?", default="crates/bench_parts/out/bench_parts")
    parser.add_argument("--rounds", type=int, default=10)
    asked = parser.parse_args()
    for name, vocabulary in (("ASCII prose", ASCII), ("mixed scripts", MIXED)):
        text = prose(vocabulary)
        words = rate(asked.binary, "words", asked.rounds, text)
        scan = rate(asked.binary, "scan", 20 * asked.rounds, text)
        print(f"{name:14} words {words:7.1f} MB/s   scan {scan:8.1f} MB/s   words take {scan / words:6.1f} times a scan")


if __name__ == "__main__":
    main()
