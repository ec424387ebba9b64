#!/usr/bin/env python3
"""Fills posting lists with documents of 46 words, and prints what a change, a walk and a question cost.

    bench/postings.py [BIN] [--thousands N]

BIN is crates/bench_parts/out/bench_parts, which `rt run` in crates/bench_parts makes. There are N thousand
documents (100). Each thing is done many times by one process, and what a process takes that does it no time is taken
off. Counted is the time of the processor, the best of two runs, and beside it stands the ratio to a plain scan of as
many numbers of eight bytes as there are places, which this script does in the same run. Memory is that of the whole
process at its peak. Nothing tests these numbers.
"""
import argparse
import array
import os
import subprocess
import time

WORDS = 46


def run(binary, what, thousands, rounds):
    """Seconds of the processor, and the peak in kilobytes."""
    with subprocess.Popen([binary, "lists", what, str(thousands), str(rounds)], stdout=subprocess.DEVNULL) as process:
        _pid, status, used = os.wait4(process.pid, 0)
        process.returncode = status
    if status:
        raise SystemExit(f"{binary} {what} ended with {status}")
    return used.ru_utime + used.ru_stime, used.ru_maxrss


def scan(places):
    """Nanoseconds a number of a plain scan: what the sum of that many numbers takes."""
    numbers = array.array("Q", range(places))
    begun = time.process_time()
    sum(numbers)
    return (time.process_time() - begun) / places * 1e9


def main():
    parser = argparse.ArgumentParser()
    parser.add_argument("binary", nargs="?", default="crates/bench_parts/out/bench_parts")
    parser.add_argument("--thousands", type=int, default=100)
    asked = parser.parse_args()
    documents = asked.thousands * 1000
    places = documents * WORDS
    plain = scan(min(places, 4_600_000))
    idle, peak = min(run(asked.binary, "walk", asked.thousands, 0) for _ in range(2))
    print(f"{documents:,} documents put in, a thousand at once: {idle / documents * 1e6:.1f} µs a document, "
          f"{peak * 1024 / documents:.0f} bytes a document")
    for what, rounds, unit, each in (
            ("put", 200_000, "µs a document", 1), ("replace", 200_000, "µs a document", 1),
            ("walk", 300, "ns a place", places), ("word", 100_000, "µs a question", 1),
            ("prefix", 100_000, "µs a question", 1), ("phrase", 100_000, "µs a question", 1),
            ("pair", 40_000, "µs a question", 1), ("near", 10_000, "µs a question", 1),
            ("bucket", 20_000, "µs a question", 1)):
        busy = min(run(asked.binary, what, asked.thousands, rounds)[0] for _ in range(2))
        spent = max(busy - idle, 0) / rounds / each
        shown = spent * (1e9 if unit.startswith("ns") else 1e6)
        ratio = shown / plain if unit.startswith("ns") else shown * 1000 / (plain * places)
        print(f"{what:8} {shown:10.2f} {unit:14} ({ratio:.3f} of a plain scan of "
              f"{'one number' if unit.startswith('ns') else 'all places'})")


main()
