#!/usr/bin/env python3
"""Asks for pages of twenty in nested buckets, and prints how long they take and how many buckets they open.

    bench/buckets.py [BIN] [--scale N]

BIN is crates/bench_parts/out/bench_parts, which `rt run` in crates/bench_parts makes. There are ten rules. Where
they tie, each leaves all documents together; else each rule halves what the one before it left together. Then there is
one rule, the costs of ten words, of which each costs 0 in one half of the documents and 1 in the other: eleven buckets,
the first of which is one document in 1,024. Sets are "close" where ids follow each other (a bit each), and "spread"
where they stand 200 apart (a number each). Each page is asked for many times by one process, and what a process takes
that asks for none is taken off. Counted is the time of the processor, the best of three runs; N makes runs longer. In
brackets stands the ratio to the first row. Nothing tests these numbers.
"""
import argparse
import resource
import subprocess

SIZES = (1_000, 10_000, 100_000, 1_000_000)


def processor_time():
    used = resource.getrusage(resource.RUSAGE_CHILDREN)
    return used.ru_utime + used.ru_stime


class Bench:
    def __init__(self, binary, scale):
        self.binary, self.scale = binary, scale

    def run(self, kind, size, step, offset, rounds):
        """Seconds of the processor, hits and openings."""
        begun = processor_time()
        words = [self.binary, "pages", kind, *map(str, (size, step, offset, rounds))]
        said = subprocess.run(words, check=True, stdin=subprocess.DEVNULL, stdout=subprocess.PIPE).stdout
        return processor_time() - begun, *map(int, said.split())

    def page(self, kind, size, step, offset):
        """Microseconds a page, and its openings."""
        rounds = max(10, self.scale * 5_000_000 // max(size, 10_000))
        busy, _hits, opened = min(self.run(kind, size, step, offset, rounds) for _ in range(3))
        idle = min(self.run(kind, size, step, offset, 0)[0] for _ in range(3))
        return max(busy - idle, 1e-9) / rounds * 1e6, opened

    def sizes(self, title, kind, step, place):
        """By the number of documents, from the offset that `place` gives for it."""
        print(title)
        first = None
        for size in SIZES:
            spent, opened = self.page(kind, size, step, place(size))
            first = first or spent / opened
            print(f"  {size:9,} documents  {opened:3} buckets  {spent:9.1f} µs a page  "
                  f"{spent / opened:8.2f} µs a bucket ({spent / opened / first:.1f})")

    def offsets(self, title, kind, size, offsets):
        print(f"{title}, {size:,} documents")
        first = None
        for offset in offsets:
            spent, opened = self.page(kind, size, 1, offset)
            first = first or spent
            print(f"  offset {offset:9,}  {opened:3} buckets  {spent:9.1f} µs a page ({spent / first:.2f})")


def main():
    parser = argparse.ArgumentParser()
    parser.add_argument("binary", nargs="?", default="crates/bench_parts/out/bench_parts")
    parser.add_argument("--scale", type=int, default=1)
    asked = parser.parse_args()
    bench = Bench(asked.binary, asked.scale)
    most = SIZES[-1]
    bench.sizes("Ten rules that tie, close sets", "ties", 1, lambda size: 0)
    bench.sizes("Ten rules that tie, spread sets", "ties", 200, lambda size: 0)
    bench.sizes("Costs of ten words, the first page", "paths", 1, lambda size: 0)
    bench.sizes("Costs of ten words, all buckets", "paths", 1, lambda size: size - 20)
    bench.offsets("Ten rules that halve", "halves", most, (0, most // 2, most // 4 * 3, most - 20))
    bench.offsets("Ten rules that tie", "ties", most, (0, most // 2, most - 20))


if __name__ == "__main__":
    main()
