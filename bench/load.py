#!/usr/bin/env python3
"""Loads documents through `rank_server pipe` and prints ratios.

    bench/load.py [BIN] [--rounds N] [--no-words]

Small documents (about 80 bytes) in bodies of 1,000: 1,000, 10,000 and 100,000 of them, of which up to 16 bodies wait
and are then stored together; then one body of nearly 16 MiB of catalogue-like documents (about 1 KiB), and one of
nearly 16 MiB of small ones. For each it prints documents a second, the time a document against that of the first load,
and the peak memory against the bytes of JSON sent: whole, and what the load adds to a process that has stored one
document. That is counted without the pages of files (the program and its libraries), of which two runs of one process
have up to 0.2 MB more or less. With `--no-words` the index searches no path, so that it keeps the documents alone. The
shortest time of the rounds counts, and the median of the peaks. Nothing tests these numbers.
"""
import argparse
import atexit
import os
import random
import statistics
import subprocess
import sys
import tempfile
import threading
import time

WORDS = ("amber bridge cloud delta ember forest garden harbor island jungle kettle lantern meadow north ocean "
         "pebble quartz river saddle timber umber valley willow yonder zephyr").split()
TAGS = "red green blue white".split()
MOST_BODY = 16 * 1024 * 1024
IN_MEMORY = "/dev/shm" if os.access("/dev/shm", os.W_OK) else None
# At most 16 tasks wait, and behind each of these replies the oldest of them run: when the last one comes, all have run.
SETTLED = [b"GET /health HTTP/1.1\r\n\r\n"] * 17
BINARY = os.path.join(os.path.dirname(os.path.abspath(__file__)), "..", "crates", "rank_server", "out", "rank_server")


def started(binary, *words, place=IN_MEMORY, **streams):
    """A process of the program in a new folder, which goes when the script ends; in memory, where a sync costs nothing."""
    folder = tempfile.TemporaryDirectory(prefix="rank-", dir=place)
    atexit.register(folder.cleanup)
    process = subprocess.Popen([os.path.abspath(binary), *words], cwd=folder.name, **streams)
    atexit.register(process.kill)
    return process


def words(draw, count):
    return " ".join(draw.choice(WORDS) for _ in range(count))


def small(draw, number):
    return '{"id":%d,"tags":["%s"],"title":"%s","year":%d}' % (
        number, draw.choice(TAGS), words(draw, 4), 1990 + draw.randrange(30))


def catalogue(draw, number):
    return '{"description":"%s","id":%d,"price":%d,"tags":["%s","%s"],"title":"%s"}' % (
        words(draw, 150), number, draw.randrange(100000), draw.choice(TAGS), draw.choice(TAGS), words(draw, 5))


def request(body):
    return b"POST /indexes/shop/documents HTTP/1.1\r\ncontent-length: %d\r\n\r\n" % len(body) + body


def bodies(count, size):
    draw = random.Random(7)
    for first in range(1, count + 1, size):
        rows = [small(draw, number) for number in range(first, min(first + size, count + 1))]
        yield ("[" + ",".join(rows) + "]").encode()


def large_body(make):
    draw = random.Random(7)
    rows, size, number = [], 2, 0
    while True:
        number += 1
        row = make(draw, number)
        if size + len(row) + 1 > MOST_BODY:
            break
        size += len(row) + 1
        rows.append(row)
    return len(rows), ("[" + ",".join(rows) + "]").encode()


def no_words():
    body = b'{"searchableAttributes":[]}'
    return b"PATCH /indexes/shop/settings HTTP/1.1\r\ncontent-length: %d\r\n\r\n" % len(body) + body


def send(pipe, data):
    pipe.write(data)
    pipe.flush()


def entry(file, name):
    """The bytes that a file of /proc has under a name."""
    with open(file) as lines:
        return next(int(line.split()[1]) * 1024 for line in lines if line.startswith(name))


def run(binary, changes):
    """(seconds, peak bytes, those without pages of files) until all of the changes are made."""
    server = started(binary, "pipe", stdin=subprocess.PIPE, stdout=subprocess.PIPE)
    requests = changes + SETTLED
    begun = time.monotonic()
    writer = threading.Thread(target=send, args=(server.stdin, b"".join(requests)))
    writer.start()
    replies = b""
    while replies.count(b"HTTP/1.1 ") < len(requests) or not replies.endswith(b"}"):
        piece = os.read(server.stdout.fileno(), 1 << 16)
        if not piece:
            sys.exit("load.py: the server ended early")
        replies += piece
    seconds = time.monotonic() - begun
    writer.join()
    # Its input is still open, so it waits for more and its peak can be read.
    peak = entry(f"/proc/{server.pid}/status", "VmHWM:")
    held = f"/proc/{server.pid}/smaps_rollup"
    own = peak - (entry(held, "Rss:") - entry(held, "Anonymous:"))
    server.stdin.close()
    if server.wait() != 0 or replies.count(b"HTTP/1.1 202 ") != len(changes):
        sys.exit("load.py: a request was not accepted")
    return seconds, peak, own


def runs(binary, rounds, requests):
    """(least seconds, median peak bytes, median of those without pages of files) of some runs."""
    seconds, peaks, own = zip(*(run(binary, requests) for _ in range(rounds)))
    return min(seconds), statistics.median(peaks), statistics.median(own)


def measure(binary, rounds, name, count, sent, first):
    size = sum(len(body) for body in sent)
    requests = first + [request(body) for body in sent]
    return name, count, size, *runs(binary, rounds, requests)


def main():
    parser = argparse.ArgumentParser()
    parser.add_argument("binary", nargs="?", default=BINARY)
    parser.add_argument("--rounds", type=int, default=9)
    parser.add_argument("--no-words", action="store_true")
    asked = parser.parse_args()
    first = [no_words()] if asked.no_words else []
    loads = [measure(asked.binary, asked.rounds, f"{count} small", count, list(bodies(count, 1000)), first)
             for count in (1000, 10000, 100000)]
    for name, make in (("16 MiB, 1 KiB each", catalogue), ("16 MiB, small", small)):
        count, body = large_body(make)
        loads.append(measure(asked.binary, asked.rounds, name, count, [body], first))
    base = loads[0][3] / loads[0][1]
    _, whole, process = runs(asked.binary, asked.rounds, [request(body) for body in bodies(1, 1)])
    print(f"the process itself: {whole / 1e6:.2f} MB, without pages of files {process / 1e6:.2f} MB")
    print(f"{'load':>18} {'documents':>10} {'MB':>7} {'docs/s':>9} {'MB/s':>7} {'time/doc':>9} {'peak/JSON':>10} {'added':>7}")
    for name, count, size, seconds, peak, own in loads:
        print(f"{name:>18} {count:>10} {size / 1e6:>7.2f} {count / seconds:>9.0f} {size / 1e6 / seconds:>7.1f}"
              f" {seconds / count / base:>9.2f} {peak / size:>10.2f} {(own - process) / size:>7.2f}")


if __name__ == "__main__":
    main()
