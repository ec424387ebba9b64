#!/usr/bin/env python3
"""Changes single documents of an index through `rank_server pipe` and prints what each costs by the index's size.

    bench/changes.py [BIN] [--rounds N]

An index is loaded with 1,000, 10,000 and 100,000 small documents (about 80 bytes). Then requests of one document each
are sent: new documents are added, stored ones replaced, updated and removed, each with `GET /health` behind it, so
that it is made by itself and not with up to 15 others; and a page of twenty is listed from the middle on. For each
kind it prints microseconds of one and, in brackets, the ratio to those at 1,000 documents. The best of the rounds
counts. Nothing tests these numbers.
"""
import argparse
import os
import subprocess
import sys
import threading
import time

import load

REQUESTS = 400
ADDED = b'[{"id":%d,"tags":["red"],"title":"amber bridge cloud delta","year":2001}]'
REPLACING = b'[{"id":%d,"tags":["blue"],"title":"delta ember forest garden","year":2002}]'


def request(method, target, body=b""):
    return b"%s %s HTTP/1.1\r\ncontent-length: %d\r\n\r\n" % (method, target, len(body)) + body


def one(method, document):
    return request(method, b"/indexes/shop/documents", document)


def each_alone(changes):
    """The changes, each made behind the reply to a request of its own."""
    return [request for change in changes for request in (change, load.SETTLED[0])]


def kinds(count):
    """Each kind of request, in the order in which they are sent. Ids are spread over the index."""
    step = max(count // REQUESTS, 1)
    spread = [1 + (step * k) % count for k in range(REQUESTS)]
    return [
        ("add", each_alone([one(b"POST", ADDED % (count + k)) for k in range(1, REQUESTS + 1)])),
        ("replace", each_alone([one(b"POST", REPLACING % k) for k in spread])),
        ("update", each_alone([one(b"PUT", b'[{"id":%d,"year":2003}]' % k) for k in spread])),
        ("list", [request(b"GET", b"/indexes/shop/documents?offset=%d&limit=20" % (count // 2))] * REQUESTS),
        ("remove", each_alone([request(b"DELETE", b"/indexes/shop/documents/%d" % k) for k in spread])),
    ]


class Server:
    def __init__(self, binary):
        self.process = load.started(binary, "pipe", stdin=subprocess.PIPE, stdout=subprocess.PIPE)

    def seconds(self, requests):
        """How long it takes until the last of the replies has come."""
        begun = time.monotonic()
        writer = threading.Thread(target=self.send, args=(b"".join(requests),))
        writer.start()
        left, kept = len(requests), b""
        while left > 0:
            piece = os.read(self.process.stdout.fileno(), 1 << 16)
            if not piece:
                sys.exit("changes.py: the server ended early")
            kept += piece
            left, kept = self.whole_replies(left, kept)
        writer.join()
        return time.monotonic() - begun

    @staticmethod
    def whole_replies(left, kept):
        while left > 0:
            head = kept.find(b"\r\n\r\n")
            if head < 0:
                break
            lines = kept[:head].split(b"\r\n")
            length = next(int(line[16:]) for line in lines if line.startswith(b"content-length: "))
            if len(kept) < head + 4 + length:
                break
            if lines[0].split(b" ")[1] not in (b"200", b"202"):
                sys.exit("changes.py: a request was refused")
            kept = kept[head + 4 + length:]
            left -= 1
        return left, kept

    def send(self, requests):
        self.process.stdin.write(requests)
        self.process.stdin.flush()

    def end(self):
        self.process.stdin.close()
        if self.process.wait() != 0:
            sys.exit("changes.py: the server failed")


def measure(binary, count):
    server = Server(binary)
    server.seconds([load.request(body) for body in load.bodies(count, 1000)] + load.SETTLED)
    taken = {name: server.seconds(requests) / REQUESTS for name, requests in kinds(count)}
    server.end()
    return taken


def main():
    parser = argparse.ArgumentParser()
    parser.add_argument("binary", nargs="?", default=load.BINARY)
    parser.add_argument("--rounds", type=int, default=3)
    asked = parser.parse_args()
    names = [name for name, _ in kinds(1)]
    print(f"{'documents':>10} " + " ".join(f"{name:>18}" for name in names))
    base = None
    for count in (1000, 10000, 100000):
        rounds = [measure(asked.binary, count) for _ in range(asked.rounds)]
        best = {name: min(taken[name] for taken in rounds) for name in names}
        base = base or best
        print(f"{count:>10} " + " ".join(f"{best[name] * 1e6:>9.1f} us ({best[name] / base[name]:>4.2f})" for name in names))


if __name__ == "__main__":
    main()
