#!/usr/bin/env python3
"""Sends requests that are made to be dear to `rank_server`, and prints what each takes of a processor and of memory.

    bench/hostile.py BIN... [--serve] [--only NAME,..] [--scale X] [--rounds N]

A shape is one kind of request over some documents, with a number that says how long it is. Each is sent at half of its
length and at the whole, by turns to each program, the first time to a program that holds just these documents. For the
whole length it prints the bytes of the request, processor seconds, the nanoseconds for each byte, and the memory that
the program held at its peak above what it held before, in MB and for each byte; "grown" is the time against that of
half the length (2 is linear). Of several programs each has in brackets its ratio to the first one, and replies that
differ are told. A change counts until it was made. The last lines are the worst shape of each program by time for each
byte, and the requests of at most 1 MiB over many documents that took more than a second. The least of the rounds
counts. With --serve the request goes over a connection of its own. A program gets 6 GB of address space, and 300
seconds for a request. --scale 0.1 makes all requests a tenth as long. Nothing here is a test: it prints, and nothing
depends on it.
"""
import argparse
import collections
import json
import os
import resource
import select
import subprocess
import sys
import time

import demo
import load
import serve

MANY = 60_000
VALUES = 20_000
BODY = 4 << 20
MOST_MEMORY = 6 << 30
MOST_SECONDS = 300
SETTINGS = {"searchableAttributes": ["name"], "filterableAttributes": ["size", "stock", "tags"],
            "sortableAttributes": ["size"]}

# A kind of request: over which documents, how long it is, what makes the bytes of one so long, whether it changes them.
Shape = collections.namedtuple("Shape", "name documents length make changes")
# What a request came to: its bytes, its status, its reply or what was told of its task, processor seconds, and bytes
# of memory above what was held.
Spent = collections.namedtuple("Spent", "bytes status reply seconds memory")


def compact(members):
    return json.dumps(members, separators=(",", ":")).encode()


def many_documents():
    """Each has a size of its own, one of ten stocks, and eight of 20,000 tags."""
    return [{"id": number, "name": f"lamp {number % 100}", "size": number * 7919 % MANY, "stock": number % 10,
             "tags": [f"t{(number * 8 + which) * 7 % VALUES}" for which in range(8)]} for number in range(MANY)]


def products():
    return [{"id": number, "name": f"chair {number}", "brand": f"brand {number % 20}", "price": number * 10}
            for number in range(500)]


DOCUMENTS = {
    "many": many_documents,
    "500": products,
    "one": lambda: [{"id": 1, "name": "lamp", "stock": 2}],
    "large": lambda: [{"id": 1, "text": "a" * 800_000}],
    "none": lambda: [],
}


def bodies(rows):
    """The documents as lists of at most about so many bytes."""
    texts, size = [], 0
    for text in map(compact, rows):
        if texts and BODY < size + len(text):
            yield b"[%s]" % b",".join(texts)
            texts, size = [], 0
        texts.append(text)
        size += len(text) + 1
    if texts:
        yield b"[%s]" % b",".join(texts)


def search(members):
    return demo.request(b"POST", b"/indexes/c/search", members)


def put_in(method, body):
    return b"%s /indexes/c/documents HTTP/1.1\r\ncontent-length: %d\r\n\r\n" % (method, len(body)) + body


def filtered(conditions, word):
    return search({"filter": f" {word} ".join(conditions), "limit": 1})


def one_of(attribute, values):
    return search({"filter": f"{attribute} IN [{','.join(values)}]", "limit": 1})


def fields(length):
    names = ",".join("a" for _ in range(length)).encode()
    return b"GET /indexes/c/documents?limit=6000&fields=%s HTTP/1.1\r\n\r\n" % names


def nested(length):
    """A document of 125 objects one in the other, each under the same long name."""
    name = b'{"' + b"a" * length + b'":'
    return put_in(b"POST", b'[{"id":1,"n":' + name * 124 + b"1" + b"}" * 125 + b"]")


def updates(length):
    return put_in(b"PUT", compact([{"id": 1, "n": number} for number in range(length)]))


SHAPES = [
    Shape("ranges joined by AND", "many", 1_000,
          lambda n: filtered([f"size > {number}" for number in range(n)], "AND"), False),
    Shape("ranges joined by OR", "many", 1_000,
          lambda n: filtered([f"size > {number}" for number in range(n)], "OR"), False),
    Shape("ranges that cross joined by AND", "many", 200,
          lambda n: filtered([f"size {number} TO {number + MANY // 2}" for number in range(n)], "AND"), False),
    Shape("ranges that cross joined by OR", "many", 200,
          lambda n: filtered([f"size {number} TO {number + MANY // 2}" for number in range(n)], "OR"), False),
    Shape("one condition again and again", "many", 50_000, lambda n: filtered(["stock = 1"] * n, "AND"), False),
    Shape("IN with frequent values", "many", 20_000,
          lambda n: one_of("stock", [str(number % 10) for number in range(n)]), False),
    Shape("IN with values of few documents", "many", VALUES,
          lambda n: one_of("tags", [f"t{number}" for number in range(n)]), False),
    Shape("facets of one name", "many", 100_000, lambda n: search({"facets": ["stock"] * n, "limit": 0}), False),
    Shape("fields of a listing", "many", 7_900, fields, False),
    Shape("a query of many words", "many", 1_000_000, lambda n: search({"q": "a " * n, "limit": 1}), False),
    Shape("a phrase of many words", "many", 1_000_000, lambda n: search({"q": '"' + "lamp " * n, "limit": 1}), False),
    Shape("attributesToRetrieve", "500", 100_000,
          lambda n: search({"attributesToRetrieve": [f"name{number}" for number in range(n)], "limit": 500}), False),
    Shape("IN with ones", "one", 1_000_000, lambda n: one_of("stock", ["1"] * n), False),
    Shape("updates of one document of 800 KB", "large", 1_000, updates, True),
    Shape("new documents", "none", 400_000,
          lambda n: put_in(b"POST", compact([{"id": number} for number in range(n)])), True),
    Shape("a long name nested 125 times", "none", 130_000, nested, True),
    Shape("numbers of one digit", "none", 8_000_000,
          lambda n: put_in(b"POST", b'[{"id":1,"n":[' + b"1," * (n - 1) + b"1]}]"), True),
]


class Program:
    """The program on `pipe` or `serve`, with some documents."""

    def __init__(self, binary, over_connections, documents):
        self.port = serve.free_port() if over_connections else None
        words = ["serve", str(self.port), "1000000"] if over_connections else ["pipe"]
        self.process = load.started(binary, *words, stdin=subprocess.PIPE, preexec_fn=limited,
                                    stdout=subprocess.DEVNULL if over_connections else subprocess.PIPE)
        self.ask(demo.request(b"PATCH", b"/indexes/c/settings", SETTINGS))
        for body in bodies(DOCUMENTS[documents]()):
            status, reply = self.ask(put_in(b"POST", body))
            if self.made(status, reply)[0] != 202:
                sys.exit(f"{documents}: {reply.decode()}")

    def ask(self, sent):
        if self.port:
            link = serve.connected(self.port)
            with link:
                link.settimeout(MOST_SECONDS)
                return serve.ask_over(link, sent)
        self.process.stdin.write(sent)
        self.process.stdin.flush()
        return demo.reply(self.read)

    def made(self, status, reply):
        """Waits until an accepted change was made: 202, or else what is told of its task. Other replies stay."""
        if status != 202:
            return status, reply
        task = b"GET /tasks/%d HTTP/1.1\r\n\r\n" % json.loads(reply)["taskUid"]
        while True:
            _, told = self.ask(task)
            found = json.loads(told)["status"]
            if found != "enqueued":
                return 202 if found == "succeeded" else found, told

    def read(self, most):
        out = self.process.stdout.fileno()
        return os.read(out, most) if select.select([out], [], [], MOST_SECONDS)[0] else b""

    def held(self, name):
        return load.entry(f"/proc/{self.process.pid}/status", name)

    def spend(self, sent):
        with open(f"/proc/{self.process.pid}/clear_refs", "w") as file:
            file.write("5")
        before, begun = self.held("VmRSS:"), demo.processor(self.process)
        status, reply = self.made(*self.ask(sent))
        return Spent(len(sent), status, reply, demo.processor(self.process) - begun, self.held("VmHWM:") - before)

    def end(self):
        self.process.kill()
        self.process.wait()


def limited():
    resource.setrlimit(resource.RLIMIT_AS, (MOST_MEMORY, MOST_MEMORY))


class Programs:
    """A running program of each binary with the documents that were last asked for."""

    def __init__(self, binaries, over_connections):
        self.binaries, self.over_connections, self.running, self.documents = binaries, over_connections, {}, None

    def spend(self, binary, shape, sent):
        if shape.documents != self.documents:
            self.end()
            self.documents = shape.documents
        if binary not in self.running:
            self.running[binary] = Program(binary, self.over_connections, shape.documents)
        try:
            return self.running[binary].spend(sent)
        except (OSError, SystemExit):
            self.running[binary].end()
            ended = self.running.pop(binary).process.returncode
            return Spent(len(sent), f"no reply, ended with {ended}", b"", MOST_SECONDS, MOST_MEMORY)
        finally:
            if shape.changes and binary in self.running:
                self.running.pop(binary).end()

    def end(self):
        for program in self.running.values():
            program.end()
        self.running.clear()


def least(programs, shape, length, rounds):
    """What each program takes: the least of the rounds, which go by turns."""
    sent = shape.make(max(1, length))
    tried = [{binary: programs.spend(binary, shape, sent) for binary in programs.binaries} for _ in range(rounds)]
    return {binary: min((round[binary] for round in tried), key=lambda spent: spent.seconds)
            for binary in programs.binaries}


def told(value, base, several):
    return f"{value:9.3g}" + (f" {f'({value / max(base, 1e-9):.2g})':>8}" if several else "")


def show(shape, spent, half):
    several = len(spent) > 1
    first = next(iter(spent.values()))
    for number, (binary, it) in enumerate(spent.items()):
        name = f"{shape.name}, over {shape.documents}" if number == 0 else ""
        status = "" if it.status in (200, 202) else f"  {it.status}"
        print(f"{name:>46} {it.bytes:>10,} {told(it.seconds, first.seconds, several)}"
              f" {it.seconds / it.bytes * 1e9:9.0f} {it.seconds / max(half[binary].seconds, 1e-9):6.2f}"
              f" {told(it.memory / 1e6, first.memory / 1e6, several)} {it.memory / it.bytes:8.1f}{status}", flush=True)
    if any(it.reply != first.reply for it in spent.values()):
        print(f"{'':>46} the replies differ")


def summary(binary, rows):
    shape, worst = max(((shape, spent[binary]) for shape, spent in rows), key=lambda row: row[1].seconds / row[1].bytes)
    print(f"{binary}: the worst is {worst.seconds / worst.bytes * 1e9:,.0f} ns a byte, {shape.name}")
    for shape, spent in rows:
        it = spent[binary]
        if shape.documents == "many" and it.bytes <= 1 << 20 and it.seconds > 1:
            print(f"{binary}: {shape.name}: {it.seconds:.1f} s for {it.bytes:,} bytes, above a second")


def main():
    parser = argparse.ArgumentParser()
    parser.add_argument("binaries", nargs="+")
    parser.add_argument("--serve", action="store_true")
    parser.add_argument("--only", default="")
    parser.add_argument("--scale", type=float, default=1)
    parser.add_argument("--rounds", type=int, default=1)
    asked = parser.parse_args()
    shapes = [shape for shape in SHAPES if any(part in shape.name for part in asked.only.split(","))]
    if not shapes:
        parser.error("no shape has such a name")
    programs, rows, begun = Programs(asked.binaries, asked.serve), [], time.monotonic()
    ratio = f" {'ratio':>8}" if len(asked.binaries) > 1 else ""
    head = f"{'shape':>46} {'bytes':>10} {'seconds':>9}{ratio} {'ns/byte':>9} {'grown':>6} {'MB':>9}{ratio} {'MB/MB':>8}"
    print(head, flush=True)
    for shape in shapes:
        length = int(shape.length * asked.scale)
        half = least(programs, shape, length // 2, asked.rounds)
        rows.append((shape, least(programs, shape, length, asked.rounds)))
        show(*rows[-1], half)
    programs.end()
    for binary in asked.binaries:
        summary(binary, rows)
    print(f"{time.monotonic() - begun:.0f} s in all")


if __name__ == "__main__":
    main()
