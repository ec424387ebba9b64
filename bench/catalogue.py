#!/usr/bin/env python3
"""Loads an index of catalogue documents through `rank_server pipe`, and prints what it and searches of it cost.

    bench/catalogue.py BIN [DOCUMENTS]

A document has a title of 6 words, a text of 40 and two attributes that are filtered and counted, `brand` (300 values)
and `price`. It prints the processor time of the program for loading them, its memory beside their JSON, the time of a
small replacement that is waited for, and mean times of searches by class, each over the same words. The words are
drawn so that the k-th is about k times rarer than the first. Nothing here is a test: it prints, and nothing depends on
it.
"""
import json
import random
import subprocess
import sys
import time

import load

BATCH = 1000
QUERIES = 100


def words(rng, many):
    """Makes up `many` words of two to nine letters."""
    made, seen = [], set()
    while len(made) < many:
        word = "".join(rng.choice("abcdefghijklmnopqrstuvwxyz") for _ in range(rng.randint(2, 9)))
        if word not in seen:
            seen.add(word)
            made.append(word)
    return made


class Catalogue:
    """Documents by number, the same on each run."""

    def __init__(self, seed=7):
        self.rng = random.Random(seed)
        self.words = words(self.rng, 50_000)
        self.weights = [1 / (k + 3) for k in range(len(self.words))]
        total, self.sums = 0.0, []
        for weight in self.weights:
            total += weight
            self.sums.append(total)
        self.brands = [word.title() for word in words(self.rng, 300)]

    def draw(self, many):
        return self.rng.choices(self.words, cum_weights=self.sums, k=many)

    def document(self, number):
        rng = self.rng
        brand = self.brands[min(int(rng.expovariate(0.02)), 299)]
        return {
            "id": number,
            "title": " ".join(self.draw(6)),
            "text": " ".join(self.draw(40)),
            "brand": brand,
            "price": rng.randint(1, 5000),
        }


class Program:
    """The program behind two pipes."""

    def __init__(self, path):
        self.process = load.started(path, "pipe", stdin=subprocess.PIPE, stdout=subprocess.PIPE)
        self.out = self.process.stdout
        self.task = None

    def ask(self, method, path, body=None):
        text = json.dumps(body, separators=(",", ":")).encode() if body is not None else b""
        head = f"{method} {path} HTTP/1.1\r\ncontent-length: {len(text)}\r\n\r\n".encode()
        self.process.stdin.write(head + text)
        self.process.stdin.flush()
        status = self.out.readline()
        length = 0
        while True:
            line = self.out.readline()
            if line in (b"\r\n", b""):
                break
            if line.lower().startswith(b"content-length:"):
                length = int(line.split(b":")[1])
        return status, self.out.read(length), len(text)

    def change(self, method, path, body):
        """Sends a change, which must be accepted, and tells how many bytes its body has."""
        status, reply, length = self.ask(method, path, body)
        if b" 202 " not in status:
            sys.exit(f"{status} {reply[:200]}")
        self.task = json.loads(reply)["taskUid"]
        return length

    def settle(self):
        """Waits until the last change was made, and so all before it."""
        told = {"status": "enqueued"}
        while told["status"] == "enqueued":
            told = json.loads(self.ask("GET", f"/tasks/{self.task}")[1])
        if told["status"] != "succeeded":
            sys.exit(f"{told}")

    def cpu(self):
        with open(f"/proc/{self.process.pid}/schedstat") as file:
            return int(file.read().split()[0]) / 1e9

    def memory(self):
        with open(f"/proc/{self.process.pid}/status") as file:
            rows = dict(line.split(":", 1) for line in file)
        return sum(int(rows[name].split()[0]) for name in ("VmRSS", "VmSwap")) * 1024


def ask_all(program, bodies):
    start = time.perf_counter()
    cpu = program.cpu()
    for body in bodies:
        status, reply, _ = program.ask("POST", "/indexes/c/search", body)
        if b" 200 " not in status:
            sys.exit(f"{status} {reply[:200]}")
    many = len(bodies)
    return (program.cpu() - cpu) / many * 1e6, (time.perf_counter() - start) / many * 1e6


def main():
    many = int(sys.argv[2]) if len(sys.argv) > 2 else 100_000
    catalogue = Catalogue()
    program = Program(sys.argv[1])
    program.change("PATCH", "/indexes/c/settings", {
        "searchableAttributes": ["title", "text"],
        "filterableAttributes": ["brand", "price"],
        "sortableAttributes": ["price"],
    })
    program.settle()
    print(f"{many} documents")
    empty, cpu, size = program.memory(), program.cpu(), 0
    for first in range(0, many, BATCH):
        batch = [catalogue.document(number) for number in range(first, min(first + BATCH, many))]
        size += program.change("POST", "/indexes/c/documents", batch)
    program.settle()
    spent = program.cpu() - cpu
    print(f"load: {spent / many * 1e6:.1f} us of processor a document")
    print(f"memory: {(program.memory() - empty) / size:.2f} times their JSON of {size / many:.0f} bytes")
    cpu = program.cpu()
    for number in range(200):
        program.change("POST", "/indexes/c/documents", [catalogue.document(number * 37 % many)])
        program.settle()
    print(f"one replaced: {(program.cpu() - cpu) / 200 * 1e6:.0f} us")
    rng = catalogue.rng
    common = catalogue.words[:2000]

    def one():
        return rng.choices(common, cum_weights=catalogue.sums[:2000], k=1)[0]

    texts = [catalogue.document(0)["text"].split() for _ in range(QUERIES)]
    classes = {
        "one word": [{"q": one() + " "} for _ in range(QUERIES)],
        "two words": [{"q": f"{one()} {one()} "} for _ in range(QUERIES)],
        "three words": [{"q": f"{one()} {one()} {one()} "} for _ in range(QUERIES)],
        "prefix": [{"q": one()[:2]} for _ in range(QUERIES)],
        "phrase": [{"q": f'"{text[0]} {text[1]}"'} for text in texts],
        "no word": [{"q": ""} for _ in range(QUERIES)],
        "filter": [{"q": one() + " ", "filter": f"price > {rng.randint(1, 5000)}"} for _ in range(QUERIES)],
        "sorted": [{"q": one() + " ", "sort": ["price:asc"]} for _ in range(QUERIES)],
        "facets": [{"q": one() + " ", "facets": ["brand"]} for _ in range(QUERIES)],
        "all facets": [{"q": "", "facets": ["brand", "price"]} for _ in range(QUERIES // 10)],
        "costs": [{"q": one() + " ", "showCosts": True} for _ in range(QUERIES)],
    }
    for name, bodies in classes.items():
        cpu, wall = ask_all(program, bodies)
        print(f"{name}: {cpu:.0f} us of processor, {wall:.0f} us in all")
    program.process.stdin.close()
    program.process.wait()


if __name__ == "__main__":
    main()
