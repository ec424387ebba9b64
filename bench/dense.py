#!/usr/bin/env python3
"""Compares what two builds of `rank_server` answer in random sessions over dense indexes.

    bench/dense.py BEFORE AFTER [--seeds FIRST..LAST] [--documents N] [--requests N]

The documents of a session draw their words from a few, so that lists are long, and documents meet many conditions at
once. Their numbers lie around zero, at the ends of what a number may be, and beyond what fits in 64 bits; there are
texts, nulls, lists of several values and nested members, and in some sessions some fifty paths. Documents are replaced,
updated and taken out one by one and by thousands, so that in the end few documents may have high internal ids. Searches
ask for filters, sorts, counts, costs, pages and either strategy, under random orders of the rules. Each request is one
of `pipe` to both programs, and the replies have to be the same. It prints the requests that differ and how many were
compared, and ends with status 1 if one differs.
"""
import argparse
import json
import random
import subprocess
import sys

import load

NUMBERS = [2**63, 2**63 - 1, -(2**63), -(2**63) + 1, 2**64 - 1, 10**12, -(10**12), 127, 128, -129, 16384, 0]
TEXTS = ["Red", "red", "BLUE", "5", "-3", "", "Grün", "a b"]
ORDERS = [
    ["words", "sort", "proximity", "attribute", "exactness"],
    ["sort", "words", "attribute"],
    ["attribute", "words", "exactness", "n:desc"],
    ["proximity", "c:asc", "words"],
    ["exactness", "attribute"],
]


class Session:
    """The requests of one seed."""

    def __init__(self, seed, documents):
        self.rng = random.Random(seed)
        letters = [self.rng.choice("abcde") for _ in range(600)]
        many = self.rng.choice([8, 40, 200])
        self.words = ["".join(self.rng.choices(letters, k=self.rng.randint(1, 4))) for _ in range(many)]
        self.documents = documents
        self.paths = self.rng.choice([0, 0, 50])

    def value(self):
        """A value of a member: a number, a text, nothing, a truth or several of them."""
        at = self.rng.random()
        if at < 0.4:
            return self.rng.randint(-30, 30)
        if at < 0.5:
            return self.rng.choice(NUMBERS)
        if at < 0.8:
            return self.rng.choice(TEXTS)
        if at < 0.9:
            return self.rng.choice([None, True, False])
        return [self.value() for _ in range(self.rng.randint(0, 3))]

    def text(self):
        """Some words of a member."""
        text = " ".join(self.rng.choices(self.words, k=self.rng.randint(0, 12)))
        return text + self.rng.choice(["", ".", ", x. y", "!"])

    def document(self, number):
        """A document of an external id."""
        made = {"id": number, "t": self.text(), "u": self.text()}
        if self.rng.random() < 0.8:
            made["n"] = self.rng.randint(-40, 40) if self.rng.random() < 0.8 else self.value()
        if self.rng.random() < 0.8:
            made["c"] = self.value()
        if self.rng.random() < 0.2:
            made["v"] = {"w": self.text(), "m": self.value()}
        for path in self.rng.sample(range(self.paths), min(3, self.paths)):
            made[f"p{path}"] = self.text()
        return made

    def settings(self):
        """The settings of the index."""
        made = {
            "filterableAttributes": ["n", "c", "v.m"],
            "sortableAttributes": ["n", "c"],
            "searchableAttributes": self.rng.choice([["t", "u"], ["u"], ["*"]]),
        }
        if self.rng.random() < 0.5:
            made["rankingRules"] = self.rng.choice(ORDERS)
        if self.rng.random() < 0.3:
            made["synonyms"] = {self.words[0]: [f"{self.words[1]} {self.words[2]}", self.words[3]]}
        return made

    def filter(self, depth=0):
        """An expression of a filter."""
        at, name = self.rng.random(), self.rng.choice(["n", "c", "v.m"])
        if at < 0.35:
            end = self.rng.choice([self.rng.randint(-45, 45), 2**63, -(2**63), -(10**12), 128])
            return f"{name} {self.rng.choice(['>', '>=', '<', '<='])} {end}"
        if at < 0.5:
            return f"{name} {self.rng.randint(-30, 0)} TO {self.rng.randint(-5, 30)}"
        if at < 0.7:
            return f"{name} = {self.rng.choice([str(self.rng.randint(-40, 40)), 'red', 'BLUE', '5'])}"
        if at < 0.78 or depth > 2:
            return f"{name} {self.rng.choice(['EXISTS', 'IS NULL', 'IS EMPTY', 'NOT EXISTS'])}"
        if at < 0.85:
            return f"NOT ({self.filter(depth + 1)})"
        return f"({self.filter(depth + 1)}) {self.rng.choice(['AND', 'OR'])} ({self.filter(depth + 1)})"

    def query(self):
        """The text of a search."""
        words = self.rng.choices(self.words, k=self.rng.randint(1, 4))
        text = " ".join(words)
        at = self.rng.random()
        if at < 0.2 and len(words) > 1:
            return f'"{text}"'
        return text + " " if at < 0.6 else text[:-1]

    def search(self):
        """A search."""
        made = {}
        if self.rng.random() < 0.8:
            made["q"] = self.query()
        if self.rng.random() < 0.4:
            made["filter"] = self.filter()
        if self.rng.random() < 0.4:
            made["sort"] = [f"{self.rng.choice(['n', 'c'])}:{self.rng.choice(['asc', 'desc'])}"]
        if self.rng.random() < 0.4:
            made["facets"] = self.rng.choice([["n"], ["c"], ["n", "c", "v.m"], ["*"]])
        if self.rng.random() < 0.3:
            made["showCosts"] = True
        if self.rng.random() < 0.4:
            made["limit"], made["offset"] = self.rng.choice([1, 3, 50, 1000]), self.rng.choice([0, 0, 5, 200])
        if self.rng.random() < 0.5:
            made["matchingStrategy"] = self.rng.choice(["all", "last"])
        return "POST", "/indexes/x/search", made

    def request(self):
        """A request of any kind."""
        rng, many = self.rng, self.documents
        at = rng.random()
        if at < 0.12:
            numbers = [rng.randrange(many * 11 // 10) for _ in range(rng.choice([1, 1, 5, 200]))]
            return "POST", "/indexes/x/documents", [self.document(number) for number in numbers]
        if at < 0.18:
            numbers = [rng.randrange(many) for _ in range(rng.choice([1, 10, many // 2, many * 4]))]
            return "POST", "/indexes/x/documents/delete-batch", numbers
        if at < 0.22:
            return "DELETE", f"/indexes/x/documents/{rng.randrange(many)}", None
        if at < 0.25:
            return "PUT", "/indexes/x/documents", [{"id": rng.randrange(many), "n": rng.randint(-9, 9)}]
        if at < 0.255:
            return "DELETE", "/indexes/x/documents", None
        return self.search()

    def requests(self, many):
        """The settings, the documents, and random requests."""
        yield "PATCH", "/indexes/x/settings", self.settings()
        for at in range(0, self.documents, 500):
            yield "POST", "/indexes/x/documents", [self.document(at + k) for k in range(min(500, self.documents - at))]
        for _ in range(many):
            yield self.request()


class Program:
    """A process of `pipe`, which is asked one request after the other."""

    def __init__(self, binary):
        self.process = load.started(binary, "pipe", stdin=subprocess.PIPE, stdout=subprocess.PIPE)

    def ask(self, method, path, payload):
        """The status line and the body of the reply."""
        head = f"{method} {path} HTTP/1.1\r\ncontent-length: {len(payload)}\r\n\r\n"
        self.process.stdin.write(head.encode() + payload)
        self.process.stdin.flush()
        out, length = self.process.stdout, 0
        status = out.readline()
        while (line := out.readline().strip()):
            name, _, value = line.partition(b":")
            if name.lower() == b"content-length":
                length = int(value)
        return status, out.read(length)

    def end(self):
        """Ends the process."""
        self.process.stdin.close()
        self.process.wait()


def compare(programs, requests):
    """Sends the requests to both programs; gives how many there were, and those that were answered otherwise."""
    asked, other = 0, []
    for method, path, body in requests:
        payload = b"" if body is None else json.dumps(body, separators=(",", ":")).encode()
        replies = [program.ask(method, path, payload) for program in programs]
        asked += 1
        if len(set(replies)) > 1:
            other.append((method, path, payload[:200], replies))
    return asked, other


def main():
    """Compares both programs over the seeds."""
    arguments = argparse.ArgumentParser(description=__doc__.split("\n")[0])
    arguments.add_argument("programs", nargs=2)
    arguments.add_argument("--seeds", default="1..20")
    arguments.add_argument("--documents", type=int, default=20_000)
    arguments.add_argument("--requests", type=int, default=60)
    given = arguments.parse_args()
    first, last = map(int, given.seeds.split(".."))
    asked = differ = 0
    for seed in range(first, last + 1):
        programs = [Program(path) for path in given.programs]
        many, other = compare(programs, Session(seed, given.documents).requests(given.requests))
        for program in programs:
            program.end()
        asked, differ = asked + many, differ + len(other)
        for row in other[:3]:
            print("differs:", seed, *row)
    print(f"{asked} requests over {last - first + 1} seeds, {differ} differ")
    sys.exit(differ > 0)


if __name__ == "__main__":
    main()
