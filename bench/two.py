#!/usr/bin/env python3
"""Starts a second rank_server in the folder of a first, and a third right after the first was killed.

    bench/two.py [BIN] [--rounds N]

The first, the second and the third are `pipe` or `serve`, in all eight ways, in one folder. The first acknowledges
changes. The second must end with 6, write nothing and leave the two files as they are, and the first must go on. Then
the first is killed with SIGKILL, and the third is started as soon as it has ended: it must hold each document that was
acknowledged, of this round and of all before it.
"""
import argparse
import atexit
import itertools
import json
import os
import pathlib
import subprocess
import sys
import tempfile

import demo
import kill
import load
import serve

WORDS = ("pipe", "serve")


class Program:
    """The program on the files of a folder, which is asked over its standard streams or over connections."""

    def __init__(self, binary, folder, word):
        self.port = serve.free_port() if word == "serve" else None
        words = [binary, word] if self.port is None else [binary, word, str(self.port), "1000"]
        self.process = subprocess.Popen(words, cwd=folder, stdin=subprocess.PIPE, stdout=subprocess.PIPE)
        atexit.register(self.process.kill)

    def ask(self, sent):
        if self.port is not None:
            return serve.ask_anew(self.port, sent)
        self.process.stdin.write(sent)
        self.process.stdin.flush()
        return demo.reply(lambda most: os.read(self.process.stdout.fileno(), most))

    def add(self, number):
        status, body = self.ask(demo.request(b"POST", b"/indexes/shop/documents", [{"id": number}]))
        if status != 202:
            sys.exit(f"document {number} was refused: {body.decode()}")

    def numbers(self):
        """The ids of all documents."""
        _, body = self.ask(b"GET /indexes/shop/documents?limit=1000000 HTTP/1.1\r\n\r\n")
        return [document["id"] for document in json.loads(body)["results"]]

    def killed(self):
        self.process.kill()
        self.process.communicate()


def refused(binary, folder, word):
    """Starts a second program, which may not begin."""
    before = kill.read_disk.contents_of(folder)
    second = Program(binary, folder, word)
    written, _ = second.process.communicate()
    if (second.process.returncode, written) != (6, b""):
        sys.exit(f"a second `{word}` ended with {second.process.returncode} and wrote {written}")
    if kill.read_disk.contents_of(folder) != before:
        sys.exit(f"a second `{word}` changed the files")


def one_round(binary, folder, words, acknowledged):
    first = Program(binary, folder, words[0])
    for again in (False, True):
        first.add(len(acknowledged))
        acknowledged.append(len(acknowledged))
        if not again:
            refused(binary, folder, words[1])
    first.killed()
    third = Program(binary, folder, words[2])
    if third.numbers() != acknowledged:
        sys.exit(f"{len(acknowledged)} documents were acknowledged, and these are held: {third.numbers()}")
    third.killed()


def main():
    parser = argparse.ArgumentParser()
    parser.add_argument("binary", nargs="?", default=load.BINARY)
    parser.add_argument("--rounds", type=int, default=10)
    asked = parser.parse_args()
    acknowledged = []
    with tempfile.TemporaryDirectory(prefix="two-") as name:
        for words in itertools.product(WORDS, repeat=3):
            for _ in range(asked.rounds):
                one_round(os.path.abspath(asked.binary), pathlib.Path(name), words, acknowledged)
    print(f"{len(acknowledged) // 2} times a second program was refused and the first was killed: "
          f"{len(acknowledged)} documents were acknowledged, all are held")


if __name__ == "__main__":
    main()
