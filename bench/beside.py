#!/usr/bin/env python3
"""Asks `rank_server pipe` and the full-text index of SQLite (FTS5) for the same things, and prints what each takes.

    bench/beside.py BIN [DOCUMENTS]

The documents, and the words of the searches, are those of bench/catalogue.py. Both give the best twenty hits of a search
and how many documents match, by orders of their own: SQLite's is bm25. A search of several words asks for documents that
have all of them. SQLite runs inside this script, on a database in memory, and no text goes between two programs; of
`rank_server` counts the processor time of the program, with the reading of the request and the writing of the reply. The
twenty hits are their ids. It needs Python's sqlite3 with FTS5. Nothing tests these numbers.
"""
import sqlite3
import sys
import time

import catalogue


def fill(program, many):
    """Loads both with the same documents, and tells the microseconds a document of each."""
    made = catalogue.Catalogue()
    program.change("PATCH", "/indexes/c/settings", {
        "searchableAttributes": ["title", "text"],
        "filterableAttributes": ["brand", "price"],
        "sortableAttributes": ["price"],
        "pagination": {"maxTotalHits": 1_000_000},
    })
    program.settle()
    base = sqlite3.connect(":memory:")
    base.execute("create virtual table c using fts5(title, text, prefix='2')")
    ours, theirs = program.cpu(), 0.0
    for first in range(0, many, catalogue.BATCH):
        batch = [made.document(number) for number in range(first, min(first + catalogue.BATCH, many))]
        program.change("POST", "/indexes/c/documents", batch)
        rows = [(document["id"], document["title"], document["text"]) for document in batch]
        begun = time.process_time()
        with base:
            base.executemany("insert into c(rowid, title, text) values (?, ?, ?)", rows)
        theirs += time.process_time() - begun
    program.settle()
    return made, base, (program.cpu() - ours) / many * 1e6, theirs / many * 1e6


def ask_program(program, texts):
    begun = program.cpu()
    for text in texts:
        body = {"q": text, "matchingStrategy": "all", "attributesToRetrieve": ["id"]}
        status, reply, _ = program.ask("POST", "/indexes/c/search", body)
        if b" 200 " not in status:
            sys.exit(f"{status} {reply[:200]}")
    return (program.cpu() - begun) / len(texts) * 1e6


def ask_base(base, texts):
    begun = time.process_time()
    for text in texts:
        base.execute("select rowid from c where c match ? order by rank limit 20", (text,)).fetchall()
        base.execute("select count(*) from c where c match ?", (text,)).fetchone()
    return (time.process_time() - begun) / len(texts) * 1e6


def measure(binary, many):
    program = catalogue.Program(binary)
    made, base, ours, theirs = fill(program, many)
    print(f"{many} documents: {ours:.0f} us a document, SQLite {theirs:.0f} us")
    common = made.words[:2000]

    def draw():
        return made.rng.choices(common, cum_weights=made.sums[:2000], k=1)[0]

    words = [[draw(), draw(), draw()] for _ in range(catalogue.QUERIES)]
    texts = [made.document(0)["text"].split() for _ in range(catalogue.QUERIES)]
    classes = {
        "one word": ([f"{a} " for a, _, _ in words], [f'"{a}"' for a, _, _ in words]),
        "two words": ([f"{a} {b} " for a, b, _ in words], [f'"{a}" AND "{b}"' for a, b, _ in words]),
        "three words": ([f"{a} {b} {c} " for a, b, c in words], [f'"{a}" AND "{b}" AND "{c}"' for a, b, c in words]),
        "prefix": ([a[:2] for a, _, _ in words], [f'"{a[:2]}"*' for a, _, _ in words]),
        "phrase": ([f'"{t[0]} {t[1]}"' for t in texts],) * 2,
    }
    for name, (ours, theirs) in classes.items():
        program_time, base_time = ask_program(program, ours), ask_base(base, theirs)
        print(f"{name:12} {program_time:8.0f} us, SQLite {base_time:8.0f} us, {base_time / program_time:.1f} times")
    program.process.stdin.close()
    program.process.wait()


def main():
    measure(sys.argv[1], int(sys.argv[2]) if len(sys.argv) > 2 else 100_000)


main()
