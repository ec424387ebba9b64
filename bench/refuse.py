#!/usr/bin/env python3
"""Refuses one allocation of `rank_server` after the other, and compares what it answers with an undisturbed run.

    bench/refuse.py [BIN] [--stride N] [--row N] [--only sessions|checkpoint|migration|put_off|growth]

A small library, which is compiled here and loaded before the C library, counts the program's allocations and refuses
number N (with --row, that many from N on). Sessions of `pipe` are served once for each N, or for each that the stride
meets: one of requests of every kind from an empty folder, one from the files that it left, one in which a checkpoint
comes due, with N from just before it on, one from the files of an older program (bench/older), which are written anew
before the first request is read, and one of batches. Each time

- the program ends by itself, with status 0, or with 11 where it could not start, could not read a request, or could not
  run the batch behind a reply,
- a reply is the one of an undisturbed program, or the one for want of memory; a request that got that changed nothing:
  all other replies are those of an undisturbed session without it,
- what the two files hold then is what an undisturbed session leaves in which exactly the other requests were served.

The session of batches goes over three connections of `serve` as well. There the line of a connection says where a batch
was put off: then its tasks wait, the next connection is told so, and behind the first reply on it they run.

Then an index of 2,000 and one of 20,000 documents is made, one document is replaced, and a search asks for one hit. The
numbers at which the batch of that change finds no memory are an interval, and so are those of the search, since two
runs are alike up to the refused allocation. Their ends are found by halving. From the one index to the other both
lengths grow by fewer than 9,000, which a change that copies the index, or a search that takes memory for each document,
could not keep. It needs cc, gcc or clang, and the C library of GNU. The sessions take some four minutes, the
checkpoint six, the batches one, the two indexes one and a half. It ends with status 1 if something is wrong.
"""
import argparse
import collections
import os
import pathlib
import re
import shutil
import socket
import subprocess
import sys
import tempfile
import time

import demo
import load
import older
import serve
from kill import read_disk, replies

LIBRARY = r"""
#include <errno.h>
#include <stddef.h>
#include <stdio.h>
#include <stdlib.h>

extern void *__libc_malloc(size_t);
extern void *__libc_calloc(size_t, size_t);
extern void *__libc_realloc(void *, size_t);
extern void *__libc_memalign(size_t, size_t);

static int counts;
static unsigned long made, first, behind;

static int refused(void)
{
    unsigned long number = made;
    made += counts;
    if (!counts || number < first || number >= behind)
        return 0;
    errno = ENOMEM;
    return 1;
}

__attribute__((constructor)) static void begin(void)
{
    first = strtoul(getenv("REFUSE_FIRST"), 0, 10);
    behind = strtoul(getenv("REFUSE_BEHIND"), 0, 10);
    counts = 1;
}

__attribute__((destructor)) static void end(void)
{
    counts = 0;
    FILE *file = fopen(getenv("REFUSE_COUNT"), "w");
    if (!file)
        return;
    fprintf(file, "%lu", made);
    fclose(file);
}

void *malloc(size_t size) { return refused() ? 0 : __libc_malloc(size); }
void *calloc(size_t count, size_t size) { return refused() ? 0 : __libc_calloc(count, size); }
void *realloc(void *block, size_t size) { return refused() ? 0 : __libc_realloc(block, size); }
void *memalign(size_t align, size_t size) { return refused() ? 0 : __libc_memalign(align, size); }
void *aligned_alloc(size_t align, size_t size) { return refused() ? 0 : __libc_memalign(align, size); }

int posix_memalign(void **block, size_t align, size_t size)
{
    void *made = refused() ? 0 : __libc_memalign(align, size);
    if (!made)
        return ENOMEM;
    *block = made;
    return 0;
}
"""

# The one reply for want of memory, and the statuses with which the program may end.
STARVED = (b"HTTP/1.1 503 Service Unavailable\r\ncontent-length: 59\r\ncontent-type: application/json\r\n\r\n"
           b'{"code":"no_memory","message":"No memory.","type":"system"}')
DONE, NO_MEMORY = 0, 11
FILES = read_disk.FILES
MOST_GROWTH = 9000

GARDEN = [
    {"id": 1, "name": "Garden chair", "brand": "Nord", "colours": ["green", "white"], "price": 49},
    {"id": 2, "name": "Garden lamp", "brand": "Éclair", "colours": ["black"], "price": 20},
    {"id": 3, "name": "Chair for a garden table", "brand": "nord", "size": {"width": 45}, "price": 35},
    {"id": 4, "name": "Oak table", "brand": "NORD", "colours": ["oak"], "price": 480, "sale": True},
    {"id": 5, "name": "Paper lamp", "brand": "Éclair", "price": None},
    {"id": 6, "name": "Gift card for the gardenchair", "brand": "O'Hara", "price": [25, 50, 100]},
]


def ask(method, target, members=None):
    if members is None:
        return b"%s %s HTTP/1.1\r\ncontent-length: 0\r\n\r\n" % (method, target)
    return demo.request(method, target, members)


READ = load.SETTLED[0]


def first_session():
    """Requests of every kind, accepted and refused, from no index on; some tasks run in one batch, and some fail."""
    shop, documents, search = b"/indexes/shop", b"/indexes/shop/documents", b"/indexes/shop/search"
    return [
        ask(b"GET", b"/health"),
        ask(b"POST", b"/indexes", {"uid": "shop", "primaryKey": "id"}),
        ask(b"PATCH", shop + b"/settings", {
            "filterableAttributes": ["brand", "colours", "price"], "sortableAttributes": ["price"],
            "stopWords": ["the"], "synonyms": {"seat": ["chair", "oak table"]}}),
        ask(b"POST", documents, GARDEN),
        ask(b"GET", b"/tasks/2"),
        ask(b"PUT", documents, [{"id": 2, "price": 22}, {"id": 7, "name": "Lamp oil", "price": 5}]),
        ask(b"PUT", documents, [{"id": 2, "sale": True}, {"name": "Lamp without an id"}]),
        ask(b"PUT", documents, [{"id": 7, "brand": "Éclair"}]),
        ask(b"GET", b"/tasks/1"),
        READ,
        READ,
        ask(b"GET", b"/tasks/4"),
        ask(b"POST", documents, {"id": 3, "name": "Chair of a garden", "price": 36}),
        ask(b"DELETE", documents + b"/5"),
        ask(b"POST", documents + b"/delete-batch", [7, "none"]),
        ask(b"GET", b"/indexes?limit=5"),
        ask(b"GET", documents + b"?offset=1&limit=3&fields=id,name"),
        ask(b"GET", documents + b"/1?fields=name,brand"),
        ask(b"POST", search, {"q": "garden ch", "showCosts": True}),
        ask(b"POST", search, {
            "filter": [["price < 100", "colours = oak"], "NOT brand IS NULL"], "sort": ["price:desc"],
            "facets": ["brand", "price"], "page": 1, "hitsPerPage": 2}),
        ask(b"POST", search, {"q": "\"garden chair\" the seat", "matchingStrategy": "all"}),
        ask(b"POST", search, {
            "q": "garden seat", "attributesToHighlight": ["*"], "attributesToCrop": ["name:1"], "cropMarker": "...",
            "highlightPreTag": "<mark class=found>", "showMatchesPosition": True}),
        ask(b"POST", search, {"distinct": "brand", "offset": 1, "facets": ["brand"], "attributesToRetrieve": ["id"]}),
        ask(b"POST", search, {"q": "garden", "distinct": "name", "attributesToHighlight": ["name"]}),
        ask(b"POST", search, {"cropLength": "5"}),
        ask(b"POST", b"/multi-search", {"queries": [
            {"indexUid": "shop", "q": "garden", "facets": ["brand"], "limit": 1},
            {"indexUid": "shop", "filter": "price < 100", "hitsPerPage": 1}]}),
        ask(b"POST", b"/multi-search", {"queries": [{"indexUid": "shop", "q": "lamp"}, {"indexUid": "films"}]}),
        ask(b"POST", shop + b"/facet-search", {"facetName": "brand", "facetQuery": "n", "q": "garden"}),
        ask(b"GET", search + b"?q=gar+den+seat&filter=price+26+TO+49&attributesToRetrieve=id&showCosts=true"),
        ask(b"POST", search, {"filter": "name = lamp"}),
        ask(b"POST", search, {"filter": "price >> 4"}),
        ask(b"POST", documents, [{"id": 8, "name": "Rake"}, {"id": 9, "price": 1.5}]),
        ask(b"POST", b"/indexes", {"uid": "shop"}),
        ask(b"GET", b"/none"),
        ask(b"POST", b"/indexes/films/documents", [{"filmId": "f1", "title": "Amber bridge"}, {"filmId": "f2"}]),
        ask(b"PATCH", shop + b"/settings", {
            "rankingRules": ["words", "price:asc", "exactness"], "searchableAttributes": ["name"],
            "filterableAttributes": ["size", "price"], "distinctAttribute": "colours"}),
        ask(b"GET", b"/tasks/9"),
        READ,
        ask(b"POST", search, {"q": "garden table", "showCosts": True, "facets": ["*"]}),
        ask(b"GET", shop + b"/settings"),
        ask(b"DELETE", shop + b"/settings"),
        ask(b"GET", b"/tasks/900"),
        ask(b"POST", search, {"q": "lamp"}),
        ask(b"DELETE", b"/indexes/films"),
        ask(b"GET", shop),
        ask(b"GET", b"/indexes/films"),
    ]


def second_session():
    """Requests on what the first session left."""
    documents, search = b"/indexes/shop/documents", b"/indexes/shop/search"
    return [
        ask(b"POST", search, {"q": "garden"}),
        ask(b"PUT", documents, [{"id": 1, "brand": "Nord and sons"}, {"id": 10, "name": "Garden hose"}]),
        READ,
        ask(b"POST", search, {"q": "nord hose"}),
        ask(b"DELETE", documents),
        ask(b"POST", documents, [{"id": 1, "name": "Garden bench"}]),
        READ,
        READ,
        ask(b"POST", search, {"q": "garden b"}),
    ]


def batch_session():
    """Changes that are made in three batches, of which the last has one that fails, each behind a read."""
    documents = b"/indexes/shop/documents"
    return [
        ask(b"PATCH", b"/indexes/shop/settings", {"filterableAttributes": ["brand"]}),
        ask(b"POST", documents, GARDEN[:3]),
        ask(b"POST", documents, GARDEN[3:]),
        READ,
        ask(b"PUT", documents, [{"id": 1, "price": 50}]),
        READ,
        ask(b"PUT", documents, [{"name": "Lamp without an id"}]),
        READ,
    ]


# What the two files hold, or what is there once all tasks have run.
QUESTIONS = load.SETTLED + [ask(b"GET", b"/indexes")] + [
    ask(b"GET", b"/indexes/%s%s" % (uid, rest)) for uid in (b"shop", b"films")
    for rest in (b"/documents", b"/settings", b"/search?q=garden&showCosts=true")]

# How a run ended, its replies, how many allocations it made, and the two files that it left.
Run = collections.namedtuple("Run", "status replies count files")


def compiled(folder):
    source, made = folder / "refuse.c", folder / "refuse.so"
    source.write_text(LIBRARY)
    compiler = next((path for path in map(shutil.which, ("cc", "gcc", "clang")) if path), None)
    if compiler is None:
        sys.exit("no C compiler is there")
    subprocess.run([compiler, "-O1", "-fno-builtin", "-shared", "-fPIC", str(source), "-o", str(made)], check=True)
    return made


class Program:
    """The program, run on files, with allocations refused or not."""

    def __init__(self, binary, room):
        self.binary, self.room = os.path.abspath(binary), room
        self.library = compiled(room)

    def environment(self, folder, first, row):
        """That of a run in which `row` allocations are refused from number `first` on."""
        return {**os.environ, "LD_PRELOAD": str(self.library), "REFUSE_COUNT": str(folder / "count"),
                "REFUSE_FIRST": str(first), "REFUSE_BEHIND": str(first + row)}

    def run(self, requests, files=(), first=0, row=0):
        """Serves the requests from these files, with `row` allocations refused from number `first` on."""
        with tempfile.TemporaryDirectory(prefix="refuse-", dir=load.IN_MEMORY) as name:
            folder = pathlib.Path(name)
            for file, content in files:
                (folder / file).write_bytes(content)
            done = subprocess.run([self.binary, "pipe"], cwd=folder, input=b"".join(requests), stdout=subprocess.PIPE,
                                  env=self.environment(folder, first, row), timeout=300)
            count = (folder / "count").read_text() if (folder / "count").exists() else "0"
            left = tuple((file, (folder / file).read_bytes()) for file in FILES if (folder / file).exists())
        # Where it ended otherwise, its last reply may be cut off.
        told = replies(done.stdout) if done.returncode in (DONE, NO_MEMORY) else []
        return Run(done.returncode, told, int(count), left)


class Session:
    """Requests from some files on, and what undisturbed runs say of parts of them."""

    def __init__(self, program, requests, files=()):
        self.program, self.requests, self.files = program, requests, files
        self.whole, self.cache = program.run(requests, files), {}
        if self.whole.status != DONE or len(self.whole.replies) != len(requests) or STARVED in self.whole.replies:
            sys.exit("an undisturbed run does not answer each request")

    def of(self, served):
        """The replies to these requests alone, and to the questions behind them."""
        if served not in self.cache:
            run = self.program.run([self.requests[index] for index in served] + QUESTIONS, self.files)
            if run.status != DONE:
                sys.exit(f"an undisturbed run ends with {run.status}")
            self.cache[served] = (run.replies[:len(served)], run.replies[len(served):])
        return self.cache[served]

    def fault(self, run):
        """What is wrong with a disturbed run, or nothing."""
        if run.status not in (DONE, NO_MEMORY):
            return f"it ended with {run.status}"
        if run.status == DONE and len(run.replies) != len(self.requests):
            return f"it was done after {len(run.replies)} replies"
        served = tuple(index for index, reply in enumerate(run.replies) if reply != STARVED)
        wanted, held = self.of(served)
        for index, reply in zip(served, wanted):
            if run.replies[index] != reply:
                return f"reply {index} is {run.replies[index]!r} and not {reply!r}"
        opened = self.program.run(QUESTIONS, run.files)
        if (opened.status, opened.replies) != (DONE, held):
            return f"the files hold something else: status {opened.status}, {opened.replies!r} and not {held!r}"
        return None

    def kind(self, run):
        """What the refused allocation came to."""
        if run.status == NO_MEMORY:
            return "ended before the first reply" if not run.replies else "could not read on or run a batch"
        starved = sum(reply == STARVED for reply in run.replies)
        return "answered as ever" if starved == 0 else "one request starved" if starved == 1 else "several starved"

    def refuse_each(self, name, stride, row, begin=0):
        """Refuses allocations in turn, prints what came of them, and answers how many runs were wrong."""
        kinds, wrong, starved, begun = collections.Counter(), 0, set(), time.monotonic()
        for number in range(begin, self.whole.count, stride):
            run = self.program.run(self.requests, self.files, number, row)
            fault = self.fault(run)
            if fault:
                wrong += 1
                if wrong <= 5:
                    print(f"{name}, allocation {number}: {fault[:500]}", file=sys.stderr)
            kinds[self.kind(run)] += 1
            starved |= {index for index, reply in enumerate(run.replies) if reply == STARVED}
        told = ", ".join(f"{kind} {count}" for kind, count in sorted(kinds.items()))
        print(f"{name}: {len(self.requests)} requests, {self.whole.count:,} allocations, "
              f"{sum(kinds.values()):,} refused in turn in {time.monotonic() - begun:.0f} s: {told}; "
              f"{len(starved)} requests starved at least once; wrong {wrong}", flush=True)
        return wrong


def sessions(program, stride, row):
    first = Session(program, first_session())
    wrong = first.refuse_each("from an empty folder", stride, row)
    second = Session(program, second_session(), first.whole.files)
    return wrong + second.refuse_each("from the files of the first", stride, row)


def checkpoint_session():
    """Requests of which the third makes the journal longer than 16 MiB. No text is searched, so that it goes fast."""
    documents, text = b"/indexes/shop/documents", "a" * 8_500_000
    return [
        ask(b"PATCH", b"/indexes/shop/settings", {"searchableAttributes": []}),
        ask(b"POST", documents, {"id": 1, "text": text}),
        ask(b"POST", documents, {"id": 2, "text": text}),
        ask(b"PUT", documents, {"id": 1, "text": "amber"}),
        READ,
        READ,
        ask(b"GET", b"/tasks/3"),
        ask(b"GET", documents + b"/1"),
    ]


def checkpoint(program, stride, row):
    session = checkpoint_session()
    begin = program.run(session[:2]).count
    return Session(program, session).refuse_each(f"a checkpoint, from number {begin} on", stride, row, begin)


def migration(program, stride, row):
    wrong = 0
    for folder in sorted(it for it in older.OLDER.iterdir() if it.is_dir()):
        files = tuple((it.name, it.read_bytes()) for it in sorted(folder.iterdir()))
        requests = [READ, ask(b"GET", b"/indexes"), *map(task, range(12))]
        wrong += Session(program, requests, files).refuse_each(f"from older files, {folder.name}", stride, row)
    return wrong


# The line of a connection of `serve`: its status, and whether a batch was put off.
LINE = re.compile(r"link \d+ status (\d+) requests \d+( put off)?\n")
LINKS = 3


def task(number):
    return ask(b"GET", b"/tasks/%d" % number)


def waits(reply):
    return b'"status":"enqueued"' in reply


class Served:
    """What a run of `serve` on three connections came to: its status, its lines, and the replies on each connection.

    The first has the session of batches. On the second the last task that was accepted is asked for, then what waits is
    waited for, and then each task; on the third what is there."""

    def __init__(self, program, folder, first, row):
        port = serve.free_port()
        words = [program.binary, "serve", str(port), str(LINKS)]
        self.server = subprocess.Popen(words, cwd=folder, stdout=subprocess.PIPE, text=True,
                                       env=program.environment(folder, first, row))
        self.begun = self.over_link(port, batch_session())
        self.accepted = sum(reply.startswith(b"HTTP/1.1 202 ") for reply in self.begun)
        tasks = self.over_link(port, [task(self.accepted - 1), *load.SETTLED, *map(task, range(self.accepted))])
        self.last, self.tasks = tasks[:1], tasks[1 + len(load.SETTLED):]
        self.starved = STARVED in tasks
        self.held = self.over_link(port, QUESTIONS)
        self.told, _ = self.server.communicate(timeout=300)
        self.status, self.lines = self.server.returncode, LINE.findall(self.told)
        counted = folder / "count"
        self.count = int(counted.read_text()) if counted.exists() else 0

    def over_link(self, port, requests):
        """The replies to these requests over a connection of their own, up to where it is closed."""
        raw = b""
        try:
            with self.connected(port) as link:
                link.sendall(b"".join(requests))
                link.shutdown(socket.SHUT_WR)
                while piece := link.recv(1 << 16):
                    raw += piece
        except OSError:
            pass  # It was closed before all was read, or the program ended.
        return replies(raw)

    def connected(self, port):
        while self.server.poll() is None:
            try:
                return socket.create_connection(("127.0.0.1", port))
            except ConnectionRefusedError:
                time.sleep(0.002)
        raise OSError


class PutOff:
    """The session of batches over connections of `serve`, and what is wrong with disturbed runs of it."""

    def __init__(self, program):
        self.program, self.session = program, Session(program, batch_session())
        self.whole = self.served(0, 0)
        if self.whole.lines != [("0", "")] * LINKS or any(map(waits, self.whole.last)) or self.fault(self.whole):
            sys.exit("an undisturbed run of `serve` does not serve each connection")

    def served(self, first, row):
        with tempfile.TemporaryDirectory(prefix="refuse-", dir=load.IN_MEMORY) as name:
            return Served(self.program, pathlib.Path(name), first, row)

    def fault(self, run):
        """What is wrong with a run, or nothing."""
        if run.status == NO_MEMORY and not run.told:
            return None
        if run.status != DONE or len(run.lines) != LINKS or LINE.sub("", run.told):
            return f"it ended with {run.status} and told {run.told!r}"
        if any((status, off) not in (("0", ""), ("11", ""), ("11", " put off")) for status, off in run.lines):
            return f"it told {run.told!r}"
        served = tuple(index for index, reply in enumerate(run.begun) if reply != STARVED)
        wanted, held = self.session.of(served)
        if [run.begun[index] for index in served] != wanted:
            return f"the replies are {run.begun!r}"
        if run.lines[0][1] and run.last != [STARVED] and not all(map(waits, run.last)):
            return f"a batch was put off, and the last task does not wait: {run.last!r}"
        if run.lines[1] == ("0", "") and not run.starved and any(map(waits, run.tasks)):
            return f"a task waits still: {run.tasks!r}"
        if run.lines[2] == ("0", "") and STARVED not in run.held and run.held != held:
            return f"something else is held: {run.held!r} and not {held!r}"
        return None

    def kind(self, run):
        """What the refused allocation came to."""
        if not run.told:
            return "did not start"
        if any(off for _, off in run.lines):
            return "a batch was put off"
        return "served" if all(status == "0" for status, _ in run.lines) else "could not read on"

    def refuse_each(self, stride, row):
        """Refuses allocations in turn, prints what came of them, and answers how many runs were wrong."""
        kinds, wrong, begun = collections.Counter(), 0, time.monotonic()
        for number in range(0, self.whole.count, stride):
            run = self.served(number, row)
            fault = self.fault(run)
            if fault:
                wrong += 1
                if wrong <= 5:
                    print(f"batches over connections, allocation {number}: {fault[:500]}", file=sys.stderr)
            kinds[self.kind(run)] += 1
        told = ", ".join(f"{kind} {count}" for kind, count in sorted(kinds.items()))
        print(f"batches over {LINKS} connections: {self.whole.count:,} allocations, {sum(kinds.values()):,} refused in "
              f"turn in {time.monotonic() - begun:.0f} s: {told}; wrong {wrong}", flush=True)
        return wrong


def put_off(program, stride, row):
    """Refuses allocations of batches, on `pipe` and over connections."""
    wrong = Session(program, batch_session()).refuse_each("batches", stride, row)
    return wrong + PutOff(program).refuse_each(stride, row)


def growth_session(documents):
    garden = [{"id": number, "title": "cloud garden"} for number in range(1, documents + 1)]
    return [
        ask(b"PATCH", b"/indexes/shop/settings", {"filterableAttributes": ["id"]}),
        ask(b"POST", b"/indexes/shop/documents", garden),
        READ,
        READ,
        ask(b"POST", b"/indexes/shop/documents", [{"id": 1, "title": "cloud bridge"}]),
        READ,
        ask(b"POST", b"/indexes/shop/search", {"q": "cloud garden", "limit": 1}),
    ]


# The read behind which the change is made, and the search.
CHANGE, SEARCH = 5, 6


class Growth:
    """The session over an index of some documents, and where in it each refused allocation is met."""

    def __init__(self, program, documents):
        self.program, self.requests = program, growth_session(documents)
        self.whole, self.moments = program.run(self.requests), {}

    def moment(self, number):
        """A number that grows along the session: twice the request that is read, and one more where it is answered. What
        a batch finds counts for the next request."""
        while number < self.whole.count:
            run = self.program.run(self.requests, (), number, 1)
            if run.status == NO_MEMORY:
                return 2 * len(run.replies)
            if run.status != DONE:
                sys.exit(f"allocation {number}: it ended with {run.status}")
            if STARVED in run.replies:
                return 2 * run.replies.index(STARVED) + 1
            number += 1  # It was done without; the next one tells.
        return 2 * len(self.requests)

    def first_at(self, moment, low, high):
        """The least number in this range from which on the moment has come, by halving."""
        while low < high:
            middle = (low + high) // 2
            if self.moment(middle) >= moment:
                high = middle
            else:
                low = middle + 1
        return low

    def length(self, moment):
        """How many numbers there are at this moment."""
        first = self.first_at(moment, 0, self.whole.count)
        return self.first_at(moment + 1, first, self.whole.count) - first


def growth(program):
    print(f"{'documents':>10} {'allocations':>12} {'change':>8} {'search':>8}", flush=True)
    lengths = []
    for documents in (2000, 20000):
        index = Growth(program, documents)
        lengths.append([index.length(2 * CHANGE + 2), index.length(2 * SEARCH + 1)])
        print(f"{documents:>10,} {index.whole.count:>12,} {lengths[-1][0]:>8,} {lengths[-1][1]:>8,}", flush=True)
    growths = [after - before for before, after in zip(*lengths)]
    print(f"{'growth':>10} {'below 9,000':>12} {growths[0]:>8,} {growths[1]:>8,}")
    starving = all(length > 0 for pair in lengths for length in pair)
    return 0 if starving and all(grown < MOST_GROWTH for grown in growths) else 1


def main():
    parser = argparse.ArgumentParser()
    parser.add_argument("binary", nargs="?", default=load.BINARY)
    parser.add_argument("--stride", type=int, default=1)
    parser.add_argument("--row", type=int, default=1)
    parser.add_argument("--only", choices=("sessions", "checkpoint", "migration", "put_off", "growth"))
    asked = parser.parse_args()
    wrong = 0
    with tempfile.TemporaryDirectory(prefix="refuse-") as room:
        program = Program(asked.binary, pathlib.Path(room))
        if asked.only in (None, "sessions"):
            wrong += sessions(program, asked.stride, asked.row)
        if asked.only in (None, "checkpoint"):
            wrong += checkpoint(program, asked.stride, asked.row)
        if asked.only in (None, "migration"):
            wrong += migration(program, asked.stride, asked.row)
        if asked.only in (None, "put_off"):
            wrong += put_off(program, asked.stride, asked.row)
        if asked.only in (None, "growth"):
            wrong += growth(program)
    if wrong:
        sys.exit("something is wrong")


if __name__ == "__main__":
    main()
