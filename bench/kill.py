#!/usr/bin/env python3
"""Kills `rank_server pipe` with SIGKILL at random moments of a stream of writes, and opens what it left again.

    bench/kill.py [BIN] [--times N] [--seed N] [--second COMMAND]

Each round starts the program in the same folder and sends it random changes, one after the other, and reads between
them, behind which the changes that wait are made. At a moment drawn at random it is killed. The two files must then
hold all changes that were acknowledged, whether they were made or waited, and of the others at most the one whose reply
was awaited. Every tenth round, and after the last, the documents and settings of all indexes are asked of the program
on these files, and of a machine that starts empty and is sent the same changes: the program itself in another folder,
or COMMAND, which reads requests and writes replies, such as a second machine. All replies must be equal. SIGKILL stops
the program and not the system, so it says nothing of what a file system does when power goes.
"""
import argparse
import os
import pathlib
import random
import shlex
import shutil
import subprocess
import sys
import tempfile
import threading
import time

import demo
import load

sys.path.append(os.path.join(os.path.dirname(os.path.abspath(__file__)), "..", "examples"))
import read_disk

UIDS = ("books", "films", "shop")
# How many of the requests change nothing.
READS = 0.2
KEYS = ("searchableAttributes", "filterableAttributes", "sortableAttributes", "stopWords")


def document(draw):
    return {"id": draw.randrange(40), "n": draw.randrange(9), "title": load.words(draw, 3)}


def large_body(draw):
    """About 2 MB: some of these make a checkpoint due."""
    first = draw.randrange(10)
    return ("[" + ",".join(load.catalogue(draw, number) for number in range(first, first + 2000)) + "]").encode()


def change(draw):
    """A request that changes something, if its task does not fail."""
    uid, kind = draw.choice(UIDS).encode(), draw.randrange(12)
    if draw.random() < 0.02:
        body = large_body(draw)
        return b"PUT /indexes/shop/documents?primaryKey=id HTTP/1.1\r\ncontent-length: %d\r\n\r\n" % len(body) + body
    if kind < 5:
        return demo.request(b"POST", b"/indexes/%s/documents?primaryKey=id" % uid,
                            [document(draw) for _ in range(draw.randrange(1, 30))])
    if kind < 7:
        return demo.request(b"PUT", b"/indexes/%s/documents?primaryKey=id" % uid, [document(draw)])
    if kind == 7:
        return demo.request(b"DELETE", b"/indexes/%s/documents/%d" % (uid, draw.randrange(40)), {})
    if kind == 8:
        return demo.request(b"POST", b"/indexes/%s/documents/delete-batch" % uid,
                            [draw.randrange(40) for _ in range(5)])
    if kind == 9:
        return demo.request(b"PATCH", b"/indexes/%s/settings" % uid,
                            {draw.choice(KEYS): draw.sample(["title", "n", "id"], draw.randrange(3))})
    if kind == 10:
        return demo.request(b"POST", b"/indexes", {"uid": uid.decode(), "primaryKey": "id"})
    return demo.request(b"DELETE", b"/indexes/%s%s" % (uid, draw.choice([b"", b"/documents", b"/settings"])), {})


def questions():
    asked = [b"GET /indexes HTTP/1.1\r\n\r\n"]
    for uid in UIDS:
        for rest in ("/documents?limit=1000000", "/settings", "/search?q=amber"):
            asked.append(f"GET /indexes/{uid}{rest} HTTP/1.1\r\n\r\n".encode())
    return asked


def held(folder):
    """How many changes the two files hold, those that waited too."""
    disks = read_disk.contents_of(folder)
    found = read_disk.active(disks)
    if found is None:
        return 0
    _, disk, length = found
    count, *_ = read_disk.image(read_disk.Fields(disk, disks[disk], 24, 24 + length))
    return count + len(list(read_disk.journal(disk, disks[disk], 24 + length, count)))


def write_until_killed(binary, folder, draw, accepted):
    """Sends changes, and reads between them, until the program is killed. The acknowledged ones go to the list; answers
    the request that was left without a reply."""
    server = subprocess.Popen([binary, "pipe"], cwd=folder, stdin=subprocess.PIPE, stdout=subprocess.PIPE)
    killer = threading.Timer(draw.expovariate(1 / 0.3), server.kill)
    killer.start()
    try:
        while True:
            sent = load.SETTLED[0] if draw.random() < READS else change(draw)
            try:
                server.stdin.write(sent)
                server.stdin.flush()
                status, _ = demo.reply(lambda most: os.read(server.stdout.fileno(), most))
            except (OSError, SystemExit):
                return sent
            if status == 202:
                accepted.append(sent)
    finally:
        killer.cancel()
        server.kill()
        server.wait()
        server.stdout.close()


def replies(raw):
    """Each reply in the bytes."""
    found = []
    while raw:
        head, _, rest = raw.partition(b"\r\n\r\n")
        length = next(int(line[16:]) for line in head.split(b"\r\n") if line.startswith(b"content-length: "))
        found.append(head + b"\r\n\r\n" + rest[:length])
        raw = rest[length:]
    return found


def answers(words, folder, stream):
    said = subprocess.run(words, cwd=folder, input=stream, stdout=subprocess.PIPE, check=True).stdout
    return replies(said)


def compare(binary, second, folder, accepted):
    asked = questions()
    with tempfile.TemporaryDirectory(prefix="kill-") as other:
        for name in read_disk.FILES:
            if (folder / name).exists():
                shutil.copy(folder / name, other)
        ours = answers([binary, "pipe"], other, b"".join(asked))
    with tempfile.TemporaryDirectory(prefix="kill-") as other:
        stream = b"".join(accepted + load.SETTLED + asked)
        theirs = answers(second or [binary, "pipe"], other, stream)[-len(asked):]
    if ours != theirs:
        sys.exit("what was opened answers otherwise")


def main():
    parser = argparse.ArgumentParser()
    parser.add_argument("binary", nargs="?", default=load.BINARY)
    parser.add_argument("--times", type=int, default=200)
    parser.add_argument("--seed", type=int, default=1)
    parser.add_argument("--second", type=shlex.split)
    asked = parser.parse_args()
    binary, draw, accepted = os.path.abspath(asked.binary), random.Random(asked.seed), []
    recorded_alone, begun = 0, time.monotonic()
    with tempfile.TemporaryDirectory(prefix="kill-") as name:
        folder = pathlib.Path(name)
        for number in range(1, asked.times + 1):
            waiting = write_until_killed(binary, folder, draw, accepted)
            count = held(folder)
            if not 0 <= count - len(accepted) <= (waiting not in load.SETTLED):
                sys.exit(f"round {number}: {len(accepted)} changes were acknowledged, and {count} are held")
            if count > len(accepted):
                accepted.append(waiting)
                recorded_alone += 1
            if number % 10 == 0 or number == asked.times:
                compare(binary, asked.second, folder, accepted)
    print(f"killed {asked.times} times in {time.monotonic() - begun:.0f} s: {len(accepted)} changes are held, "
          f"{recorded_alone} of them without a reply; nothing that was acknowledged is lost")


if __name__ == "__main__":
    main()
