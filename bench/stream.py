#!/usr/bin/env python3
"""Adds requests to those that the gate sends to `rank_pipe`, and writes down what a second machine answers.

    bench/stream.py COMMAND [ROWS]

ROWS is a file of a request on each line: a method, a target and, where there is one, a body, with one blank between.
They are put before the last request of crates/rank_pipe/stdin, which is cut short. An accepted change waits, and the
oldest ones that wait are made behind the reply to each request that is answered otherwise than by 202; so put as many
such requests, as `GET /tasks/17`, between a change and what reads it as there are batches. Then COMMAND, run by the
shell in a copy of crates/rank_pipe/data, is given the requests, and what it writes and its status go into the files
`stdout` and `status` beside them. It is a second machine, written independently from the same rules, and never this
program: look at each reply that is new or another one. It prints these.
"""
import pathlib
import re
import shutil
import subprocess
import sys
import tempfile

CRATE = pathlib.Path(__file__).resolve().parent.parent / "crates" / "rank_pipe"
WITH_BODY = ("POST", "PUT", "PATCH")


def request(row):
    """The bytes of a row. A line end stands behind the body, and is passed over."""
    method, target, *rest = row.split(" ", 2)
    body = rest[0].encode() if rest else b""
    length = f"content-length: {len(body)}\n" if body or method in WITH_BODY else ""
    return f"{method} {target} HTTP/1.1\n{length}\n".encode() + body + (b"\n" if body else b"")


def with_rows(stdin, rows):
    """The requests with some more before the last one."""
    last = max(found.start() for found in re.finditer(rb"^[A-Z]+ \S+ HTTP/1\.1$", stdin, re.MULTILINE))
    return stdin[:last] + b"".join(map(request, rows)) + stdin[last:]


def answered(command, stdin):
    """What the command writes, and its status."""
    with tempfile.TemporaryDirectory(prefix="stream-") as room:
        shutil.copytree(CRATE / "data", room, dirs_exist_ok=True)
        done = subprocess.run(command, shell=True, cwd=room, input=stdin, stdout=subprocess.PIPE)
    return done.stdout, done.returncode


def replies(stdout):
    """The replies, each as its status and its body."""
    told = []
    while stdout:
        head, rest = stdout.split(b"\r\n\r\n", 1)
        size = int(re.search(rb"content-length: (\d+)", head).group(1))
        told.append(f"{head.split(b' ', 2)[1].decode()} {rest[:size].decode()}")
        stdout = rest[size:]
    return told


def main():
    if not 2 <= len(sys.argv) <= 3:
        sys.exit(__doc__)
    rows = pathlib.Path(sys.argv[2]).read_text().splitlines() if sys.argv[2:] else []
    stdin = with_rows((CRATE / "stdin").read_bytes(), [row for row in rows if row])
    stdout, status = answered(sys.argv[1], stdin)
    if not stdout:
        sys.exit(f"stream.py: the command wrote nothing and ended with {status}")
    before = replies((CRATE / "stdout").read_bytes())
    for place, reply in enumerate(replies(stdout)):
        if place >= len(before) or reply != before[place]:
            print(f"{place + 1}: {reply}")
    (CRATE / "stdin").write_bytes(stdin)
    (CRATE / "stdout").write_bytes(stdout)
    (CRATE / "status").write_text(f"{status}\n")


if __name__ == "__main__":
    main()
