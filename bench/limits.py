#!/usr/bin/env python3
"""Loads rank_server under limits of its memory until it answers 503, kills it, and starts it again.

    bench/limits.py [BIN] [--limits KB..]

For each limit of the address space (`ulimit -v`, KiB) a server is loaded with bodies of 100 documents until one is
answered 503, and killed. It is started again under the same limit, and where it ends there with 11 for want of memory,
under limits that are greater by a tenth each, until it serves. Printed are how many bodies each limit took, and the
first limit under which the same two files were opened, as a multiple of the first. After it the server must hold what
was acknowledged.
"""
import argparse
import atexit
import json
import pathlib
import resource
import socket
import subprocess
import sys
import tempfile

import demo
import load
import serve

STARVED = 11


def limited(most):
    """Sets the limit in the process that is about to be the server."""
    return lambda: resource.setrlimit(resource.RLIMIT_AS, (most * 1024, most * 1024))


def started(binary, folder, most):
    """A server under the limit and its port, or None where it ends for want of memory."""
    port = serve.free_port()
    words = [binary, "serve", str(port), "1000000"]
    server = subprocess.Popen(words, cwd=folder, stdout=subprocess.DEVNULL, preexec_fn=limited(most))
    atexit.register(server.kill)
    for _ in range(1200):
        try:
            status = server.wait(0.05)
        except subprocess.TimeoutExpired:
            if listens(port):
                return server, port
            continue
        if status != STARVED:
            sys.exit(f"it ended with {status} under {most} KiB")
        return None
    sys.exit(f"it did not answer under {most} KiB")


def listens(port):
    """Whether the server takes a connection. It does so once it was opened."""
    try:
        socket.create_connection(("127.0.0.1", port)).close()
        return True
    except ConnectionRefusedError:
        return False


def body(number):
    """The documents of a body: 100 of some 400 bytes each, whose words are partly new."""
    rows = []
    for at in range(number * 100, number * 100 + 100):
        words = " ".join(f"w{(at * 31 + word * 7) % 9973} common{word}" for word in range(24))
        rows.append({"id": at, "text": words, "size": at % 1000})
    return demo.request(b"POST", b"/indexes/shop/documents", rows)


def filled(port):
    """Sends bodies until one is answered 503, and returns how many were acknowledged."""
    for number in range(1_000_000):
        status, reply = serve.ask_anew(port, body(number))
        if status == 503:
            return number
        if status != 202:
            sys.exit(f"body {number} was refused: {reply.decode()}")
    return 0


def reopened(binary, folder, most):
    """The least of some limits under which the files are opened, and the total that the server then tells."""
    for tenths in range(10, 41):
        found = started(binary, folder, most * tenths // 10)
        if found is None:
            continue
        server, port = found
        _, reply = serve.ask_anew(port, b"GET /indexes/shop/documents?limit=1 HTTP/1.1\r\n\r\n")
        server.kill()
        server.wait()
        return tenths / 10, json.loads(reply)["total"]
    sys.exit("it was not opened under four times the limit")


def main():
    parser = argparse.ArgumentParser(description=__doc__.splitlines()[0])
    parser.add_argument("binary", nargs="?", default=load.BINARY)
    parser.add_argument("--limits", nargs="*", type=int, default=[120_000, 240_000, 480_000])
    given = parser.parse_args()
    binary = str(pathlib.Path(given.binary).resolve())
    for most in given.limits:
        with tempfile.TemporaryDirectory() as folder:
            found = started(binary, folder, most)
            if found is None:
                sys.exit(f"it does not start empty under {most} KiB")
            server, port = found
            bodies = filled(port)
            server.kill()
            server.wait()
            times, total = reopened(binary, folder, most)
            if total != bodies * 100:
                sys.exit(f"{bodies * 100} documents were acknowledged, and {total} are there")
            print(f"{most:8} KiB: {bodies} bodies of 100, opened under {times:.1f} times the limit", flush=True)


if __name__ == "__main__":
    main()
