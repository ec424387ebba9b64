#!/usr/bin/env python3
"""Does with `rank_server serve`, over TCP, what bench/demo.py does with `pipe`: the demo's load and its ten searches.

    bench/serve.py [BIN] [--seed N] [--repeats N]

The load and the searches go over one connection that is kept open. Then each search is sent "anew", each time over a
connection of its own, as a proxy without keep-alive does it. Nothing tests these numbers.
"""
import socket
import subprocess
import sys
import time

import demo
import load


def free_port():
    with socket.socket() as door:
        door.bind(("127.0.0.1", 0))
        return door.getsockname()[1]


def connected(port):
    """A connection, as soon as the server listens. One that is refused does not count for the server."""
    for _ in range(1000):
        try:
            link = socket.create_connection(("127.0.0.1", port))
            link.setsockopt(socket.IPPROTO_TCP, socket.TCP_NODELAY, 1)
            return link
        except ConnectionRefusedError:
            time.sleep(0.01)
    sys.exit("the server does not listen")


def ask_over(link, sent):
    link.sendall(sent)
    return demo.reply(link.recv)


def ask_anew(port, sent):
    with connected(port) as link:
        return ask_over(link, sent)


def measure(binary, count, seed, repeats):
    port = free_port()
    connections = 1 + len(demo.SEARCHES) * repeats
    server = load.started(binary, "serve", str(port), str(connections), stdout=subprocess.DEVNULL)
    with connected(port) as link:
        found = demo.figures(server, lambda sent: ask_over(link, sent), count, seed, repeats)
    for number, search in enumerate(demo.searches(), 1):
        times = demo.milliseconds(server, lambda sent: ask_anew(port, sent), search, repeats)
        found[f"search {number}, anew"] = ("ms", *times)
    if server.wait() != 0:
        sys.exit("the server failed")
    return found


def main():
    asked = demo.arguments()
    demo.table({count: measure(asked.binary, count, asked.seed, asked.repeats) for count in demo.COUNTS})


if __name__ == "__main__":
    main()
