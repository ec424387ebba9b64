#!/usr/bin/env python3
"""Starts `rank_server pipe` and `serve` without standard streams, and compares the two files before and after.

    bench/closed.py [BIN]

None of the three streams is closed at the start, then one, two and all of them, in a folder whose files hold an image
and a change. The program is asked for its indexes, which changes nothing, so the files must stay as they are. Without
standard output it must end with 4; without standard input `pipe` must find the end of its input and end with 0. Over
what is open it must answer as ever. Prints a line for each way to start it.
"""
import itertools
import os
import pathlib
import subprocess
import sys
import tempfile

import demo
import kill
import load
import serve

STREAMS = ("input", "output", "error")
CHANGE = demo.request(b"POST", b"/indexes/shop/documents", [{"id": 1}])
QUESTION = b"GET /indexes HTTP/1.1\r\nconnection: close\r\n\r\n"


def started(binary, folder, words, closed):
    """A process that has the standard streams of these numbers closed, and pipes for the others."""
    return subprocess.Popen([binary, *words], cwd=folder, stdin=subprocess.PIPE, stdout=subprocess.PIPE,
                            stderr=subprocess.PIPE, preexec_fn=lambda: [os.close(number) for number in closed])


def over_pipe(binary, folder, closed):
    """The status of `pipe`, which is asked a question, and what came back."""
    program = started(binary, folder, ["pipe"], closed)
    written, said = program.communicate(QUESTION)
    return program.returncode, written + said


def over_serve(binary, folder, closed):
    """The status of `serve`, which is asked a question over a connection, and what came back, by all ways."""
    port = serve.free_port()
    program = started(binary, folder, ["serve", str(port), "1"], closed)
    with serve.connected(port) as link:
        link.sendall(QUESTION)
        with link.makefile("rb") as answers:
            answer = answers.read()
    written, said = program.communicate()
    return program.returncode, answer + written + said


def wanted(word, closed, answer):
    """The status and the bytes that must come back where these streams are closed."""
    if word == "serve":
        return (4, answer) if 1 in closed else (0, answer + b"link 1 status 0 requests 1\n")
    if 0 in closed:
        return 0, b""
    return (4, b"") if 1 in closed else (0, answer)


def main():
    binary = os.path.abspath(sys.argv[1] if len(sys.argv) > 1 else load.BINARY)
    wrong = 0
    with tempfile.TemporaryDirectory(prefix="closed-") as name:
        folder = pathlib.Path(name)
        answer = kill.answers([binary, "pipe"], folder, CHANGE + load.SETTLED[0] + QUESTION)[-1]
        before = kill.read_disk.contents_of(folder)
        for word, ask in (("pipe", over_pipe), ("serve", over_serve)):
            for closed in itertools.chain(*(itertools.combinations(range(3), count) for count in range(4))):
                status, back = ask(binary, folder, closed)
                is_right = ((status, back) == wanted(word, closed, answer)
                            and kill.read_disk.contents_of(folder) == before)
                wrong += not is_right
                print(f"{word}, closed: {', '.join(STREAMS[number] for number in closed) or 'none'}: "
                      f"status {status}, {'as it must be' if is_right else 'NOT AS IT MUST BE'}")
    sys.exit(wrong > 0)


if __name__ == "__main__":
    main()
