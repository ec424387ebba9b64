"""Readers of a rank_server: programs that search fresh copies of its two files, each in folders of its own."""
import http.client
import os
import pathlib
import subprocess
import sys
import time

HERE = pathlib.Path(__file__).resolve().parent
sys.path.insert(0, str(HERE.parent))
import copy_disk

# What `serve` takes at most; a reader that ended is started anew.
CONNECTIONS = "1000000"
PATIENCE = 120


class Silent(Exception):
    """A server that does not answer, and why."""


def started(program, folder, port):
    """The program, serving what the folder holds at a port."""
    with open(folder / "links.log", "wb") as links:
        return subprocess.Popen([program, "serve", str(port), CONNECTIONS], cwd=folder, stdin=subprocess.DEVNULL,
                                stdout=links)


def answers(port):
    """Whether it answers at this port."""
    link = http.client.HTTPConnection("127.0.0.1", port, timeout=10)
    try:
        link.request("GET", "/health", headers={"Connection": "close"})
        return link.getresponse().status == 200
    except (OSError, http.client.HTTPException):
        return False
    finally:
        link.close()


def wait_for(process, port):
    """Waits until it answers."""
    end = time.monotonic() + PATIENCE
    while not answers(port):
        if process.poll() is not None:
            raise Silent(f"what was started at port {port} ended with {process.returncode} before it answered")
        if time.monotonic() > end:
            raise Silent(f"what was started at port {port} does not answer")
        time.sleep(0.02)


def ended(process):
    if process is not None and process.poll() is None:
        process.terminate()
        process.wait()


def mark(held):
    """What changes with each change of the two files."""
    return [(found.st_size, found.st_mtime_ns) for found in (os.stat(held / name) for name in copy_disk.FILES)]


class Reader:
    """One reader. It has two folders and two ports: the next one answers before the one that serves is ended, so that
    each moment at least one of the two ports does."""

    def __init__(self, program, held, folder, ports):
        self.program, self.held, self.ports = program, held, ports
        self.folders = [folder / "even", folder / "odd"]
        self.process, self.next, self.turn, self.mark, self.copies = None, None, 0, None, 0

    def port(self):
        """The port at which it answers now."""
        return self.ports[self.turn]

    def folder(self):
        """The folder with the copy that it searches now."""
        return self.folders[self.turn]

    def runs(self):
        return self.process is not None and self.process.poll() is None

    def renew(self):
        """Starts it on a fresh copy, where something changed since its last one or where it ended, and says whether.
        Where the copy or the start fails, what served before goes on."""
        now = mark(self.held)
        if self.runs() and now == self.mark:
            return False
        other = 1 - self.turn
        self.copies = copy_disk.copy(self.held, self.folders[other])
        if self.copies is None:
            raise Silent(f"no copy of {self.held} was made")
        self.next = started(self.program, self.folders[other], self.ports[other])
        try:
            wait_for(self.next, self.ports[other])
        except Silent:
            ended(self.next)
            raise
        ended(self.process)
        self.process, self.next, self.turn, self.mark = self.next, None, other, now
        return True

    def end(self):
        ended(self.process)
        ended(self.next)
