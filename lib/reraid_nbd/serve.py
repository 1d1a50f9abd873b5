#!/usr/bin/env python3
"""Serves the clients of listening sockets that a client hands on, as sd_listen_fds(3) has it: each gets a server of its own.

Usage: LISTEN_PID=ITS NUMBER LISTEN_FDS=N serve.py COMMAND..
Descriptors 3 to 2 + N listen. COMMAND runs for each client, with the connection as its standard input and output. SIGTERM and SIGINT end it:
it accepts no more, and the servers go on until their clients end. It also ends where the process that started it is gone and no client is
left, since nobody else may know of the socket.
"""

import contextlib
import os
import select
import signal
import socket
import sys

FIRST = 3
SECONDS = 2.0
NAMES = ("LISTEN_PID", "LISTEN_FDS", "LISTEN_FDNAMES")


def handed(environment: dict[str, str], own: int) -> int:
    """Return how many sockets are handed to the process of this number; 0 where they are not for it."""
    try:
        count = int(environment.get("LISTEN_FDS", ""))
        return max(0, count) if int(environment.get("LISTEN_PID", "")) == own else 0
    except ValueError:
        return 0


class Servers:
    """The servers that run, by their numbers, and how one is started."""

    def __init__(self, command: list[str]) -> None:
        self.command = command
        self.environment = {name: value for name, value in os.environ.items() if name not in NAMES}
        self.running: set[int] = set()

    def begin(self, client: socket.socket) -> None:
        """Starts a server over a connection."""
        actions = [(os.POSIX_SPAWN_DUP2, client.fileno(), 0), (os.POSIX_SPAWN_DUP2, client.fileno(), 1)]
        self.running.add(os.posix_spawn(self.command[0], self.command, self.environment, file_actions=actions))

    def reap(self) -> None:
        """Forgets the servers that ended."""
        while self.running:
            number, _ = os.waitpid(-1, os.WNOHANG)
            if number == 0:
                return
            self.running.discard(number)


def serve(listeners: list[socket.socket], servers: Servers, parent: int) -> None:
    """Gives each client a server, until the parent is gone and no client is left."""
    while servers.running or os.getppid() == parent:
        ready, _, _ = select.select(listeners, [], [], SECONDS)
        servers.reap()
        for listener in ready:
            # A client may be gone again.
            with contextlib.suppress(OSError):
                client, _ = listener.accept()
                with client:
                    client.setblocking(True)
                    servers.begin(client)


def main(words: list[str]) -> int:
    count = handed(dict(os.environ), os.getpid())
    if not words or not count:
        sys.exit(__doc__)
    for number in (signal.SIGTERM, signal.SIGINT):
        signal.signal(number, lambda *_: sys.exit(0))
    listeners = [socket.socket(fileno=FIRST + place) for place in range(count)]
    for listener in listeners:
        listener.set_inheritable(False)
        listener.setblocking(False)
    serve(listeners, Servers(words), os.getppid())
    return 0


if __name__ == "__main__":
    sys.exit(main(sys.argv[1:]))
