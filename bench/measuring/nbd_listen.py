#!/usr/bin/env python3
"""Waits at a socket for clients, and runs a command for each, with the connection as its standard input and output.

Usage: nbd_listen.py SOCKET COMMAND..
SOCKET is the path of a socket that is made. It goes on until it is ended by a signal; the commands go on as long as their clients.
"""

import os
import signal
import socket
import sys


def main():
    if len(sys.argv) < 3:
        sys.exit(__doc__)
    path, command = sys.argv[1], sys.argv[2:]
    signal.signal(signal.SIGCHLD, signal.SIG_IGN)
    with socket.socket(socket.AF_UNIX) as listener:
        listener.bind(path)
        listener.listen(16)
        while True:
            client, _ = listener.accept()
            if os.fork() == 0:
                os.dup2(client.fileno(), 0)
                os.dup2(client.fileno(), 1)
                os.closerange(3, 64)
                os.execvp(command[0], command)
            client.close()


if __name__ == "__main__":
    main()
