"""Sockets that are handed to reraid-nbd, and the servers of those who come to them."""

import contextlib
import os
import signal
import socket
import subprocess
import sys
import unittest
from unittest import mock

from reraid_nbd import serve


class Handed(unittest.TestCase):
    """How many sockets are handed to a process."""

    def test_for_this_process(self) -> None:
        self.assertEqual(serve.handed({"LISTEN_PID": "17", "LISTEN_FDS": "1"}, 17), 1)

    def test_for_another(self) -> None:
        self.assertEqual(serve.handed({"LISTEN_PID": "18", "LISTEN_FDS": "1"}, 17), 0)

    def test_no_numbers(self) -> None:
        environments: list[dict[str, str]] = [{}, {"LISTEN_FDS": "1"}, {"LISTEN_PID": "17"}, {"LISTEN_PID": "17", "LISTEN_FDS": "some"},
                                              {"LISTEN_PID": "17", "LISTEN_FDS": "-1"}]
        for environment in environments:
            self.assertEqual(serve.handed(environment, 17), 0)

    def test_usage(self) -> None:
        """Without a command, and without a socket, it says how it is used and serves nobody."""
        own = str(os.getpid())
        cases: list[tuple[list[str], str]] = [([], "1"), (["/bin/cat"], "0")]
        for words, count in cases:
            with mock.patch.dict(os.environ, {"LISTEN_PID": own, "LISTEN_FDS": count}), mock.patch.object(serve, "serve") as served, \
                    mock.patch.object(signal, "signal"), mock.patch.object(socket, "socket"), self.assertRaises(SystemExit) as ended:
                serve.main(words)
            self.assertEqual((ended.exception.code, served.called), (serve.__doc__, False))


class Served(unittest.TestCase):
    """A process to which sockets are handed, with `cat` for each client."""

    def test_each_client_has_a_server(self) -> None:
        """Two sockets, and two clients side by side: each reads what it wrote. SIGTERM ends it."""
        with contextlib.ExitStack() as stack:
            listeners = [stack.enter_context(socket.create_server(("127.0.0.1", 0))) for _ in range(2)]
            numbers = [it.fileno() for it in listeners]
            words = f'LISTEN_PID=$$ LISTEN_FDS=2 exec "$0" -B "$1" /bin/cat 3<&{numbers[0]} 4<&{numbers[1]}'
            child = stack.enter_context(subprocess.Popen(["sh", "-c", words, sys.executable, serve.__file__], pass_fds=numbers))
            stack.callback(child.kill)
            clients = [stack.enter_context(socket.create_connection(it.getsockname(), 20)) for it in listeners]
            for client, text in zip(clients, (b"one", b"other")):
                client.sendall(text)
            for client, text in zip(clients, (b"one", b"other")):
                client.shutdown(socket.SHUT_WR)
                self.assertEqual(client.makefile("rb").read(), text)
            child.terminate()
            self.assertEqual(child.wait(20), 0)


if __name__ == "__main__":
    unittest.main()
