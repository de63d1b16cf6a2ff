"""Ports of this machine that are free, for the demos and the tests of servers."""
from __future__ import annotations

import random
import socket
import threading

HOST = "127.0.0.1"
# Linux gives those from 32,768 on to connections and to whoever asks for any port. So these are taken by nobody who did not name them, also while the
# server that has one is not started yet, or away for a moment.
PORTS = range(20_000, 32_000)

_given: set[int] = set()
_giving = threading.Lock()


def is_free(port: int) -> bool:
    with socket.socket() as probe:
        probe.setsockopt(socket.SOL_SOCKET, socket.SO_REUSEADDR, 1)
        try:
            probe.bind((HOST, port))
            return True
        except OSError:
            return False


def free_ports(count: int) -> list[int]:
    """Ports that are free, and that nobody in this process was given before."""
    found: list[int] = []
    with _giving:
        while len(found) < count:
            port = random.choice(PORTS)
            if port not in _given and is_free(port):
                _given.add(port)
                found.append(port)
    return found
