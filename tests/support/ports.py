"""Ports of 127.0.0.1 that nobody has."""

import random
import socket


def free_port(above=0):
    """One on which a server can begin again and again: below those that the system gives to
    connections. If `above` is given, the port so far above it is free too."""
    while True:
        port = random.randrange(10_000, 30_000)
        if all(is_free(it) for it in {port, port + above}):
            return port


def is_free(port):
    try:
        socket.create_server(("127.0.0.1", port)).close()
    except OSError:
        return False
    return True
