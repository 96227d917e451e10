"""Notifications for systemd (sd_notify(3)): a datagram to the socket that it names. Without that
name nothing is told."""
from __future__ import annotations

import os
import socket


def notify(*lines: str) -> None:
    """Tells lines as READY=1. The service manager may be gone or slow; the keeper goes on without
    it."""
    address = os.environ.get("NOTIFY_SOCKET")
    if not address:
        return
    if address.startswith("@"):
        address = "\0" + address[1:]
    with socket.socket(socket.AF_UNIX, socket.SOCK_DGRAM) as sender:
        sender.settimeout(1)
        try:
            sender.sendto("\n".join(lines).encode(), address)
        except OSError:
            pass
