#!/usr/bin/env python3
"""Clients of a service that send a byte at a time, as fast as they can, and never end a line.

Usage: tests/lib/flood.py PORT CLIENTS SECONDS

Each sends at most as many bytes as a line may have. It prints how many each sent.
"""
import socket
import sys
import time

LONGEST = 8192


def flood(port: int, clients: int, seconds: float) -> int:
    """Sends for so many seconds. Answers how many bytes each client sent."""
    links = [socket.create_connection(("127.0.0.1", port)) for _ in range(clients)]
    for link in links:
        link.setsockopt(socket.IPPROTO_TCP, socket.TCP_NODELAY, 1)
    limit, sent = time.monotonic() + seconds, 0
    while time.monotonic() < limit and sent < LONGEST:
        for link in links:
            link.sendall(b"x")
        sent += 1
    for link in links:
        link.close()
    return sent


if __name__ == "__main__":
    print(flood(int(sys.argv[1]), int(sys.argv[2]), float(sys.argv[3])))
