#!/usr/bin/env python3
"""Connections that come and go at a server on this machine: what it has resident after each thousand.

usage: churn.py PORT PID [CONNECTIONS]
"""
import socket
import sys

PORT, PID = int(sys.argv[1]), int(sys.argv[2])
CONNECTIONS = int(sys.argv[3]) if len(sys.argv) > 3 else 10_000
HEADER = (b"<stream:stream xmlns='jabber:client' xmlns:stream='http://etherx.jabber.org/streams'"
          b" to='localhost' version='1.0'>")


def resident():
    """KiB that the server has resident."""
    with open("/proc/%d/status" % PID) as status:
        return next(int(line.split()[1]) for line in status if line.startswith("VmRSS"))


def visit():
    with socket.create_connection(("127.0.0.1", PORT)) as link:
        link.sendall(HEADER + b"</stream:stream>")
        while link.recv(65536):
            pass


for number in range(1, CONNECTIONS + 1):
    visit()
    if number % 1000 == 0:
        print("%d connections: %d KiB" % (number, resident()), flush=True)
