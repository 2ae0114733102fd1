#!/usr/bin/env python3
"""Two clients on a worker each, who say a message to one another at the same moment and then nothing until both came: how long a message waits at most. A line
that is not rung when something comes for it is looked at a second later. The server is started here. usage: waits.py PROGRAM MESSAGES, so many each way"""
import os
import re
import subprocess
import sys
import tempfile
import time

from client import Client
from many_links import connect, free_port, make_accounts

LONGEST = 0.1
SENT_AT = re.compile(rb"<body>(\d+)</body>")


def ready(user, port):
    client = Client(user, "pw-" + user, port)
    connect(client)
    client.send("<iq type='set' id='bind'><bind xmlns='urn:ietf:params:xml:ns:xmpp-bind'><resource>r</resource></bind></iq>")
    client.read()
    return client


def exchange(client, peer, messages, tell, told):
    """Says so many messages, each when both have taken the one before; gives the longest time that one took."""
    longest = 0
    for _ in range(messages):
        client.socket.sendall(b"<message to='%s@localhost/r'><body>%d</body></message>" % (peer, time.monotonic_ns()))
        heard = b""
        while not heard.endswith(b"</message>"):
            more = client.socket.recv(4096)
            if not more:
                raise EOFError(client.name)
            heard += more
        longest = max(longest, time.monotonic_ns() - int(SENT_AT.search(heard)[1]))
        os.write(tell, b"x")
        os.read(told, 1)
    return longest / 1e9


def main():
    program, messages, port = sys.argv[1], int(sys.argv[2]), free_port()
    with tempfile.TemporaryFile() as accounts:
        accounts.write(make_accounts(program, 2))
        accounts.seek(0)
        server = subprocess.Popen([program, "serve", "--port", str(port), "--workers", "2", "--links", "1", "--quiet"], stdin=accounts)
        try:
            first, second = ready("u0", port), ready("u1", port)
            (from_second, to_first), (from_first, to_second) = os.pipe(), os.pipe()
            if os.fork() == 0:
                longest = exchange(second, b"u0", messages, to_first, from_first)
                os.write(to_first, b"%f" % longest)
                os._exit(0)
            longest = exchange(first, b"u1", messages, to_second, from_second)
            longest = max(longest, float(os.read(from_second, 100)))
        finally:
            server.kill()
    print("%d messages each way: the longest took %.1f ms" % (messages, longest * 1000))
    sys.exit(1 if longest > LONGEST else 0)


if __name__ == "__main__":
    main()
