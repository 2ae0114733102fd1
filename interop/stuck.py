#!/usr/bin/env python3
"""A worker with 256 connections, of whom one reads nothing: how long the messages of the others take before and meanwhile, and when that connection is
ended. The server is started here. usage: stuck.py PROGRAM"""
import re
import selectors
import socket
import subprocess
import sys
import tempfile
import threading
import time

from client import Client
from many_links import PER_USER, connect, free_port, make_accounts

PAIRS = 127
EACH = 0.1
SECONDS = 10
LONGEST = 45
SENT_AT = re.compile(rb"<body>(\d+)</body>")
ESTABLISHED = "01"  # as /proc/net/tcp tells the state of a socket


def ready(user, resource, port):
    client = Client(user, "pw-" + user, port)
    connect(client)
    client.send("<iq type='set' id='bind'><bind xmlns='urn:ietf:params:xml:ns:xmpp-bind'><resource>%s</resource></bind></iq>" % resource)
    client.address = client.read().findtext(".//{*}jid")
    return client


class Deaf(Client):
    """A client with room for little, so that the server's socket is full soon."""

    def connect(self):
        self.socket = socket.socket()
        self.socket.setsockopt(socket.SOL_SOCKET, socket.SO_RCVBUF, 4096)
        self.socket.connect(("127.0.0.1", self.port))
        self.begin_stream()
        self.log_in()
        self.begin_stream()


def talk(clients, seconds):
    """Each pair says a message ten times a second: the milliseconds that each took, in order."""
    chooser, rest, took = selectors.DefaultSelector(), {}, []
    for client in clients:
        client.socket.setblocking(False)
        chooser.register(client.socket, selectors.EVENT_READ)
        rest[client.socket] = b""
    begin, said = time.monotonic(), 0
    while time.monotonic() < begin + seconds + 1:
        while said < len(clients) * seconds / EACH and time.monotonic() >= begin + said * EACH / len(clients):
            sender, receiver = clients[said % len(clients)], clients[(said % len(clients)) ^ 1]
            sender.socket.sendall(b"<message to='%s'><body>%d</body></message>" % (receiver.address.encode(), time.monotonic_ns()))
            said += 1
        for key, _ in chooser.select(0.0005):
            heard = rest[key.fileobj] + key.fileobj.recv(65536)
            now = time.monotonic_ns()
            for sent in SENT_AT.findall(heard):
                took.append((now - int(sent)) / 1e6)
            rest[key.fileobj] = heard[heard.rfind(b"</body>") + 7:] if b"</body>" in heard else heard
    assert len(took) == said, "each message comes: %d of %d" % (len(took), said)
    return sorted(took)


def waiting(port, peer):
    """How many bytes the server's open socket to this peer has that weren't taken."""
    for line in open("/proc/net/tcp"):
        fields = line.split()
        if fields[1].endswith(":%04X" % port) and fields[2].endswith(":%04X" % peer) and fields[3] == ESTABLISHED:
            return int(fields[4].split(":")[0], 16)
    return None


def watch(port, deaf, ended):
    """How long after its last byte was taken the socket of the one who reads nothing was ended."""
    peer, most, last = deaf.socket.getsockname()[1], 0, time.monotonic()
    while True:
        bytes_waiting = waiting(port, peer)
        if bytes_waiting is None:
            ended.append(time.monotonic() - last)
            return
        if bytes_waiting > most:
            most, last = bytes_waiting, time.monotonic()
        time.sleep(0.1)


def told(took):
    return "the middle %.2f ms, 99 of a hundred %.2f ms" % (took[len(took) // 2], took[len(took) * 99 // 100])


def main():
    program, port = sys.argv[1], free_port()
    with tempfile.TemporaryFile() as accounts:
        accounts.write(make_accounts(program, 2 * PAIRS // PER_USER + 2))
        accounts.seek(0)
        server = subprocess.Popen([program, "serve", "--port", str(port), "--workers", "1", "--links", "256", "--quiet"], stdin=accounts)
        try:
            clients = [ready("u%d" % (1 + i // PER_USER), "r%d" % i, port) for i in range(2 * PAIRS)]
            flooder, deaf = ready("u0", "flooder", port), Deaf("u0", "pw-u0", port)
            deaf.connect()
            deaf.send("<iq type='set' id='bind'><bind xmlns='urn:ietf:params:xml:ns:xmpp-bind'><resource>deaf</resource></bind></iq>")
            deaf.read()
            before = talk(clients, SECONDS)
            flooder.send("<message to='u0@localhost/deaf'><body>%s</body></message>" % ("y" * 1000) * 3000)
            ended = []
            watcher = threading.Thread(target=watch, args=(port, deaf, ended))
            watcher.start()
            meanwhile = talk(clients, SECONDS)
            watcher.join(60)
        finally:
            server.kill()
    is_slower = meanwhile[len(meanwhile) * 99 // 100] > 2 * before[len(before) * 99 // 100]
    print("before: %s; while one reads nothing: %s; it was ended %s" % (
        told(before), told(meanwhile), "%.0f s after its socket took its last byte" % ended[0] if ended else "never"))
    sys.exit(1 if is_slower or not ended or ended[0] > LONGEST else 0)


if __name__ == "__main__":
    main()
