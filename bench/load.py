"""What the jobs of serve.py stand on: what a server uses, clients that come and go together, and messages at a rate."""
import glob
import os
import selectors
import socket
import sys
import time
from pathlib import Path

sys.path.insert(0, str(Path(__file__).resolve().parent.parent / "interop"))
from client import Client

TICK = os.sysconf("SC_CLK_TCK")


class Server:
    """A server on this machine, with the users u0, u1, .. whose passwords are pw-u0, pw-u1, .."""

    def __init__(self, port, pid, domain):
        self.port, self.pid, self.domain = port, pid, domain

    def processes(self):
        """Its process, and those that descend from it."""
        found = [self.pid]
        for pid in found:
            for path in glob.glob("/proc/%d/task/*/children" % pid):
                found += [int(child) for child in Path(path).read_text().split()]
        return found

    def spent(self):
        """Processor seconds so far, with those of children that ended."""
        stats = [Path("/proc/%d/stat" % pid).read_text().rsplit(")", 1)[1].split() for pid in self.processes()]
        return sum(int(field) for stat in stats for field in stat[11:15]) / TICK

    def worked(self):
        """Processor seconds of the threads that there are, to the nanosecond."""
        return sum(int(Path(path).read_text().split()[0]) for pid in self.processes() for path in glob.glob("/proc/%d/task/*/schedstat" % pid)) / 1e9

    def resident(self):
        """KiB that are resident."""
        lines = [line for pid in self.processes() for line in Path("/proc/%d/status" % pid).read_text().splitlines()]
        return sum(int(line.split()[1]) for line in lines if line.startswith("VmRSS:"))

    def client(self, number):
        """A client that is logged in and has no session yet."""
        client = Client("u%d" % number, "pw-u%d" % number, self.port, self.domain)
        client.connect()
        return client

    def online(self, number):
        client = self.client(number)
        client.bind()
        return client

    def crowd(self, most):
        """So many clients online, or as many as the server answers."""
        clients = []
        while len(clients) < most:
            try:
                clients.append(self.online(len(clients)))
            except socket.timeout:
                break
        return clients


def leave(clients):
    """Ends the streams, and waits until the server ended them too."""
    for client in clients:
        client.send("</stream:stream>")
    for client in clients:
        while client.socket.recv(65536):
            pass
        client.socket.close()


def message(receiver, body):
    return "<message to='%s' type='chat'><body>%s</body></message>" % (receiver.address, body)


class Counter:
    """Counts the messages that come to a client, and answers when the server asks for its count."""

    def __init__(self, client):
        self.client, self.rest, self.came = client, b"", 0

    def read(self):
        data = self.client.socket.recv(65536)
        if not data:
            raise EOFError(self.client.name + ": the stream ended")
        data = self.rest + data
        end = data.rfind(b">") + 1
        whole, self.rest = data[:end], data[end:]
        self.came += whole.count(b"</message>")
        if b"<r " in whole or b"<r/>" in whole:
            self.client.send("<a xmlns='urn:xmpp:sm:3' h='%d'/>" % (self.client.handled + self.came))

    def take(self, wanted):
        while self.came < wanted:
            self.read()


class Flow:
    """Messages of 100 bytes at a rate, in turn from the first of each pair to the second."""

    def __init__(self, clients):
        self.counters = [Counter(client) for client in clients]
        self.selector = selectors.DefaultSelector()
        for counter in self.counters:
            self.selector.register(counter.client.socket, selectors.EVENT_READ, counter)

    def read(self, seconds):
        """What comes within a time."""
        ready = self.selector.select(seconds)
        for key, _ in ready:
            key.data.read()
        return ready

    def run(self, rate, seconds):
        begin = time.monotonic()
        for number in range(rate * seconds):
            while time.monotonic() < begin + number / rate:
                self.read(max(0, begin + number / rate - time.monotonic()))
            first = 2 * number % len(self.counters)
            self.counters[first].client.send(message(self.counters[first + 1].client, "x" * 100))
        while sum(counter.came for counter in self.counters) < rate * seconds:
            if not self.read(30):
                raise TimeoutError("messages don't come")
