"""Sessions that have nothing to do: what a login costs, what is resident for each, what they cost while nothing comes, and how long one message takes beside
them. Processor seconds and resident memory are those of the server's process. usage: idle.py SESSIONS PROGRAM, which is started with its defaults, or
idle.py SESSIONS PORT PID, for a server that runs there with as many users as the sessions want, as start_prosody and start_ejabberd make them"""
import os
import pathlib
import subprocess
import sys
import tempfile
import time

sys.path.insert(0, str(pathlib.Path(__file__).resolve().parent.parent / "interop"))
from client import Client
from many_links import connect, free_port, make_accounts

QUIET = 60
PER_USER = 8


def start(program, users):
    accounts, port = tempfile.TemporaryFile(), free_port()
    accounts.write(make_accounts(program, users))
    accounts.seek(0)
    return port, subprocess.Popen([program, "serve", "--port", str(port), "--quiet"], stdin=accounts)


class Server:
    def __init__(self, pid):
        self.pid = pid

    def resident(self):
        """Bytes."""
        with open("/proc/%d/statm" % self.pid) as statm:
            return int(statm.read().split()[1]) * os.sysconf("SC_PAGE_SIZE")

    def seconds(self):
        """Of the processor, in the program and in the system."""
        with open("/proc/%d/stat" % self.pid) as stat:
            fields = stat.read().rsplit(")", 1)[1].split()
        return (int(fields[11]) + int(fields[12])) / os.sysconf("SC_CLK_TCK")


def say_once(sender, receiver, words):
    start = time.time()
    sender.say("<message to='%s' type='chat'><body>%s</body></message>" % (receiver.address, words))
    receiver.wait_for(words)
    return 1000 * (time.time() - start)


def measure(server, sessions, port):
    clients = [Client("u%d" % (i // PER_USER), "pw-u%d" % (i // PER_USER), port) for i in range(sessions)]
    connect(clients[0])
    clients[0].ask_session()
    resident, seconds = server.resident(), server.seconds()
    for client in clients[1:]:
        client.connect()
        client.ask_session()
    print("login: %.2f ms of the processor" % (1000 * (server.seconds() - seconds) / (sessions - 1)))
    print("resident for each session: %d bytes" % ((server.resident() - resident) // (sessions - 1)))
    seconds = server.seconds()
    time.sleep(QUIET)
    print("quiet: %.5f of a core" % ((server.seconds() - seconds) / QUIET))
    times = sorted(say_once(clients[0], clients[-1], "m%d" % i) for i in range(1000))
    print("one message: p50 %.2f ms, p99 %.2f ms" % (times[500], times[990]))


def main():
    sessions = int(sys.argv[1])
    if len(sys.argv) > 3:
        measure(Server(int(sys.argv[3])), sessions, int(sys.argv[2]))
        return
    port, process = start(sys.argv[2], -(-sessions // PER_USER))
    try:
        measure(Server(process.pid), sessions, port)
    finally:
        process.kill()


if __name__ == "__main__":
    main()
