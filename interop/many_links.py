#!/usr/bin/env python3
"""Many clients in pairs on one server of four workers, each reset again and again while its peer goes on: whether each message was seen once and in
order. The server is started here, with as many accounts as the sessions want. usage: many_links.py PROGRAM CLIENTS RESETS"""
import base64
import secrets
import socket
import subprocess
import sys
import tempfile
import threading

from client import Client

PER_USER = 16


def make_accounts(program, users):
    lines = []
    for user in range(users):
        salt = base64.b64encode(secrets.token_bytes(16)).decode()
        made = subprocess.run([program, "account", "u%d" % user, salt], input=b"pw-u%d\n" % user, stdout=subprocess.PIPE, check=True)
        lines.append(made.stdout)
    return b"".join(lines)


def free_port():
    with socket.create_server(("127.0.0.1", 0)) as server:
        return server.getsockname()[1]


def connect(client):
    while True:
        try:
            return client.connect()
        except ConnectionRefusedError:
            pass


def say(sender, receiver, words):
    sender.say("<message to='%s' type='chat'><body>%s</body></message>" % (receiver.address, words))


def talk(first, second, resets, wrong):
    """Each says its words while the other's link is lost, and sees all of the other's once and in order."""
    said = {first: [], second: []}

    def speak(sender, receiver, count):
        for _ in range(count):
            words = "%s %d" % (sender.address, len(said[sender]))
            said[sender].append(words)
            say(sender, receiver, words)

    try:
        for _ in range(resets):
            for lost, other in ((first, second), (second, first)):
                speak(first, second, 3)
                speak(second, first, 3)
                lost.cut()
                speak(other, lost, 4)
                speak(lost, other, 2)
                lost.resume()
                lost.wait_for(said[other][-1])
                other.wait_for(said[lost][-1])
        if first.saw != said[second] or second.saw != said[first]:
            wrong.append((first.address, second.address))
        for client in (first, second):
            client.close()
    except (EOFError, OSError, ValueError) as error:
        wrong.append((first.address, str(error)))


def main():
    program, clients, resets = sys.argv[1], int(sys.argv[2]), int(sys.argv[3])
    port = free_port()
    with tempfile.TemporaryFile() as accounts:
        accounts.write(make_accounts(program, -(-clients // PER_USER)))
        accounts.seek(0)
        server = subprocess.Popen([program, "serve", "--port", str(port), "--quiet"], stdin=accounts)
        try:
            all_clients = [Client("u%d" % (i // PER_USER), "pw-u%d" % (i // PER_USER), port) for i in range(clients)]
            for client in all_clients:
                connect(client)
                client.ask_session()
            wrong = []
            pairs = [threading.Thread(target=talk, args=(all_clients[i], all_clients[i + 1], resets, wrong)) for i in range(0, clients, 2)]
            for pair in pairs:
                pair.start()
            for pair in pairs:
                pair.join()
        finally:
            server.kill()
    print("%d clients, each reset %d times: %s" % (clients, resets, "a message is lost, repeated or out of order: %s" % wrong[:3] if wrong
                                                   else "each message once, and in order"))
    sys.exit(1 if wrong else 0)


if __name__ == "__main__":
    main()
