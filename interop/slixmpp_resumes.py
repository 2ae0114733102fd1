#!/usr/bin/env python3
"""Two slixmpp clients chat while the link of one is reset a hundred times: it must see every message once, and in order.

usage: slixmpp_resumes.py PORT [RESETS]
"""
import asyncio
import socket
import struct
import sys

import slixmpp

PORT = int(sys.argv[1])
RESETS = int(sys.argv[2]) if len(sys.argv) > 2 else 100
MESSAGES_PER_LINK = 20


class Client(slixmpp.ClientXMPP):
    def __init__(self, name, password):
        super().__init__(name + "@localhost", password)
        self.register_plugin("xep_0198")
        self.saw, self.resumed, self.seen = [], 0, set()
        self.started, self.again = asyncio.Event(), asyncio.Event()
        self.add_event_handler("session_start", self.start)
        self.add_event_handler("session_resumed", self.resume)
        self.add_event_handler("message", lambda message: self.saw.append(message["body"]))
        self.add_event_handler("presence", lambda presence: self.seen.add(presence["from"].bare))
        self.add_event_handler("disconnected", lambda reason: self.join())

    def join(self):
        self.connect(("127.0.0.1", PORT), force_starttls=False, disable_starttls=True)

    def start(self, event):
        self.send_presence()
        self.started.set()

    def resume(self, event):
        self.resumed += 1
        self.again.set()

    def reset(self):
        """Ends the link as a lost network does: no close tag, and a reset."""
        self.again.clear()
        self.transport.get_extra_info("socket").setsockopt(socket.SOL_SOCKET, socket.SO_LINGER, struct.pack("ii", 1, 0))
        self.transport.abort()


async def load(sender, receiver, wanted):
    """Messages without end, a few at a time, until the receiver's resumptions are done."""
    while receiver.resumed < RESETS:
        for _ in range(2):
            sender.send_message(mto=receiver.boundjid.bare, mbody=str(len(wanted)), mtype="chat")
            wanted.append(str(len(wanted)))
        await asyncio.sleep(0.002)


async def talk(alice, bob):
    for client in (alice, bob):
        client.join()
        await asyncio.wait_for(client.started.wait(), 30)
    for client in (alice, bob):
        client.send_presence(pto=(bob if client is alice else alice).boundjid.full)
    wanted = []
    loading = asyncio.ensure_future(load(bob, alice, wanted))
    for number in range(RESETS):
        before = len(alice.saw)
        while len(alice.saw) < before + MESSAGES_PER_LINK:
            await asyncio.sleep(0.001)
        alice.reset()
        await asyncio.wait_for(alice.again.wait(), 30)
    await loading
    for _ in range(3000):
        if len(alice.saw) >= len(wanted):
            break
        await asyncio.sleep(0.01)
    await asyncio.sleep(0.5)
    seen = "bob@localhost" in alice.seen and "alice@localhost" in bob.seen
    print("slixmpp %s: %d resumptions, %d messages sent, %d seen, presence %s" %
          (slixmpp.__version__, alice.resumed, len(wanted), len(alice.saw), "seen" if seen else "NOT SEEN"))
    return seen and alice.saw == wanted


def main():
    loop = asyncio.get_event_loop()
    alice, bob = Client("alice", "wonderland"), Client("bob", "builder")
    good = loop.run_until_complete(asyncio.wait_for(talk(alice, bob), 300))
    print("every message once, and in order" if good else "a message is lost, repeated or out of order")
    sys.exit(0 if good else 1)


if __name__ == "__main__":
    main()
