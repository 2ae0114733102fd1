#!/usr/bin/env python3
"""Two slixmpp clients and their archives (XEP-0313): one writes to the other, who is away, and goes on writing while that one comes back and asks for its
archive page by page; it has each message once, in order, and by a second asking, of the last messages alone.

usage: slixmpp_archive.py PORT MESSAGES
"""
import asyncio
import sys

import slixmpp

PORT, MANY = int(sys.argv[1]), int(sys.argv[2])
PAGE = 10


class Client(slixmpp.ClientXMPP):
    def __init__(self, name, password):
        super().__init__(name + "@localhost", password)
        for plugin in ("xep_0030", "xep_0059", "xep_0199", "xep_0313", "xep_0359"):
            self.register_plugin(plugin)
        self.started, self.heard = asyncio.Event(), []
        self.add_event_handler("session_start", self.start)
        self.add_event_handler("message", lambda message: self.heard.append(message["body"]))

    def start(self, event):
        self.send_presence()
        self.started.set()

    async def come(self):
        self.connect(("127.0.0.1", PORT), force_starttls=False, disable_starttls=True)
        await self.started.wait()

    async def go(self):
        await self.disconnect()

    def write(self, to, words):
        self.send_message(mto=to, mbody=words, mtype="chat")

    async def was_heard(self):
        """All that was sent was acted on."""
        await self["xep_0199"].ping("localhost")

    async def archive(self, writes=None, **asks):
        """The words in the archive, in order; after each page `writes` is called."""
        found = []
        async for message in self["xep_0313"].iterate(rsm={"max": PAGE}, **asks):
            found.append(message["mam_result"]["forwarded"]["stanza"]["body"])
            if writes and len(found) % PAGE == 0:
                await writes()
        return found


async def talk(alice, bob):
    await alice.come()
    said = ["while away %d" % number for number in range(MANY)]
    for words in said:
        alice.write("bob@localhost", words)
    await alice.was_heard()
    await bob.come()

    async def writes():
        if len(said) < MANY + 5:
            said.append("in between %d" % len(said))
            alice.write("bob@localhost", said[-1])
            await alice.was_heard()

    found = await bob.archive(writes=writes, with_jid=slixmpp.JID("alice@localhost"))
    assert found == said, (found, said)
    features = (await bob["xep_0030"].get_info(jid="bob@localhost"))["disco_info"]["features"]
    assert {"urn:xmpp:mam:2", "urn:xmpp:sid:0"} <= set(features), features
    mine = await alice.archive(with_jid=slixmpp.JID("bob@localhost"))
    assert mine == said, mine
    assert await alice.archive(with_jid=slixmpp.JID("carol@localhost")) == []
    assert not alice.heard, alice.heard
    await alice.go()
    await bob.go()
    print("slixmpp %s: %d messages were had from the archive, %d of them written while it was read, each once and in order"
          % (slixmpp.__version__, len(found), len(found) - MANY))


if __name__ == "__main__":
    clients = Client("alice", "wonderland"), Client("bob", "builder")
    asyncio.get_event_loop().run_until_complete(asyncio.wait_for(talk(*clients), 120))
