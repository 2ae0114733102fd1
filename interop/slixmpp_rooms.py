#!/usr/bin/env python3
"""Two slixmpp clients in a room: one makes and configures it, each sees the other and hears both, a nick changes, and the other is made a member and kicked.

usage: slixmpp_rooms.py PORT
"""
import asyncio
import sys

import slixmpp

PORT = int(sys.argv[1])
ROOM = "cake@rooms.localhost"


class Client(slixmpp.ClientXMPP):
    def __init__(self, name, password):
        super().__init__(name + "@localhost", password)
        for plugin in ("xep_0030", "xep_0045", "xep_0198"):
            self.register_plugin(plugin)
        self.name, self.heard, self.started = name, [], asyncio.Event()
        self.rooms, self.discovery = self.plugin["xep_0045"], self.plugin["xep_0030"]
        self.add_event_handler("session_start", self.start)
        self.add_event_handler("groupchat_message", lambda message: self.heard.append((message["from"].resource, message["body"])))

    def start(self, event):
        self.send_presence()
        self.started.set()

    async def join(self):
        self.connect(("127.0.0.1", PORT), force_starttls=False, disable_starttls=True)
        await self.started.wait()
        await self.rooms.join_muc_wait(ROOM, self.name)

    def change_nick(self, nick):
        self.send_presence(pto=f"{ROOM}/{nick}")

    def sees(self, nicks):
        """Whether these are the nicks in the room, as this client was told."""
        return sorted(self.rooms.get_roster(ROOM)) == nicks

    def say(self, words):
        self.send_message(mto=ROOM, mbody=words, mtype="groupchat")


async def until(done):
    while not done():
        await asyncio.sleep(0.01)


async def talk(alice, bob):
    await alice.join()
    form = await alice.rooms.get_room_config(ROOM)
    form["type"] = "submit"
    await alice.rooms.set_room_config(ROOM, form)
    await bob.join()
    await until(lambda: alice.sees(["alice", "bob"]) and bob.sees(["alice", "bob"]))
    alice.say("cake?")
    await until(lambda: len(bob.heard) == 1)
    bob.say("yes")
    await until(lambda: len(alice.heard) == len(bob.heard) == 2)
    assert alice.heard == bob.heard == [("alice", "cake?"), ("bob", "yes")], alice.heard
    about = await alice.discovery.get_info(jid=ROOM)
    assert "http://jabber.org/protocol/muc" in about["disco_info"]["features"]
    hosted = await bob.discovery.get_items(jid="rooms.localhost")
    assert ROOM in [item[0] for item in hosted["disco_items"]["items"]]
    await alice.rooms.set_affiliation(ROOM, "member", jid="bob@localhost")
    assert await alice.rooms.get_affiliation_list(ROOM, "member") == ["bob@localhost"]
    bob.change_nick("bobby")
    await until(lambda: alice.sees(["alice", "bobby"]))
    bob.say("still here")
    await until(lambda: alice.heard[-1] == bob.heard[-1] == ("bobby", "still here"))
    await alice.rooms.set_role(ROOM, "bobby", "none")
    await until(lambda: alice.sees(["alice"]))
    print("slixmpp %s: a room was made, configured and shown; both heard all that was said, in one order; a nick changed; a member was kicked" % slixmpp.__version__)


if __name__ == "__main__":
    clients = Client("alice", "wonderland"), Client("bob", "builder")
    asyncio.get_event_loop().run_until_complete(asyncio.wait_for(talk(*clients), 60))
