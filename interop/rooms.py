"""Two clients in a room (XEP-0045), one of which loses its link again and again and resumes its session: both hear all that is said there, each once and in
one order. Python's standard library alone."""
import random
import sys

from client import Client

ROOM = "tea@rooms.localhost"


def says(client, words):
    client.say("<message to='%s' type='groupchat'><body>%s</body></message>" % (ROOM, words))


def heard(client):
    return [words for words in client.saw if words is not None]


def main(port, rounds):
    draw = random.Random(1)
    alice, bob = Client("alice", "wonderland", port), Client("bob", "builder", port)
    for client in (alice, bob):
        client.connect()
        client.ask_session()
        client.say("<presence to='%s/%s'/>" % (ROOM, client.name))
        if client is alice:
            client.say("<iq to='%s' id='c' type='set'><query xmlns='http://jabber.org/protocol/muc#owner'>"
                       "<x xmlns='jabber:x:data' type='submit'/></query></iq>" % ROOM)
            client.until(lambda: client.handled == 3)
    bob.until(lambda: None in bob.saw)
    cuts = 0
    for number in range(rounds):
        says(alice, "alice %d" % number)
        says(bob, "bob %d" % number)
        if draw.random() < 0.3:
            bob.cut()
            says(alice, "alice again %d" % number)
            bob.resume()
            cuts += 1
    says(alice, "alice ends")
    says(bob, "bob ends")
    for client in (alice, bob):
        client.wait_for("alice ends")
        client.wait_for("bob ends")
    for client in (alice, bob):
        client.close()
    assert heard(alice) == heard(bob), "they heard different things"
    assert len(set(heard(bob))) == len(heard(bob)) == 2 * rounds + cuts + 2, "something was lost or repeated"
    print("%d resumptions, %d messages, each heard once and in one order by both" % (cuts, len(heard(bob))))


if __name__ == "__main__":
    main(int(sys.argv[1]), int(sys.argv[2]))
