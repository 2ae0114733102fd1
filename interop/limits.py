#!/usr/bin/env python3
"""Plays scripts at the limits of rooms on the built program: at each limit one more is refused, and the last that fits is not.

256 rooms in the house, 50 rooms a session, 256 occupants and 256 sessions a room, and 196,608 bytes of affiliations a room.
The program must have been built: `cd crates/xmppd && rt run`.
"""
import pathlib
import subprocess
import sys

ROOT = pathlib.Path(__file__).resolve().parent.parent
PROGRAM = ROOT / "crates/xmppd/out/xmppd"
DICE = "00" * 16
STANZAS = "urn:ietf:params:xml:ns:xmpp-stanzas"
OWNER = "http://jabber.org/protocol/muc#owner"
ADMIN = "http://jabber.org/protocol/muc#admin"


class Script:
    """A script of one house; each connection's user has a resource named by its number."""

    def __init__(self, users, connections):
        self.users = users
        self.lines = [f"house example.org {','.join(users)} {connections}"]

    def bind(self, w, user):
        self.lines += [f"open {w}", f"login {w} {user}", f"bind {w} 1000 {DICE} b r{w}", f"pull {w} 1000"]

    def stanza(self, w, text):
        self.lines.append(f"stanza {w} 1000 {text}")

    def enter(self, w, room, nick):
        self.stanza(w, f"<presence to='{room}@rooms.example.org/{nick}'/>")

    def unlock(self, w, room):
        form = f"<query xmlns='{OWNER}'><x xmlns='jabber:x:data' type='submit'/></query>"
        self.stanza(w, f"<iq id='u' type='set' to='{room}@rooms.example.org'>{form}</iq>")

    def pull(self, w, times=1):
        self.lines += [f"pull {w} 1000"] * times

    def play(self):
        ran = subprocess.run([PROGRAM, "replay"], input="\n".join(self.lines).encode() + b"\n", capture_output=True, timeout=100)
        if ran.returncode:
            sys.exit(f"status {ran.returncode}: {ran.stderr.decode()}")
        return ran.stdout.decode().splitlines()


def error(stanza, to, sender, kind, condition, ident=""):
    return f"frame <{stanza} to='{to}' from='{sender}'{ident} type='error'><error type='{kind}'><{condition} xmlns='{STANZAS}'/></error></{stanza}>"


def last(printed, times):
    """The last frame of this many pulls at the end."""
    return [line for line in printed[-times:] if line.startswith("frame ")][-1]


def expect(what, got, wanted):
    if got != wanted:
        sys.exit(f"{what}:\n  got    {got}\n  wanted {wanted}")
    print(f"{what}: as it must be")


def many_rooms():
    users = [f"u{k}" for k in range(7)]
    script = Script(users, 7)
    for w, user in enumerate(users):
        script.bind(w, user)
    for n in range(256):
        script.enter(n // 50, f"room{n}", "n")
        script.unlock(n // 50, f"room{n}")
    script.enter(6, "another", "n")
    script.pull(6)
    expect("a 257th room", script.play()[-1], error("presence", "u6@example.org/r6", "another@rooms.example.org/n", "wait", "resource-constraint"))
    script.enter(0, "room255", "m")
    # of each of its rooms its own presence, the subject and the form's result, and then the error
    script.pull(0, 151)
    expect("a session's 51st room", script.play()[-1],
           error("presence", "u0@example.org/r0", "room255@rooms.example.org/m", "wait", "resource-constraint"))
    script.lines = script.lines[:-152]
    script.enter(6, "room255", "m")
    script.pull(6, 4)
    own = "<item affiliation='none' jid='u6@example.org/r6' role='participant'/><status code='110'/><status code='170'/>"
    expect("the 256th room can be entered", script.play()[-3],
           "frame <presence to='u6@example.org/r6' from='room255@rooms.example.org/m'><x xmlns='http://jabber.org/protocol/muc#user'>" + own + "</x></presence>")


def many_occupants():
    users = [f"u{k}" for k in range(17)]
    script = Script(users, 257)
    for w in range(257):
        script.bind(w, users[w // 16])
    for w in range(257):
        script.enter(w, "tea", f"n{w}")
        if w == 0:
            script.unlock(0, "tea")
    script.pull(256)
    expect("a 257th occupant", script.play()[-1],
           error("presence", "u16@example.org/r256", "tea@rooms.example.org/n256", "cancel", "service-unavailable"))


def many_sessions():
    users = [f"u{k}" for k in range(17)]
    script = Script(users, 257)
    for w in range(257):
        script.bind(w, users[w % 17])
    for w in range(257):
        script.enter(w, "tea", users[w % 17])
        if w == 0:
            script.unlock(0, "tea")
    script.pull(256)
    expect("a 257th session in a room", script.play()[-1],
           error("presence", "u1@example.org/r256", "tea@rooms.example.org/u1", "cancel", "service-unavailable"))


def many_affiliations():
    most = 196608
    script = Script(["alice"], 1)
    script.bind(0, "alice")
    script.enter(0, "tea", "al")
    script.unlock(0, "tea")

    def length(affiliation, jid):
        return len(f"<item affiliation='{affiliation}' jid='{jid}'/>")

    def member(n, size):
        name = f"m{n}."
        domain = ".".join(["d" * 63] * 15)
        return name + "a" * (size - length("member", "") - len(name) - 1 - len(domain)) + "@" + domain

    def become(ident, jids):
        items = "".join(f"<item affiliation='member' jid='{jid}'/>" for jid in jids)
        script.stanza(0, f"<iq id='{ident}' type='set' to='tea@rooms.example.org'><query xmlns='{ADMIN}'>{items}</query></iq>")

    left = most - length("owner", "alice@example.org")
    sets = 0
    while left > 4000:
        become(f"a{sets}", [member(sets, 1500)])
        left -= 1500
        sets += 1
    script.pull(0, sets + 4)
    done = lambda ident: f"frame <iq to='alice@example.org/r0' from='tea@rooms.example.org' id='{ident}' type='result'/>"
    expect("affiliations up to the limit", last(script.play(), sets + 4), done(f"a{sets - 1}"))
    one = left // 2
    become("b", [member(sets, one)])
    become("c", [member(sets + 1, left - one + 1)])
    script.pull(0, 2)
    expect("affiliations of one byte more than 196,608", script.play()[-1],
           error("iq", "alice@example.org/r0", "tea@rooms.example.org", "wait", "resource-constraint", " id='c'"))
    become("d", [member(sets + 1, left - one)])
    script.pull(0)
    expect("affiliations of 196,608 bytes", script.play()[-1], done("d"))


if __name__ == "__main__":
    if not PROGRAM.exists():
        sys.exit(f"{PROGRAM.relative_to(ROOT)} isn't built")
    many_rooms()
    many_occupants()
    many_sessions()
    many_affiliations()
