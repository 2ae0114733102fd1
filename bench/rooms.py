#!/usr/bin/env python3
"""What a groupchat message with 90 bytes of words, and the `pull`s that take it at each occupant, cost in `replay`: instructions (callgrind), as the difference
of a script with 50 such messages and one with none. Each occupant is a user with one session.

usage: rooms.py BINARY [OCCUPANTS ..]
"""
import sys

from notes import instructions, opening

MESSAGES = 50
ROOM = "tea@rooms.example.org"
UNLOCKED = "<query xmlns='http://jabber.org/protocol/muc#owner'><x xmlns='jabber:x:data' type='submit'/></query>"


def inside(occupants):
    """A house whose users are all in one room, and have pulled all that they were told."""
    lines = opening(occupants)
    for user in range(occupants):
        lines.append("stanza %d 1000 <presence to='%s/n%d'/>" % (user, ROOM, user))
        if not user:
            lines.append("stanza 0 1000 <iq id='u' type='set' to='%s'>%s</iq>" % (ROOM, UNLOCKED))
    for user in range(occupants):
        # the presence of each occupant, the subject, and for the owner the result
        lines += ["pull %d 1000" % user] * (occupants + 2)
    return lines


def message(number, occupants):
    sender = number % occupants
    said = "stanza %d 1000 <message to='%s' type='groupchat'><body>%s</body></message>" % (sender, ROOM, "w" * 90)
    return [said] + ["pull %d 1000" % user for user in range(occupants)]


def cost(binary, occupants):
    lines = inside(occupants)
    bare, _ = instructions(binary, lines)
    whole, printed = instructions(binary, lines + [line for number in range(MESSAGES) for line in message(number, occupants)])
    assert printed.count(b"<body>") == MESSAGES * occupants, "each message was taken by each"
    return (whole - bare) / MESSAGES


if __name__ == "__main__":
    for occupants in map(int, sys.argv[2:] or ["4", "50", "256"]):
        each = cost(sys.argv[1], occupants)
        print("%d occupants: %.0f instructions a message, %.0f an occupant" % (occupants, each, each / occupants))
