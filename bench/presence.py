#!/usr/bin/env python3
"""What an available presence of a user who is available already costs in `replay`, with the `pull`s by which all who see it take it: instructions (callgrind), as the
difference of a script with 200 such presences and one with none. Each contact is a user with one session who is available and has a subscription; or none has one, and
the user has one to each, so that nobody but the user is told.

usage: presence.py BINARY [CONTACTS ..]
"""
import sys

from notes import instructions

PRESENCES = 200


def opening(contacts, watch):
    """A house in which all are available, and each contact sees the first user, or is seen."""
    users = ["a"] + ["u%d" % contact for contact in range(contacts)]
    lines = ["house example.org %s %d" % (",".join(users), len(users))]
    for line, user in enumerate(users):
        lines += ["open %d" % line, "login %d %s" % (line, user), "bind %d %d %032x b%d r" % (line, line, line, line)]
    pairs = [((contact + 1, "u%d" % contact), (0, "a")) for contact in range(contacts)]
    pairs = pairs if watch else [(seen, watcher) for watcher, seen in pairs]
    lines += ["stanza %d 1000 <presence to='%s@example.org' type='subscribe'/>" % (watcher[0], seen[1]) for watcher, seen in pairs]
    lines.append("stanza 0 1000 <presence/>")
    lines += ["stanza %d 1000 <presence to='%s@example.org' type='subscribed'/>" % (seen[0], watcher[1]) for watcher, seen in pairs]
    lines += ["stanza %d 1000 <presence/>" % (contact + 1) for contact in range(contacts)]
    lines += ["pull 0 1000"] * (4 * contacts + 8)
    for contact in range(contacts):
        lines += ["pull %d 1000" % (contact + 1)] * 8
    return lines


def cost(binary, contacts, watch):
    lines = opening(contacts, watch)
    bare, before = instructions(binary, lines)
    told = contacts + 1 if watch else 1
    presence = ["stanza 0 1000 <presence/>"] + ["pull %d 1000" % line for line in range(told)]
    whole, printed = instructions(binary, lines + presence * PRESENCES)
    taken = printed.count(b"\nframe <presence") - before.count(b"\nframe <presence")
    assert taken == PRESENCES * told, "each presence was taken by all who see it"
    return (whole - bare) / PRESENCES


if __name__ == "__main__":
    for contacts in map(int, sys.argv[2:] or ["0", "16", "64"]):
        print("%d contacts: %.0f instructions where they see it, %.0f where they don't" % (contacts, *(cost(sys.argv[1], contacts, watch) for watch in (True, False))))
