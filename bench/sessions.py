#!/usr/bin/env python3
"""What events of one session cost in `replay` where others are there: instructions (callgrind), as the difference of a script with 400 of each and one with none. The
others are bound, each of a user of its own. `comes and goes` is a connection from `open` to `close`, with its login and its binding; `is lost and resumed` is a session
that counts and loses its link, with the login and the resumption on another; `is swept` is one that is lost for good, from its `open` to its `sweep`.

usage: sessions.py BINARY [SESSIONS ..]
"""
import sys

from notes import instructions, opening

TIMES = 400
LOST = 300_000


def comes_and_goes(line, user, number):
    return ["open %d" % line, "login %d %s" % (line, user), "bind %d 2000 %032x b r" % (line, number), "pull %d 2000" % line, "close %d 2000" % line]


def is_swept(line, user, number):
    moment = 10_000 + number * 2 * LOST
    return (["open %d" % line, "login %d %s" % (line, user), "bind %d %d %032x b r" % (line, moment, number), "pull %d %d" % (line, moment),
             "enable %d yes %032x" % (line, number), "pull %d %d" % (line, moment), "drop %d %d" % (line, moment), "sweep %d %d" % (line, moment + LOST)])


def cost(binary, sessions, event):
    users = sessions - 1
    # One more user, whose session is the one.
    lines = opening(users)
    lines[0] = "house example.org %s %d" % (",".join(["u%d" % user for user in range(users)] + ["me"]), sessions)
    bare, _ = instructions(binary, lines)
    whole, printed = instructions(binary, lines + [line for number in range(TIMES) for line in event(users, "me", number)])
    assert printed.count(b"id='b'") == TIMES, "each was bound"
    return (whole - bare) / TIMES


if __name__ == "__main__":
    for sessions in map(int, sys.argv[2:] or ["16", "512"]):
        told = ["%s: %.0f" % (event.__name__.replace("_", " "), cost(sys.argv[1], sessions, event)) for event in (comes_and_goes, is_swept)]
        print("%d sessions: %s" % (sessions, ", ".join(told)))
