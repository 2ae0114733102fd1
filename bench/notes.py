#!/usr/bin/env python3
"""What a `note` with 90 bytes of words and the `pull` that takes it cost in `replay`: instructions (callgrind), as the difference of a script with 10,000 such
pairs and one with none. Pair k is from user k to user 7k + 1, both by the number of users.

usage: notes.py BINARY [SESSIONS ..]
"""
import re
import subprocess
import sys

PAIRS = 10_000


def opening(users):
    """A house whose users are all bound."""
    lines = ["house example.org %s %d" % (",".join("u%d" % user for user in range(users)), users)]
    for user in range(users):
        lines += ["open %d" % user, "login %d u%d" % (user, user), "bind %d 1000 %032x b%d r" % (user, user, user), "pull %d 1000" % user]
    return lines


def pair(number, users):
    sender, receiver = number % users, (7 * number + 1) % users
    return ["note %d 1000 u%d@example.org/r %s" % (sender, receiver, "w" * 90), "pull %d 1000" % receiver]


def instructions(binary, lines):
    told = subprocess.run(["valgrind", "--tool=callgrind", "--callgrind-out-file=/dev/null", binary, "replay"],
                          input="\n".join(lines).encode(), stdout=subprocess.PIPE, stderr=subprocess.PIPE)
    return int(re.search(rb"Collected : (\d+)", told.stderr)[1]), told.stdout


def cost(binary, users):
    lines = opening(users)
    bare, _ = instructions(binary, lines)
    whole, printed = instructions(binary, lines + [line for number in range(PAIRS) for line in pair(number, users)])
    assert printed.count(b"<message") == PAIRS, "each note was taken"
    return (whole - bare) / PAIRS


if __name__ == "__main__":
    for users in map(int, sys.argv[2:] or ["16", "200"]):
        print("%d sessions: %.0f instructions a pair" % (users, cost(sys.argv[1], users)))
