#!/usr/bin/env python3
"""Plays drills by `replay`, event by event as the reply to the one before tells, and compares what came of them with the lines that `drill` writes.

`drill.py PROGRAM [N KEY]..`: without numbers a few drills of few rounds. The program is the proved one, or any other. Prints a line for each drill, and ends with 1
where one differs.
"""
import subprocess
import sys

DRILLS = [(0, 7), (1, 7), (10, 3), (100, 5), (1000, 1), (3000, 2)]
CLIENTS = range(8)


class Draws:
    """The numbers that a key draws: a linear congruential generator modulo 2^64."""

    def __init__(self, key):
        self.x = key

    def draw(self, k):
        self.x = (self.x * 6364136223846793005 + 1442695040888963407) % 2**64
        return (self.x // 2**33) % k


class House:
    """A house of `replay`: each line is one event, and has one reply."""

    def __init__(self, program):
        self.process = subprocess.Popen([program, "replay"], stdin=subprocess.PIPE, stdout=subprocess.PIPE, bufsize=0)
        self.replies = self.process.stdout
        self.ahead = b""
        self.stanzas = self.frames = self.resumed = self.turns = 0
        self.pulled = [0 for _ in CLIENTS]
        self.said = [0 for _ in CLIENTS]
        self.say("house example.org " + ",".join(f"u{i}" for i in CLIENTS) + " 8")

    def say(self, line):
        self.process.stdin.write(line.encode() + b"\n")

    def reply(self):
        while b"\n" not in self.ahead:
            more = self.replies.read(65536)
            if not more:
                raise EOFError("replay ended early")
            self.ahead += more
        line, _, self.ahead = self.ahead.partition(b"\n")
        return line.decode()

    def enter(self, line):
        self.say(line)
        reply = self.reply()
        self.turns += 1
        self.stanzas += line.startswith("stanza ") and reply == "done"
        self.frames += reply.startswith("frame ")
        self.resumed += reply == "resumed"
        return reply

    def pull_all(self, i, t):
        while True:
            reply = self.enter(f"pull {i} {t}")
            if not reply.startswith("frame "):
                return
            self.pulled[i] += reply.startswith(("frame <message", "frame <presence", "frame <iq"))

    def end(self):
        self.process.stdin.close()
        self.process.wait()


def dice(i):
    return "00" * 15 + f"{i:02x}"


def start(house, i):
    for line in (f"open {i}", f"login {i} u{i}", f"bind {i} 0 {dice(i)} b r", f"enable {i} yes {dice(i)}", f"pull {i} 0", f"pull {i} 0"):
        house.enter(line)
    house.enter(f"stanza {i} 0 <presence to='drill@rooms.example.org/u{i}'/>")
    if i == 0:
        house.enter(f"stanza {i} 0 <iq to='drill@rooms.example.org' id='c' type='set'><query xmlns='http://jabber.org/protocol/muc#owner'>"
                    "<x xmlns='jabber:x:data' type='submit'/></query></iq>")


def play_round(house, draws, k):
    t = 1000 * k
    i = draws.draw(8)
    operation = draws.draw(8)
    if operation < 3:
        house.enter(f"stanza {i} {t} <message to='drill@rooms.example.org' type='groupchat'><body>{k}</body></message>")
    elif operation == 3:
        j = draws.draw(8)
        house.enter(f"stanza {i} {t} <message to='u{j}@example.org/r' type='chat'><body>{k}</body></message>")
    elif operation < 6:
        house.pull_all(i, t)
    elif operation == 6:
        house.enter(f"ack {i} {house.pulled[i]}")
        house.said[i] = house.pulled[i]
    else:
        fewer = draws.draw(4)
        house.pulled[i] = max(house.said[i], house.pulled[i] - fewer)
        for line in (f"drop {i} {t}", f"open {i}", f"login {i} u{i}", f"resume {i} {t} {house.pulled[i]} {i + 1}-{dice(i)}"):
            house.enter(line)
        house.said[i] = house.pulled[i]


def play(program, n, key):
    house = House(program)
    draws = Draws(key)
    for i in CLIENTS:
        start(house, i)
    for k in range(1, n + 1):
        play_round(house, draws, k)
    for i in CLIENTS:
        house.pull_all(i, 1000 * (n + 1))
    for i in CLIENTS:
        house.enter(f"close {i} {1000 * (n + 1)}")
    house.end()
    return f"rounds {n} stanzas {house.stanzas} frames {house.frames} resumed {house.resumed} turns {house.turns}\n"


def main():
    program = sys.argv[1]
    numbers = [int(word) for word in sys.argv[2:]]
    differ = False
    for n, key in list(zip(numbers[::2], numbers[1::2])) or DRILLS:
        wanted = play(program, n, key)
        written = subprocess.run([program, "drill", str(n), str(key)], capture_output=True, text=True).stdout
        differ |= written != wanted
        print(f"drill {n} {key}: {written.strip()}" + ("" if written == wanted else f", and by replay {wanted.strip()}"))
    sys.exit(differ)


if __name__ == "__main__":
    main()
