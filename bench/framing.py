#!/usr/bin/env python3
"""What a byte of a stream costs in `replay`, the spelling of its items included: instructions (callgrind) of a script that feeds a chat, less those of the same lines
fed to a framer that is broken already, which takes their bytes and reads none. Of messages of Latin words and of Chinese ones, in pieces of 1,400 bytes and with each byte alone.

usage: framing.py BINARY
"""
import random
import re
import subprocess
import sys

HEADER = "<stream:stream xmlns='jabber:client' xmlns:stream='http://etherx.jabber.org/streams' to='example.org' version='1.0'>"
LATIN = "hello are you there the train is late again so please begin without me and keep a chair by the window".split()
CHINESE = "今天 晚上 我们 在 车站 见面 好吗 火车 晚点 了 请 先 开始 给 我 留 一个 座位 谢谢 大家".split()
KIND_SHARES = [("message", 60), ("presence", 8), ("ping", 7), ("ack", 15), ("request", 10)]


def chat(words, bytes_wanted):
    """A header, and then messages, presences, pings and acknowledgements, in all at least so many bytes."""
    draw = random.Random(7)
    said = lambda most: " ".join(draw.choice(words) for _ in range(draw.randrange(1, most)))
    kinds, shares = zip(*KIND_SHARES)
    out, count = [HEADER], 0
    while count < bytes_wanted:
        number = draw.randrange(10**6)
        stanza = {
            "message": lambda: "<message to='u%d@example.org/phone' type='chat' id='m%d'><body>%s</body><active xmlns='http://jabber.org/protocol/chatstates'/></message>" % (number % 64, number, said(26)),
            "presence": lambda: "<presence><show>away</show><status>%s</status></presence>" % said(6),
            "ping": lambda: "<iq type='get' id='q%d' to='example.org'><ping xmlns='urn:xmpp:ping'/></iq>" % number,
            "ack": lambda: "<a xmlns='urn:xmpp:sm:3' h='%d'/>" % number,
            "request": lambda: "<r xmlns='urn:xmpp:sm:3'/>",
        }[draw.choices(kinds, shares)[0]]()
        out.append(stanza)
        count += len(stanza.encode())
    return "".join(out).encode()


def instructions(binary, lines):
    told = subprocess.run(["valgrind", "--tool=callgrind", "--callgrind-out-file=/dev/null", binary, "replay"],
                          input="\n".join(["house example.org alice 1"] + lines + [""]).encode(), stdout=subprocess.PIPE, stderr=subprocess.PIPE)
    return int(re.search(rb"Collected : (\d+)", told.stderr)[1]), told.stdout


def cost(binary, data, piece):
    feeds = ["feed 0 " + data[at:at + piece].hex() for at in range(0, len(data), piece)]
    read, printed = instructions(binary, feeds)
    passed, _ = instructions(binary, ["feed 0 78"] + feeds)
    assert b"broken" not in printed and printed.count(b"item ") > 1, "the whole chat is read"
    return (read - passed) / len(data)


def main():
    binary = sys.argv[1]
    for name, words in [("Latin", LATIN), ("Chinese", CHINESE)]:
        for piece, count in [(1400, 300_000), (1, 60_000)]:
            print("%-8s pieces of %4d bytes: %.0f instructions a byte" % (name, piece, cost(binary, chat(words, count), piece)))


if __name__ == "__main__":
    main()
