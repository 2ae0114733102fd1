#!/usr/bin/env python3
"""What archives cost in `replay`, in instructions (callgrind), each as the difference of two scripts.

A message of 90 bytes of words and the `pull` that takes it, without a body and with one, which is kept twice; alone, and where both archives are full. And a page of 50 rows, and the
pulls by which its client takes it, of an archive of 100 rows and of one of 10,000: at its start, in its middle and at its end, without a filter, with a peer, and between two moments.

usage: archives.py BINARY
"""
import re
import subprocess
import sys

MANY, PAGES = 2_000, 20


def opening():
    lines = ["house example.org u0,u1 2"]
    for user in range(2):
        lines += ["open %d" % user, "login %d u%d" % (user, user), "bind %d 1000 %032x b%d r" % (user, user, user), "pull %d 1000" % user]
    return lines


def message(tag, moment=1000, to="u1@example.org/r"):
    return "stanza 0 %d <message to='%s' type='chat'><%s>%s</%s></message>" % (moment, to, tag, "w" * 90, tag)


def kept(rows):
    """Rows of u0 and of u1, one each second, which nobody takes."""
    return [message("body", 1000 * number, "u1@example.org") for number in range(1, rows + 1)]


def query(place, field, rows):
    middle, last = rows // 2, rows
    asks = {"start": "", "middle": "<after>%d</after>" % middle, "end": "<before/>"}[place]
    moments = "<field var='start'><value>1970-01-01T00:00:02Z</value></field><field var='end'><value>2026-01-01T00:00:00Z</value></field>"
    fields = {"none": "", "peer": "<field var='with'><value>u0@example.org</value></field>", "moments": moments}[field]
    form = "<x xmlns='jabber:x:data' type='submit'><field var='FORM_TYPE' type='hidden'><value>urn:xmpp:mam:2</value></field>%s</x>" % fields if fields else ""
    return ("stanza 1 %d <iq type='set' id='q'><query xmlns='urn:xmpp:mam:2'>%s<set xmlns='http://jabber.org/protocol/rsm'><max>50</max>%s</set></query></iq>"
            % (1000 * last, form, asks))


def instructions(binary, lines):
    told = subprocess.run(["valgrind", "--tool=callgrind", "--callgrind-out-file=/dev/null", binary, "replay"],
                          input="".join(line + "\n" for line in lines).encode(), stdout=subprocess.PIPE, stderr=subprocess.PIPE)
    return int(re.search(rb"Collected : (\d+)", told.stderr)[1]), told.stdout


def message_cost(binary, tag, before):
    lines = opening() + before
    bare, _ = instructions(binary, lines)
    whole, printed = instructions(binary, lines + [message(tag, 100_000_000), "pull 1 100000000"] * MANY)
    assert printed.count(b"frame <message") == MANY, "each message was taken"
    return (whole - bare) / MANY


def page_cost(binary, rows, place, field):
    lines = opening() + kept(rows)
    bare, _ = instructions(binary, lines)
    whole, printed = instructions(binary, lines + ([query(place, field, rows)] + ["pull 1 1000"] * 51) * PAGES)
    assert printed.count(b"<result ") == 50 * PAGES, "each page has 50 rows"
    return (whole - bare) / PAGES


def main(binary):
    for name, before in (("empty archives", []), ("full archives", kept(10_000))):
        plain, body = message_cost(binary, "thread", before), message_cost(binary, "body", before)
        print("%s: %.0f instructions a message without a body, %.0f with one: %.2f" % (name, plain, body, body / plain))
    for field in ("none", "peer", "moments"):
        for place in ("start", "middle", "end"):
            few, many = (page_cost(binary, rows, place, field) for rows in (100, 10_000))
            print("a page at the %s, filter %s: %.0f of 100 rows, %.0f of 10,000: %.3f" % (place, field, few, many, many / few))


if __name__ == "__main__":
    main(sys.argv[1])
