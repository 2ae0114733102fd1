#!/usr/bin/env python3
"""Jobs at an XMPP server on this machine, each a line of figures or a few. Processor seconds, which other work on the machine distorts least,
and resident memory are those of the server's process and its children.

usage: serve.py PORT PID [DOMAIN] [PAIRS] [JOB ..]        with the users u0 to u63, whose passwords are pw-u0 to pw-u63

idle         memory of sessions that do nothing: attached ones, and ones that are cut off and wait for their resumption
logins       logins one after the other
resumptions  resumptions one after the other, each after a reset
full         the same, each of which gives 50 entries that came while its link was lost
one_message  the time of one message on a quiet server
messages     messages between PAIRS pairs as fast as they go, with stream management
fixed        the same load over 2, 16 and 64 connections
quiet        what connections cost that say nothing
"""
import sys
import time

from load import Counter, Flow, Server, leave, message

SERVER = Server(int(sys.argv[1]), int(sys.argv[2]), sys.argv[3] if len(sys.argv) > 3 else "localhost")
PAIRS = int(sys.argv[4]) if len(sys.argv) > 4 else 8
USERS = 64


def middle(values):
    return sorted(values)[len(values) // 2]


def idle(attached=48, detached=500, warm=200):
    """Comes first, since memory that a server was given once is used again. A detached session has no connection: its client was cut off after `enable`. At the
    end each is resumed, so each was there."""
    for number in range(warm):
        idle_session(number).close()
    base = settled()
    clients = [idle_session(number) for number in range(attached)]
    tell_idle("attached", attached, base)
    for client in clients:
        client.cut()
    for number in range(attached, detached):
        clients.append(idle_session(number))
        clients[-1].cut()
    tell_idle("detached", detached, base)
    for client in clients:
        client.resume()
        client.close()


def idle_session(number):
    client = SERVER.client(number % USERS)
    client.ask_session()
    return client


def settled():
    """The least that is resident until it hasn't fallen for 15 seconds, since some servers give memory back bit by bit."""
    least, still = SERVER.resident(), 0
    while still < 15:
        time.sleep(1)
        now = SERVER.resident()
        still = 0 if now < least - 100 else still + 1
        least = min(least, now)
    return least


def tell_idle(kind, count, base):
    now = settled()
    print("idle: %d %s sessions, %d KiB before them and %d KiB with them, %d bytes each" % (count, kind, base, now, (now - base) * 1024 / count))


def logins(count=300):
    before, took = SERVER.spent(), []
    for _ in range(count):
        begin = time.time()
        client = SERVER.client(0)
        took.append(time.time() - begin)
        client.close()
    tell_each("logins", took, before)


def resumptions(count=200):
    client = SERVER.online(0)
    before, took = SERVER.spent(), []
    for _ in range(count):
        client.cut()
        begin = time.time()
        client.resume()
        took.append(time.time() - begin)
    tell_each("resumptions", took, before)
    leave([client])


def full(count=200, entries=50):
    reader, sender = SERVER.online(0), SERVER.online(1)
    cost, took = 0, []
    for _ in range(count):
        reader.cut()
        sender.send(message(reader, "x" * 100) * entries + "<r xmlns='urn:xmpp:sm:3'/>")
        while sender.read().tag != "{urn:xmpp:sm:3}a":
            pass
        wanted, before, begin = reader.handled + entries, SERVER.worked(), time.time()
        reader.resume()
        reader.until(lambda: reader.handled == wanted)
        took.append(time.time() - begin)
        cost += SERVER.worked() - before
    print("full: %d resumptions of %d entries, %.2f ms in the middle, %.2f ms of processor each" % (count, entries, middle(took) * 1e3, cost * 1e3 / count))
    leave([reader, sender])


def tell_each(job, took, before):
    cost = (SERVER.spent() - before) / len(took)
    print("%s: %d, %.2f ms in the middle, %.2f ms of processor each" % (job, len(took), middle(took) * 1e3, cost * 1e3))


def one_message(count=300):
    receiver, sender = SERVER.online(0), SERVER.online(1)
    counter, took = Counter(receiver), []
    for number in range(count):
        begin = time.time()
        sender.send(message(receiver, str(number)))
        counter.take(number + 1)
        took.append(time.time() - begin)
    print("one message: %.2f ms in the middle of %d" % (middle(took) * 1e3, count))
    leave([receiver, sender])


def messages(window=50, rounds=50):
    clients = SERVER.crowd(2 * PAIRS)
    pairs = [(sender, Counter(receiver)) for sender, receiver in zip(clients[0::2], clients[1::2])]
    before, begin = SERVER.spent(), time.time()
    for turn in range(rounds):
        for sender, counter in pairs:
            sender.send("".join(message(counter.client, "x" * 100) for _ in range(window)))
        for sender, counter in pairs:
            counter.take((turn + 1) * window)
    seconds, cost = time.time() - begin, SERVER.spent() - before
    count = len(pairs) * rounds * window
    print("messages: %d between %d pairs, %d a second, %.2f processor seconds per 100,000" % (count, len(pairs), count / seconds, cost * 1e5 / count))
    leave(clients)


def fixed(rate=200, seconds=10):
    for connections in (2, 16, 64):
        clients = SERVER.crowd(connections)
        time.sleep(1)
        before, begin = SERVER.spent(), time.time()
        Flow(clients[:len(clients) // 2 * 2]).run(rate, seconds)
        cost, took = SERVER.spent() - before, time.time() - begin
        print("fixed: %d messages over %d connections in %.1f seconds, %.2f processor seconds" % (rate * seconds, len(clients), took, cost))
        leave(clients)


def quiet(connections=64, seconds=10):
    clients = SERVER.crowd(connections)
    time.sleep(1)
    before = SERVER.spent()
    time.sleep(seconds)
    print("quiet: %d connections cost %.1f hundredths of a core" % (len(clients), (SERVER.spent() - before) * 100 / seconds))
    leave(clients)


JOBS = {job.__name__: job for job in (idle, logins, resumptions, full, one_message, messages, fixed, quiet)}


def main():
    for job in [JOBS[name] for name in sys.argv[5:] or JOBS]:
        job()
        sys.stdout.flush()


if __name__ == "__main__":
    main()
