"""A client for one stream: login by SCRAM-SHA-256 (RFC 7677), stream management with resumption (XEP-0198). Python's standard library alone."""
import base64
import hashlib
import hmac
import secrets
import socket
import struct
import xml.etree.ElementTree as ET

SASL = "urn:ietf:params:xml:ns:xmpp-sasl"
BIND = "urn:ietf:params:xml:ns:xmpp-bind"
SM = "urn:xmpp:sm:3"
CLIENT = "{jabber:client}"
STANZAS = {CLIENT + name for name in ("message", "presence", "iq")}


def b64(data):
    return base64.b64encode(data).decode()


class Client:
    """A client with stream management: it counts what it handled, and keeps what it sent until that is counted."""

    def __init__(self, name, password, port, domain="localhost"):
        self.name, self.password, self.port, self.domain = name, password, port, domain
        self.handled, self.counting, self.unacknowledged, self.saw = 0, False, [], []

    def connect(self):
        self.socket = socket.create_connection(("127.0.0.1", self.port), timeout=30)
        self.begin_stream()
        self.log_in()
        self.begin_stream()

    def begin_stream(self):
        self.parser, self.depth, self.ready = ET.XMLPullParser(("start", "end")), 0, []
        self.send("<stream:stream xmlns='jabber:client' xmlns:stream='http://etherx.jabber.org/streams'"
                  " to='%s' version='1.0'>" % self.domain)
        self.read()

    def send(self, text):
        self.socket.sendall(text.encode())

    def say(self, stanza):
        """Sends a stanza that the server counts; what a lost link swallows is sent again."""
        self.unacknowledged.append(stanza)
        try:
            self.send(stanza)
        except OSError:
            pass

    def read(self):
        """The next element of the stream."""
        while not self.ready:
            data = self.socket.recv(4096)
            if not data:
                raise EOFError(self.name + ": the stream ended")
            self.parser.feed(data)
            for event, element in self.parser.read_events():
                self.depth += 1 if event == "start" else -1
                if event == "end" and self.depth == 1:
                    self.ready.append(element)
        element = self.ready.pop(0)
        self.handled += self.counting and element.tag in STANZAS
        if element.tag == CLIENT + "message":
            self.saw.append(element.findtext(CLIENT + "body"))
        return element

    def log_in(self):
        first = "n=%s,r=%s" % (self.name, secrets.token_hex(8))
        self.send("<auth xmlns='%s' mechanism='SCRAM-SHA-256'>%s</auth>" % (SASL, b64(("n,," + first).encode())))
        challenge = base64.b64decode(self.read().text).decode()
        told = dict(part.split("=", 1) for part in challenge.split(","))
        salted = hashlib.pbkdf2_hmac("sha256", self.password.encode(), base64.b64decode(told["s"]), int(told["i"]))
        key = hmac.digest(salted, b"Client Key", "sha256")
        last = "c=biws,r=" + told["r"]
        said = ",".join((first, challenge, last)).encode()
        signature = hmac.digest(hashlib.sha256(key).digest(), said, "sha256")
        proof = bytes(x ^ y for x, y in zip(key, signature))
        self.send("<response xmlns='%s'>%s</response>" % (SASL, b64((last + ",p=" + b64(proof)).encode())))
        answer = self.read()
        if answer.tag != "{%s}success" % SASL:
            raise ValueError(self.name + ": " + ET.tostring(answer).decode())
        wanted = hmac.digest(hmac.digest(salted, b"Server Key", "sha256"), said, "sha256")
        if base64.b64decode(answer.text or "").split(b",")[0] != b"v=" + base64.b64encode(wanted):
            raise ValueError(self.name + ": the server's signature is wrong")

    def ask_session(self):
        """Binds, and has its stanzas counted in a session that can be resumed."""
        self.send("<iq type='set' id='bind'><bind xmlns='%s'/></iq><enable xmlns='%s' resume='true'/>" % (BIND, SM))
        self.address = self.read().findtext(".//{%s}jid" % BIND)
        self.session = self.read().get("id")
        self.counting = True

    def bind(self):
        """A session that is available."""
        self.ask_session()
        self.say("<presence/>")
        self.until(lambda: self.handled == 1)

    def until(self, done):
        while not done():
            self.read()

    def cut(self):
        """Ends the link as a lost network does: no close tag, and a reset."""
        self.socket.setsockopt(socket.SOL_SOCKET, socket.SO_LINGER, struct.pack("ii", 1, 0))
        self.socket.close()

    def resume(self):
        self.counting = False
        self.connect()
        self.send("<resume xmlns='%s' previd='%s' h='%d'/>" % (SM, self.session, self.handled))
        resumed = self.read()
        if resumed.tag != "{%s}resumed" % SM:
            raise ValueError(self.name + ": " + ET.tostring(resumed).decode())
        self.counting = True
        again = self.unacknowledged[int(resumed.get("h")):]
        for stanza in again:
            self.send(stanza)
        return len(again)

    def wait_for(self, words):
        self.until(lambda: words in self.saw)

    def close(self):
        self.send("</stream:stream>")
        self.socket.close()
