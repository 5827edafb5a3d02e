"""What tests/try_log reads a log by: a broker that logs, when it told each line, a client with the lines that are due of it; and what clients say,
with what is told of that."""
import datetime
import os
import re
import subprocess
import threading
import time

import broker_talk as talk

HELLO = [1, "r.one", {}]
SUBSCRIBE = [32, 1, {}, "a.b"]
GOODBYE = [6, {}, "wamp.close.close_realm"]
ABORT = [3, {}, "some.reason"]
ACCEPTED = b"\x7f\xf1\x00\x00"
TOO_LONG = (2**20 + 1).to_bytes(4, "big")
NO_FRAME = b"\x03\x00\x00\x00"
# What no session of a connection said or was sent that had none.
NOTHING = {"received": 0, "events": 0, "octets_in": 0, "octets_out": 0, "refused": 0}
NONE = "".join(f" {key}=0" for key in NOTHING)
LIMITS = "connections=256 subscriptions=256 retained=1000"
# How long lines are waited for, and how far from now the moment of one may be that is read at once, in seconds.
SOON, AWAY = 10, 2
AT = re.compile(r"(.*) at=(\d{4}-\d\d-\d\dT\d\d:\d\d:\d\d\.\d{3}Z)")
# How the two lines begin that no log tells: of a fault, and why.
FAULT = ("wampd: ", "cannot ")
# What a line of a realm tells, in its order.
STATS = ("sessions", "subscriptions", "retained", "retained_octets", "longest_outbox", "posts", "publications", "events", "cut")


class Log:
    """A broker that logs, and the lines that it told so far, without their moments; of realms, where `--stats` asks for these, those apart."""

    def __init__(self, program, options=(), env=None, reads=True, under=()):
        self.begun, self.last, self.wrong, self.has_waited = time.time(), {}, [], not reads
        self.longest = bound_in(options)
        self.lines, self.stats, self.told, self.is_telling = [], [], threading.Condition(), "--stats" in options
        self.broker = talk.Broker(program, ("--log", *options), env and {**os.environ, **env}, under)
        if not self.broker.listens():
            raise talk.Wrong(f"it doesn't listen: {self.broker.end()!r}")
        self.first = [f'listening host="127.0.0.1" port={self.broker.port}', started(program, options)]
        if reads:
            self.read()

    def read(self):
        threading.Thread(target=self.hear, daemon=True).start()

    def hear(self):
        for line in self.broker.process.stderr:
            line, told = self.apart(line.decode("ascii").rstrip("\n"))
            with self.told:
                if self.is_telling and line.startswith("stats "):
                    self.stats.append((told, line))
                else:
                    self.lines.append(line)
                self.told.notify_all()

    def apart(self, line):
        """A line without its end, and the moment there: near to now, unless nobody read, and in each connection's order, but for a second."""
        if line.startswith(FAULT):
            return line, None
        found = AT.fullmatch(line)
        if not found:
            self.wrong.append(f"there is no moment in {line!r}")
            return line, None
        told, now, name = moment(found[2]), time.time(), connection_in(line)
        if not (self.begun if self.has_waited else now) - AWAY <= told <= now + AWAY or told < self.last.get(name, told) - 1:
            self.wrong.append(f"it is {now}, and its last one was told {self.last.get(name)}: {line!r}")
        if name:
            self.last[name] = told
        return found[1], told

    def has(self, count, patience=SOON):
        """Waits for so many lines, and gives them."""
        with self.told:
            self.told.wait_for(lambda: len(self.lines) >= count, patience)
            if self.wrong:
                raise talk.Wrong("; ".join(self.wrong))
            return list(self.lines)

    def due(self, *lines):
        """These lines were told behind the first two, and no other, in any order but that each connection's stand in theirs. `*` is any number."""
        lines = [*self.first, *lines]
        count = len(self.has(len(lines)))
        time.sleep(0.05)
        told = [masked(line, lines) for line in self.has(count)]
        if sorted(told) != sorted(lines) or told[:2] != lines[:2] or in_order(told) != in_order(lines):
            raise talk.Wrong("told was\n  " + "\n  ".join(told) + "\nand due is\n  " + "\n  ".join(lines))

    def number_of(self, peer):
        """The number that the connection from there got."""
        with self.told:
            self.told.wait_for(lambda: any(f'peer="{peer}" ' in it for it in self.lines), SOON)
            return next(int(it.split()[1].split("=")[1]) for it in self.lines if it.startswith("accepted ") and f'peer="{peer}" ' in it)

    def of_realm(self, name):
        """The lines of a realm so far, each as a dictionary of its numbers, with its moment."""
        form = re.compile(f'stats realm="{name}"' + "".join(rf" {key}=(\d+)" for key in STATS))
        found = [(told, form.fullmatch(line)) for told, line in self.stats]
        return [{**dict(zip(STATS, map(int, it.groups()))), "at": told} for told, it in found if it]

    def has_told(self, name, is_there):
        """Waits until the lines of a realm are so, and gives them."""
        with self.told:
            if not self.told.wait_for(lambda: is_there(self.of_realm(name)), SOON) or self.wrong:
                raise talk.Wrong("; ".join(self.wrong) or f"told of realms was {self.stats}")
            return self.of_realm(name)

    def end(self):
        self.broker.process.kill()
        self.broker.process.wait()


def bound_in(options):
    """The octets of `--longest-message` among these options."""
    return int(options[options.index("--longest-message") + 1]) if "--longest-message" in options else talk.LONGEST


def started(program, options):
    """The line of what is served: realms may stand among the options, and r.one behind them."""
    version = subprocess.run([program, "--version"], capture_output=True, encoding="ascii", check=True).stdout.strip().removeprefix("wampd ")
    realms = " ".join([*(it for it in options if it.startswith("r.")), "r.one"])
    outbox = options[options.index("--outbox") + 1] if "--outbox" in options else 256
    octets = bound_in(options)
    return f'started version="{version}" realms="{realms}" outbox={outbox} limits="octets={octets} {LIMITS}"'


def moment(text):
    return datetime.datetime.strptime(text, "%Y-%m-%dT%H:%M:%S.%f%z").timestamp()


def connection_in(line):
    return next((word for word in line.split() if word.startswith("connection=")), "")


def in_order(lines):
    """The lines of each connection, in their order."""
    return {name: [it for it in lines if connection_in(it) == name] for name in map(connection_in, lines)}


def masked(line, lines):
    """A line with `*` for each number for which the one of these has it that begins alike."""
    due = next((it for it in lines if it.split()[:2] == line.split()[:2]), "")
    for key in re.findall(r" (\w+)=\*", due):
        line = re.sub(rf" {key}=\d+", f" {key}=*", line, count=1)
    return line


class Counting(talk.Client):
    """A client that counts the octets that it sends and takes."""

    sent = taken = 0

    def send(self, octets):
        self.sent += len(octets)
        super().send(octets)

    def read(self, count):
        octets = super().read(count)
        self.taken += len(octets)
        return octets


class Guest:
    """A client, and the lines that are due of it so far."""

    def __init__(self, log, number=None, serializer="json", length=15, hello=HELLO, connections=None):
        self.client = Counting(log.broker.port, serializer, length)
        self.serializer, self.limit = serializer, min(1 << (9 + length), (1 << 24) - 1)
        self.peer = "%s:%d" % self.client.socket.getsockname()
        self.number = log.number_of(self.peer) if number is None else number
        self.lines = [f'accepted connection={self.number} peer="{self.peer}" connections={connections or self.number}']
        self.client.greeted(log.longest)
        if hello:
            self.client.say(hello)
        self.opening = self.client.sent

    def opened(self, authid="anonymous", authrole="anonymous"):
        _, values = self.client.take([talk.welcome(authid, authrole)])
        self.lines.append(
            f'opened connection={self.number} realm="r.one" session={values["session"]} authid="{authid}" authrole="{authrole}"'
            f" serialization={self.serializer} limit={self.limit}"
        )
        return self

    def refused(self, text):
        self.lines.append(f"refused connection={self.number} {text}")
        return self

    def closed(self, reason, connections=0, **told):
        """Its lines, the last one among them. What its session said and was sent is 0 but for what is named here, and the octets are those
        that the client sent behind HELLO, and took behind the handshake, to the end of the stream."""
        if self.client.socket.fileno() >= 0:
            self.client.read(1 << 30)
        octets = {"octets_in": self.client.sent - self.opening, "octets_out": self.client.taken - 4}
        told = {"received": 0, "events": 0, **octets, "refused": 0, **told}
        told = "".join(f" {key}={it}" for key, it in told.items())
        self.lines.append(f"closed connection={self.number} reason={reason} connections={connections}{told}")
        return self.lines

    def says(self, *messages):
        for message in messages:
            self.client.say(message)
        return self

    def subscribes(self):
        self.says(SUBSCRIBE).client.take([[33, 1, talk.ID]])
        return self


def message(text):
    return talk.frame_of(talk.MESSAGE, text)


def framed(said):
    return message(talk.encoded("json", said))


# What a client sends in its session, by the fault that it is.
VIOLATIONS = {
    "E4 TooDeep": message(b'[16,1,{},"a.b",' + b"[" * 100 + b"]" * 100 + b"]"),
    "E5 Malformed": message(b'[16,1,{},"a.b",[NaN]]'),
    "E11 FrameTooLong": TOO_LONG,
    "E12 FrameType": NO_FRAME,
}

# What comes in place of a HELLO, from the first octet on, by the fault that it is.
OPENINGS = {
    "E4 TooDeep": ACCEPTED + VIOLATIONS["E4 TooDeep"],
    "E5 Malformed": ACCEPTED + message(b"{"),
    "E7 NotRawSocket": b"GET / HTTP/1.1\r\n\r\n",
    "E8 SerializerUnsupported": b"\x7f\xf3\x00\x00",
    "E9 ReservedBits": b"\x7f\xf1\x00\x01",
    "E11 FrameTooLong": ACCEPTED + TOO_LONG,
    "E12 FrameType": ACCEPTED + NO_FRAME,
    "E13 Shape": ACCEPTED + message(b'[32,1,{},"a.b"]'),
    "E18 TooLongForClient": b"\x7f\x01\x00\x00" + talk.frame_of(talk.PING, b"x" * 513),
}

# Names that a HELLO asks for, and how they are told: what isn't printable ASCII is spelt, and 128 octets of each are told, which may end within
# a character.
NAMES = {
    "r.none": "r.none",
    'a "name" \\ \n\u00e9': "a \\x22name\\x22 \\x5c \\x0a\\xc3\\xa9",
    "n" * 128: "n" * 128,
    "n" * 127 + "\u00e9" * 40: "n" * 127 + "\\xc3",
    "n" * 60000: "n" * 128,
    "": "",
}

# What stands right behind a HELLO that isn't admitted, and how many messages and PINGs that is. None of it is why the connection ends.
BEHIND = {
    "GOODBYE": (framed(GOODBYE), 1),
    "ABORT": (framed(ABORT), 1),
    "a message of no shape": (framed([99]), 0),
    "octets that begin no frame": (NO_FRAME, 0),
    "a request, and a PING": (framed(SUBSCRIBE) + talk.frame_of(talk.PING, b"x"), 2),
}

# Requests that are refused, as a client says them in JSON, and what is told of the first one.
REFUSED = {
    "a PUBLISH to no topic": ('[16,7,{},"a..b"]', 'kind=publish request=7 error="wamp.error.invalid_uri" topic="a..b"'),
    "a PUBLISH that asks for acknowledge": ('[16,8,{"acknowledge":true},"wamp.a"]', 'kind=publish request=8 error="wamp.error.invalid_uri" topic="wamp.a"'),
    "a PUBLISH with a float": ('[16,1,{},"a.b",[1.5]]', 'kind=publish request=1 error="wamp.error.invalid_argument" topic="a.b"'),
    "a PUBLISH to a list that is none": ('[16,1,{"eligible":5},"a.b"]', 'kind=publish request=1 error="wamp.error.invalid_argument" topic="a.b"'),
    "a PUBLISH to a long topic": (
        f'[16,{2**53},{{}},"{"t" * 127}\u00e9 {"t" * 5000}"]',
        f'kind=publish request={2**53} error="wamp.error.invalid_uri" topic="{"t" * 127}\\xc3"',
    ),
    "a SUBSCRIBE of no topic": ('[32,1,{},"a b"]', 'kind=subscribe request=1 error="wamp.error.invalid_uri" topic="a b"'),
    "a SUBSCRIBE of an odd policy": ('[32,2,{"match":"some"},"a.b"]', 'kind=subscribe request=2 error="wamp.error.invalid_argument" topic="a.b"'),
    "an UNSUBSCRIBE of no number": ("[34,3,77]", 'kind=unsubscribe request=3 error="wamp.error.no_such_subscription"'),
}
