"""What the tools that talk to a running broker share: a broker as a process, a client over TCP, and what frames may be due to it.

The serializations are those of expect_codecs, which share nothing with the product.
"""
import importlib.machinery
import importlib.util
import itertools
import os
import random
import select
import socket
import struct
import subprocess
import sys

ROOT = os.path.dirname(os.path.dirname(os.path.abspath(__file__)))
REPLIES = {"json": b"\x7f\xb1\x00\x00", "msgpack": b"\x7f\xb2\x00\x00"}
LONGEST = 1 << 20  # octets of a client's message, where nobody picked a bound
MESSAGE, PING, PONG = 0, 1, 2
# How long to wait for anything, in seconds: E26 comes some 23 s after accepts begin to fail.
PATIENCE = 60
FEATURES = (
    "event_retention",
    "pattern_based_subscription",
    "publisher_exclusion",
    "publisher_identification",
    "subscriber_blackwhite_listing",
)


def tool(name):
    """Another tool of this folder as a module."""
    sys.dont_write_bytecode = True
    loader = importlib.machinery.SourceFileLoader(name, os.path.join(ROOT, "tests", name))
    module = importlib.util.module_from_spec(importlib.util.spec_from_loader(name, loader))
    loader.exec_module(module)
    return module


codecs = tool("expect_codecs")


class Wrong(Exception):
    """The broker did what it must not."""


class Lost(Exception):
    """The connection ended where a frame was due."""


class Unknown:
    """A number that the broker chooses, in a message that is due."""

    def __init__(self, name):
        self.name = name


ID = Unknown("id")
SESSION = Unknown("session")


def welcome(authid="anonymous", authrole="anonymous"):
    details = {"authid": authid, "authrole": authrole, "roles": {"broker": {"features": dict.fromkeys(FEATURES, True)}}}
    return [2, SESSION, details]


def encoded(serializer, tree):
    return codecs.json_of(tree).encode() if serializer == "json" else codecs.msgpack_of(tree)


def decoded(serializer, octets):
    return codecs.read_json(octets) if serializer == "json" else codecs.read_msgpack(octets)


def frame_of(kind, payload):
    return struct.pack(">I", kind << 24 | len(payload)) + payload


def filled(pattern, values):
    """A message that is due, with these numbers in the places that are unknown."""
    if isinstance(pattern, Unknown):
        return values[pattern.name]
    if isinstance(pattern, list):
        return [filled(item, values) for item in pattern]
    if isinstance(pattern, dict):
        return {key: filled(item, values) for key, item in pattern.items()}
    return pattern


def unknowns_in(pattern):
    if isinstance(pattern, Unknown):
        return {pattern.name}
    members = pattern if isinstance(pattern, list) else pattern.values() if isinstance(pattern, dict) else ()
    return set().union(*map(unknowns_in, members))


def values_in(pattern, tree, values):
    """Whether a message is one that is due; `values` gets its numbers."""
    if isinstance(pattern, Unknown):
        is_number = isinstance(tree, int) and not isinstance(tree, bool) and 1 <= tree <= 2**53
        return is_number and values.setdefault(pattern.name, tree) == tree
    if isinstance(pattern, list):
        is_list = isinstance(tree, list) and len(tree) == len(pattern)
        return is_list and all(values_in(part, item, values) for part, item in zip(pattern, tree))
    if isinstance(pattern, dict):
        is_dictionary = isinstance(tree, dict) and tree.keys() == pattern.keys()
        return is_dictionary and all(values_in(pattern[key], tree[key], values) for key in pattern)
    return type(pattern) is type(tree) and pattern == tree


def reply_within(serializer, octets):
    """The reply to a handshake, whose LENGTH says that messages of up to so many octets are taken, a power of two."""
    return bytes([0x7F, (octets.bit_length() - 10) * 16 + 1 + list(REPLIES).index(serializer), 0, 0])


class Client:
    """A client that judges what it is sent. `highest` is the greatest number that it was sent so far."""

    def __init__(self, port, serializer, length=15):
        self.serializer, self.highest, self.name = serializer, 0, ""
        self.socket = socket.create_connection(("127.0.0.1", port), PATIENCE)
        self.socket.setsockopt(socket.IPPROTO_TCP, socket.TCP_NODELAY, 1)
        self.send(bytes([0x7F, length << 4 | list(REPLIES).index(serializer) + 1, 0, 0]))

    def send(self, octets):
        try:
            self.socket.sendall(octets)
        except TimeoutError as why:
            raise Wrong(f"{self.name} can't send, and isn't told that it is cut") from why
        except OSError:
            pass  # it is cut, as the next read says

    def say(self, message):
        self.send(frame_of(MESSAGE, encoded(self.serializer, message)))

    def ping(self, octets):
        self.send(frame_of(PING, octets))

    def read(self, count):
        """So many octets, or fewer where the connection ends."""
        octets = b""
        while len(octets) < count:
            try:
                more = self.socket.recv(count - len(octets))
            except TimeoutError as why:
                raise Wrong(f"{self.name} hangs after {octets!r}") from why
            except OSError:
                more = b""
            if not more:
                break
            octets += more
        return octets

    def greeted(self, longest=LONGEST):
        """Takes the reply to the handshake, of a broker that takes so many octets."""
        octets, due = self.read(4), reply_within(self.serializer, longest)
        if octets != due:
            self.lost(octets, [due])

    def lost(self, octets, due):
        if not any(whole.startswith(octets) for whole in due):
            raise Wrong(f"{self.name} was sent {octets!r}")
        raise Lost(self.name)

    def frames_of(self, pattern):
        """Each frame that a message or PONG that is due may be: numbers near to those seen are tried."""
        if isinstance(pattern, bytes):
            yield frame_of(PONG, pattern)
            return
        names = sorted(unknowns_in(pattern))
        near = range(1, self.highest + 60)
        for numbers in itertools.product(near, repeat=len(names)):
            yield frame_of(MESSAGE, encoded(self.serializer, filled(pattern, dict(zip(names, numbers)))))

    def take(self, due):
        """Takes a frame, which has to be one of those due: its place there, and its numbers."""
        head = self.read(4)
        size = int.from_bytes(head[1:], "big") if len(head) == 4 else 0
        payload = self.read(size)
        if len(head) < 4 or len(payload) < size:
            self.lost(head + payload, (frame for pattern in due for frame in self.frames_of(pattern)) if head else [b""])
        for place, pattern in enumerate(due):
            values = {}
            if isinstance(pattern, bytes):
                if head[0] == PONG and payload == pattern:
                    return place, values
            elif head[0] == MESSAGE and self.is_whole(pattern, payload, values):
                self.highest = max(self.highest, *values.values(), 0)
                return place, values
        raise Wrong(f"{self.name} was sent {head + payload!r}, and due is {due!r:.600}")

    def is_whole(self, pattern, payload, values):
        try:
            tree = decoded(self.serializer, payload)
        except (codecs.Malformed, codecs.TooDeep):
            return False
        return values_in(pattern, tree, values) and encoded(self.serializer, filled(pattern, values)) == payload

    def ended(self):
        """Takes the end of the connection."""
        octets = self.read(1)
        if octets:
            raise Wrong(f"{self.name} was sent {octets!r} behind its end")
        self.close()

    def close(self):
        self.socket.close()


def free_port():
    """A port that is free, below those that the system gives to who connects: so nobody takes it before a broker does."""
    for port in random.sample(range(20_000, 32_000), 1_000):
        with socket.socket() as free:
            try:
                free.bind(("127.0.0.1", port))
                return port
            except OSError:
                pass
    raise Wrong("no port is free")


class Broker:
    """A broker that runs, or has ended: `status` is its exit status then. What it writes to standard error goes to `errors`, an open file, if
    one is given."""

    def __init__(self, program, options=(), env=None, under=(), errors=None):
        self.port = free_port()
        words = [*under, program, "serve", "--port", str(self.port), *options, "r.one"]
        self.process = subprocess.Popen(words, env=env, stdout=subprocess.PIPE, stderr=errors or subprocess.PIPE)
        self.told = self.first_line()

    def first_line(self):
        """The line that it begins with, or what there is of one when it ends, or after a while."""
        line, output = b"", self.process.stdout.fileno()
        while not line.endswith(b"\n") and select.select([output], [], [], PATIENCE)[0]:
            octet = os.read(output, 1)
            if not octet:
                break
            line += octet
        return line

    def listens(self):
        return self.told == f"listening on 127.0.0.1:{self.port}\n".encode()

    def status(self):
        return self.process.poll()

    def memory(self, which="VmRSS"):
        """Resident memory in kB: what it has, or with VmHWM the most that it had."""
        with open(f"/proc/{self.process.pid}/status", encoding="ascii") as it:
            return next(int(line.split()[1]) for line in it if line.startswith(which))

    def end(self):
        """Ends it, and gives what it wrote to standard error, unless that goes to a file."""
        self.process.kill()
        errors = self.process.stderr.read() if self.process.stderr else b""
        self.process.wait()
        self.process.stdout.close()
        if self.process.stderr:
            self.process.stderr.close()
        return errors


def told_lost(log):
    """The lines of a log by which a connection was closed for want of memory."""
    return [it for it in log.splitlines() if it.startswith(b"closed ") and b" reason=no_memory " in it]
