"""A WAMP session over RawSocket, in JSON, on Python's standard library alone: what subscribe.py and publish.py share."""
import argparse
import json
import socket

HELLO, WELCOME, GOODBYE, ERROR, EVENT = 1, 2, 6, 8, 36
HANDSHAKE, REPLY = b"\x7f\xf1\0\0", (0x7F, 1)  # in JSON, with frames of up to 2 ** 24 octets
MESSAGE, PING, PONG = 0, 1, 2


class Refused(ConnectionError):
    """What was asked for can't be had; the text says why."""


class Session:
    def __init__(self, host, port, realm):
        self.requests, self.waiting = 0, []
        try:
            self.socket = socket.create_connection((host, port), 10)
        except OSError as why:
            raise Refused(f"cannot connect to {host}:{port}: {why.strerror or why}") from None
        self.stream = self.socket.makefile("rb")
        self.socket.sendall(HANDSHAKE)
        reply = self.take(4)
        if (reply[0], reply[1] & 15) != REPLY:
            raise Refused(f"the handshake was refused: {reply.hex(' ')}")
        self.send([HELLO, realm, {"roles": {"publisher": {}, "subscriber": {}}}])
        answer = self.receive()
        if answer[0] != WELCOME:
            raise Refused(f"realm {realm}: {answer[2]}")
        self.socket.settimeout(None)

    def take(self, count):
        octets = self.stream.read(count)
        if len(octets) < count:
            raise Refused("the broker closed the connection")
        return octets

    def send(self, message, kind=MESSAGE):
        octets = message if kind == PONG else json.dumps(message).encode()
        self.socket.sendall(bytes([kind]) + len(octets).to_bytes(3, "big") + octets)

    def receive(self):
        while True:
            head = self.take(4)
            payload = self.take(int.from_bytes(head[1:], "big"))
            if head[0] == MESSAGE:
                return json.loads(payload)
            if head[0] == PING:
                self.send(payload, PONG)

    def request(self, kind, *rest):
        """Sends a request and gives the number that answers it; events that come before the answer are kept."""
        self.requests += 1
        self.send([kind, self.requests, *rest])
        while (answer := self.receive())[0] == EVENT:
            self.waiting.append(answer)
        if answer[0] != kind + 1:
            raise Refused(answer[4] if answer[0] == ERROR else f"the session was ended: {answer[2]}")
        return answer[2]

    def event(self):
        """The next event: its subscription, details, arguments and keyword arguments."""
        message = self.waiting.pop(0) if self.waiting else self.receive()
        if message[0] != EVENT:
            raise Refused(f"the session was ended: {message[2]}")
        return message[1], message[3], *(message[4:] + [[], {}][len(message) - 4:])

    def leave(self):
        """Ends the session: what was sent before is handled once the broker answers."""
        self.send([GOODBYE, {}, "wamp.close.close_realm"])
        while self.receive()[0] != GOODBYE:
            pass
        self.socket.close()


def arguments(about):
    """The options that both programs take."""
    words = argparse.ArgumentParser(description=about, formatter_class=argparse.RawDescriptionHelpFormatter)
    words.add_argument("--host", default="127.0.0.1", help="where the broker is (%(default)s)")
    words.add_argument("--port", type=int, default=9000, help="its port (%(default)s)")
    words.add_argument("--realm", default="plant.one", help="(%(default)s)")
    return words
