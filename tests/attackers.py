"""What the attackers of try_attacks say: clients that cost a broker as much as they can, and each attack as a function of them."""
import random
import socket
import threading
import time

import broker_talk as talk

OCTETS = 1 << 20  # the longest frame that the broker takes; try_attacks sets it
REALM = "r.one"
WELCOME, PUBLISHED, SUBSCRIBED, EVENT = 2, 17, 33, 36
FILL = "@"
KEPT, KEPT_LETTERS = 1000, 1000
HELD_PATTERNS = 256


class Over(Exception):
    """An attacker can't go on: its time is over."""


class Refused(Over):
    """It can't go on: the broker closed it, or told it something else than was due."""


def dictionaries(serializer, octets):
    """A list of small dictionaries that takes so many octets: the most memory of a tree for its octets."""
    if serializer == "json":
        whole, rest = divmod(octets - 8, 7)
        return b"[" + b'{"":0},' * whole + b'{"":0}' + b" " * rest + b"]"
    whole, rest = divmod(octets - 5, 3)
    return b"\xdd" + (whole + rest).to_bytes(4, "big") + b"\x81\xa0\xc0" * whole + b"\xc0" * rest


def text_within(octets):
    """How many octets a text has that has so many where the broker takes them, and else what it takes, less what stands around it."""
    return min(octets, OCTETS - 100)


def frame(serializer, message):
    return talk.frame_of(talk.MESSAGE, talk.encoded(serializer, message))


def full_frame(serializer, message):
    """The longest frame of a message, in which small dictionaries take the place of FILL."""
    before, after = talk.encoded(serializer, message).split(talk.encoded(serializer, FILL))
    payload = before + dictionaries(serializer, OCTETS - len(before) - len(after)) + after
    return talk.frame_of(talk.MESSAGE, payload)


class Attacker:
    """A connection, how many octets it sent, and whether it was refused."""

    def __init__(self, port, serializer, until):
        self.serializer, self.until = serializer, until
        self.sent, self.is_refused = 0, False
        self.socket = socket.create_connection(("127.0.0.1", port), self.left())
        self.stream = self.socket.makefile("rb", 1 << 16)

    def shake_hands(self):
        self.send(bytes([0x7F, 0xF0 | list(talk.REPLIES).index(self.serializer) + 1, 0, 0]))
        if self.read(4) != talk.reply_within(self.serializer, OCTETS):
            self.refused("no handshake")

    def left(self):
        return max(0.001, self.until - time.monotonic())

    def refused(self, why):
        self.is_refused = True
        raise Refused(why)

    def send(self, octets):
        """Sends it whole; what went before the time was over is counted too."""
        rest = memoryview(octets)
        while rest:
            self.socket.settimeout(self.left())
            try:
                count = self.socket.send(rest)
            except TimeoutError as why:
                raise Over("it isn't read") from why
            except OSError as why:
                self.refused(why)
            self.sent += count
            rest = rest[count:]

    def send_as_it_goes(self, octets, times):
        """Sends it so many times, or as often as the broker takes it."""
        try:
            for _ in range(times):
                self.send(octets)
        except Over:
            pass

    def send_for(self, octets, seconds):
        """Sends it again and again for this time, as often as the broker takes it."""
        end = time.monotonic() + seconds
        try:
            while time.monotonic() < end:
                self.send(octets)
        except Over:
            pass

    def say(self, message):
        self.send(frame(self.serializer, message))

    def read(self, count):
        self.socket.settimeout(self.left())
        try:
            octets = self.stream.read(count)
        except TimeoutError as why:
            raise Over("nothing comes") from why
        except OSError as why:
            self.refused(why)
        if len(octets) < count:
            self.refused("it is closed")
        return octets

    def hear(self, kind):
        """Takes a message, which has to be of this type. No more of it is decoded: a slow attacker is a weak one."""
        payload = self.read(int.from_bytes(self.read(4)[1:], "big"))
        told = payload[1] if self.serializer == "msgpack" else int(payload[1:].partition(b",")[0])
        if told != kind:
            self.refused(f"it was told {payload[:100]!r}")

    def ask(self, message, kind):
        self.say(message)
        self.hear(kind)

    def leave(self):
        """Closes the connection. It takes what it was told: octets unread would make the close a reset, which drops what it sent."""
        self.socket.setblocking(False)
        try:
            self.is_refused |= not self.socket.recv(1 << 16)
        except BlockingIOError:
            pass  # it was told nothing
        except OSError:
            self.is_refused = True
        self.stream.close()
        self.socket.close()


class Attackers:
    """The attackers of one row."""

    def __init__(self, port, serializer, seconds):
        self.port, self.serializer = port, serializer
        self.until = time.monotonic() + seconds
        self.here, self.gone = [], []
        self.unreached, self.is_unfinished = 0, False

    def connect(self, count):
        """So many more of them, without a session."""
        found = []
        for _ in range(count):
            try:
                it = Attacker(self.port, self.serializer, self.until)
            except OSError as why:
                self.unreached += 1
                raise Refused(why) from why
            self.here.append(it)
            it.shake_hands()
            found.append(it)
        return found

    def join(self, count):
        """So many more of them, with a session."""
        found = self.connect(count)
        for it in found:
            it.ask([1, REALM, {}], WELCOME)
        return found

    def guarded(self, does, *given):
        """Does what may be over before its end."""
        try:
            does(*given)
        except Refused:
            pass  # it is counted where it was refused
        except Over:
            self.is_unfinished = True

    def at_once(self, attackers, does):
        """Lets each of them do it, in threads."""
        threads = [threading.Thread(target=self.guarded, args=(does, it), daemon=True) for it in attackers]
        for thread in threads:
            thread.start()
        for thread in threads:
            thread.join()

    def leave(self):
        for it in self.here:
            it.leave()
        self.gone += self.here
        self.here = []

    def sent(self):
        return sum(it.sent for it in self.gone)

    def refused(self):
        return self.unreached + sum(it.is_refused for it in self.gone)


# The attacks.


def say_hello(these, count):
    octets = full_frame(these.serializer, [1, REALM, {"x": FILL}])

    def hello(it):
        it.send(octets)
        it.hear(WELCOME)

    these.at_once(these.connect(count), hello)


def say_deep_hello(these, count):
    """In JSON. What is deep doesn't count, as its key comes once more."""
    before, after = b'[1,"%s",{"x":' % REALM.encode(), b',"y":' + b"[" * 110 + b"]" * 110 + b',"y":0}]'
    payload = before + dictionaries("json", OCTETS - len(before) - len(after)) + after

    def hello(it):
        it.send(talk.frame_of(talk.MESSAGE, payload))
        it.hear(WELCOME)

    these.at_once(these.connect(count), hello)


def retain(these, count):
    (publisher,) = these.join(1)
    for number in range(1, count + 1):
        options = {"acknowledge": True, "retain": True}
        publisher.send(full_frame(these.serializer, [16, number, options, f"kept.{number}", FILL]))
    for _ in range(count):
        publisher.hear(PUBLISHED)


def publish_to_nobody(these, count):
    octets = full_frame(these.serializer, [16, 1, {}, "to.nobody", FILL])
    these.at_once(these.join(count), lambda it: it.send_as_it_goes(octets, 1 << 20))


def hold_long_patterns(these, count, each):
    """Each session holds so many patterns, which differ from all others in their first component."""
    pattern = "NNNN" + ".a" * (OCTETS // 2 - 32)
    octets = frame(these.serializer, [32, 1, {"match": "wildcard"}, pattern])
    sessions = these.join(count)

    def subscribe(it):
        place = sessions.index(it) * each
        for number in range(place, place + each):
            it.send(octets.replace(b"NNNN", b"%04d" % number, 1))
        for _ in range(each):
            it.hear(SUBSCRIBED)

    these.at_once(sessions, subscribe)


def ping(these, count):
    octets = talk.frame_of(talk.PING, bytes(OCTETS))
    these.at_once(these.join(count), lambda it: it.send_as_it_goes(octets, 300))


def publish_unread(these, rounds):
    octets = frame(these.serializer, [16, 1, {}, "long", ["x" * text_within(1_000_000)]])
    for _ in range(rounds):
        slow, publisher = these.join(2)
        slow.ask([32, 1, {}, "long"], SUBSCRIBED)
        for _ in range(300):
            publisher.send(octets)
        publisher.ask([32, 2, {}, "all.was.read"], SUBSCRIBED)
        these.leave()


def publish_to_silent(these, count):
    """So many don't read in JSON what is published once in MessagePack: a text of control characters, six octets for each."""
    silent = these.join(count)
    for it in silent:
        it.ask([32, 1, {}, "long"], SUBSCRIBED)
    these.serializer = "msgpack"
    (publisher,) = these.join(1)
    publisher.send(frame(these.serializer, [16, 1, {}, "long", ["\x01" * text_within(1_000_000)]]))
    publisher.ask([32, 2, {}, "all.was.read"], SUBSCRIBED)
    time.sleep(2)


def exclude_many(these, times):
    """The ids are in no order, and none is that of a session here; so each taker is looked up in the whole list."""
    ids = random.Random(1).sample(range(2**32, 2**53), min(100_000, text_within(OCTETS) // 9))
    octets = frame(these.serializer, [16, 1, {"exclude": ids}, "listed", []])
    publisher, *takers = these.join(9)
    for it in takers:
        it.ask([32, 1, {}, "listed"], SUBSCRIBED)
    for _ in range(times):
        publisher.send(octets)
    publisher.ask([32, 2, {}, "all.was.read"], SUBSCRIBED)


def publish_to_wildcards(these, patterns, components, times):
    """One session holds the patterns, another publishes to a topic of so many components."""
    holder, publisher = these.join(2)
    for number, pattern in enumerate(patterns):
        holder.send(frame(these.serializer, [32, number + 1, {"match": "wildcard"}, pattern]))
    for _ in patterns:
        holder.hear(SUBSCRIBED)
    octets = frame(these.serializer, [16, 1, {}, "a." * (components - 1) + "b", []])
    for _ in range(times):
        publisher.send(octets)
    publisher.ask([32, 2, {}, "all.was.read"], SUBSCRIBED)


def publish_deep(these, components, times):
    """Each pattern fits the topic, of so many components, up to the last one."""
    components = min(components, text_within(OCTETS) // 2)
    patterns = ["." * (components - 1) + f"{number:03}" for number in range(HELD_PATTERNS)]
    publish_to_wildcards(these, patterns, components, times)


def publish_masked(these, components, times):
    """So does each here, but no two have their empty components at the same places for long."""
    components = min(components, text_within(OCTETS) // 2)
    draws = random.Random(1)
    eights = ["".join(draws.choice([".", "a."]) for _ in range(8)) for _ in range(256)]
    patterns = []
    for number in range(HELD_PATTERNS):
        beginning = "".join(eights[bits] for bits in draws.randbytes((components - 1) // 8))
        patterns.append(beginning + "." * ((components - 1) % 8) + f"{number:03}")
    publish_to_wildcards(these, patterns, components, times)


def get_retained(these, count, times):
    publisher, *askers = these.join(1 + count)
    for number in range(KEPT):
        publisher.say([16, number + 1, {"retain": True}, f"kept.{number}", ["x" * KEPT_LETTERS]])
    publisher.ask([32, KEPT + 1, {}, "all.was.read"], SUBSCRIBED)

    def ask(it):
        for number in range(1, times + 1):
            it.ask([32, number, {"match": "prefix", "get_retained": True}, "kept."], SUBSCRIBED)
            for _ in range(KEPT):
                it.hear(EVENT)

    these.at_once(askers, ask)


def end_at_once(these, count):
    sessions = these.join(count)
    policies = ("exact", "prefix", "wildcard")
    for place, it in enumerate(sessions):
        patterns = [(policies[number % 3], f"held.by.{place}.{number}") for number in range(HELD_PATTERNS)]
        it.send(b"".join(frame(these.serializer, [32, 1, {"match": policy}, pattern]) for policy, pattern in patterns))
    for it in sessions:
        for _ in range(HELD_PATTERNS):
            it.hear(SUBSCRIBED)
    these.leave()


def masked_wildcards(components, count, seed):
    """So many wildcards that fit a topic of `a`s up to its last component, which is another; each is empty at places of its own."""
    rng = random.Random(seed)
    found = set()
    while len(found) < count:
        found.add(".".join("" if rng.random() < 0.5 else "a" for _ in range(components - 1)) + ".b")
    return sorted(found)


def hold_wildcards(sessions, components):
    """Each session holds as many wildcards as it may, which take a search for each publication of `a`s and fit none."""

    def subscribe(it):
        patterns = masked_wildcards(components, HELD_PATTERNS, sessions.index(it))
        for number, pattern in enumerate(patterns, 1):
            it.send(frame(it.serializer, [32, number, {"match": "wildcard"}, pattern]))
        for _ in patterns:
            it.hear(SUBSCRIBED)

    return subscribe


def search(these, count, components, times, publishers=1):
    """Some sessions hold wildcards, and some of them publish what is compared with all of these, so many times each."""
    sessions = these.join(count)
    these.at_once(sessions, hold_wildcards(sessions, components))
    octets = frame(these.serializer, [16, 1, {}, ".".join("a" * components), []])
    these.at_once(sessions[:publishers], lambda it: it.send_as_it_goes(octets, times))


def flood(these, count, components, seconds, publishers):
    """The same, as often as it goes in this time."""
    sessions = these.join(count)
    these.at_once(sessions, hold_wildcards(sessions, components))
    octets = frame(these.serializer, [16, 1, {}, ".".join("a" * components), []])
    these.at_once(sessions[:publishers], lambda it: it.send_for(octets, seconds))


def flood_cheaply(these, count, seconds):
    """Publications to nobody, as often as it goes."""
    octets = frame(these.serializer, [16, 1, {}, "to.nobody", []]) * 64
    these.at_once(these.join(count), lambda it: it.send_for(octets, seconds))


def ping_shortly(these, count, seconds):
    """Small PINGs, whose PONGs are read by nobody."""
    octets = talk.frame_of(talk.PING, b"x") * 64
    these.at_once(these.join(count), lambda it: it.send_for(octets, seconds))


def retain_lists(these, count):
    """So many topics, each with a retained event whose list of authids is as long as it can be, all of them empty."""
    (it,) = these.join(1)
    for number in range(1, count + 1):
        options = {"retain": True, "acknowledge": True, "exclude_authid": FILL}
        before, after = talk.encoded(it.serializer, [16, number, options, f"kept.{number}"]).split(talk.encoded(it.serializer, FILL))
        texts = OCTETS - len(before) - len(after) - 5
        it.send(talk.frame_of(talk.MESSAGE, before + b"\xdd" + texts.to_bytes(4, "big") + b"\xa0" * texts + after))
    for _ in range(count):
        it.hear(PUBLISHED)


def scan_retained(these, kept, times):
    """Long topics are retained, and looked through for a wildcard that none of them fits."""
    (it,) = these.join(1)
    for number in range(kept):
        topic = f"{number}." + "x" * text_within(900_000)
        it.ask([16, number + 1, {"retain": True, "acknowledge": True}, topic], PUBLISHED)
    octets = frame(these.serializer, [32, 1, {"match": "wildcard", "get_retained": True}, ".."])
    it.send_as_it_goes(octets, times)


def publish_to_none(these, count, times):
    """Publications that match all patterns of some sessions, and that nobody is eligible for."""
    publisher, *holders = these.join(1 + count)

    def subscribe(it):
        for number in range(1, HELD_PATTERNS + 1):
            it.ask([32, number, {"match": "prefix"}, "a" * number], SUBSCRIBED)

    these.at_once(holders, subscribe)
    octets = frame(these.serializer, [16, 1, {"eligible": []}, "a" * (HELD_PATTERNS + 1), []])
    publisher.send_as_it_goes(octets, times)
