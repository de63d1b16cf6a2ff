"""A publisher for brokers of MQTT 3.1.1, as far as a bridge needs one: messages that are retained or not, each kept until the broker says that it has it."""
from __future__ import annotations

import select
import socket
import struct
import threading
import time
from collections import OrderedDict, deque
from dataclasses import dataclass
from typing import Callable, Iterator, Optional

CONNACK, PUBLISH, PUBACK, PINGREQ, PINGRESP = 2, 3, 4, 12, 13
REFUSALS = {1: "another version of MQTT", 2: "the client's name", 3: "it is not ready", 4: "the user or password", 5: "the user may not"}
# How many messages may be under way, and how many wait at most: then the oldest is given up.
UNDER_WAY = 64
ROOM = 100_000


class BrokerError(Exception):
    """The broker refused the connection, or said what is no MQTT."""


@dataclass
class Message:
    topic: str
    payload: bytes
    retained: bool


def text(value: "str | bytes") -> bytes:
    data = value.encode() if isinstance(value, str) else value
    return struct.pack(">H", len(data)) + data


def packet(first: int, body: bytes) -> bytes:
    """A control packet: its first byte, its length in groups of seven bits, and its body."""
    length, size = b"", len(body)
    while True:
        size, low = divmod(size, 128)
        length += bytes([low | (128 if size else 0)])
        if not size:
            return bytes([first]) + length + body


class Reader:
    """Cuts what comes from the broker into control packets."""

    def __init__(self) -> None:
        self.held = b""

    def feed(self, data: bytes) -> Iterator[tuple[int, bytes]]:
        self.held += data
        while (cut := self.cut()) is not None:
            kind, body, end = cut
            self.held = self.held[end:]
            yield kind, body

    def cut(self) -> Optional[tuple[int, bytes, int]]:
        size = 0
        for at, byte in enumerate(self.held[1:5]):
            size |= (byte & 127) << (7 * at)
            if byte < 128:
                end = at + 2 + size
                return (self.held[0] >> 4, self.held[at + 2:end], end) if len(self.held) >= end else None
        if len(self.held) >= 5:
            raise BrokerError("what it says is no MQTT")
        return None


class Publisher(threading.Thread):
    """Publishes messages in order, each at least once: what the broker has not said that it has is sent again on the next connection.

    While the broker is away messages wait, up to `room`; then the oldest are given up, and `say` is told how many."""

    def __init__(
        self, host: str, port: int, name: str, say: Callable[[str], None], user: Optional[str] = None, password: Optional[str] = None, keep_alive: int = 30, room: int = ROOM,
    ):  # fmt: skip
        super().__init__(daemon=True)
        self.host, self.port, self.name, self.say = host, port, name, say
        self.user, self.password, self.keep_alive, self.room = user, password, keep_alive, room
        self.waiting: deque[Message] = deque()
        self.under_way: "OrderedDict[int, Message]" = OrderedDict()
        self.guard = threading.Lock()
        self.number = 0
        self.given_up = 0
        self.published = 0
        self.ends = threading.Event()

    def publish(self, topic: str, payload: bytes, retained: bool = False) -> None:
        """Queues a message."""
        with self.guard:
            self.waiting.append(Message(topic, payload, retained))
            if len(self.waiting) <= self.room:
                return
            self.waiting.popleft()
            self.given_up += 1
            count = self.given_up
        if count in (1, 10, 100) or count % 1000 == 0:
            self.say(f"BROKER: {count} messages were given up, since more than {self.room} wait")

    def pending(self) -> int:
        """How many messages the broker does not have yet."""
        with self.guard:
            return len(self.waiting) + len(self.under_way)

    def close(self, seconds: float = 10) -> None:
        """Waits until all is published, for at most so long, and ends."""
        end = time.monotonic() + seconds
        while self.pending() and time.monotonic() < end:
            time.sleep(0.02)
        self.ends.set()
        self.join(2)

    def run(self) -> None:
        is_lost = False
        while not self.ends.is_set():
            try:
                with socket.create_connection((self.host, self.port), 5) as peer:
                    peer.setsockopt(socket.IPPROTO_TCP, socket.TCP_NODELAY, 1)
                    reader = Reader()
                    self.greet(peer, reader)
                    self.say(f"BROKER: {self.host}:{self.port} is {'found again' if is_lost else 'connected'}")
                    is_lost = False
                    self.again(peer)
                    self.talk(peer, reader)
            except (OSError, BrokerError) as why:
                if not is_lost and not self.ends.is_set():
                    self.say(f"BROKER: {self.host}:{self.port} is lost, looking for it: {getattr(why, 'strerror', None) or why}")
                is_lost = True
                self.ends.wait(0.5)

    def greet(self, peer: socket.socket, reader: Reader) -> None:
        """Connects, and waits until the broker takes the connection."""
        flags = 2 | (128 if self.user is not None else 0) | (64 if self.password is not None else 0)
        body = text("MQTT") + bytes([4, flags]) + struct.pack(">H", self.keep_alive) + text(self.name)
        body += b"".join(text(value) for value in (self.user, self.password) if value is not None)
        peer.sendall(packet(0x10, body))
        while True:
            data = peer.recv(4096)
            if not data:
                raise BrokerError("it ended the connection")
            for kind, said in reader.feed(data):
                if kind != CONNACK or len(said) != 2:
                    raise BrokerError("what it says is no MQTT")
                if said[1]:
                    raise BrokerError(f"it refuses the connection: {REFUSALS.get(said[1], said[1])}")
                return

    def again(self, peer: socket.socket) -> None:
        """Sends again what was under way when the connection before ended."""
        for number, message in self.under_way.items():
            self.put(peer, number, message, True)

    def put(self, peer: socket.socket, number: int, message: Message, is_again: bool = False) -> None:
        first = PUBLISH << 4 | (8 if is_again else 0) | 2 | message.retained
        peer.sendall(packet(first, text(message.topic) + struct.pack(">H", number) + message.payload))

    def take(self) -> Optional[tuple[int, Message]]:
        """The next message that may be sent, with its number."""
        with self.guard:
            if not self.waiting or len(self.under_way) >= UNDER_WAY:
                return None
            self.number = self.number % 65535 + 1
            while self.number in self.under_way:
                self.number = self.number % 65535 + 1
            self.under_way[self.number] = self.waiting.popleft()
            return self.number, self.under_way[self.number]

    def talk(self, peer: socket.socket, reader: Reader) -> None:
        """Sends what waits, and hears what the broker has, until the connection ends."""
        spoke = heard = time.monotonic()
        while not self.ends.is_set():
            while (found := self.take()) is not None:
                self.put(peer, *found)
                spoke = time.monotonic()
            if select.select([peer], [], [], 0.02)[0]:
                data = peer.recv(65536)
                if not data:
                    raise BrokerError("it ended the connection")
                heard = time.monotonic()
                for kind, body in reader.feed(data):
                    self.hear(kind, body)
            now = time.monotonic()
            if now - spoke > self.keep_alive / 2:
                peer.sendall(packet(PINGREQ << 4, b""))
                spoke = now
            if now - heard > self.keep_alive * 1.5:
                raise BrokerError("it says nothing")
        peer.sendall(packet(0xE0, b""))

    def hear(self, kind: int, body: bytes) -> None:
        if kind == PUBACK and len(body) == 2:
            with self.guard:
                if self.under_way.pop(struct.unpack(">H", body)[0], None) is not None:
                    self.published += 1
        elif kind != PINGRESP:
            raise BrokerError("what it says is not asked for")
