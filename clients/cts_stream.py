"""Packets as a router gives them, one after another, in both layouts of its PREIDENTIFIED frames."""
from __future__ import annotations

import datetime
import socket
import struct
import sys
import time
from dataclasses import dataclass
from typing import Callable, Iterator, Optional

from cts_files import Site
from cts_http import CtsError

EPOCH = datetime.datetime(1970, 1, 1, tzinfo=datetime.timezone.utc)
STORED = {0: False, 128: True}


class StreamError(CtsError):
    """The router cannot be reached, or what it gives is no stream of packets."""


@dataclass(frozen=True)
class Packet:
    """One packet: when it was received (or when it says it was), its names and bytes, and whether it was stored before it was sent."""

    time: datetime.datetime
    target: str
    packet: str
    bytes: bytes
    stored: bool

    def __str__(self) -> str:
        """As `dump` prints it."""
        text = f"{self.time:%Y-%m-%d %H:%M:%S.%f} {self.target} {self.packet} {self.bytes.hex()}"
        return text + " STORED" if self.stored else text


class Frames:
    """Cuts a stream, however its bytes come, into packets. The entries of a log, behind its head of 128 bytes, have the same form."""

    def __init__(self, sync: bytes = b"", layout: int = 2):
        if layout not in (2, 4):
            raise StreamError(f"layout {layout} is neither 2 nor 4")
        self.sync, self.layout = sync, layout
        self.held = b""

    def feed(self, data: bytes) -> Iterator[Packet]:
        self.held += data
        at = 0
        while (cut := self.cut(at)) is not None:
            packet, at = cut
            yield packet
        self.held = self.held[at:]

    def cut(self, at: int) -> Optional[tuple[Packet, int]]:
        """The packet at this place and where it ends, or None where more has to come."""
        if self.sync:
            at = self.held.find(self.sync, at)
            if at < 0:
                return None
            at += len(self.sync)
        stored = False
        if self.layout == 4:
            if len(self.held) <= at:
                return None
            if self.held[at] not in STORED:
                raise StreamError(f"the byte of flags is {self.held[at]}: is the stream of layout 2?")
            stored, at = STORED[self.held[at]], at + 1
        return self.rest(at, stored)

    def rest(self, at: int, stored: bool) -> Optional[tuple[Packet, int]]:
        """What stands behind the flags: the time, two names and the bytes."""
        start, names, at = at, [], at + 8
        for _ in range(2):
            if len(self.held) <= at or len(self.held) < at + 1 + self.held[at]:
                return None
            names.append(self.held[at + 1:at + 1 + self.held[at]].decode("latin-1"))
            at += 1 + self.held[at]
        if len(self.held) < at + 4:
            return None
        end = at + 4 + struct.unpack_from(">I", self.held, at)[0]
        if len(self.held) < end:
            return None
        seconds, micros = struct.unpack_from(">II", self.held, start)
        when = EPOCH + datetime.timedelta(seconds=seconds, microseconds=micros)
        return Packet(when, *names, self.held[at + 4:end], stored), end


class Packets:
    """The packets of a router, as they come: `for packet in Packets(port=2950): ..`.

    Without `again` it ends where the server ends the stream; with it the router is looked for and heard again, for as long as it takes,
    and `say` is told. What came meanwhile is not given: a router gives what comes after its client. With `seconds` it ends after
    that time; the time of a `packet` is in UTC."""

    def __init__(
        self, host: str = "127.0.0.1", port: int = 2950, sync: bytes = b"", layout: int = 2, *, again: bool = False, seconds: Optional[float] = None,
        say: Callable[[str], None] = lambda text: print(text, file=sys.stderr, flush=True),
    ):  # fmt: skip
        self.host, self.port, self.sync, self.layout = host, port, sync, layout
        self.again, self.say = again, say
        self.ends = None if seconds is None else time.monotonic() + seconds
        self.is_closed = False

    @classmethod
    def of_site(cls, site: Site, router: Optional[str] = None, host: str = "127.0.0.1", **how) -> "Packets":
        """Those of a router as the site says it: its port, its sync pattern and its layout."""
        found = site.router(router)
        return cls(host, found.port, *found.framing(), **how)

    def close(self) -> None:
        """Ends the iteration, also from another thread."""
        self.is_closed = True

    def is_over(self) -> bool:
        return self.is_closed or (self.ends is not None and time.monotonic() >= self.ends)

    def __iter__(self) -> Iterator[Packet]:
        is_lost = False
        while not self.is_over():
            try:
                with socket.create_connection((self.host, self.port), 5) as peer:
                    if is_lost:
                        self.say(f"ROUTER: {self.host}:{self.port} is found again")
                    is_lost = False
                    yield from self.heard(peer)
            except OSError as why:
                if not self.again:
                    raise StreamError(f"router {self.host}:{self.port}: {why.strerror or why}") from None
            if not self.again or self.is_over():
                return
            if not is_lost:
                self.say(f"ROUTER: {self.host}:{self.port} is lost, looking for it")
            is_lost = True
            time.sleep(0.2)

    def heard(self, peer: socket.socket) -> Iterator[Packet]:
        """What comes on one connection."""
        frames = Frames(self.sync, self.layout)
        peer.settimeout(0.2)
        while not self.is_over():
            try:
                data = peer.recv(65536)
            except TimeoutError:
                continue
            if not data:
                return
            yield from frames.feed(data)
