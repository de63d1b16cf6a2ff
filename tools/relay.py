"""A relay of TCP for tools/live: it stands between a router and a server that is its client, hands on what comes in pieces of random size, and
ends connections at random moments and in different ways. Of each connection it keeps what came from the router and what was handed on."""
import random
import select
import socket
import struct
import threading
import time
from contextlib import suppress

HOST = "127.0.0.1"
# How long a client may take to end a connection after the relay has.
PATIENCE = 60


class Hop:
    """One connection of the client with the router. `came` is what the router sent, as far as it was read; `given` the beginning of it that was
    handed on, or was to be. `ended` is the moment at which the client said its own end after that of the relay: it had taken all of `given` then,
    but for a client that was stopped meanwhile. It is None where the connection was reset, or the client ended it first. It `stays` where it goes
    on until one of the two ends it."""

    def __init__(self, chance):
        self.chance = chance
        # How it ends by itself: in order, with a part that came and is not handed on, by a reset, or because the router is told the client's end.
        self.how = chance.choice(("end", "drop", "reset", "router"))
        self.until = time.monotonic() + chance.choice((0, 0.05, 0.2, 0.5, 1))
        self.came, self.given = bytearray(), bytearray()
        self.ended = None
        self.stays = self.is_over = False

    def carry(self, client, router, is_calm):
        """Hands on both ways until one side ends, or the time for this connection is over."""
        while (calm := is_calm()) or time.monotonic() < self.until:
            self.stays = calm
            ready, _, _ = select.select([client, router], [], [], 0.02)
            if client in ready:
                data = client.recv(65536)
                if not data:
                    return
                router.sendall(data)
            if router in ready and not self.take(client, router):
                return self.end(client)
        if self.how == "router":
            router.shutdown(socket.SHUT_WR)
            self.drain(client, router)
        if self.how == "reset":
            client.setsockopt(socket.SOL_SOCKET, socket.SO_LINGER, struct.pack("ii", 1, 0))
            return
        if self.how == "drop":
            self.came += router.recv(65536) if select.select([router], [], [], 0.2)[0] else b""
            left = self.came[len(self.given):]
            self.hand_on(client, left[:self.chance.randint(0, len(left))])
        self.end(client)

    def take(self, client, router):
        """Hands on what the router sent. False at its end."""
        data = router.recv(self.chance.choice((100, 5000, 65536)))
        self.came += data
        self.hand_on(client, data)
        return bool(data)

    def drain(self, client, router):
        """Hands on all that the router still sends."""
        router.settimeout(PATIENCE)
        while self.take(client, router):
            pass

    def hand_on(self, client, data):
        while data:
            size = self.chance.choice((1, 7, 40, 400, 4000))
            self.given += data[:size]
            client.sendall(data[:size])
            data = data[size:]
            if self.chance.random() < 0.1:
                time.sleep(0.001)

    def end(self, client):
        """Says the end, and waits for that of the client."""
        client.shutdown(socket.SHUT_WR)
        while client.recv(65536):
            pass
        self.ended = time.monotonic()


class Relay(threading.Thread):
    """The relay, at a port of its own, one connection after another. Once it is calm it ends none; once it refuses, it takes no new one."""

    def __init__(self, seed, router):
        super().__init__(daemon=True)
        self.chance = random.Random(f"{seed} relay")
        self.router = router
        self.hops = []
        self.wrong = None
        self.calm, self.refuses, self.ends = threading.Event(), threading.Event(), threading.Event()
        self.door = socket.create_server((HOST, 0))
        self.port = self.door.getsockname()[1]

    def run(self):
        while not self.ends.is_set():
            if select.select([self.door], [], [], 0.05)[0]:
                with suppress(OSError), self.door.accept()[0] as client:
                    if not self.refuses.is_set():
                        self.relay(client)
        self.door.close()

    def relay(self, client):
        with socket.create_connection((HOST, self.router), PATIENCE) as router:
            hop = Hop(self.chance)
            self.hops.append(hop)
            client.settimeout(PATIENCE)
            try:
                hop.carry(client, router, self.calm.is_set)
            except TimeoutError:
                self.wrong = f"a connection that was to end by '{hop.how}' did not within {PATIENCE} seconds"
            finally:
                hop.is_over = True
