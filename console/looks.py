"""What the console asks the server: one desk for all browsers, only what somebody looks at, at most ten times a second.

A page looks at topics: `overview`, `packets`, `packet TARGET PACKET`, `limits` and `commands`; `server` and `sent` are told to each. `Watch` asks what
the topics want, keeps the last answers, and hands each topic that changed to those who look at it."""
from __future__ import annotations

import json
import threading
import time
from collections import deque
from typing import Any, Callable, Iterable, Optional

import cts
from cts_files import Definitions, Packet, Site

TICK = 0.1
# How often, in seconds, what changes more slowly is asked.
SLOW = 1.0
# How many questions of one kind a tick has: a large site is asked in turn.
BUDGET = 96
ENTRIES, BYTES = 4_000_000, 1_073_741_824
KEPT = 100
KINDS = ("RAW", "CONVERTED", "FORMATTED")
METHODS = (
    "cmd", "cmd_no_range_check", "cmd_no_hazardous_check", "cmd_no_checks", "set_limits", "enable_limits", "disable_limits", "set_limits_set", "stop_server",
)  # fmt: skip

Key = tuple[str, str]


class Looker:
    """One page: what it looks at, and what it was not handed yet, the newest of each topic."""

    def __init__(self, topics: Iterable[str]):
        self.topics = {"server", "sent", *topics}
        self.box: dict[str, str] = {}
        self.ready = threading.Condition()

    def put(self, topic: str, text: str) -> None:
        with self.ready:
            self.box[topic] = text
            self.ready.notify()

    def take(self, seconds: float) -> list[str]:
        """What came since, after at most so many seconds."""
        with self.ready:
            if not self.box:
                self.ready.wait(seconds)
            found, self.box = list(self.box.values()), {}
        return found


class Rotation:
    """Goes round a list, some at a time."""

    def __init__(self, things: Iterable[Any]):
        self.things = list(things)
        self.at = 0

    def take(self, count: int) -> list[Any]:
        if len(self.things) <= count:
            return self.things
        found = (self.things + self.things)[self.at:self.at + count]
        self.at = (self.at + count) % len(self.things)
        return found


class Rate:
    """How fast a number rises, over the last minute."""

    def __init__(self) -> None:
        self.points: deque[tuple[float, float]] = deque()

    def note(self, value: float) -> None:
        now = time.monotonic()
        if self.points and value < self.points[-1][1]:
            self.points.clear()
        self.points.append((now, value))
        while self.points[0][0] < now - 60:
            self.points.popleft()

    def a_second(self) -> Optional[float]:
        (began, first), (ended, last) = self.points[0], self.points[-1]
        return (last - first) / (ended - began) if ended - began >= 2 else None


class Known:
    """The last answers of one server."""

    def __init__(self) -> None:
        self.counts: dict[Key, int] = {}
        self.seen: dict[Key, float] = {}
        self.sent: dict[Key, int] = {}
        self.shown: dict[Key, tuple[int, dict[str, Any]]] = {}
        self.sent_seen: dict[Key, float] = {}
        self.limits: dict[tuple[str, str, str], list[Any]] = {}
        self.values: dict[tuple[str, str, str], list[Any]] = {}
        self.judged: dict[Key, int] = {}
        self.set = ""
        self.out: list[list[str]] = []
        self.events: deque[list[Any]] = deque(maxlen=KEPT)
        self.events_from = 0
        self.states: dict[str, str] = {}
        self.connections: dict[str, int] = {}


class Watch(threading.Thread):
    """Asks the server, and tells those who look."""

    def __init__(self, definitions: Definitions, site: Site, host: str, port: int, say: Callable[[str], None]):
        super().__init__(daemon=True)
        self.definitions, self.site, self.say = definitions, site, say
        self.server = cts.Server(port, host, timeout=5, patience=0, say=say)
        self.turn = threading.Lock()
        self.lookers: set[Looker] = set()
        self.guard = threading.Lock()
        self.known = Known()
        self.told: dict[str, str] = {}
        self.state = {"state": "looking", "since": time.time(), "why": ""}
        self.sent: deque[dict[str, Any]] = deque(maxlen=KEPT)
        self.packets = Rotation(definitions.telemetry.values())
        self.commands = Rotation(definitions.commands.values())
        self.limited = Rotation(definitions.with_limits())
        self.judged = Rotation({packet.key: packet for packet, _ in definitions.with_limits()}.values())
        self.fill = {"entries": Rate(), "bytes": Rate()}
        self.due: dict[str, float] = {}

    # ---- lookers

    def look(self, topics: Iterable[str]) -> Looker:
        """Somebody looks at topics from now on, and is told first what is known of them."""
        looker = Looker(topics)
        with self.guard:
            for topic in looker.topics & self.told.keys():
                looker.put(topic, self.told[topic])
            self.lookers.add(looker)
            for topic in topics:
                self.due.pop(topic, None)
        return looker

    def leave(self, looker: Looker) -> None:
        with self.guard:
            self.lookers.discard(looker)
            looked = set().union(*(other.topics for other in self.lookers))
            for topic in looker.topics - looked - {"server", "sent"}:
                self.told.pop(topic, None)

    def topics(self) -> set[str]:
        with self.guard:
            return set().union(*(looker.topics for looker in self.lookers))

    def tell(self, topic: str, data: Any) -> None:
        """Hands data to those who look at a topic, where it changed."""
        text = json.dumps({"topic": topic, "data": data}, separators=(",", ":"))
        with self.guard:
            if self.told.get(topic) == text:
                return
            self.told[topic] = text
            for looker in self.lookers:
                if topic in looker.topics:
                    looker.put(topic, text)

    def is_due(self, what: str, seconds: float = SLOW) -> bool:
        """Whether it was not asked for so long."""
        now = time.monotonic()
        if now < self.due.get(what, 0):
            return False
        self.due[what] = now + seconds
        return True

    # ---- the server

    def run(self) -> None:
        while True:
            began = time.monotonic()
            try:
                topics = self.topics()
                if topics:
                    with self.turn:
                        self.tick(topics)
                    self.found()
            except cts.ServerLost as why:
                self.lost(str(why))
                time.sleep(0.4)
            except cts.CtsError as why:
                self.say(f"console: {why}")
                time.sleep(1)
            time.sleep(max(0.01, TICK - (time.monotonic() - began)))

    def found(self) -> None:
        if self.state["state"] != "up":
            if self.state["state"] == "lost":
                self.say("console: the server is found again")
            self.state = {"state": "up", "since": time.time(), "why": ""}
        known = self.known
        red = sum(row[3].startswith("RED") for row in known.out)
        self.tell("server", self.state | {"set": known.set, "out": len(known.out), "red": red, "servers": self.server.servers})

    def lost(self, why: str) -> None:
        if self.state["state"] != "lost":
            self.say(f"console: {why}")
            self.state = {"state": "lost", "since": time.time(), "why": why}
        self.tell("server", self.state)

    def ask_all(self, calls: list[tuple[str, list[Any]]]) -> list[Any]:
        """The answers; where another server answers than before, what is known begins anew."""
        servers = self.server.servers
        found = self.server.ask_all(calls)
        if servers and self.server.servers != servers:
            self.known = Known()
            self.due.clear()
        return found

    def tick(self, topics: set[str]) -> None:
        """One round of questions."""
        looked = [tuple(topic.split()[1:]) for topic in topics if topic.startswith("packet ")]
        wanted = [self.definitions.telemetry[key] for key in looked if key in self.definitions.telemetry]
        self.ask_general(topics)
        if "overview" in topics and self.is_due("overview"):
            self.ask_counts()
            self.ask_states()
            self.tell("overview", self.overview())
        if "packets" in topics and self.is_due("packets", 0.5):
            self.ask_counts()
            self.tell("packets", self.counts())
        if "commands" in topics and self.is_due("commands", 0.5):
            self.ask_sent()
            self.tell("commands", {f"{target} {name}": count for (target, name), count in self.known.sent.items()})
        if "limits" in topics and self.is_due("limits", 0.25):
            self.ask_limits()
        self.ask_packets(wanted, KINDS)

    def ask_general(self, topics: set[str]) -> None:
        """What each page shows: the set, what is out of limits, and the last events for those who show them."""
        if not self.is_due("general", 0.25 if "limits" in topics else 0.5):
            return
        known = self.known
        name, out, events = self.ask_all([("get_limits_set", []), ("get_out_of_limits", []), ("get_limits_events", [known.events_from])])
        if self.known is not known:
            return self.due.clear()
        is_first = known.events_from == 0
        known.set, known.out = name, out
        for event in events[-KEPT:]:
            known.events.append([*event, None if is_first else time.time()])
        known.events_from = max([self.server.front, *(event[0] + 1 for event in events[-1:])])

    def ask_counts(self) -> None:
        packets = self.packets.take(BUDGET)
        counts = self.ask_all([("get_tlm_cnt", list(packet.key)) for packet in packets])
        for packet, count in zip(packets, counts):
            self.note_count(packet.key, count)

    def note_count(self, key: Key, count: Any) -> None:
        if isinstance(count, int) and self.known.counts.get(key) != count:
            if key in self.known.counts:
                self.known.seen[key] = time.time()
            self.known.counts[key] = count

    def ask_sent(self) -> None:
        commands = self.commands.take(BUDGET)
        counts = self.ask_all([("get_cmd_cnt", list(command.key)) for command in commands])
        for command, count in zip(commands, counts):
            if isinstance(count, int) and self.known.sent.get(command.key) != count:
                if command.key in self.known.sent:
                    self.known.sent_seen[command.key] = time.time()
                self.known.sent[command.key] = count

    def ask_states(self) -> None:
        self.ask_sent()
        names = list(self.site.interfaces)
        for name, state in zip(names, self.ask_all([("interface_state", [name]) for name in names])):
            known = self.known
            state = state if isinstance(state, str) else str(state)
            if state == "CONNECTED" and known.states.get(name) != state:
                known.connections[name] = known.connections.get(name, 0) + 1
            known.states[name] = state

    def ask_packets(self, packets: list[Packet], kinds: tuple[str, ...]) -> None:
        """The values of packets that came again."""
        counts = self.ask_all([("get_tlm_cnt", list(packet.key)) for packet in packets])
        came = []
        for packet, count in zip(packets, counts):
            self.note_count(packet.key, count)
            shown = self.known.shown.get(packet.key)
            if isinstance(count, int) and count and (shown is None or shown[0] != count):
                came.append((packet, count))
        answers = iter(self.ask_all([("get_tlm_packet", [*packet.key, kind]) for packet, _ in came for kind in kinds]))
        for packet, count in came:
            rows = [next(answers) for _ in kinds]
            if all(isinstance(row, list) for row in rows):
                self.known.shown[packet.key] = count, self.rows(rows)
        for packet, count in zip(packets, counts):
            _, rows = self.known.shown.get(packet.key, (0, []))
            self.tell(f"packet {packet.target} {packet.name}", {"count": count, "seen": self.known.seen.get(packet.key), "rows": rows})

    @staticmethod
    def rows(answers: list[list[list[Any]]]) -> list[list[Any]]:
        """Of each item the values of each kind, then the colour. Whole numbers are texts: a page cannot hold those of 64 bits."""
        return [[*(str(row[1]) for row in rows), rows[0][2]] for rows in zip(*answers)]

    def ask_limits(self) -> None:
        """The limits of the items that have some, and the values of their packets that came again."""
        some = self.limited.take(BUDGET) if self.is_due("limits of items") else []
        for (packet, item), found in zip(some, self.ask_all([("get_limits", [*packet.key, item.name]) for packet, item in some])):
            if isinstance(found, list):
                self.known.limits[(*packet.key, item.name)] = found
        packets = self.judged.take(BUDGET)
        counts = self.ask_all([("get_tlm_cnt", list(packet.key)) for packet in packets])
        came = [(packet, count) for packet, count in zip(packets, counts) if count and self.known.judged.get(packet.key) != count]
        for (packet, count), rows in zip(came, self.ask_all([("get_tlm_packet", list(packet.key)) for packet, _ in came])):
            if isinstance(rows, list):
                self.known.judged[packet.key] = count
                self.known.values.update({(*packet.key, name): [value, colour] for name, value, colour in rows if colour})
        known = self.known
        rows = [{"item": " ".join(key), "limits": found, "value": known.values.get(key, [None, "STALE"])} for key, found in known.limits.items()]
        self.tell("limits", {"set": known.set, "rows": rows, "out": known.out, "events": list(known.events)})

    # ---- what topics show

    def counts(self) -> dict[str, list[Any]]:
        return {f"{target} {name}": [count, self.known.seen.get((target, name))] for (target, name), count in self.known.counts.items()}

    def overview(self) -> dict[str, Any]:
        known = self.known
        received = {name: 0 for name in self.site.interfaces}
        sent = dict(received)
        for numbers, total in ((known.counts, received), (known.sent, sent)):
            for (target, _), count in numbers.items():
                interface = self.site.interface_of(target)
                if interface:
                    total[interface.name] += count
        interfaces = [
            {"name": name, "state": known.states.get(name), "connections": known.connections.get(name, 0), "received": received[name], "sent": sent[name]}
            for name in self.site.interfaces
        ]
        sent = [[*key, count, known.sent_seen.get(key)] for key, count in known.sent.items() if count]
        sent.sort(key=lambda row: row[3] or 0, reverse=True)
        return {"interfaces": interfaces, "history": self.history(), "out": known.out, "events": list(known.events)[-12:], "sent": sent[:12]}

    def history(self) -> dict[str, Any]:
        """How full it is. Bytes are those of the packets by their least lengths: the server tells none."""
        known, definitions = self.known, self.definitions
        size = sum(definitions.telemetry[key].length * count for key, count in known.counts.items())
        size += sum(definitions.commands[key].length * count for key, count in known.sent.items())
        found = {}
        for name, value, most in (("entries", self.server.front, ENTRIES), ("bytes", size, BYTES)):
            self.fill[name].note(value)
            rate = self.fill[name].a_second()
            found[name] = {"now": value, "most": most, "rate": rate, "left": (most - value) / rate if rate else None}
        return found

    # ---- what pages ask for

    def do(self, method: str, params: list[Any]) -> dict[str, Any]:
        """Asks a method that changes something, for a page; what was sent and answered is told to all."""
        if method not in METHODS:
            return {"error": f"the console sends no {method}"}
        try:
            with self.turn:
                said = {"result": self.server.ask(method, *params)}
        except cts.LostReply as why:
            said = {"error": str(why), "lost": True}
        except cts.MethodError as why:
            said = {"error": why.message, "hazardous": why.message == "Hazardous"}
        except cts.CtsError as why:
            said = {"error": str(why)}
        if not said.get("hazardous"):
            self.sent.append({"time": time.time(), "method": method, "params": params, "front": self.server.front} | said)
            self.tell("sent", list(self.sent))
        self.due.clear()
        return said
