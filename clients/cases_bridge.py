"""The cases of `clients/test` that try the bridge: control packets of MQTT, and mosquitto where it is installed."""
from __future__ import annotations

import json
import shutil
import signal
import subprocess
import sys
import threading
import time
from pathlib import Path
from typing import Optional

import cts
from cts_mqtt import BrokerError, Reader, packet
from testing import HOST, Demo, free_ports, is_open, need, raises, until

HERE = Path(__file__).resolve().parent
MOSQUITTO = shutil.which("mosquitto") or shutil.which("mosquitto", path="/usr/sbin:/usr/local/sbin")


class Broker:
    """mosquitto in a folder, which keeps its sessions over a restart, and a subscriber that keeps its own."""

    def __init__(self, folder: Path):
        [self.port] = free_ports(1)
        self.file = folder / "mosquitto.conf"
        self.file.write_text(f"listener {self.port} {HOST}\nallow_anonymous true\npersistence true\npersistence_location {folder}/\nmax_queued_messages 0\nuser root\n")
        self.heard: list[tuple[str, dict]] = []
        self.start()
        words = ["mosquitto_sub", "-h", HOST, "-p", str(self.port), "-t", "cts/#", "-q", "1", "-c", "-i", "test", "-F", "%r %t %p"]
        self.subscriber = subprocess.Popen(words, stdout=subprocess.PIPE, stderr=subprocess.DEVNULL, text=True)
        threading.Thread(target=self.hear, daemon=True).start()

    def start(self) -> None:
        self.process = subprocess.Popen([MOSQUITTO, "-c", self.file], stdout=subprocess.DEVNULL, stderr=subprocess.DEVNULL)
        until("the broker is open", lambda: is_open(self.port))

    def stop(self) -> None:
        self.process.send_signal(signal.SIGTERM)
        self.process.wait(60)

    def hear(self) -> None:
        for line in self.subscriber.stdout:
            _, topic, payload = line.split(" ", 2)
            self.heard.append((topic, json.loads(payload)))

    def last(self, topic: str) -> list[dict]:
        """The retained messages of a topic, as a new subscriber is given them."""
        words = ["mosquitto_sub", "-h", HOST, "-p", str(self.port), "-t", topic, "--retained-only", "-C", "1", "-W", "60"]
        return [json.loads(line) for line in subprocess.run(words, capture_output=True, text=True, timeout=100).stdout.splitlines()]

    def close(self) -> None:
        self.subscriber.terminate()
        self.subscriber.wait(60)
        self.subscriber.stdout.close()
        self.stop()


class Bridged:
    """The bridge as a program."""

    def __init__(self, demo: Demo, broker: Broker, *words: str):
        command = [sys.executable, HERE / "bridge", demo.site, "--broker", f"{HOST}:{broker.port}", *words]
        self.output: list[str] = []
        self.process = subprocess.Popen(command, stdout=subprocess.PIPE, text=True)
        self.reader = threading.Thread(target=lambda: self.output.extend(map(str.rstrip, self.process.stdout)), daemon=True)
        self.reader.start()

    def has(self, text: str) -> bool:
        return any(text in line for line in self.output)

    def end(self) -> int:
        self.process.send_signal(signal.SIGTERM)
        status = self.process.wait(100)
        self.reader.join(5)
        self.process.stdout.close()
        return status


def control_packets(program: Path) -> None:
    """Lengths in groups of seven bits, cut anywhere; and what is no MQTT."""
    for size in (0, 1, 127, 128, 16383, 16384, 300000):
        data = packet(0x30, b"x" * size) + packet(0x40, b"\0\1")
        for step in (1, 3, 100000) if size < 20000 else (4096,):
            reader = Reader()
            found = [one for at in range(0, len(data), step) for one in reader.feed(data[at:at + step])]
            need([(kind, len(body)) for kind, body in found] == [(3, size), (4, 2)], size, step)
    need(packet(0x30, b"x" * 321)[:3] == b"\x30\xc1\x02", "another length")
    raises(BrokerError, lambda: list(Reader().feed(b"\x30\xff\xff\xff\xff\x01")), "no MQTT")


def bridge(program: Path) -> Optional[str]:
    """Packets and limits events reach a broker; a server and a broker that are started anew are found, and nothing that came is lost."""
    if MOSQUITTO is None or shutil.which("mosquitto_sub") is None:
        return "not run, since mosquitto is not here"
    with Demo(program).start() as demo:
        broker = Broker(demo.folder)
        bridged = Bridged(demo, broker, "--values", "SAT HOUSEKEEPING")
        try:
            has = until("a packet with values", lambda: [data for topic, data in broker.heard if topic == "cts/SAT/HOUSEKEEPING"])
            need(has[0]["values"]["WHEEL"] == -1200 and has[0]["colours"]["BUS"] in ("GREEN", "STALE") and has[0]["front"] > 0, has[0])
            until("other packets", lambda: {topic for topic, _ in broker.heard} >= {"cts/GPS/GGA", "cts/GNSS/POSITION"})
            need("values" not in next(data for topic, data in broker.heard if topic == "cts/GPS/GGA"), "values that nobody asked for")
            limits_reach(demo, broker)
            broker_restarts(broker, bridged)
            server_restarts(demo, broker, bridged)
            [last] = broker.last("cts/SAT/HOUSEKEEPING")
            need(set(last) >= {"time", "front", "bytes", "stored"}, last)
        finally:
            status = bridged.end()
            broker.close()
        need(status == 0 and bridged.has("messages published, 0 not"), bridged.output)
        return f"{len(broker.heard)} messages"


def limits_reach(demo: Demo, broker: Broker) -> None:
    with cts.Server(demo.port) as server:
        server.set_limits("SAT", "HOUSEKEEPING", "BUS", 20, 27.5, 32, 34)
        server.set_limits_set("CUSTOM")
        event = until("a limits event", lambda: [data for topic, data in broker.heard if topic == "cts/limits" and data["item"] == "BUS" and data["after"] == "YELLOW_LOW"])[-1]
        need(event in [one._asdict() for one in server.get_limits_events()], event)
        server.set_limits_set("DEFAULT")


def broker_restarts(broker: Broker, bridged: Bridged) -> None:
    """What came while the broker was away is published later, in order and without a gap."""
    broker.stop()
    until("the bridge says so", lambda: bridged.has("is lost, looking for it"))
    time.sleep(1)
    count = len(broker.heard)
    broker.start()
    until("the bridge finds it", lambda: bridged.has("is found again"))
    until("messages come again", lambda: len(broker.heard) > count + 30)
    numbers = [int(data["bytes"][4:8], 16) & 0x3FFF for topic, data in broker.heard if topic == "cts/SAT/HOUSEKEEPING"]
    wanted = list(range(numbers[0], max(numbers) + 1))
    need(sorted(set(numbers)) == wanted, "packets are missing:", sorted(set(wanted) - set(numbers)))


def server_restarts(demo: Demo, broker: Broker, bridged: Bridged) -> None:
    with cts.Server(demo.port) as server:
        server.stop_server()
    demo.ended()
    until("the bridge says so", lambda: bridged.has("ROUTER: ") and bridged.has("is lost"))
    demo.serve()
    count = len(broker.heard)
    until("messages come again", lambda: len(broker.heard) > count + 10)
    need(any("ROUTER: " in line and "found again" in line for line in bridged.output), bridged.output)


CASES = [control_packets, bridge]
