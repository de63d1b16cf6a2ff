#!/usr/bin/env python3
"""Simulates the four devices of demo/devices on this machine: a satellite's front end (CCSDS), a pump (Modbus TCP), a navigation receiver
behind a serial server (NMEA 0183) and one that sends frames of UBX. The ports are those of the interfaces in --site. It runs until it is
interrupted or for --seconds. `--check` compares what it makes with the bytes of the demo's scripts. `--cut SEED` sends in pieces of random
size and hangs up now and then."""
import argparse
import math
import random
import re
import socket
import struct
import sys
import threading
import time
from pathlib import Path

HOST = "127.0.0.1"


def ports_of(site):
    """The port of each interface and router of a site file, by its name, and that of the JSON clients."""
    text = Path(site).read_text(encoding="utf-8")
    ports = {name: int(port) for name, port in re.findall(r"^(?:INTERFACE|ROUTER) (\w+) \S+(?: \S+)? (\d+) \d+ ", text, re.M)}
    ports["CTS_API"] = int(re.search(r"^PORT CTS_API (\d+)", text, re.M).group(1))
    return ports


def sentence(text):
    """A sentence of NMEA with its checksum and its end."""
    total = 0
    for byte in text.encode():
        total ^= byte
    return f"${text}*{total:02X}\r\n".encode()


def housekeeping(count, seconds, volts, wheel):
    """A space packet of APID 100: the primary header, then seconds, voltage and speed."""
    body = struct.pack(">IHh", seconds, round(volts * 100), wheel)
    return struct.pack(">HHH", 100, 0xC000 | count & 0x3FFF, len(body) - 1) + body


def message(count, severity, text):
    """A space packet of APID 101."""
    body = bytes([severity]) + text.encode()
    return struct.pack(">HHH", 101, 0xC000 | count & 0x3FFF, len(body) - 1) + body


def frame(class_, number, body):
    """A frame of UBX with its check sum, which is Fletcher's over all but the two sync bytes."""
    inner = struct.pack("<BBH", class_, number, len(body)) + body
    first = second = 0
    for byte in inner:
        first = (first + byte) & 0xFF
        second = (second + first) & 0xFF
    return b"\xb5\x62" + inner + bytes([first, second])


def position(tow, longitude, latitude, height):
    return frame(1, 2, struct.pack("<IiiiiII", tow, longitude, latitude, height, height - 55200, 1500, 2100))


def fix(tow, kind):
    return frame(1, 3, struct.pack("<IBBBBII", tow, kind, 0xDD, 0, 8, 5000, 600000))


class Device:
    """One device: what it sends by itself, what it answers, and how its bytes are cut."""

    period = 0.2

    def __init__(self, seed):
        self.random = None if seed is None else random.Random(f"{seed} {type(self).__name__}")
        self.turn = 0

    def send(self, peer, data):
        while data:
            size = self.random.randint(1, 40) if self.random else len(data)
            peer.sendall(data[:size])
            data = data[size:]
            if self.random:
                time.sleep(self.random.random() / 100)

    def tick(self, peer):
        """Sends what is due."""

    def heard(self, peer, data):
        """Answers what came, and gives the bytes that are no whole message yet."""
        return b""

    def talk(self, peer, ends):
        peer.settimeout(0.02)
        held = b""
        due = time.monotonic()
        while not ends.is_set():
            if time.monotonic() >= due:
                self.tick(peer)
                self.turn += 1
                due += self.period
                if self.random and self.random.random() < 0.05:
                    return
            try:
                data = peer.recv(4096)
            except TimeoutError:
                continue
            if not data:
                return
            held = self.heard(peer, held + data)


class Satellite(Device):
    """Its bus has the less voltage the faster its wheel turns."""

    wheel = -1200
    count = 0

    def packet(self, peer, make, *rest):
        self.send(peer, make(self.count, *rest))
        self.count += 1

    def tick(self, peer):
        volts = 28.5 - abs(self.wheel) / 1000 + 0.02 * math.sin(self.turn / 7)
        self.packet(peer, housekeeping, 1000 + self.turn, volts, self.wheel)

    def heard(self, peer, data):
        while len(data) >= 6 and len(data) >= 7 + struct.unpack(">H", data[4:6])[0]:
            size = 7 + struct.unpack(">H", data[4:6])[0]
            if data[6] == 1 and size >= 9:
                self.wheel = struct.unpack(">h", data[7:9])[0]
                self.packet(peer, message, 0, f"Wheel to {self.wheel} rpm")
            data = data[size:]
        return data


class Pump(Device):
    """It sends what it is asked for."""

    running = 1

    def heard(self, peer, data):
        while len(data) >= 6 and len(data) >= 6 + struct.unpack(">H", data[4:6])[0]:
            size = 6 + struct.unpack(">H", data[4:6])[0]
            transaction, unit, function = data[0:2], data[6:7], data[7]
            address, value = struct.unpack(">HH", data[8:12]) if size >= 12 else (0, 0)
            if function == 3 and (address, value) == (0, 2):
                body = unit + struct.pack(">BBHH", 3, 4, 420 if self.running else 40, self.running)
            elif function == 6 and address == 1:
                self.running = value & 1
                body = unit + data[7:12]
            else:
                body = unit + bytes([function | 0x80, 2])
            self.send(peer, transaction + struct.pack(">HH", 0, len(body)) + body)
            data = data[size:]
        return data


class Receiver(Device):
    """UBX: where it is, and what kind of fix it has."""

    def tick(self, peer):
        tow = 123456000 + 200 * self.turn
        self.send(peer, fix(tow, 3))
        self.send(peer, position(tow, -63670190, 533447000 + round(9 * math.sin(self.turn / 9)), 116900))


class Navigation(Device):
    """NMEA. It connects, since it stands behind a serial server."""

    period = 0.5

    def tick(self, peer):
        clock = f"{9 + self.turn // 3600:02d}{self.turn // 60 % 60:02d}{self.turn % 60:02d}"
        self.send(peer, sentence(f"GPGGA,{clock},5321.6802,N,00630.3372,W,1,8,1.03,61.7,M,55.2,M,,"))
        self.send(peer, sentence("GPGSV,1,1,00"))
        self.send(peer, sentence(f"GPRMC,{clock},A,5321.6802,N,00630.3372,W,0.02,31.66,280511,,,A"))


def talks(device, peer, ends):
    try:
        device.talk(peer, ends)
    except OSError:
        pass


def listens(device, port, ends):
    with socket.create_server((HOST, port)) as door:
        door.settimeout(0.1)
        while not ends.is_set():
            try:
                peer, _ = door.accept()
            except TimeoutError:
                continue
            with peer:
                talks(device, peer, ends)


def connects(device, port, ends):
    while not ends.is_set():
        try:
            with socket.create_connection((HOST, port), 1) as peer:
                talks(device, peer, ends)
        except OSError:
            pass
        ends.wait(0.2)


def check():
    """The bytes of the demo's scripts, made anew."""
    wanted = [
        (housekeeping(1, 1000, 28.5, -1200), "0064C0010007000003E80B22FB50"),
        (message(1, 1, "Wheel slow"), "0065C001000A01576865656C20736C6F77"),
        (sentence("GPGSV,1,1,00"), "2447504753562C312C312C30302A37390D0A"),
        (fix(123456000, 3), "B56201031000 00CA5B07 03DD0008 88130000 C0270900 B3CF"),
        (position(123456000, -65056200, 533613400, 116900), "B56201021C00 00CA5B07 38521FFC 584BCE1F A4C80100 04F10000 DC050000 34080000 FF4D"),
        (frame(5, 1, bytes([6, 1])), "B5620501020006010F38"),
    ]
    wrong = [(made.hex(), want) for made, want in wanted if made != bytes.fromhex(want)]
    for made, want in wrong:
        print("devices: made", made, "wanted", want)
    return bool(wrong)


def main():
    words = argparse.ArgumentParser(description=__doc__)
    words.add_argument("--site", default=Path(__file__).with_name("site.txt"))
    words.add_argument("--seconds", type=float, default=None)
    words.add_argument("--cut", type=int, default=None, metavar="SEED")
    words.add_argument("--check", action="store_true")
    words = words.parse_args()
    if words.check:
        return check()
    ends = threading.Event()
    ports = ports_of(words.site)
    devices = [
        (listens, Satellite(words.cut), ports["SAT_INT"]),
        (listens, Pump(words.cut), ports["PUMP_INT"]),
        (listens, Receiver(words.cut), ports["GNSS_INT"]),
        (connects, Navigation(words.cut), ports["GPS_INT"]),
    ]
    threads = [threading.Thread(target=how, args=(device, port, ends)) for how, device, port in devices]
    for thread in threads:
        thread.start()
    try:
        ends.wait(words.seconds)
    except KeyboardInterrupt:
        pass
    ends.set()
    for thread in threads:
        thread.join()
    return 0


if __name__ == "__main__":
    sys.exit(main())
