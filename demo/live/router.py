#!/usr/bin/env python3
"""A client of a router that writes PREIDENTIFIED: it prints each packet as `dump` prints an entry of a log, until the server ends the
connection, or for --seconds."""
import argparse
import datetime
import socket
import struct
import sys
import time

HOST = "127.0.0.1"


def packets(data):
    """The whole packets at the front, each with its bytes as they came, and what is left: seconds, microseconds, two names with their
    lengths, a count, and as many bytes. Entries of a log of layout 2 have the same form. Only heads of layout 2 are read: those of layout 4
    have a byte of flags before the seconds."""
    found = []
    while True:
        at = 8
        names = []
        for _ in range(2):
            if len(data) <= at or len(data) < at + 1 + data[at]:
                return found, data
            names.append(data[at + 1:at + 1 + data[at]].decode())
            at += 1 + data[at]
        if len(data) < at + 4:
            return found, data
        end = at + 4 + struct.unpack(">I", data[at:at + 4])[0]
        if len(data) < end:
            return found, data
        seconds, micros = struct.unpack(">II", data[:8])
        found.append((seconds, micros, *names, data[at + 4:end], data[:end]))
        data = data[end:]


def line(packet):
    seconds, micros, target, name, body, _ = packet
    when = datetime.datetime.fromtimestamp(seconds, datetime.timezone.utc)
    return f"{when:%Y-%m-%d %H:%M:%S}.{micros:06d} {target} {name} {body.hex()}"


def stream(port, seconds=None):
    """The packets of a router, as they come."""
    end = time.monotonic() + seconds if seconds else None
    held = b""
    with socket.create_connection((HOST, port), 5) as peer:
        peer.settimeout(0.1)
        while end is None or time.monotonic() < end:
            try:
                data = peer.recv(65536)
            except TimeoutError:
                continue
            if not data:
                return
            found, held = packets(held + data)
            yield from found


def main():
    words = argparse.ArgumentParser(description=__doc__)
    words.add_argument("--port", type=int, default=2950)
    words.add_argument("--seconds", type=float, default=None)
    words = words.parse_args()
    for packet in stream(words.port, words.seconds):
        print(line(packet), flush=True)
    return 0


if __name__ == "__main__":
    sys.exit(main())
