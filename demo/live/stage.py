"""What the demos of servers share: their files with ports that are free, the devices, a server that is started and stopped, and the client of an
operator, which shows what it asks."""
import json
import re
import select
import subprocess
import sys
import time
from pathlib import Path

from client import Server

HERE = Path(__file__).resolve().parent
TOP = HERE.parent.parent
TARGETS = ("ccsds", "modbus", "nmea", "ublox")
# How long anything is waited for that has to come, on however busy a machine: what is longer away is taken for lost.
PATIENCE = 60


def with_ports(text, ports):
    """A site in which some ports are others."""
    return re.sub(r"\b\d+\b", lambda found: str(ports.get(int(found.group()), found.group())), text)


def definitions_in(folder):
    """The definitions of all devices as one file."""
    path = folder / "definitions.txt"
    path.write_text("".join((TOP / "demo" / "devices" / name / "definitions.txt").read_text(encoding="utf-8") for name in TARGETS), encoding="utf-8")
    return path


def show(words):
    print(words, flush=True)


def until(what, holds, seconds=PATIENCE):
    end = time.monotonic() + seconds
    while not holds():
        if time.monotonic() > end:
            raise RuntimeError(f"not within {seconds} seconds: {what}")
        time.sleep(0.05)


class Client:
    """An operator's client: it shows what it asks and what it is answered."""

    def __init__(self, port):
        self.server = Server(port)

    def ask(self, method, *params):
        return self.server.ask(method, *params)

    def show(self, method, *params):
        found = self.ask(method, *params)
        show(f"> {asked(method, *params)}")
        show(f"  {json.dumps(found)}")
        return found

    def came(self, target, packet, more_than=0):
        until(f"a packet {target} {packet}", lambda: self.ask("get_tlm_cnt", target, packet) > more_than)


def asked(method, *params):
    """A call as it is shown."""
    return f"{method}({', '.join(map(json.dumps, params))})"


def devices_of(site, **how):
    """The four devices as a process, at the ports of a site."""
    return subprocess.Popen([sys.executable, HERE / "devices.py", "--site", site], **how)


def served(program, folder, definitions, site, **how):
    """A server as a process, in a folder."""
    return subprocess.Popen([program, "serve", definitions, site], cwd=folder, stdout=subprocess.PIPE, text=True, **how)


def first_line(server):
    """The first line that a server prints, or nothing where none comes."""
    return server.stdout.readline() if select.select([server.stdout], [], [], PATIENCE)[0] else ""


def parts(log):
    """The files of a log, of which this is the first."""
    found = [log]
    while (part := log.with_name(f"{log.stem}_{len(found)}.bin")).exists():
        found.append(part)
    return found


def dumped(program, log):
    """The lines of a log as `dump` prints them of its parts."""
    return subprocess.run([program, "dump", *parts(log)], check=True, capture_output=True, text=True).stdout.splitlines()
