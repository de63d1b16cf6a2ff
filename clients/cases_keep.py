"""The cases of `clients/test` that try `keep`: a history that fills up, a child that is killed, a signal in mid-traffic."""
from __future__ import annotations

import re
import signal
import socket
import struct
import subprocess
import sys
import tempfile
import threading
import time
from pathlib import Path
from typing import Callable

import cts
from cts_carry import LogSize
from testing import HOST, Demo, Pulse, need, until

HERE = Path(__file__).resolve().parent
BUS = ("SAT", "HOUSEKEEPING", "BUS")


class Counter(threading.Thread):
    """A satellite that numbers its packets, sends them in groups, and pauses between them."""

    def __init__(self, port: int, group: int, pause: float):
        super().__init__(daemon=True)
        self.door = socket.create_server((HOST, port))
        self.door.settimeout(0.1)
        self.group, self.pause = group, pause
        self.sent: list[int] = []
        # The first number of each connection.
        self.firsts: list[int] = []
        self.ends = threading.Event()
        # Whether another group may begin on the connection of this number; a pause goes on until it may.
        self.may_send: Callable[[int], bool] = lambda connection: True

    def run(self) -> None:
        while not self.ends.is_set():
            try:
                peer, _ = self.door.accept()
            except TimeoutError:
                continue
            self.firsts.append(len(self.sent))
            with peer:
                self.talk(peer)
        self.door.close()

    def talk(self, peer: socket.socket) -> None:
        peer.settimeout(0.01)
        while not self.ends.is_set():
            for _ in range(self.group):
                number = len(self.sent)
                try:
                    peer.sendall(struct.pack(">HHHIHh", 100, 0xC000 | number & 0x3FFF, 7, number, 2730, 0))
                except OSError:
                    return
                self.sent.append(number)
            end = time.monotonic() + self.pause
            while (time.monotonic() < end or not self.may_send(len(self.firsts))) and not self.ends.is_set():
                try:
                    if not peer.recv(4096):
                        return
                except TimeoutError:
                    continue
                except OSError:
                    return


class Kept:
    """`keep` over the demo's files, with a satellite that counts."""

    def __init__(self, program: Path, *words: str, group: int = 5, pause: float = 0.05):
        self.demo = Demo(program)
        self.satellite = Counter(self.demo.ports["5001"], group, pause)
        self.satellite.start()
        self.output: list[str] = []
        command = [sys.executable, HERE / "keep", "definitions.txt", "site.txt", "--program", program, "--every", "0.2", *words]
        self.process = subprocess.Popen(command, cwd=self.demo.folder, stdout=subprocess.PIPE, text=True)
        self.reader = threading.Thread(target=lambda: self.output.extend(map(str.rstrip, self.process.stdout)), daemon=True)
        self.reader.start()
        until("the server is ready", lambda: self.has("READY"))

    def __enter__(self) -> "Kept":
        return self

    def __exit__(self, *_: object) -> None:
        self.satellite.ends.set()
        if self.process.poll() is None:
            self.process.send_signal(signal.SIGTERM)
            try:
                self.process.wait(100)
            except subprocess.TimeoutExpired:
                self.process.kill()
        self.reader.join(5)
        self.process.stdout.close()
        self.satellite.join(5)
        self.demo.__exit__()

    def has(self, text: str) -> int:
        """How many lines have this text."""
        return sum(text in line for line in self.output)

    def child(self) -> int:
        """The number of the server's process."""
        return int(Path(f"/proc/{self.process.pid}/task/{self.process.pid}/children").read_text().split()[0])

    def finish(self, how: signal.Signals = signal.SIGTERM) -> int:
        self.process.send_signal(how)
        status = self.process.wait(100)
        self.reader.join(5)
        return status

    def hush(self, client: cts.Server) -> None:
        """Ends the satellite, and waits until the server has taken all that it sent."""
        self.satellite.ends.set()
        self.satellite.join()
        until("the server sees its end", lambda: client.interface_state("SAT_INT") == "DISCONNECTED")

    def logged(self) -> list[list[int]]:
        """The numbers of the packets in the logs of each run, in their order."""
        named = [line.split()[-1] for line in self.output if "RUN" in line]
        logs = self.demo.logs("tlm")
        need([path.name.split("_")[0] for path in logs] == named, "the runs are", named, "and the logs", logs)
        found = []
        for path in logs:
            packets = cts.Frames().feed(path.read_bytes()[128:])
            found.append([struct.unpack_from(">I", packet.bytes, 6)[0] for packet in packets if packet.packet == "HOUSEKEEPING" and len(packet.bytes) == 14])
        return found

    def check_once(self, loses: int) -> None:
        """Each packet stands in the logs once and in order. What came at the end of a connection that the server closed may be lost where `loses` runs
        ended in mid-traffic, and nothing else."""
        numbers = [number for run in self.logged() for number in run]
        need(numbers == sorted(set(numbers)), "packets stand twice, or out of order")
        missing = sorted(set(self.satellite.sent) - set(numbers))
        ends = [first - 1 for first in self.satellite.firsts[1:]] + [self.satellite.sent[-1]]
        tails = 0
        for end in ends:
            begin = end
            while begin in missing:
                missing.remove(begin)
                begin -= 1
            tails += begin != end
        need(not missing, "packets are missing in the midst of a connection:", missing[:10])
        need(tails <= loses, tails, "connections lost their last packets, and", loses, "may")


def keep_full(program: Path) -> str:
    """A history that is nearly full: at a quiet moment another server goes on, no packet is lost, and what clients had set is carried."""
    with Pulse() as pulse, Kept(program, "--entries", "400", "--quiet", "0.3", "--within", "60", "--values", group=130, pause=3.0) as kept:
        said: list[str] = []
        # (once a quiet moment is said, this server is given nothing more: else a busy machine might stop it in the midst of the next group)
        kept.satellite.may_send = lambda connection: connection > 1 or not kept.has("this is a quiet moment")
        with cts.Server(kept.demo.port, patience=60, say=said.append) as client:
            client.set_limits(*BUS, 20, 25.5, 32, 34)
            client.set_limits(*BUS, -1.5, 21, 32, 34, 22, 30, "NIGHT", 2, True)
            client.set_limits("PUMP", "REGISTERS", "PRESSURE", "0.25", 1, 6, 7)
            client.disable_limits("PUMP REGISTERS PRESSURE")
            client.set_limits_set("NIGHT")
            client.inject_tlm("PUMP", "REGISTERS", {"PRESSURE": 420, "RUNNING": 1})
            until("another server is started", lambda: client.get_limits_set() and kept.has("READY") >= 2)
            until("it is told how long devices were away", lambda: kept.has("devices were away for"))
            until("the client finds it", lambda: client.get_limits_set() == "NIGHT")
            need(client.servers == 2 and any("is a new one" in line for line in said), said)
            need(client.get_limits(*BUS, set="CUSTOM")[3:7] == (20.0, 25.5, 32.0, 34.0), client.get_limits(*BUS, set="CUSTOM"))
            need(client.get_limits(*BUS) == ("NIGHT", 2, True, -1.5, 21.0, 32.0, 34.0, 22.0, 30.0), client.get_limits(*BUS))
            need(not client.limits_enabled("PUMP REGISTERS PRESSURE") and client.get_limits("PUMP REGISTERS PRESSURE", set="CUSTOM")[3] == 0.25, "not carried")
            need(client.tlm("PUMP REGISTERS PRESSURE") == 4.2 and client.tlm("PUMP REGISTERS RUNNING") == "RUNNING", "no values were carried")
            away = max(float(line.split()[-2]) for line in kept.output if "devices were away for" in line)
            need(away < 2 + pulse.lost, "devices were away for", away, "seconds")
            until("the new server takes packets", lambda: kept.satellite.firsts[1:] and len(kept.satellite.sent) > kept.satellite.firsts[1])
            kept.hush(client)
        need(kept.finish() == 0, "it did not end with 0")
        need(kept.has("carried limits set NIGHT") and kept.has("this is a quiet moment"), kept.output)
        need(kept.has("the logs of this run are, in order: ") == 1, kept.output)
        kept.check_once(0)
        return f"away {away:.2f} s, {len(kept.satellite.sent)} packets in {len(kept.logged())} logs"


def keep_killed(program: Path) -> str:
    """A child that is killed is followed by another one, which is set as it was; but for the kill no packet is lost."""
    with Kept(program) as kept, cts.Server(kept.demo.port, patience=60, say=lambda text: None) as client:
        until("packets came", lambda: client.get_tlm_cnt("SAT HOUSEKEEPING") > 20)
        client.set_limits(*BUS, 20, 25.5, 32, 34)
        client.set_limits_set("CUSTOM")
        until("that is noted", lambda: kept.has("noted: limits set CUSTOM"))
        subprocess.run(["kill", "-KILL", str(kept.child())], check=True)
        until("another server is started", lambda: kept.has("READY") >= 2)
        until("the limits are carried", lambda: client.get_limits_set() == "CUSTOM" and client.get_limits(*BUS)[4] == 25.5)
        need(kept.has("ended by signal 9") == 1, kept.output)
        until("packets came", lambda: client.get_tlm_cnt("SAT HOUSEKEEPING") > 20)
        kept.hush(client)
        need(kept.finish(signal.SIGINT) == 0, "it did not end with 0")
        kept.check_once(1)
        return f"{len(kept.satellite.sent)} packets"


def keep_signal(program: Path) -> str:
    """SIGTERM in mid-traffic stops the server in order, with its status."""
    with Kept(program, pause=0.01) as kept:
        with cts.Server(kept.demo.port) as client:
            until("packets came", lambda: client.get_tlm_cnt("SAT HOUSEKEEPING") > 200)
            began = time.monotonic()
            need(kept.finish() == 0, "it did not end with 0")
        took = time.monotonic() - began
        need(kept.has("SIGTERM: the server is asked to stop") == 1 and any(re.fullmatch(r"END \d+", line) for line in kept.output), kept.output)
        kept.check_once(1)
        return f"stopped after {took:.1f} s, {len(kept.satellite.sent)} packets"


def keep_statuses(program: Path) -> None:
    """After words, files and ports that are wrong there is no other start, and the status is the child's; a client's stop is an end as well."""
    with Demo(program) as demo:
        def run(*words: object) -> subprocess.CompletedProcess:
            return subprocess.run([sys.executable, HERE / "keep", *words, "--program", program], cwd=demo.folder, capture_output=True, text=True, timeout=200)

        need(run("no.txt", demo.site).returncode == 3, "a file that is absent")
        wrong = demo.folder / "wrong.txt"
        wrong.write_text(demo.site.read_text().replace("TARGET SAT", "TARGET SATURN"))
        done = run(demo.definitions, wrong)
        need(done.returncode == 5 and "UnknownTarget" in done.stdout, done)
        with socket.create_server((HOST, demo.port)):
            done = run(demo.definitions, demo.site)
            need(done.returncode == 12 and "door fault" in done.stdout and done.stdout.count("READY") == 1, done)
    with Kept(program) as kept:
        with cts.Server(kept.demo.port) as client:
            client.stop_server()
        need(kept.process.wait(100) == 0, "a stop by a client is no end")
        kept.reader.join(5)
        need(kept.has("READY") == 1, kept.output)


def log_sizes(program: Path) -> None:
    """The size of a log is that of all its parts, of which each has a head of 128 bytes."""
    with tempfile.TemporaryDirectory() as home:
        folder = Path(home)
        log = LogSize(folder, "5_tlm")
        need(log.bytes() == 0, "a log that is not there has a size")
        steps = (("5_tlm", 138, 10), ("5_tlm_1", 100, 10), ("5_tlm_1", 148, 30), ("5_tlm_2", 158, 60), ("5_tlm_2", 168, 70), ("5_tlm_4", 900, 70))
        for name, size, wanted in steps:
            (folder / f"{name}.bin").write_bytes(bytes(size))
            need(log.bytes() == wanted, name, "of", size, "bytes:", log.bytes())


CASES = [keep_full, keep_killed, keep_signal, keep_statuses, log_sizes]
