"""What the tests of clients/ and console/ share: the live demo's devices and a server on free ports, in a folder of their own."""
from __future__ import annotations

import os
import re
import select
import signal
import socket
import subprocess
import sys
import tempfile
import threading
import time
from collections import deque
from contextlib import suppress
from pathlib import Path
from typing import Callable, Optional, Sequence

TOP = Path(__file__).resolve().parent.parent
sys.path.append(str(TOP / "demo" / "live"))

from ports import HOST, free_ports

PROGRAM = TOP / "crates" / "cts_main" / "out" / "cts_main"
DEVICES = ("ccsds", "modbus", "nmea", "ublox")


class Wrong(Exception):
    """Something that differs from what it should be."""


def need(holds: object, *what: object) -> None:
    if not holds:
        raise Wrong(" ".join(map(str, what)))


def until(what: str, holds: Callable[[], object], seconds: float = 60) -> object:
    """Waits until something holds, and gives what it was. The time is that of a busy machine: what is longer away is taken for lost."""
    end = time.monotonic() + seconds
    while not (found := holds()):
        need(time.monotonic() < end, "not within", seconds, "seconds:", what)
        time.sleep(0.02)
    return found


def raises(kind: type[Exception], action: Callable[[], object], *texts: str) -> Exception:
    """The error that an action has to end with, whose text has all of these."""
    try:
        found = action()
    except kind as why:
        for text in texts:
            need(text in str(why), f"the error is {str(why)!r}, and not {text!r}")
        return why
    raise Wrong(f"no {kind.__name__}, but {found!r}")


def has_sockets() -> bool:
    try:
        socket.create_server((HOST, 0)).close()
        return True
    except OSError:
        return False


def is_open(port: int) -> bool:
    try:
        socket.create_connection((HOST, port), 1).close()
        return True
    except OSError:
        return False


class Demo:
    """The live demo in a folder: its files with free ports, its devices, and a server."""

    def __init__(self, program: Path, desks: int = 4, layout: int = 2):
        self.program = program
        self.home = tempfile.TemporaryDirectory()
        self.folder = Path(self.home.name)
        self.definitions = self.folder / "definitions.txt"
        self.site = self.folder / "site.txt"
        self.definitions.write_text("".join((TOP / "demo" / "devices" / name / "definitions.txt").read_text() for name in DEVICES))
        text = (TOP / "demo" / "live" / "site.txt").read_text()
        old = ("7777", "5001", "5002", "5003", "5004", "2950")
        self.ports = dict(zip(old, free_ports(len(old))))
        for port, new in self.ports.items():
            text = re.sub(rf"\b{port}\b", str(new), text)
        text = re.sub(r"^DESKS \d", f"DESKS {desks}", text, flags=re.M)
        self.site.write_text(text if layout == 2 else text.replace("PREIDENTIFIED", f"PREIDENTIFIED nil nil {layout}"))
        self.server: Optional[subprocess.Popen] = None
        self.devices: Optional[subprocess.Popen] = None

    @property
    def port(self) -> int:
        """That of the methods."""
        return self.ports["7777"]

    @property
    def router(self) -> int:
        return self.ports["2950"]

    def __enter__(self) -> "Demo":
        return self

    def __exit__(self, *_: object) -> None:
        for process in (self.server, self.devices):
            if process is not None and process.poll() is None:
                process.kill()
                process.wait()
            if process is not None and process.stdout:
                process.stdout.close()
        self.home.cleanup()

    def start(self) -> "Demo":
        """Starts the devices, where they do not run, and a server."""
        if self.devices is None:
            self.devices = subprocess.Popen([sys.executable, TOP / "demo" / "live" / "devices.py", "--site", self.site], stderr=subprocess.DEVNULL)
        return self.serve()

    def serve(self) -> "Demo":
        """Starts a server, and waits until it is ready. Its logs are new ones, named by the second."""
        until("the second is over", lambda: not list(self.folder.glob(f"{int(time.time())}_*.bin")))
        self.server = subprocess.Popen([self.program, "serve", self.definitions, self.site], cwd=self.folder, stdout=subprocess.PIPE, text=True)
        line = self.server.stdout.readline()
        need(line == "READY\n", "the server says", line)
        return self

    def ended(self, seconds: float = 60) -> int:
        """Waits for the end of the server, and gives its status."""
        status = self.server.wait(seconds)
        self.server.stdout.close()
        return status

    def kill(self) -> None:
        self.server.send_signal(signal.SIGKILL)
        self.ended()

    def logs(self, kind: str) -> list[Path]:
        """The logs of this kind, oldest first."""
        return sorted(self.folder.glob(f"*_{kind}.bin"), key=lambda path: int(path.name.split("_")[0]))


class Pulse(threading.Thread):
    """Sees for how many seconds in all this machine kept a thread from running, so that a case may be patient by as much."""

    def __init__(self) -> None:
        super().__init__(daemon=True)
        self.lost = 0.0
        self.ends = threading.Event()

    def run(self) -> None:
        while not self.ends.is_set():
            began = time.monotonic()
            time.sleep(0.01)
            self.lost += max(0, time.monotonic() - began - 0.02)

    def __enter__(self) -> "Pulse":
        self.start()
        return self

    def __exit__(self, *_: object) -> None:
        self.ends.set()


class Cutter:
    """Stands between a client and a server, and cuts connections. `drop` replies are taken from the server and not handed on; `cut` ends the
    connections that there are; and over those that there were at a `freeze` nothing goes any more, as where a tunnel is gone."""

    def __init__(self, port: int):
        self.server = port
        self.drop = 0
        self.requests = 0
        self.connections = 0
        self.peers: set[socket.socket] = set()
        self.frozen: set[socket.socket] = set()
        [self.port] = free_ports(1)
        self.door = socket.create_server((HOST, self.port))
        self.accepting = threading.Thread(target=self.run, daemon=True)
        self.accepting.start()

    def run(self) -> None:
        while True:
            try:
                peer, _ = self.door.accept()
            except OSError:
                return
            threading.Thread(target=self.carry, args=(peer,), daemon=True).start()

    def cut(self) -> None:
        """Ends all connections. (They are shut down: a socket that is closed while another thread waits for it stays open until that wait ends,
        which its peer's next bytes do; so those are answered by a reset.)"""
        for peer in list(self.peers):
            with suppress(OSError):
                peer.shutdown(socket.SHUT_RDWR)

    def freeze(self) -> None:
        self.frozen |= self.peers

    def carry(self, peer: socket.socket) -> None:
        self.connections += 1
        self.peers.add(peer)
        with suppress(OSError):
            self.carry_both_ways(peer)
        self.peers.discard(peer)
        peer.close()

    def carry_both_ways(self, peer: socket.socket) -> None:
        with socket.create_connection((HOST, self.server)) as server:
            while True:
                ready = select.select([peer, server], [], [])[0]
                if peer in ready:
                    if not (data := peer.recv(65536)):
                        return
                    if peer in self.frozen:
                        continue
                    self.requests += 1
                    server.sendall(data)
                if server in ready:
                    if not (data := server.recv(65536)) or self.drop:
                        self.drop = max(0, self.drop - 1)
                        return
                    peer.sendall(data)

    def close(self) -> None:
        """Ends the door, and waits for its thread: that would go on with whatever is opened next under the door's number."""
        self.door.shutdown(socket.SHUT_RDWR)
        self.accepting.join()
        self.door.close()


Case = Callable[[Path], Optional[str]]


def ended(case: Case, program: Path) -> tuple[str, bool]:
    """How a case ended: what it says, and whether it is wrong."""
    try:
        return case(program) or "as it should be", False
    except Exception as why:  # whatever ends a case is a fault of it
        where = why.__traceback__
        while where.tb_next and Path(where.tb_next.tb_frame.f_code.co_filename).is_relative_to(TOP):
            where = where.tb_next
        place = f"{Path(where.tb_frame.f_code.co_filename).name} line {where.tb_lineno}"
        return f"WRONG: {type(why).__name__}: {why} ({place})", True


def run_cases(name: str, cases: Sequence[Case], program: Path, only: str = "", seconds: float = 600, at_once: int = 4) -> int:
    """Runs cases, some at once, says of each how it ended, and counts those that differ. Those that have not begun when the time is over are not run."""
    waiting = deque(case for case in cases if only in ("", case.__name__))
    began, turn, wrong = time.monotonic(), threading.Lock(), []

    def work() -> None:
        while True:
            with turn:
                if not waiting or time.monotonic() - began > seconds:
                    return
                case = waiting.popleft()
            start = time.monotonic()
            said, is_wrong = ended(case, program)
            with turn:
                print(f"{name}: {case.__name__}: {said} ({time.monotonic() - start:.1f} s)", flush=True)
                wrong.extend([case] * is_wrong)

    workers = [threading.Thread(target=work) for _ in range(at_once)]
    for worker in workers:
        worker.start()
    for worker in workers:
        worker.join()
    for case in waiting:
        print(f"{name}: {case.__name__}: not run, since {seconds:g} seconds are over")
    return len(wrong)


def program_of(word: Optional[str]) -> Optional[Path]:
    """The program to test: the word, CTS_PROGRAM of the environment, or the one that is built; None where there is none that serves."""
    program = Path(word or os.environ.get("CTS_PROGRAM") or PROGRAM).resolve()
    if not program.exists():
        return None
    done = subprocess.run([program, "serve", "no", "no"], cwd=tempfile.gettempdir(), stdout=subprocess.DEVNULL, timeout=30)
    return program if done.returncode == 3 else None
