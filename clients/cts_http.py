"""The connection below `cts.py`: JSON-RPC requests over one connection of HTTP/1.1 that is kept, and made again where the server ended it.

A request that may have been executed is never sent twice: where its reply is lost, `LostReply` says so. Only requests that change
nothing are asked again by themselves."""
from __future__ import annotations

import json
import select
import socket
import time
from typing import Any, Callable, Optional, Sequence

# Requests are sent so many at a time, and then their replies are read: neither side waits for the other to take its bytes.
AT_ONCE = 64
# A server hangs up who says nothing for about a minute, and whom it has waited for ten minutes in all: a connection that it ends sooner is
# worth a word.
IDLE = 50
AGE = 540
# A connection that was silent for so many seconds may be gone without a word, as behind a tunnel: where something is to be changed over it, it is
# asked this question first, since a change that was sent over a dead one may or may not have been done.
REST = 5
QUESTION = ("get_limits_set", ())
HEAD_LIMIT = 65536


class CtsError(Exception):
    """What went wrong, in one line. All errors of this library are of this class."""


class ServerLost(CtsError):
    """The server cannot be reached. Nothing of the request was done."""


class LostReply(CtsError):
    """The connection ended before the reply: the server may have done what was asked, or not. It was not sent again."""

    def __init__(self, methods: Sequence[str], why: object):
        super().__init__(f"the reply to {', '.join(methods)} was lost ({why}): it may have been done")
        self.methods = list(methods)


class MethodError(CtsError):
    """The server refused a request: its code and message (docs/METHODS.md, "Codes")."""

    def __init__(self, method: str, code: int, message: str):
        super().__init__(f"{method}: {message}")
        self.method, self.code, self.message = method, code, message


# Methods that take an entry of the history, or end it; all others only ask.
CHANGES = {
    "cmd", "cmd_no_range_check", "cmd_no_hazardous_check", "cmd_no_checks", "inject_tlm", "set_limits", "enable_limits", "disable_limits",
    "set_limits_set", "stop_server",
}  # fmt: skip

Call = tuple[str, Sequence[Any]]


class Line:
    """One connection: it sends bytes and reads responses, and fails with OSError or ValueError."""

    def __init__(self, host: str, port: int, timeout: float):
        self.peer = socket.create_connection((host, port), timeout)
        self.peer.setsockopt(socket.IPPROTO_TCP, socket.TCP_NODELAY, 1)
        self.held = b""
        self.began = time.monotonic()

    def close(self) -> None:
        self.peer.close()

    def is_over(self) -> bool:
        """Whether the server has ended it: a connection without a question has nothing to read."""
        return bool(select.select([self.peer], [], [], 0)[0])

    def more(self) -> None:
        data = self.peer.recv(65536)
        if not data:
            raise ConnectionError("the server ended the connection")
        self.held += data

    def response(self) -> tuple[int, dict[str, str], bytes]:
        """The status, the fields by their names in lower case, and the body of the next response."""
        while (end := self.held.find(b"\r\n\r\n")) < 0:
            if len(self.held) > HEAD_LIMIT:
                raise ValueError("no response of HTTP")
            self.more()
        first, *lines = self.held[:end].decode("latin-1").split("\r\n")
        fields = {name.lower(): value.strip() for name, _, value in (line.partition(":") for line in lines)}
        if not first.startswith("HTTP/1."):
            raise ValueError("no response of HTTP")
        size = int(fields.get("content-length", 0))
        while len(self.held) < end + 4 + size:
            self.more()
        body, self.held = self.held[end + 4:end + 4 + size], self.held[end + 4 + size:]
        return int(first.split()[1]), fields, body


class Wire:
    """Asks the server, one request after another, and finds it again where it was lost.

    `front` is the number of entries that the history had at the last reply. `patience` is for how many seconds a server that answered
    before is looked for; `say` is told when it is lost, found, and another one than before."""

    def __init__(self, host: str, port: int, timeout: float, patience: float, say: Callable[[str], None]):
        self.host, self.port, self.timeout, self.patience, self.say = host, port, timeout, patience, say
        self.line: Optional[Line] = None
        self.number = 0
        self.expected = 0
        self.front = 0
        self.servers = 0
        self.asked = 0.0
        self.rest: float = REST

    @property
    def name(self) -> str:
        return f"{self.host}:{self.port}"

    def close(self) -> None:
        if self.line is not None:
            self.line.close()
            self.line = None

    # ---- connecting

    def connected(self, changes: bool) -> Line:
        """The connection, made anew where there is none or the server ended it; and, where something is to be changed, where it is dead."""
        if self.line is not None and changes and time.monotonic() - self.asked >= self.rest and not self.line.is_over():
            self.try_line(self.line)
        if self.line is not None and self.line.is_over():
            now = time.monotonic()
            is_early = now - self.asked < IDLE and now - self.line.began < AGE
            self.close()
            if is_early:
                self.say(f"SERVER: {self.name} ended the connection, which is made again")
        if self.line is None:
            self.line = self.dial()
        return self.line

    def try_line(self, line: Line) -> None:
        """Asks a question over a connection that was long silent, and closes it where no answer comes."""
        try:
            self.send(line, [QUESTION])
            self.reply(line, QUESTION[0])
        except (OSError, ValueError) as why:
            self.close()
            self.say(f"SERVER: the connection to {self.name} was lost while nothing was asked ({why}), and is made again")

    def dial(self) -> Line:
        began = time.monotonic()
        is_lost = False
        while True:
            try:
                line = Line(self.host, self.port, self.timeout)
            except OSError as why:
                waits = self.patience if self.servers else 0
                if time.monotonic() - began >= waits:
                    raise ServerLost(f"no server at {self.name}: {why.strerror or why}") from None
                if not is_lost:
                    self.say(f"SERVER: {self.name} is lost, looking for it")
                is_lost = True
                time.sleep(0.1)
                continue
            if is_lost:
                self.say(f"SERVER: {self.name} answers again after {time.monotonic() - began:.1f} seconds")
            return line

    def note(self, front: int) -> None:
        """Notes the front of a reply. It never falls while one server runs."""
        if self.servers == 0:
            self.servers = 1
        elif front < self.front:
            self.servers += 1
            self.say(f"SERVER: {self.name} is a new one, whose history begins anew")
        self.front = front

    # ---- asking

    def ask(self, method: str, *params: Any) -> Any:
        """The result of a method, or a `MethodError`."""
        [found] = self.ask_all([(method, params)])
        if isinstance(found, MethodError):
            raise found
        return found

    def ask_all(self, calls: Sequence[Call]) -> list[Any]:
        """The result of each call, or the `MethodError` in its place, all asked at once."""
        found: list[Any] = []
        for at in range(0, len(calls), AT_ONCE):
            found += self.ask_some(calls[at:at + AT_ONCE])
        return found

    def ask_some(self, calls: Sequence[Call]) -> list[Any]:
        found: list[Any] = []
        began, failures = time.monotonic(), 0
        while len(found) < len(calls):
            rest = calls[len(found):]
            line = self.connected(any(method in CHANGES for method, _ in rest))
            try:
                self.send(line, rest)
                for method, _ in rest:
                    found.append(self.reply(line, method))
            except (OSError, ValueError) as why:
                self.close()
                failures += 1
                self.judge(calls[len(found):], why, failures > 1 and time.monotonic() - began >= self.patience)
                time.sleep(0.1 * (failures > 1))
        return found

    def judge(self, calls: Sequence[Call], why: Exception, is_enough: bool) -> None:
        """Whether calls without a reply may be asked again: else raises."""
        changes = [method for method, _ in calls if method in CHANGES]
        if changes:
            raise LostReply(changes, why) from None
        if is_enough:
            raise ServerLost(f"the server at {self.name} does not answer: {why}") from None

    def send(self, line: Line, calls: Sequence[Call]) -> None:
        data = b""
        for method, params in calls:
            self.number += 1
            body = json.dumps({"jsonrpc": "2.0", "id": self.number, "method": method, "params": list(params)}).encode()
            data += f"POST / HTTP/1.1\r\nHost: {self.name}\r\nContent-Type: application/json-rpc\r\nContent-Length: {len(body)}\r\n\r\n".encode() + body
        self.expected = self.number - len(calls)
        self.asked = time.monotonic()
        line.peer.sendall(data)

    def reply(self, line: Line, method: str) -> Any:
        """What the next response says of this method."""
        status, fields, body = line.response()
        if status != 200:
            self.close()
            raise CtsError(f"{method}: the server refuses the request with status {status}, and did nothing")
        said = json.loads(body)
        self.expected += 1
        error = said.get("error")
        if error is not None and error["code"] == -32004:
            self.close()
            raise MethodError(method, error["code"], error["message"])
        if said["id"] != self.expected:
            raise ValueError(f"it answered request {said['id']}, not {self.expected}")
        self.note(int(fields["x-cts-front"]))
        return said["result"] if error is None else MethodError(method, error["code"], error["message"])
