"""The library of a test script: what scripts of COSMOS use, over a server's JSON methods and the streams of its routers.

    from cts import *

    connect(7777)
    cmd("INST COLLECT with DURATION 10")
    wait_check("INST HS TEMP1 > 10", 5)
    print(tlm("INST HS TEMP1"))

`connect` says which server the functions of this module speak to; a `Script` of one's own is another one. `Server` has the methods of
docs/METHODS.md by their names, and prints nothing; `Script` adds checks and waits, which print what they find as COSMOS does.
`Packets` gives the packets of a router. Every error is a `CtsError` with one line of text."""
from __future__ import annotations

import ast
import functools
import operator
import os
import re
import sys
import time
from decimal import Decimal
from typing import Any, Callable, NamedTuple, Optional, Sequence, Union

from cts_files import Definitions, FileError, Site, definitions_of, site_of
from cts_http import CtsError, LostReply, MethodError, ServerLost, Wire
from cts_stream import Frames, Packet, Packets, StreamError

Value = Union[int, float, str]
Number = Union[int, float, str, Decimal]
DECIMAL = re.compile(r"-?\d+\.\d+")


class HazardousError(MethodError):
    """A hazardous command that was not sent. `question` is what to ask the operator first."""

    def __init__(self, method: str, target: str, command: str, hazard: str = ""):
        super().__init__(method, -32002, f"{target} {command} is hazardous" + (f": {hazard}" if hazard else ""))
        self.question = f"Warning: Command {target} {command} is Hazardous. " + (f"{hazard}. " if hazard else "") + "Send? (y/N) "


class CheckError(CtsError):
    """A check that failed."""


class Row(NamedTuple):
    """An item of a packet, as `get_tlm_packet` gives it; the colour is its limits state, or None where it has none."""

    name: str
    value: Value
    colour: Optional[str]


class ItemLimits(NamedTuple):
    """The limits of an item, in the set that is used for it."""

    set: str
    persistence: int
    enabled: bool
    red_low: float
    yellow_low: float
    yellow_high: float
    red_high: float
    green_low: Optional[float]
    green_high: Optional[float]


class OutOfLimits(NamedTuple):
    """An item that is yellow or red."""

    target: str
    packet: str
    item: str
    colour: str


class LimitsEvent(NamedTuple):
    """A change of an item's limits state, at an entry of the history."""

    entry: int
    target: str
    packet: str
    item: str
    before: str
    after: str


# ---- what calls are given


def names_of(words: Sequence[str], count: int, what: str) -> list[str]:
    """So many names, given as one text or one by one."""
    names = words[0].split() if len(words) == 1 else list(words)
    if len(names) != count:
        raise CtsError(f"{what} is {count} names, and not {' '.join(map(str, words))!r}")
    return names


def as_limit(value: Number) -> Union[int, str]:
    """A limit as the server takes it: a whole number, or a decimal in a text."""
    if isinstance(value, float):
        return format(Decimal(repr(value)), "f")
    return format(value, "f") if isinstance(value, Decimal) else value


def as_given(value: Any) -> Any:
    """A value of a parameter or an item as the server takes it: bytes as hexadecimal digits, 3.0 as 3."""
    if isinstance(value, (bytes, bytearray)):
        return "0x" + value.hex()
    return int(value) if isinstance(value, float) and value.is_integer() else value


def command_text(target: str, command: str, values: dict[str, Any]) -> str:
    """A command as one text."""
    shown = ", ".join(f"{name} {value}" if isinstance(value, int) else f"{name} {quoted(value)}" for name, value in values.items())
    return f"{target} {command}" + (f" with {shown}" if shown else "")


def quoted(text: str) -> str:
    return f'"{text}"' if "'" in text else f"'{text}'"


class Server:
    """A server and its methods, over one connection that is made again where it ended.

    A server that is not there at the first call is an error at once; one that answered before is looked for, for `patience` seconds, and
    `say` is told. A call that changes something is never sent twice: where its reply is lost, `LostReply` is raised. `front` is how many entries
    the history had at the last reply, and `servers` how many servers answered so far. With `definitions` questions about hazardous commands
    have their texts."""

    def __init__(
        self, port: int = 7777, host: str = "127.0.0.1", *, timeout: float = 10, patience: float = 10, definitions: Optional[Definitions] = None,
        say: Callable[[str], None] = lambda text: print(text, file=sys.stderr, flush=True),
    ):  # fmt: skip
        self.wire = Wire(host, port, timeout, patience, say)
        self.definitions = definitions
        self.numbers: dict[tuple[str, str, str], bool] = {}

    @property
    def front(self) -> int:
        return self.wire.front

    @property
    def servers(self) -> int:
        return self.wire.servers

    def close(self) -> None:
        self.wire.close()

    def __enter__(self) -> "Server":
        return self

    def __exit__(self, *_: object) -> None:
        self.close()

    def ask(self, method: str, *params: Any) -> Any:
        """A method by its name, with its params as they stand in docs/METHODS.md, and its result as it is there."""
        return self.wire.ask(method, *params)

    def ask_all(self, calls: Sequence[tuple[str, Sequence[Any]]]) -> list[Any]:
        """Many methods at once: the result of each, or a `MethodError` in its place."""
        return self.wire.ask_all(calls)

    # ---- telemetry

    def tlm(self, *item: str) -> Value:
        """The converted value: a whole number, a float, or a text (the name of a state, a STRING, a BLOCK)."""
        names = names_of(item, 3, "an item")
        value = self.ask("tlm", *names)
        return float(value) if self.is_decimal(names, value) else value

    def is_decimal(self, names: Sequence[str], value: Value) -> bool:
        """Whether a text is a decimal, and not a STRING that looks like one: its raw value tells, and is asked for once an item."""
        if not isinstance(value, str) or not DECIMAL.fullmatch(value):
            return False
        key = (names[0].upper(), names[1].upper(), names[2].upper())
        if key not in self.numbers:
            self.numbers[key] = isinstance(self.ask("tlm_raw", *names), int)
        return self.numbers[key]

    def tlm_raw(self, *item: str) -> Value:
        """The value in the bytes of the packet."""
        return self.ask("tlm_raw", *names_of(item, 3, "an item"))

    def tlm_formatted(self, *item: str) -> str:
        """The converted value as its format shows it."""
        return self.ask("tlm_formatted", *names_of(item, 3, "an item"))

    def tlm_with_units(self, *item: str) -> str:
        """The formatted value and its units."""
        return self.ask("tlm_with_units", *names_of(item, 3, "an item"))

    def get_tlm_packet(self, *packet: str, kind: str = "CONVERTED") -> list[Row]:
        """A row for each item; the kind is RAW, CONVERTED, FORMATTED or WITH_UNITS."""
        names = names_of(packet, 2, "a packet")
        rows = [Row(*row) for row in self.ask("get_tlm_packet", *names, kind)]
        if kind != "CONVERTED":
            return rows
        return [row._replace(value=float(row.value)) if self.is_decimal([*names, row.name], row.value) else row for row in rows]

    def get_tlm_cnt(self, *packet: str) -> int:
        """How often the packet came or was injected."""
        return self.ask("get_tlm_cnt", *names_of(packet, 2, "a packet"))

    def inject_tlm(self, target: str, packet: str, values: dict[str, Any]) -> None:
        """Gives a packet raw values by the names of items, in the place of a device."""
        self.ask("inject_tlm", target, packet, {name: as_given(value) for name, value in values.items()})

    # ---- limits

    def get_limits(self, *item: str, set: Optional[str] = None) -> ItemLimits:
        """The limits of an item in a set, or in the current one."""
        names = names_of(item, 3, "an item")
        name, persistence, enabled, *limits = self.ask("get_limits", *names, *([set] if set else []))
        return ItemLimits(name, persistence, enabled, *(None if limit is None else float(limit) for limit in limits))

    def set_limits(
        self, target: str, packet: str, item: str, red_low: Number, yellow_low: Number, yellow_high: Number, red_high: Number,
        green_low: Optional[Number] = None, green_high: Optional[Number] = None, set: Optional[str] = None, persistence: Optional[int] = None,
        enabled: Optional[bool] = None,
    ) -> None:  # fmt: skip
        """Gives an item limits, in the set CUSTOM or in the one that is named. The current set stays."""
        given = [as_limit(limit) for limit in (red_low, yellow_low, yellow_high, red_high)]
        more = [None if limit is None else as_limit(limit) for limit in (green_low, green_high)] + [set, persistence, enabled]
        while more and more[-1] is None:
            more.pop()
        if None in more:
            raise CtsError("set_limits: the server takes its params in their order, so a set, a persistence and enabled want those before them too")
        self.ask("set_limits", target, packet, item, *given, *more)

    def limits_enabled(self, *item: str) -> bool:
        """Whether samples of the item are taken."""
        return self.get_limits(*item).enabled

    def enable_limits(self, *item: str) -> None:
        self.ask("enable_limits", *names_of(item, 3, "an item"))

    def disable_limits(self, *item: str) -> None:
        self.ask("disable_limits", *names_of(item, 3, "an item"))

    def get_limits_set(self) -> str:
        return self.ask("get_limits_set")

    def set_limits_set(self, name: str) -> None:
        self.ask("set_limits_set", name)

    def get_out_of_limits(self) -> list[OutOfLimits]:
        """The items that are yellow or red."""
        return [OutOfLimits(*row) for row in self.ask("get_out_of_limits")]

    def get_limits_events(self, from_entry: int = 0) -> list[LimitsEvent]:
        """The changes of limits states, at that entry of the history or after it."""
        return [LimitsEvent(*row) for row in self.ask("get_limits_events", from_entry)]

    # ---- commands

    def send(self, method: str, words: Sequence[Any]) -> tuple[str, str, dict[str, Any]]:
        """Sends a command by one of the four methods: the target, the command and the values that were given."""
        params = list(words)
        if len(params) > 2 and isinstance(params[2], dict):
            params[2] = {name: as_given(value) for name, value in params[2].items()}
        try:
            target, command, values = self.ask(method, *params)
        except MethodError as why:
            if (why.code, why.message) != (-32002, "Hazardous"):
                raise
            target, command = (params[0].split() if len(params) == 1 else params)[:2]
            raise HazardousError(method, target.upper(), command.upper(), self.hazard(target.upper(), command.upper())) from None
        return target, command, values

    def hazard(self, target: str, command: str) -> str:
        """What the definitions say of a hazardous command, or of its hazardous states."""
        found = self.definitions.commands.get((target, command)) if self.definitions else None
        if found is None or found.is_hazardous:
            return found.hazard if found else ""
        return ", ".join(state.hazard for item in found.items for state in item.states if state.hazard)

    def cmd(self, *words: Any):
        """Sends a command: `cmd("INST COLLECT with DURATION 10")`, or `cmd("INST", "COLLECT", {"DURATION": 10})`."""
        return self.send("cmd", words)

    def cmd_no_range_check(self, *words: Any):
        """Sends a command whose values may be out of range."""
        return self.send("cmd_no_range_check", words)

    def cmd_no_hazardous_check(self, *words: Any):
        """Sends a command that may be hazardous."""
        return self.send("cmd_no_hazardous_check", words)

    def cmd_no_checks(self, *words: Any):
        """Sends a command without both checks."""
        return self.send("cmd_no_checks", words)

    def get_cmd_cnt(self, *command: str) -> int:
        """How often the command was sent, by whomever."""
        return self.ask("get_cmd_cnt", *names_of(command, 2, "a command"))

    # ---- the server

    def get_interface_names(self) -> list[str]:
        return self.ask("get_interface_names")

    def interface_state(self, name: str) -> str:
        """CONNECTED or DISCONNECTED."""
        return self.ask("interface_state", name)

    def stop_server(self) -> None:
        """Ends the server, in order."""
        self.ask("stop_server")


# ---- comparisons


OPERATORS: dict[str, Callable[[Any, Any], bool]] = {
    "==": operator.eq, "!=": operator.ne, "<=": operator.le, ">=": operator.ge, "<": operator.lt, ">": operator.gt,
    "not in": lambda value, choices: value not in choices, "in": lambda value, choices: value in choices,
}  # fmt: skip
COMPARISON = re.compile(r"\s*(\w+)\s+(\w+)\s+(\w+)\s*(.*?)\s*", re.S)
TEST = re.compile(rf"({'|'.join(map(re.escape, OPERATORS))})\s*(.+)", re.S)


class Comparison:
    """An item, and perhaps what its value is compared with: `INST HS TEMP1 > 10`, `PUMP REGISTERS RUNNING == 'STOPPED'`."""

    def __init__(self, *words: str):
        found = COMPARISON.fullmatch(" ".join(words))
        if found is None:
            raise CtsError(f"{' '.join(words)!r} does not begin with an item, which is three names")
        *names, self.test = found.groups()
        self.names = [name.upper() for name in names]
        if self.test:
            self.operator, self.operand = self.read(self.test)

    @staticmethod
    def read(test: str) -> tuple[Callable[[Any, Any], bool], Any]:
        found = TEST.fullmatch(test)
        try:
            return OPERATORS[found[1]], ast.literal_eval(found[2])
        except (TypeError, ValueError, SyntaxError):
            raise CtsError(f"{test!r} is no comparison with a number, a text in quotes or a list: as > 10, == 'ON', in ['A', 'B']") from None

    @property
    def item(self) -> str:
        return " ".join(self.names)

    def __str__(self) -> str:
        return f"{self.item} {self.test}".rstrip()

    def holds(self, value: Value) -> bool:
        try:
            return bool(self.operator(value, self.operand))
        except TypeError:
            raise CtsError(f"{self}: the value {value!r} cannot be compared so") from None


class Wanted(NamedTuple):
    """What a wait looks for: how its value is found wanting or not, and what is printed of it."""

    comparison: Comparison
    holds: Callable[[Value], bool]
    success: Callable[[Value], str]
    failure: Callable[[Value], str]


def compared(comparison: Comparison) -> Wanted:
    """That a comparison holds."""
    if not comparison.test:
        raise CtsError(f"{comparison.item!r} is compared with nothing: as {comparison.item} > 10")
    return Wanted(
        comparison, comparison.holds, lambda value: f"{comparison} success with value == {value}",
        lambda value: f"{comparison} failed with value == {value}",
    )  # fmt: skip


def near(item: Sequence[str], expected: float, tolerance: float) -> Wanted:
    """That a value is no further from the expected one than the tolerance."""
    comparison = Comparison(*item)
    low, high = round(expected - abs(tolerance), 12), round(expected + abs(tolerance), 12)

    def is_near(value: Value) -> bool:
        if isinstance(value, str):
            raise CtsError(f"{comparison.item}: the value {value!r} is no number")
        return low <= value <= high

    return Wanted(
        comparison, is_near, lambda value: f"{comparison.item} was within range {low} to {high} with value == {value}",
        lambda value: f"{comparison.item} failed to be within range {low} to {high} with value == {value}",
    )  # fmt: skip


def ask_operator(question: str) -> bool:
    """Asks at the terminal. Where there is none, nobody says yes."""
    return sys.stdin is not None and sys.stdin.isatty() and input(question).strip().lower() in ("y", "yes")


class Script(Server):
    """A server as a test script uses it: what is sent, checked and waited for is printed as COSMOS prints it.

    `out` prints a line, and `ask` asks the operator whether a hazardous command is to be sent. A wait looks every `polling` seconds whether its packet
    came again, and then at its value."""

    def __init__(
        self, port: int = 7777, host: str = "127.0.0.1", *, out: Callable[[str], None] = lambda text: print(text, flush=True),
        ask: Callable[[str], bool] = ask_operator, polling: float = 0.05, **how: Any,
    ):  # fmt: skip
        super().__init__(port, host, **({"say": out} | how))
        self.out, self.question, self.polling = out, ask, polling

    def send(self, method: str, words: Sequence[Any]) -> tuple[str, str, dict[str, Any]]:
        """Sends a command. A hazardous one is sent where the operator says so, and else `HazardousError` is raised."""
        try:
            sent = super().send(method, words)
        except HazardousError as why:
            if not self.question(why.question):
                raise
            sent = super().send({"cmd": "cmd_no_hazardous_check", "cmd_no_range_check": "cmd_no_checks"}[method], words)
        self.out(f'{method}("{command_text(*sent)}")')
        return sent

    # ---- checks

    def check(self, *words: str) -> Value:
        """Raises `CheckError` where a comparison fails. Without a comparison it prints the value."""
        comparison = Comparison(*words)
        if comparison.test:
            return self.judged(compared(comparison))
        value = self.tlm(*comparison.names)
        self.out(f"CHECK: {comparison.item} == {value}")
        return value

    def check_tolerance(self, *words: Any) -> Value:
        """`check_tolerance("INST HS TEMP1", 10, 0.5)`: the expected value and how far from it the value may be."""
        *item, expected, tolerance = words
        return self.judged(near(item, expected, tolerance))

    def judged(self, wanted: Wanted) -> Value:
        value = self.tlm(*wanted.comparison.names)
        if not wanted.holds(value):
            raise CheckError(f"CHECK: {wanted.failure(value)}")
        self.out(f"CHECK: {wanted.success(value)}")
        return value

    # ---- waits

    def wait(self, *words: Any) -> float:
        """`wait(5)`, `wait("INST HS TEMP1 > 10", 5)`, or `wait()` until Enter. It gives the seconds that it took, and goes on where the time
        is over before the comparison holds."""
        began = time.monotonic()
        if not words:
            input("WAIT: press Enter to go on ")
            self.out(f"WAIT: Indefinite for actual time of {time.monotonic() - began:.3f} seconds")
        elif len(words) == 1 and not isinstance(words[0], str):
            time.sleep(words[0])
            self.out(f"WAIT: {words[0]} seconds with actual time of {time.monotonic() - began:.3f} seconds")
        else:
            *comparison, seconds = words
            self.awaited("WAIT", compared(Comparison(*comparison)), seconds, False)
        return time.monotonic() - began

    def wait_check(self, *words: Any) -> float:
        """The same as `wait` with a comparison, and `CheckError` where it does not hold in time."""
        *comparison, seconds = words
        return self.awaited("CHECK", compared(Comparison(*comparison)), seconds, True)

    def wait_tolerance(self, *words: Any) -> float:
        """`wait_tolerance("INST HS TEMP1", 10, 0.5, 5)`."""
        *item, expected, tolerance, seconds = words
        return self.awaited("WAIT", near(item, expected, tolerance), seconds, False)

    def wait_check_tolerance(self, *words: Any) -> float:
        *item, expected, tolerance, seconds = words
        return self.awaited("CHECK", near(item, expected, tolerance), seconds, True)

    def wait_packet(self, *words: Any) -> float:
        """`wait_packet("INST HS", 3, 10)`: until the packet came so often from now on, or the seconds are over."""
        return self.packets("WAIT", words, False)

    def wait_check_packet(self, *words: Any) -> float:
        """The same, and `CheckError` where it did not come so often in time."""
        return self.packets("CHECK", words, True)

    def awaited(self, kind: str, wanted: Wanted, seconds: float, must: bool) -> float:
        """Looks at each packet, from the current one on, until its value holds."""
        began = time.monotonic()
        value: Value = "Never received"
        seen = None
        while True:
            is_last = time.monotonic() - began >= seconds
            count = self.get_tlm_cnt(*wanted.comparison.names[:2])
            if count and count != seen:
                value, seen = self.tlm(*wanted.comparison.names), count
                if wanted.holds(value):
                    return self.told(f"{kind}: {wanted.success(value)}", began)
            if is_last:
                return self.told(f"{kind}: {wanted.failure(value)}", began, must)
            time.sleep(max(0, min(self.polling, seconds - (time.monotonic() - began))))

    def packets(self, kind: str, words: Sequence[Any], must: bool) -> float:
        """Waits until a packet came so often; where another server counts anew, all that it counted came."""
        *packet, count, seconds = words
        names = names_of(packet, 2, "a packet")
        began, got, last = time.monotonic(), 0, self.get_tlm_cnt(*names)
        name = " ".join(names).upper()
        while got < count and time.monotonic() - began < seconds:
            time.sleep(max(0, min(self.polling, seconds - (time.monotonic() - began))))
            now = self.get_tlm_cnt(*names)
            got, last = got + (now - last if now >= last else now), now
        if got >= count:
            return self.told(f"{kind}: {name} received {got} times", began)
        return self.told(f"{kind}: {name} expected to be received {count} times but only received {got} times", began, must)

    def told(self, text: str, began: float, fails: bool = False) -> float:
        """Prints how a wait ended, and gives the seconds that it took."""
        took = time.monotonic() - began
        text = f"{text} after waiting {took:.3f} seconds"
        if fails:
            raise CheckError(text)
        self.out(text)
        return took


# ---- the functions of a script, over one server


_script: Optional[Script] = None


def connect(port: Optional[int] = None, host: str = "127.0.0.1", **how: Any) -> Script:
    """Says which server the functions below speak to; without it the one at the port in CTS_PORT, or at 7777."""
    global _script
    if _script is not None:
        _script.close()
    _script = Script(int(os.environ.get("CTS_PORT", 7777)) if port is None else port, host, **how)
    return _script


def _function(name: str) -> Callable[..., Any]:
    """A method of `Script` as a function."""

    @functools.wraps(getattr(Script, name))
    def call(*words: Any, **more: Any) -> Any:
        return getattr(_script or connect(), name)(*words, **more)

    return call


FUNCTIONS = (
    "tlm", "tlm_raw", "tlm_formatted", "tlm_with_units", "get_tlm_packet", "get_tlm_cnt", "inject_tlm", "get_limits", "set_limits", "limits_enabled",
    "enable_limits", "disable_limits", "get_limits_set", "set_limits_set", "get_out_of_limits", "get_limits_events", "cmd", "cmd_no_range_check",
    "cmd_no_hazardous_check", "cmd_no_checks", "get_cmd_cnt", "get_interface_names", "interface_state", "stop_server", "check", "check_tolerance", "wait",
    "wait_check", "wait_tolerance", "wait_check_tolerance", "wait_packet", "wait_check_packet",
)  # fmt: skip
globals().update({name: _function(name) for name in FUNCTIONS})

__all__ = [
    *FUNCTIONS, "connect", "Server", "Script", "LimitsEvent", "OutOfLimits", "ItemLimits", "Row", "Packets", "Packet", "Frames", "CtsError", "ServerLost", "LostReply", "MethodError", "HazardousError",
    "CheckError", "StreamError", "FileError", "Definitions", "Site", "definitions_of", "site_of",
]  # fmt: skip
