"""Reads the two files of a server, DEFS and SITE, as far as clients need them: names, forms of commands, limits, ports and streams.

The server refuses files that are wrong, and says why; what is read here has been accepted by `cts check` before. So a statement that
is not understood is an error in one line, and nothing is checked twice."""
from __future__ import annotations

from dataclasses import dataclass, field
from pathlib import Path
from typing import Iterator, Optional


class FileError(Exception):
    """A file cannot be read, or has a statement that is not understood: the file, the line and what is wrong."""


# ---- what the files say


@dataclass
class Limits:
    """The limits of an item in one set, as decimals in texts."""

    persistence: int
    enabled: bool
    red_low: str
    yellow_low: str
    yellow_high: str
    red_high: str
    green_low: Optional[str] = None
    green_high: Optional[str] = None


@dataclass
class State:
    """A name for a value: with a colour in telemetry, perhaps hazardous in a command."""

    name: str
    value: int
    colour: Optional[str] = None
    is_hazardous: bool = False
    hazard: str = ""


@dataclass
class Item:
    """An item of a packet, or a parameter of a command."""

    name: str
    kind: str
    size: int
    description: str = ""
    is_id: bool = False
    minimum: Optional[int] = None
    maximum: Optional[int] = None
    default: "int | str | None" = None
    is_required: bool = False
    is_converted: bool = False
    units: str = ""
    format: str = ""
    states: list[State] = field(default_factory=list)
    limits: dict[str, Limits] = field(default_factory=dict)

    @property
    def is_number(self) -> bool:
        return self.kind in ("UINT", "INT")

    @property
    def is_coloured(self) -> bool:
        """Whether it has a limits state: by limits, or by the colours of its states."""
        return bool(self.limits) or any(state.colour for state in self.states)


@dataclass
class Packet:
    """A packet of telemetry, or a command."""

    target: str
    name: str
    is_big: bool
    description: str = ""
    is_hazardous: bool = False
    hazard: str = ""
    items: list[Item] = field(default_factory=list)
    end: int = 0

    @property
    def key(self) -> tuple[str, str]:
        return self.target, self.name

    @property
    def length(self) -> int:
        """The least number of bytes in which all its items lie."""
        return (self.end + 7) // 8

    def item(self, name: str) -> Optional[Item]:
        return next((item for item in self.items if item.name == name.upper()), None)

    def add(self, item: Item, offset: Optional[int], is_big: bool) -> None:
        """Adds an item at a place in bits, or at the end so far."""
        at = self.end if offset is None else offset
        is_bits = item.is_number and not is_big and (at % 8 or item.size not in (8, 16, 32, 64))
        end = 8 * (at // 8 + 1) if is_bits else at + abs(item.size)
        self.end = max(self.end, -at if at < 0 else end)
        self.items.append(item)


@dataclass
class Definitions:
    """What DEFS defines, each kind by target and name, in its order."""

    telemetry: dict[tuple[str, str], Packet] = field(default_factory=dict)
    commands: dict[tuple[str, str], Packet] = field(default_factory=dict)

    def limits_sets(self) -> list[str]:
        """The limits sets that the definitions name, DEFAULT first."""
        names = {"DEFAULT": None}
        for packet in self.telemetry.values():
            for item in packet.items:
                names.update(dict.fromkeys(item.limits))
        return list(names)

    def with_limits(self) -> Iterator[tuple[Packet, Item]]:
        """The items that have limits, each with its packet."""
        for packet in self.telemetry.values():
            yield from ((packet, item) for item in packet.items if item.limits)


@dataclass
class Interface:
    """An interface of the site, and the targets that are behind it."""

    name: str
    serves: bool
    host: str
    port: int
    is_logged: bool = True
    targets: list[str] = field(default_factory=list)


@dataclass
class Router:
    """A router of the site: its port and how it writes its stream."""

    name: str
    port: int
    protocols: list[list[str]] = field(default_factory=list)
    routes: list[str] = field(default_factory=list)

    def framing(self) -> tuple[bytes, int]:
        """The sync pattern and the layout of its stream, where it writes PREIDENTIFIED alone."""
        writing = [words for direction, *words in self.protocols if direction != "READ"]
        name = "" if len(writing) != 1 else writing[0][0].upper().removesuffix(".RB").replace("_", "").removesuffix("PROTOCOL")
        if name != "PREIDENTIFIED":
            raise FileError(f"router {self.name} writes {' '.join(words[0] for words in writing) or 'plain bytes'}, and only PREIDENTIFIED is read here")
        sync, layout = (writing[0][1:] + [None] * 3)[0:3:2]
        return bytes.fromhex(sync[2:]) if sync not in (None, "nil") else b"", int(layout or 2)


@dataclass
class Site:
    """What SITE says."""

    port: int = 7777
    desks: int = 4
    layout: int = 2
    interfaces: dict[str, Interface] = field(default_factory=dict)
    routers: dict[str, Router] = field(default_factory=dict)

    def interface_of(self, target: str) -> Optional[Interface]:
        return next((found for found in self.interfaces.values() if target.upper() in found.targets), None)

    def router(self, name: Optional[str] = None) -> Router:
        """The router of this name, or the first one."""
        found = self.routers.get(name.upper()) if name else next(iter(self.routers.values()), None)
        if found is None:
            raise FileError(f"the site has no router {name}" if name else "the site has no router")
        return found


# ---- words and statements


def words_of(line: str) -> list[tuple[str, bool]]:
    """The words of a line, each with whether it stood in quotes; what follows an unquoted # is none of them."""
    found, at = [], 0
    while at < len(line):
        if line[at] in " \t\r":
            at += 1
            continue
        if line[at] == "#":
            break
        if line[at] in "\"'":
            end = line.index(line[at], at + 1)
            found.append((line[at + 1:end], True))
            at = end + 1
            continue
        end = at
        while end < len(line) and line[end] not in " \t\r":
            end += 1
        found.append((line[at:end], False))
        at = end
    return found


def statements(path: Path) -> Iterator[tuple[int, list[str]]]:
    """The statements of a file: the number of the first line, and the words."""
    try:
        lines = Path(path).read_text(encoding="utf-8").split("\n")
    except (OSError, UnicodeDecodeError) as why:
        raise FileError(f"{path}: {getattr(why, 'strerror', None) or 'it is not UTF-8'}") from None
    held: list[str] = []
    begin = 0
    for number, line in enumerate(lines, 1):
        try:
            words = words_of(line)
        except ValueError:
            raise FileError(f"{path} line {number}: a quote does not end") from None
        begin = begin if held else number
        is_joined = bool(words) and words[-1] == ("&", False)
        held += [word for word, _ in (words[:-1] if is_joined else words)]
        if held and not is_joined:
            yield begin, held
            held = []


def read(path: Path, reader: "DefinitionsReader | SiteReader"):
    """Hands a reader each statement of a file, and says at which line one is not understood."""
    for number, (keyword, *words) in statements(path):
        try:
            reader.take(keyword.upper(), words)
        except FileError as why:
            raise FileError(f"{path} line {number}: {why}") from None
        except (ValueError, IndexError, AttributeError, KeyError):
            raise FileError(f"{path} line {number}: {keyword} is not understood: ./cts check says why") from None
    return reader.found


def whole(word: str) -> int:
    sign, digits = (-1, word[1:]) if word[:1] == "-" else (1, word.removeprefix("+"))
    return sign * (int(digits, 16) if digits[:2].lower() == "0x" else int(digits))


def bound(word: str, kind: str, size: int) -> int:
    """A bound, which may be said by a name: MIN, MAX, MIN_INT16 and so on."""
    side, _, type_ = word.partition("_")
    if side not in ("MIN", "MAX"):
        return whole(word)
    if type_:
        kind, size = type_.rstrip("0123456789"), int(type_.lstrip("UINT"))
    low, high = (0, 2**size - 1) if kind == "UINT" else (-(2 ** (size - 1)), 2 ** (size - 1) - 1)
    return low if side == "MIN" else high


class DefinitionsReader:
    """Takes the statements of DEFS one after another."""

    def __init__(self) -> None:
        self.found = Definitions()
        self.packet: Packet = None  # type: ignore[assignment]
        self.item: Optional[Item] = None
        self.is_command = False

    def take(self, keyword: str, words: list[str]) -> None:
        if keyword in ("TELEMETRY", "COMMAND"):
            self.open(keyword, words)
        elif keyword.endswith(("ITEM", "PARAMETER")):
            self.add(keyword, words)
        else:
            self.modify(keyword, words)

    def open(self, keyword: str, words: list[str]) -> None:
        target, name, order, *rest = words
        self.is_command = keyword == "COMMAND"
        self.packet = Packet(target.upper(), name.upper(), order == "BIG_ENDIAN", "".join(rest[:1]))
        self.item = None
        (self.found.commands if self.is_command else self.found.telemetry)[self.packet.key] = self.packet

    def add(self, keyword: str, words: list[str]) -> None:
        is_id = "ID_" in keyword
        name, *words = words
        offset = None if keyword.startswith("APPEND") else whole(words.pop(0))
        size, kind, *words = words
        item = Item(name.upper(), kind, whole(size), is_id=is_id)
        if self.is_command and item.is_number:
            item.minimum, item.maximum, item.default = (bound(word, kind, item.size) for word in words[:3])
            words = words[3:]
        elif self.is_command:
            item.default, *words = words
        elif is_id:
            words = words[1:]
        item.description = "".join(words[:1])
        is_big = words[1] == "BIG_ENDIAN" if len(words) > 1 else self.packet.is_big
        self.packet.add(item, offset, is_big)
        self.item = item

    def modify(self, keyword: str, words: list[str]) -> None:
        """A statement that says more of the last item, or of the packet."""
        item = self.item
        if keyword == "HAZARDOUS":
            self.packet.is_hazardous, self.packet.hazard = True, "".join(words)
        elif keyword == "STATE" and self.is_command:
            is_hazardous = words[2:3] == ["HAZARDOUS"]
            item.states.append(State(words[0].upper(), whole(words[1]), None, is_hazardous, "".join(words[3:])))
        elif keyword == "STATE":
            item.states.append(State(words[0].upper(), whole(words[1]), words[2] if len(words) > 2 else None))
        elif keyword == "LIMITS":
            item.limits[words[0].upper()] = Limits(whole(words[1]), words[2] == "ENABLED", *words[3:])
        elif keyword == "UNITS":
            item.units = words[1]
        elif keyword == "FORMAT_STRING":
            item.format = words[0]
        elif keyword == "REQUIRED":
            item.is_required = True
        elif keyword in ("POLY_READ_CONVERSION", "SEG_POLY_READ_CONVERSION"):
            item.is_converted = True
        elif keyword not in ("OVERFLOW", "META", "ALLOW_SHORT"):
            raise FileError(f"{keyword} is no statement of definitions")


class SiteReader:
    """Takes the statements of SITE one after another."""

    def __init__(self) -> None:
        self.found = Site()
        self.open: "Interface | Router" = None  # type: ignore[assignment]

    def take(self, keyword: str, words: list[str]) -> None:
        if keyword == "INTERFACE":
            serves = words[1] == "tcpip_server_interface.rb"
            host = "" if serves else words[2]
            self.open = Interface(words[0].upper(), serves, host, int(words[2 if serves else 3]))
            self.found.interfaces[self.open.name] = self.open
        elif keyword == "ROUTER":
            self.open = Router(words[0].upper(), int(words[2]), [["READ_WRITE", *words[6:]]] if words[6:] else [])
            self.found.routers[self.open.name] = self.open
        elif keyword == "TARGET":
            self.open.targets.append(words[0].upper())
        elif keyword == "ROUTE":
            self.open.routes.append(words[0].upper())
        elif keyword == "PROTOCOL" and isinstance(self.open, Router):
            self.open.protocols.append(words)
        elif keyword == "DONT_LOG" or keyword == "LOG":
            self.open.is_logged = keyword == "LOG"
        else:
            self.set(keyword, words)

    def set(self, keyword: str, words: list[str]) -> None:
        """A statement of the site as a whole, or one that says nothing to clients."""
        if keyword == "PORT" and words[0] == "CTS_API":
            self.found.port = int(words[1])
        elif keyword == "DESKS":
            self.found.desks = int(words[0])
        elif keyword == "LOG_LAYOUT":
            self.found.layout = int(words[0])


def definitions_of(path: "str | Path") -> Definitions:
    """What a file of definitions defines."""
    return read(Path(path), DefinitionsReader())


def site_of(path: "str | Path") -> Site:
    """What a site file says."""
    return read(Path(path), SiteReader())
