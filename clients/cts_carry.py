"""What `keep` carries from one server to the next: the limits, the enabling and the set that clients had chosen, and, where asked, the last values.

It knows what the old server answered last, and nothing more. The methods tell no names of limits sets, so those of the definitions, CUSTOM, the
current ones and those that are named to `keep` are asked for; and they do not tell whether samples of an item with colours of states alone
are taken, so that is not carried."""
from __future__ import annotations

from dataclasses import dataclass, field
from decimal import Decimal
from pathlib import Path
from typing import Any, Iterator, Optional

import cts
from cts_files import Definitions

Item = tuple[str, str, str]
# The bytes of a log before its entries.
HEAD = 128


@dataclass
class Carried:
    """The last answers of a server."""

    set: str
    sets: list[str]
    limits: dict[tuple[Item, str], list[Any]] = field(default_factory=dict)
    values: dict[tuple[str, str], dict[str, Any]] = field(default_factory=dict)

    def is_set_as(self, other: "Carried") -> bool:
        """Whether clients have set nothing else between the two."""
        return (self.set, self.limits) == (other.set, other.limits)


class LogSize:
    """The size of a log, in all its parts. One that another follows grows no more."""

    def __init__(self, folder: Path, log: str):
        self.folder, self.log = folder, log
        self.number = self.before = 0

    def part(self, number: int) -> Optional[int]:
        """The bytes of the entries of a part, with their heads, or None where it is not there."""
        try:
            return max(0, (self.folder / (f"{self.log}_{number}.bin" if number else f"{self.log}.bin")).stat().st_size - HEAD)
        except OSError:
            return None

    def bytes(self) -> int:
        """The bytes of its entries, with their heads."""
        while self.part(self.number + 1) is not None:
            self.before, self.number = self.before + (self.part(self.number) or 0), self.number + 1
        return self.before + (self.part(self.number) or 0)


def limits_of(server: cts.Server, items: list[Item], sets: list[str]) -> dict[tuple[Item, str], list[Any]]:
    """The limits of each item in each set for which it has some."""
    wanted = [(item, name) for item in items for name in sets]
    answers = server.ask_all([("get_limits", [*item, name]) for item, name in wanted])
    return {key: found for key, found in zip(wanted, answers) if isinstance(found, list) and found[0] == key[1]}


def items_of(definitions: Definitions) -> list[Item]:
    return [(packet.target, packet.name, item.name) for packet, item in definitions.with_limits()]


def snapshot(server: cts.Server, definitions: Definitions, before: Optional[Carried], names: list[str], with_values: bool) -> Carried:
    """What the server answers now."""
    current = server.get_limits_set()
    known = [*definitions.limits_sets(), "CUSTOM", *(name.upper() for name in names), *(before.sets if before else []), current]
    found = Carried(current, list(dict.fromkeys(known)))
    found.limits = limits_of(server, items_of(definitions), found.sets)
    if with_values:
        found.values = values_of(server, definitions)
    return found


def values_of(server: cts.Server, definitions: Definitions) -> dict[tuple[str, str], dict[str, Any]]:
    """The raw values of each packet that came, but of items that cannot be injected."""
    keys = list(definitions.telemetry)
    answers = server.ask_all([("get_tlm_packet", [*key, "RAW"]) for key in keys])
    found = {}
    for key, rows in zip(keys, answers):
        if isinstance(rows, list):
            sizes = {item.name: item.size for item in definitions.telemetry[key].items}
            found[key] = {name: value for name, value, _ in rows if sizes[name] > 0}
    return found


def restore(server: cts.Server, carried: Carried, definitions: Definitions, with_values: bool) -> Iterator[str]:
    """Sets a new server as the old one was, where it differs, and says each thing that is carried."""
    items = items_of(definitions)
    now = limits_of(server, items, carried.sets)
    for item in items:
        for name in carried.sets:
            old = carried.limits.get((item, name))
            if old is not None and old[3:] != (now.get((item, name)) or [None] * 9)[3:]:
                yield from put_limits(server, item, name, old)
        yield from put_rest(server, item, carried.limits.get((item, "DEFAULT")))
    if server.get_limits_set() != carried.set:
        yield said(f"limits set {carried.set}", server, "set_limits_set", carried.set)
    if with_values:
        yield from put_values(server, carried)


def said(what: str, server: cts.Server, method: str, *params: Any) -> str:
    """Asks for a change, and says that it was carried, or why not."""
    try:
        server.ask(method, *params)
        return f"carried {what}"
    except cts.MethodError as why:
        return f"not carried {what}: {why.message}"


def put_limits(server: cts.Server, item: Item, name: str, old: list[Any]) -> Iterator[str]:
    _, persistence, enabled, *limits = old
    what = f"limits {' '.join(item)} {name} {' '.join(limit for limit in limits if limit is not None)}"
    if limits[4] is not None:
        yield said(what, server, "set_limits", *item, *limits, name, persistence, enabled)
    elif name == "CUSTOM":
        yield said(what, server, "set_limits", *item, *limits[:4])
    else:
        yield f"not carried {what}: only limits with a green pair can be given to a set by name"


def put_rest(server: cts.Server, item: Item, old: Optional[list[Any]]) -> Iterator[str]:
    """The persistence and the enabling of an item, which all its sets share."""
    if old is None:
        return
    _, persistence, enabled, *_ = server.ask("get_limits", *item, "DEFAULT")
    if persistence != old[1]:
        yield from put_persistence(server, item, old[1], old[2])
        _, _, enabled, *_ = server.ask("get_limits", *item, "DEFAULT")
    if enabled != old[2]:
        method = "enable_limits" if old[2] else "disable_limits"
        yield said(f"{method} {' '.join(item)}", server, method, *item)


def put_persistence(server: cts.Server, item: Item, persistence: int, enabled: bool) -> Iterator[str]:
    """The server takes a persistence only with a green pair: it is given one, and then the limits without it."""
    what = f"persistence {' '.join(item)} {persistence}"
    try:
        name, _, _, *limits = server.ask("get_limits", *item, "CUSTOM")
    except cts.MethodError:
        name = ""
    if name != "CUSTOM":
        yield f"not carried {what}: the item has no limits of the set CUSTOM"
        return
    low, high = Decimal(limits[1]), Decimal(limits[2])
    green = [format(low + (high - low) * part / 3, ".12f") for part in (1, 2)]
    yield said(what, server, "set_limits", *item, *limits[:4], *green, "CUSTOM", persistence, enabled)
    server.ask("set_limits", *item, *limits[:4])


def put_values(server: cts.Server, carried: Carried) -> Iterator[str]:
    """Injects the last values of packets that did not come yet."""
    for (target, packet), values in carried.values.items():
        if values and server.get_tlm_cnt(target, packet) == 0:
            yield said(f"values {target} {packet}: {len(values)} items", server, "inject_tlm", target, packet, values)
