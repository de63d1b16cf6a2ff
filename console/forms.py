"""What pages are told of the definitions and the site, once: names, forms of commands, limits and interfaces, as plain data."""
from __future__ import annotations

from dataclasses import asdict
from typing import Any

from cts_files import Definitions, Item, Packet, Site


def item_form(item: Item) -> dict[str, Any]:
    """An item of telemetry."""
    return {
        "name": item.name, "kind": item.kind, "size": item.size, "about": item.description, "units": item.units, "states": [asdict(state) for state in item.states],
        "limited": bool(item.limits), "coloured": item.is_coloured, "number": item.is_number and not item.states,
    }  # fmt: skip


def parameter_form(item: Item) -> dict[str, Any]:
    """A parameter of a command. Whole numbers are texts, since a page cannot hold those of 64 bits as numbers."""
    return {
        "name": item.name, "kind": item.kind, "size": item.size, "about": item.description, "units": item.units,
        "states": [{"name": state.name, "value": str(state.value), "hazardous": state.is_hazardous, "hazard": state.hazard} for state in item.states],
        "min": None if item.minimum is None else str(item.minimum), "max": None if item.maximum is None else str(item.maximum),
        "default": str(item.default), "required": item.is_required, "id": item.is_id,
    }  # fmt: skip


def packet_form(packet: Packet, site: Site) -> dict[str, Any]:
    interface = site.interface_of(packet.target)
    return {
        "target": packet.target, "name": packet.name, "about": packet.description, "interface": interface.name if interface else None,
        "items": [item_form(item) for item in packet.items],
    }  # fmt: skip


def command_form(command: Packet, site: Site) -> dict[str, Any]:
    interface = site.interface_of(command.target)
    return {
        "target": command.target, "name": command.name, "about": command.description, "interface": interface.name if interface else None,
        "hazardous": command.is_hazardous, "hazard": command.hazard, "items": [parameter_form(item) for item in command.items],
    }  # fmt: skip


def forms(definitions: Definitions, site: Site) -> dict[str, Any]:
    """All of it."""
    return {
        "telemetry": [packet_form(packet, site) for packet in definitions.telemetry.values()],
        "commands": [command_form(command, site) for command in definitions.commands.values()],
        "sets": definitions.limits_sets(), "interfaces": [interface.name for interface in site.interfaces.values()], "port": site.port,
    }  # fmt: skip
