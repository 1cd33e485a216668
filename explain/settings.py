"""Faults of the settings: the line, and what may stand there."""

import re
from decimal import Decimal

from look import content, shown
from table import SETTINGS, SETTINGS_FAULTS
from words import hint

try:
    import tomllib
except ImportError:
    tomllib = None

FAULT = re.compile(rb"settings (\d+) (\w+)(?: (.*?))?(?: (-?\d+))?")


def of_fault(last, name):
    """Lines on a fault of the settings in the file of this name."""
    number, kind, key, _ = last.groups()
    text, key = content(name) or b"", (key or b"").decode("utf-8", "replace")
    line, means = toml_fault(text) if int(number) == 1 else (line_of_key(text, key), "")
    rows = text.split(b"\n")
    row = rows[line - 1].rstrip() if 1 <= line <= len(rows) else b""
    told = [f"{shown(name)}{f':{line}' if line else ''}: {kind.decode()} {shown(key)}".rstrip()]
    told += [f"{line:>5} | {shown(row.decode('utf-8', 'replace'))[:100]}"] * bool(row)
    told.append(f"{SETTINGS_FAULTS.get(int(number), ('', 'it is refused'))[1]}{means}")
    if key:
        told.append(rule(key, row) if key in SETTINGS else f"`{shown(key)}`{hint(key, SETTINGS)}")
    return [*told, "docs/formats.md, \"The settings\""]


def layer_height(name):
    """The layers' height in micrometres by a settings file or its default; None where it can't be told."""
    return value_of(name, "layer_height")


def value_of(name, key):
    """The value of a setting by a settings file or its default; None where it can't be told."""
    if name is None:
        return SETTINGS[key][3]
    text = content(name)
    found = re.search(rb"(?m)^\s*%s\s*=\s*(\d[\d_]*)\s*(?:#.*)?$" % key.encode(), text or b"")
    if found:
        return int(found[1])
    return None if text is None else SETTINGS[key][3]


def rule(key, row):
    """What a setting may be, and for one in millimetres its value in micrometres."""
    unit, least, most, default, does = SETTINGS[key]
    of_unit = f" {unit}" if unit else ""
    # A default below the range stands for none.
    of_range = f"{least:,} to {most:,}" if least <= default else f"{default:,}, or {least:,} to {most:,}"
    told = f"{key}, {does}: {of_range}{of_unit}, {default:,} where it isn't given"
    written = re.search(rb"=\s*(\d*\.\d{1,3})\s*(?:#.*)?$", row)
    value = Decimal(written[1].decode()) if written else 1
    return told + (f"; {value} mm is {int(value * 1000)}" if unit == "micrometres" else "")


def line_of_key(text, key):
    """The line of a key, from 1, or 0."""
    wanted = re.compile(rb"\s*(\[\s*)?[\"']?" + re.escape(key.encode()) + rb"[\"']?\s*[=.\]]")
    return next((at for at, row in enumerate(text.split(b"\n"), 1) if wanted.match(row)), 0)


def toml_fault(text):
    """The line of the first fault of a TOML text, or 0, and what Python's reader says of it."""
    try:
        read = text.decode("utf-8")
    except UnicodeDecodeError as error:
        return text.count(b"\n", 0, error.start) + 1, ": this line isn't UTF-8"
    if tomllib is None:
        return 0, ""
    try:
        tomllib.loads(read)
    except tomllib.TOMLDecodeError as error:
        told = str(error)
        line = re.search(r"at line (\d+)", told)
        return int(line[1]) if line else len(text.rstrip().split(b"\n")), f": {shown(told)}"
    return 0, "; a number may be too long for it"
