"""A slow judge of configuration files: what `lg check` writes of one, or its fault, by docs/FORMATS.md.

Python's own reader of TOML says what a document is. It reads TOML 1.0. Where 1.1 allows more, this judge is unsure.
"""

import hashlib
import ipaddress
import re
import tomllib

from fuzzing.numbers import DEFAULTS, GROUP_FAULT, NUMBERS, fault_of, suspicion_range, timeout
from fuzzing.wire import THREE, is_name

MOST_BYTES = 65_536
MOST_DEPTH = 80
SYNTAX, KEY, VALUE = 12, 13, 14
STATUS, STATUS_OPEN, STATUS_NOT_LOOPBACK, KEY_FILE, LEAVE, BIND, FAMILY, AUTO = 18, 19, 20, 21, 27, 28, 29, 31
TEXT_KEYS = ("name", "address", "record", "key_file", "group")
INTEGER_KEYS = ("port", "dice")
# Keys of which a value of another type is a fault of its own.
ANY_KEYS = ("status", "status_open", "leave", "bind")
# Of the node's own numbers: the least, the greatest, the default and the number of the fault.
OWN_NUMBERS = {"pull_ms": (0, 3_600_000, 30_000, 16), "stall_ms": (0, 60_000, 100, 17),
               "resolve_ms": (1000, 3_600_000, 60_000, 30), "record_mb": (1, 100_000, 64, 32)}
DEFAULT_TEXTS = {"address": "127.0.0.1", "port": 7946}
# The configuration's numbers that a file may have: all but the first number of a probe.
FILE_NUMBERS = {key: row for key, row in NUMBERS.items() if key != "first"}
KEYS = {*TEXT_KEYS, *INTEGER_KEYS, *ANY_KEYS, *FILE_NUMBERS, *OWN_NUMBERS, "seeds"}
LOOPBACK = [0] * 15 + [1]
# What stands for an address that is to be found.
UNFOUND = [0] * 4
SHOWN_MEMBERS = (4, 16, 64, 256)
# What TOML 1.1 or another reader of dates may take though Python's reader doesn't.
UNSURE = re.compile(rb"\\[ex]|\{|\d\d:\d\d|\d{4}-\d\d|^\xef\xbb\xbf")


class FileFault(Exception):
    """The number of a file's fault."""

    def __init__(self, number):
        super().__init__(number)
        self.number = number


class Unsure(Exception):
    """This judge can't say whether the file is TOML."""


def must(holds, number):
    if not holds:
        raise FileFault(number)


# ---- TOML


def integers_in(value, depth=0):
    """All whole numbers of a value. Raises a fault if its arrays are nested too deep."""
    must(depth <= MOST_DEPTH, SYNTAX)
    if isinstance(value, dict):
        return [it for part in value.values() for it in integers_in(part, depth)]
    if isinstance(value, list):
        return [it for part in value for it in integers_in(part, depth + 1)]
    return [value] if type(value) is int else []


def document_of(data):
    """The document that some bytes are."""
    must(len(data) <= MOST_BYTES, SYNTAX)
    try:
        document = tomllib.loads(data.decode())
    except (ValueError, RecursionError) as error:
        if UNSURE.search(data) or isinstance(error, RecursionError):
            raise Unsure from error
        raise FileFault(SYNTAX) from error
    must(all(-2**63 <= it < 2**63 for it in integers_in(document)), SYNTAX)
    return document


def is_of_type(key, value):
    """Whether a value is of the type that its key needs. Those of some keys are judged later."""
    if key in TEXT_KEYS:
        return isinstance(value, str)
    if key == "seeds":
        return isinstance(value, list) and all(isinstance(it, str) for it in value)
    return key in ANY_KEYS or type(value) is int


# ---- Texts


def number_in(text, least, most):
    """The number of a text, None if it is out of its form or range."""
    is_right = re.fullmatch("[0-9]{1,16}", text) and least <= int(text) <= most
    return int(text) if is_right else None


def address_in(text):
    """The four numbers of an address, None if it is out of its form. None of them has a leading zero."""
    parts = [number_in(it, 0, 255) if it == "0" or not it.startswith("0") else None for it in text.split(".")]
    return parts if len(parts) == 4 and None not in parts else None


def ipv6_in(text):
    """The sixteen numbers of an IPv6 address, None if it is out of its form."""
    try:
        return None if "%" in text else list(ipaddress.IPv6Address(text).packed)
    except ValueError:
        return None


def place_in(text):
    """The numbers and the port of `A.B.C.D:PORT` or `[IPV6]:PORT`, None if the text is out of its form."""
    if text.startswith("["):
        inner, _, behind = text[1:].partition("]")
        address, colon, behind = ipv6_in(inner), behind[:1] == ":", behind[1:]
    else:
        before, colon, behind = text.partition(":")
        address = address_in(before)
    port = number_in(behind, 1, 65535)
    return (address, port) if colon and address and port else None


def place_or_port(text, port):
    """The same, or of an address alone, which has this port."""
    alone = ipv6_in(text)
    return (alone, port) if alone else place_in(text if ":" in text else f"{text}:{port}")


def address_text(address):
    """An address as RFC 5952 has it; one that stands for an IPv4 address ends with that."""
    if len(address) == 4:
        return ".".join(map(str, address))
    ip = ipaddress.IPv6Address(bytes(address))
    return f"::ffff:{ip.ipv4_mapped}" if ip.ipv4_mapped else str(ip)


def place_text(place):
    address = address_text(place[0])
    return f"[{address}]:{place[1]}" if ":" in address else f"{address}:{place[1]}"


def host_in(text, port=None):
    """A host and its port as `HOST:PORT` has them, or `HOST`, if a port is given here. None if it is out of its form."""
    before, colon, behind = text.partition(":")
    is_host = re.fullmatch("[A-Za-z0-9._-]{1,253}", before) and re.search("[A-Za-z]", before)
    found = number_in(behind, 1, 65535) if colon else port
    return f"{before}:{found}" if is_host and found else None


def seed_in(text):
    """The name of a seed, None if it has none, and the text of its place. None if the seed is out of its form."""
    if "@" not in text:
        place, host = place_or_port(text, DEFAULT_TEXTS["port"]), host_in(text, DEFAULT_TEXTS["port"])
        return (None, place_text(place) if place else host) if place or host else None
    name, _, behind = text.partition("@")
    place, host = place_in(behind), host_in(behind)
    is_right = (place or host) and is_name(name.encode(errors="replace"))
    return (name, place_text(place) if place else host) if is_right else None


# ---- What a document means


def numbers_of(document):
    """The configuration's numbers and the node's own."""
    own = {key: row[2] for key, row in OWN_NUMBERS.items()}
    return {key: document.get(key, default) for key, default in (DEFAULTS | own).items()}


def status_of(document):
    """Where the status server listens, None if there is none, and whether that may be anywhere."""
    place = None
    if "status" in document:
        must(isinstance(document["status"], str), STATUS)
        place = place_in(document["status"])
        must(place, STATUS)
    is_open = document.get("status_open", False)
    must(isinstance(is_open, bool), STATUS_OPEN)
    is_local = place and (place[0] == LOOPBACK or len(place[0]) == 4 and place[0][0] == 127)
    must(place is None or is_open or is_local, STATUS_NOT_LOOPBACK)
    return place, is_open


def path_of(document, key, number):
    """The path of a file or a folder, None if there is none. The number is that of its fault."""
    path = document.get(key)
    must(path is None or re.fullmatch("[ -~]{1,255}", path), number)
    return path


def group_of(document):
    """The group, None if there is none."""
    group = document.get("group")
    must(group is None or is_name(group.encode(errors="replace")), GROUP_FAULT)
    return group


def leave_of(document):
    """Whether a request may end the node."""
    leave = document.get("leave", "on")
    must(isinstance(leave, str) and leave in ("on", "off"), LEAVE)
    return leave


def bind_of(document, address, port):
    """Where the socket is bound: at the member's own place if the document says nothing of it."""
    if "bind" not in document:
        return address, port
    must(isinstance(document["bind"], str), BIND)
    place = place_or_port(document["bind"], port)
    must(place, BIND)
    return place


def own_dice(name, address, port):
    """The number that the dice of a member start from if its file doesn't say it."""
    digest = hashlib.sha256(name.encode() + b"\0" + bytes(address) + port.to_bytes(2, "big")).digest()
    return int.from_bytes(digest[:8], "big") % 2**63


def meaning_of(document):
    """The values of a document, defaults filled in, by their keys. Raises the first fault."""
    must(all(key in KEYS and is_of_type(key, value) for key, value in document.items()) and "name" in document, KEY)
    values = DEFAULT_TEXTS | document | numbers_of(document)
    is_auto = values["address"] == "auto"
    address = UNFOUND if is_auto else address_in(values["address"]) or ipv6_in(values["address"])
    seeds = [seed_in(it) for it in document.get("seeds", [])]
    must(is_name(values["name"].encode(errors="replace")) and address and 1 <= values["port"] <= 65535
         and values.get("dice", 0) >= 0 and None not in seeds, VALUE)
    values["record"] = path_of(document, "record", VALUE)
    values["own_dice"] = own_dice(values["name"], address, values["port"])
    values.setdefault("dice", values["own_dice"])
    # Seeds without names count, and stand for names that nobody has.
    fault = fault_of(values, values["name"], [name or (number,) for number, (name, _) in enumerate(seeds)])
    must(fault is None or fault > KEY_FILE, fault)
    for key, (least, most, _, number) in OWN_NUMBERS.items():
        must(least <= values[key] <= most, number)
    values["status"], values["status_open"] = status_of(document)
    values["key_file"] = path_of(document, "key_file", KEY_FILE)
    must(fault is None, fault)
    values["group"] = group_of(document)
    values["leave"] = leave_of(document)
    values["bind"] = place_text(bind_of(document, address, values["port"]))
    must(len(address) == 4 or values["wire"] == THREE, FAMILY)
    must(seeds or not is_auto, AUTO)
    values["own_place"] = f"auto:{values['port']}" if is_auto else place_text((address, values["port"]))
    values["bind"] = values["own_place"] if is_auto and "bind" not in document else values["bind"]
    return values | {"address": "auto" if is_auto else address_text(address), "seeds": seeds}


def shown(values):
    """The lines of `lg check`."""
    order = ["name", "address", "port", "bind", "dice", "seeds", *FILE_NUMBERS, *OWN_NUMBERS, "record", "status",
             "status_open", "leave", "key_file", "group"]
    seeds = ", ".join(f"{name}@{place}" if name else place for name, place in values["seeds"])
    texts = values | {"seeds": seeds or "none", "status": place_text(values["status"]) if values["status"] else "none",
                      "status_open": str(values["status_open"]).lower(), "key_file": values["key_file"] or "none",
                      "record": values["record"] or "none", "group": values["group"] or "none"}
    defaults = DEFAULT_TEXTS | {"dice": values["own_dice"]} | numbers_of({}) | {"seeds": "none", "status": "none", "status_open": "false",
                                                                              "leave": "on", "bind": values["own_place"]}
    defaults |= {key: "none" for key in ("record", "key_file", "group") if not values[key]}
    lines = [f"{key} = {texts[key]}{' (default)' if texts[key] == defaults.get(key) else ''}" for key in order]
    for live in SHOWN_MEMBERS:
        least, most, counted = suspicion_range(values, live)
        longest = timeout(least, most, counted, 0)
        lines.append(f"{live} members: a round takes {values['interval_ms']} ms, "
                     f"a suspicion lasts {least} to {longest} ms")
    return lines


def checked(data):
    """What `lg check` writes of a file, and the number of its fault. One of the two is None."""
    try:
        return shown(meaning_of(document_of(data))), None
    except FileFault as fault:
        return None, fault.number
