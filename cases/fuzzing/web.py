"""A slow judge of what a node answers over HTTP, by docs/FORMATS.md, and a reader of whole answers."""

import ipaddress
import json
import re
from dataclasses import dataclass

from fuzzing.script import LineFault, number, port
from fuzzing.wire import STATUS_WORDS, ip_text, is_name, port_of

MOST_WAIT = 30_000
PLAIN = ("/", "/v1/health", "/v1/config", "/metrics")
ONE_MEMBER = "/v1/members/"
# What a recording tells of a member: the node of the cases doesn't record.
EXPLAINED = "/v1/explain/"
JSON = "application/json"
MEDIA = {"/": "text/html; charset=utf-8", "/metrics": "text/plain; version=0.0.4; charset=utf-8"}
MEMBERS_QUERIES = ("", *(f"status={it}" for it in STATUS_WORDS.values()))
# This path takes the port of its targets.
TARGETS = "/v1/prometheus"
SERVED = ("GET", "HEAD")
# This path takes POST alone, with a field that no case has.
LEAVE = "/v1/leave"
# The name of a host that a server on a loopback address answers to, beside addresses.
OWN_NAME = "localhost"
# What may be answered to damaged bytes: they may also be good ones.
DAMAGED_CODES = {200, 400, 404, 405, 413, 414, 421, 431, 501}


@dataclass(frozen=True)
class Answer:
    """An answer: its code, its media type and its body."""

    code: int
    media: str
    body: bytes


# ---- What is wanted


def asks_for_changes(query):
    """Whether a query of the changes is right: `after` and `wait_ms`, each at most once."""
    said = set()
    for pair in query.split("&") if query else []:
        key, sign, value = pair.partition("=")
        if not sign or key in said or key not in ("after", "wait_ms"):
            return False
        said.add(key)
        try:
            number(value.encode(), MOST_WAIT if key == "wait_ms" else 10**16)
        except LineFault:
            return False
    return True


def asks_for_targets(query):
    """Whether a query of the targets is right: none, or a port."""
    if not query:
        return True
    key, sign, value = query.partition("=")
    try:
        return (key, sign) == ("port", "=") and bool(port(value.encode()))
    except LineFault:
        return False


def is_own(host):
    """Whether a host is an address or the own name, each with or without a port."""
    name = re.sub(":[0-9]+$", "", host)
    try:
        is_six = name.startswith("[") and name.endswith("]")
        return bool(ipaddress.IPv6Address(name[1:-1]) if is_six else ipaddress.IPv4Address(name))
    except ValueError:
        return name.lower() == OWN_NAME


def code_of(method, host, target, known):
    """The code of the answer to a request for a target of a host, if members of these names are known."""
    if not is_own(host):
        return 421
    path, _, query = target.partition("?")
    if path == LEAVE:
        return 400 if method == "POST" else 405
    if method not in SERVED:
        return 405
    if path.startswith(ONE_MEMBER):
        name = path.removeprefix(ONE_MEMBER).encode()
        return 400 if query or not is_name(name) else 200 if name in known else 404
    if path.startswith(EXPLAINED):
        return 400 if query or not is_name(path.removeprefix(EXPLAINED).encode()) else 404
    if path == "/v1/members":
        return 200 if query in MEMBERS_QUERIES else 400
    if path == "/v1/changes":
        return 200 if asks_for_changes(query) else 400
    if path == TARGETS:
        return 200 if asks_for_targets(query) else 400
    return 404 if path not in PLAIN else 400 if query else 200


def member_json(record):
    """A record as JSON says it."""
    return {"name": record.member.decode(), "status": STATUS_WORDS[record.status], "incarnation": record.incarnation,
            "address": ip_text(record.address), "port": port_of(record.address),
            "accuser": record.accuser.decode() if record.accuser else None}


def group_json(member, number):
    """A member that is alive as Prometheus takes it: a target at the port of this number."""
    host = f"[{member['address']}]" if ":" in member["address"] else member["address"]
    labels = {"__meta_lg_name": member["name"], "__meta_lg_address": f"{host}:{member['port']}"}
    return {"targets": [f"{host}:{number}"], "labels": labels}


def body_of(target, view):
    """What the JSON of an answer about the members has to say, but for what is measured. Of other targets nothing."""
    path, _, query = target.partition("?")
    members = [member_json(record) for record in view]
    if path == TARGETS and query:
        asked = int(query.removeprefix("port="))
        return [group_json(it, asked) for it in members if it["status"] == "alive"]
    if path == "/v1/members":
        status = query.removeprefix("status=")
        return {"name": "b", "members": [it for it in members if not query or it["status"] == status]}
    if path.startswith(ONE_MEMBER):
        return next(it for it in members if it["name"] == path.removeprefix(ONE_MEMBER))
    if path == "/v1/health":
        live = sum(it["status"] not in ("failed", "left") for it in members)
        return {"name": "b", "incarnation": 0, "live": live, "known": len(members), "ousted": False}
    return {}


# ---- What came


def answers_in(data, methods):
    """The answers that some bytes begin with, in turn to requests of these methods, and what follows them. Raises an
    error if one isn't whole."""
    answers = []
    for method in methods:
        if not data:
            break
        head, end, data = data.partition(b"\r\n\r\n")
        first, *lines = head.decode("ascii").split("\r\n")
        if not end or not re.fullmatch("HTTP/1.1 [0-9]{3} .+", first):
            raise ValueError(f"no head of an answer: {head[:200]}")
        fields = {key.lower(): value.strip() for key, _, value in (line.partition(":") for line in lines)}
        length = 0 if method == "HEAD" else int(fields["content-length"])
        if len(data) < length:
            raise ValueError(f"a body of {length} bytes is cut off after {len(data)}")
        answers.append(Answer(int(first[9:12]), fields.get("content-type"), data[:length]))
        data = data[length:]
    return answers, data


def fault_of_rest(data):
    """What is wrong with the answers to damaged bytes: each has a code that is fit for such. A request whose version
    became 1.0 has an answer of that version."""
    codes = {int(it) for it in re.findall(rb"^HTTP/1.[01] ([0-9]{3}) ", data, re.MULTILINE)}
    if codes <= DAMAGED_CODES and (not data or data.startswith((b"HTTP/1.1 ", b"HTTP/1.0 "))):
        return None
    return f"damaged bytes got {data[:300]}"


def fault_of(method, host, target, answer, view):
    """What is wrong with the answer to a whole request, if the node knows these records."""
    code = code_of(method, host, target, [record.member for record in view])
    media = MEDIA.get(target.partition("?")[0], JSON) if code == 200 else JSON
    if (answer.code, answer.media) != (code, media):
        return f"{method} {target}: got {answer.code} {answer.media}, wanted {code} {media}"
    if method == "HEAD" or media != JSON:
        return None
    value = json.loads(answer.body)
    wanted = body_of(target, view) if code == 200 else {}
    is_error = list(value) == ["error"]
    differs = value != wanted if isinstance(wanted, list) else any(value.get(it) != wanted[it] for it in wanted)
    if is_error != (code != 200) or differs:
        return f"{method} {target}: got {answer.body[:300]}, wanted {wanted or code}"
    return None
