"""What the status server of a node answers to each kind of request, beside what the node knows by its packets.

A client is a function of a port, a target, a method and a body, and gives an `Answer`.
"""

import pathlib
import re

from asking import by_bytes, by_curl, by_python
from exposition import metrics_in
from packets import HOST, STATUSES
from running import table_of

# Which clients ask the two nodes that live on.
ASKING = [(by_python, "a"), (by_python, "b"), (by_curl, "b"), (by_bytes, "a")]
DOCUMENTS = pathlib.Path(__file__).resolve().parent.parent / "docs"
OPERATING, FORMATS = DOCUMENTS / "OPERATING.md", DOCUMENTS / "FORMATS.md"

JSON = "application/json"
HTML = "text/html; charset=utf-8"
TEXT = "text/plain; version=0.0.4; charset=utf-8"

# What no packet tells of a node: these have to be numbers.
MEASURED = ["version", "moment_ms", "score", "uptime_ms", "stood_still_ms"]

# What isn't served: a method, a target, and the code.
REFUSED = [
    ("GET", "/v1/members/nobody", 404), ("GET", "/v1/members/", 400), ("GET", "/v1/members/a%20b", 400),
    ("GET", "/v1/members/" + 33 * "n", 400), ("GET", "/v1/members/a/b", 400), ("GET", "/v1/members?status=dead", 400),
    ("GET", "/v1/members/a?status=alive", 400), ("GET", "/v1/health?now", 400), ("GET", "/metrics?a=1", 400),
    ("GET", "/v1/explain/a", 404), ("GET", "/v1/explain/", 400), ("GET", "/v1/explain/a?all", 400),
    ("GET", "/v1/changes?after=x", 400), ("GET", "/v1/changes?wait_ms=30001", 400), ("GET", "/v1/member", 404),
    ("GET", "/v1/config/", 404), ("GET", "/favicon.ico", 404), ("GET", "/v1/members/" + 9000 * "n", 414),
    ("POST", "/v1/members", 405), ("PUT", "/v1/config", 405), ("DELETE", "/v1/members/a", 405), ("OPTIONS", "/", 405),
]
TOO_LARGE = bytes(1024 * 1024)


def difference(asked, got, wanted):
    """What came otherwise than it was wanted, if anything did."""
    return None if got == wanted else f"{asked[:80]}: got {got}, wanted {wanted}"


# ---- What is wanted


def member_json(record):
    """A member as JSON says it."""
    return {"name": record.member, "status": record.status, "incarnation": record.incarnation, "address": HOST,
            "port": record.port, "accuser": record.accuser}


def all_wanted(name, table):
    """What answers that follow from the table of a node of this name have to say, but for what is measured, by their
    targets."""
    members = [member_json(table[it]) for it in sorted(table)]
    wanted = {"/v1/members": {"name": name, "members": members}}
    for status in STATUSES.values():
        of_status = [it for it in members if it["status"] == status]
        wanted[f"/v1/members?status={status}"] = {"name": name, "members": of_status}
    wanted |= {f"/v1/members/{it['name']}": it for it in members}
    live = [it for it in members if it["status"] not in ("failed", "left")]
    wanted["/v1/health"] = {"name": name, "incarnation": table[name].incarnation, "live": len(live),
                            "known": len(members), "ousted": False}
    return wanted | {"/v1/changes?after=0": {"missed": False, "changes": {it["name"]: it for it in members}}}


def defaults():
    """The keys whose default is a number, by the table in docs/OPERATING.md."""
    rows = re.findall(r"^\| `(\w+)` \|(?:[^|]*\|){3} (\d+) \|", OPERATING.read_text(encoding="utf-8"), re.MULTILINE)
    return {key: int(value) for key, value in rows}


def drawn_first(client, port):
    """The number of its first probe that a node has drawn, if it tells one that is in the range."""
    first = said(client(port, "/v1/config")).get("first")
    return first if isinstance(first, int) and 1 <= first <= 4_294_967_295 else "one of 1 to 4,294,967,295"


# The keys of a file that /v1/config leaves out.
UNSHOWN = {"record", "record_mb"}


def config_wanted(group, name, first):
    """The configuration of a node of a group, with the defaults, which has drawn this first number."""
    lines = [line.split(" = ") for line in group.keys_of(name).splitlines()]
    given = {key: int(value) for key, value in lines if key != "status"}
    own = {"name": name, "address": HOST, "port": group.own[name], "dice": 1 + list(group.own).index(name),
           "status": f"{HOST}:{group.status[name]}", "status_open": False, "first": first, "group": None,
           "leave": True, "bind": f"{HOST}:{group.own[name]}"}
    seeds = [{"name": it, "address": HOST, "port": port} for it, port in group.seeds if it != name]
    shown = defaults() | given | own | {"seeds": seeds}
    return {key: value for key, value in shown.items() if key not in UNSHOWN}


# ---- Faults of answers


def fault_of_kind(answer, asked, code, media):
    """What is wrong with the code, the media type or the length of an answer."""
    got = answer.code, answer.fields.get("content-type"), answer.fields.get("content-length")
    return difference(asked, got, (code, media, str(len(answer.body))))


def fault_of_head(client, port, target, answer):
    """What is wrong with the answer to HEAD: it has the code and the fields of the one to GET, and no body. The length
    is another one if something happened between the two."""
    for _ in range(5):
        got = client(port, target, "HEAD")
        if (got.code, got.fields) == (answer.code, answer.fields):
            break
        answer = client(port, target)
    return difference(f"HEAD {target}", (got.code, got.fields, got.body), (answer.code, answer.fields, b""))


def said(answer):
    """What the JSON of an answer says, but for what is measured, if that is numbers. Of the changes of each member the
    last."""
    value = answer.value()
    changes = value.get("changes", [])
    for part in [value, *changes]:
        if bad := [key for key in MEASURED if type(part.pop(key, 0)) is not int]:
            raise ValueError(f"{bad} in {answer.body[:200]}")
    return value | {"changes": {it["name"]: it for it in changes}} if "changes" in value else value


def fault_of_one(client, port, target, wanted):
    """What is wrong with the answer to a target whose JSON has to say this."""
    answer = client(port, target)
    return (fault_of_kind(answer, target, 200, JSON) or difference(target, said(answer), wanted)
            or fault_of_head(client, port, target, answer))


def beside_table(group, name, fault_of):
    """What is wrong with a node of a group by a function of its table, which is called again if that has changed
    meanwhile."""
    for _ in range(10):
        table = table_of(group.own[name])
        fault = fault_of(table)
        if fault is None or table_of(group.own[name]) == table:
            break
    return fault


def fault_beside_table(client, group, name):
    """What is wrong with the answers of a node of a group that follow from its table."""
    def fault_of(table):
        faults = (fault_of_one(client, group.status[name], *it) for it in all_wanted(name, table).items())
        return next(filter(None, faults), None)

    fault = beside_table(group, name, fault_of)
    return fault and f"{client.__name__}: {fault}"


def fault_of_refusals(client, port):
    """What is wrong with the answers to what isn't served: each says in JSON why not."""
    asked = [(*it, None) for it in REFUSED] + [("POST", "/v1/members", 413, TOO_LARGE)]
    for method, target, code, body in asked:
        answer = client(port, target, method, body)
        fault = fault_of_kind(answer, target, code, JSON)
        if not fault and list(answer.value()) != ["error"]:
            fault = f"{target[:80]}: {answer.body}"
        if not fault and code in (400, 404):
            fault = fault_of_head(client, port, target, answer)
        if not fault and code == 405:
            fault = difference(target, answer.fields.get("allow"), "GET, HEAD")
        if fault:
            return f"{client.__name__}: {method} {fault}"
    return None


def fault_of_metrics(client, port, name, table):
    """What is wrong with the metrics of a node that has this table."""
    answer = client(port, "/metrics")
    metrics, statuses = metrics_in(answer.body), [it.status for it in table.values()]
    wanted = {f'lg_members{{status="{it}"}}': statuses.count(it) for it in STATUSES.values()}
    wanted |= {"lg_incarnation": table[name].incarnation, "lg_ousted": 0}
    got = {it: metrics.samples.get(it) for it in wanted}
    return (fault_of_kind(answer, "/metrics", 200, TEXT) or difference("/metrics", got, wanted)
            or fault_of_head(client, port, "/metrics", answer))


def fault_of_page(client, port, name, table):
    """What is wrong with the bytes of the page: it says who the node and its members are, and nothing of it comes from
    another place."""
    answer = client(port, "/")
    text = answer.body.decode()
    missing = [it for it in (f"<h1>{name}</h1>", *(f"<td>{it}<td>" for it in table)) if it not in text]
    others = re.findall(r"https?:|//\w|src=|href=|@import|url\(", text)
    return (fault_of_kind(answer, "/", 200, HTML) or difference("/", (missing, others), ([], []))
            or fault_of_head(client, port, "/", answer))


def fault_of_all(client, group, name):
    """What is wrong with any answer of a node of a group."""
    port = group.status[name]
    faults = [lambda: fault_beside_table(client, group, name),
              lambda: fault_of_one(client, port, "/v1/config",
                                   config_wanted(group, name, drawn_first(client, port))),
              lambda: beside_table(group, name, lambda table: fault_of_metrics(client, port, name, table)),
              lambda: beside_table(group, name, lambda table: fault_of_page(client, port, name, table)),
              lambda: fault_of_refusals(client, port)]
    return next(filter(None, (fault() for fault in faults)), None)
