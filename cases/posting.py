"""Checks that a page in a browser on a node's machine can't have the node leave: what such a page can post, as bytes
and by a browser."""

import threading
from contextlib import contextmanager
from http.server import BaseHTTPRequestHandler, ThreadingHTTPServer

from answers import difference
from asking import Link, by_python, request
from browser import NAMES as BROWSERS, Browser
from changes import Lone
from checks import needed
from leaving import LEAVE, LEAVES, LEAVING, NAMED, asked, fault_of_refusal
from packets import HOST

# From where a page may come: from elsewhere, from this machine, and from a file, which has no origin to tell.
ORIGINS = ["https://evil.example", f"http://{HOST}:8000", "null"]
PART = b'--x\r\nContent-Disposition: form-data; name="Lg-Leave"\r\n\r\nb\r\n--x--\r\n'
# What a page can send without a question to the server whether it may: the types of a form's body with bodies of these,
# one that spells a whole request among them, and no body. The field that the node wants isn't among what it can send.
POSTS = [("application/x-www-form-urlencoded", b"Lg-Leave=b"), ("multipart/form-data; boundary=x", PART),
         ("text/plain", b"Lg-Leave: b\r\n"), ("text/plain;charset=UTF-8", b'{"leaving":"b"}'),
         ("text/plain", request(LEAVE, "POST", NAMED)), ("", b"")]
PREFLIGHT = "access-control-request-method: POST\r\naccess-control-request-headers: lg-leave\r\n"


def fields_of(origin, kind, body):
    """The fields that a browser adds to what a page posts."""
    kinds = f"content-type: {kind}\r\n" if kind else ""
    return (f"origin: {origin}\r\nsec-fetch-site: cross-site\r\nsec-fetch-mode: no-cors\r\naccept: */*\r\n{kinds}"
            f"content-length: {len(body)}\r\n")


def fault_of_a_post(port, target, fields, body):
    """What is wrong with the answer to what a page posts: it is 400, lets no page read it, and no other follows."""
    what = f"{target} with {fields!r} and {body!r}"
    with Link(port, request(target, "POST", fields, body)) as link:
        answer, second = link.answer(), link.answer()
    if answer and any(it.startswith("access-control") for it in answer.fields):
        return f"{what} lets pages read it: {answer.fields}"
    return fault_of_refusal(answer, 400, what) or difference(f"behind the answer to {what}", second, None)


def fault_of_a_question(port, origin):
    """What is wrong with the answer to a browser's question whether a page may send the node's name: it may not."""
    answer = asked(port, f"origin: {origin}\r\n{PREFLIGHT}", "OPTIONS")
    if answer and any(it.startswith("access-control") for it in answer.fields):
        return f"a page of {origin} may send the name: {answer.fields}"
    return fault_of_refusal(answer, 405, f"the question for {origin}")


def fault_of_living_on(node):
    """What is wrong with a node that hasn't been told to leave: it answers. Then it leaves as soon as it is asked to by
    its name, so what came before could have ended it."""
    health = by_python(node.status, "/v1/health").code
    leaves = asked(node.status, NAMED)
    status, _, told = node.node.end()
    got = health, leaves and (leaves.code, leaves.value()), status, told
    return difference("the end", got, (200, (200, LEAVES), 0, ""))


def posts_of_pages_are_turned_away(program):
    """What a page of another origin can post gets 400, whatever its body says, and its browser isn't told that it may
    send the node's name. The node lives on."""
    with Lone(program, keys=LEAVING) as node:
        for origin in ORIGINS:
            for kind, body in POSTS:
                for target in (LEAVE, f"{LEAVE}?lg-leave=b"):
                    if fault := fault_of_a_post(node.status, target, fields_of(origin, kind, body), body):
                        return fault
            if fault := fault_of_a_question(node.status, origin):
                return fault
        return fault_of_living_on(node)


# ---- By a browser


class Empty(BaseHTTPRequestHandler):
    """Answers each request by a page on which nothing is."""

    def do_GET(self):
        self.send_response(200)
        self.send_header("Content-Type", "text/html")
        self.end_headers()

    def log_message(self, *_):
        pass


@contextmanager
def empty_page():
    """The address of a page of another origin than a node's server."""
    with ThreadingHTTPServer((HOST, 0), Empty) as server:
        thread = threading.Thread(target=server.serve_forever, daemon=True)
        thread.start()
        try:
            yield f"http://{HOST}:{server.server_address[1]}/"
        finally:
            server.shutdown()
            thread.join()


# Fetches that name the node. In the first mode the browser leaves the name out, and the page can't read the answer. In
# the other one it asks the server first, and then sends nothing.
FETCHES = """
window.came = [];
for (const mode of ["no-cors", "cors"])
  fetch("URL", {method: "POST", mode, headers: {"Lg-Leave": "b"}}).then((it) => came.push(it.type),
                                                                        (it) => came.push(it.name));
"""
CAME = "window.came && came.sort().join()"
FORM = """
document.body.innerHTML = '<form method="post" enctype="text/plain" action="URL"><input name="Lg-Leave" value="b">';
document.forms[0].submit();
"""
SHOWN = "location.pathname + ' ' + performance.getEntriesByType('navigation')[0].responseStatus"


def fault_in_a_browser(browser, url):
    """What is wrong with what a page gets that fetches, and then posts a form."""
    if browser.until("document.readyState + ' ' + location.pathname", "complete /", 20) is None:
        return f"the page isn't there: {browser.value('location.href')}"
    browser.value(FETCHES.replace("URL", url))
    if browser.until(CAME, "TypeError,opaque", 10) is None:
        return f"the fetches got {browser.value(CAME)}"
    browser.value(FORM.replace("URL", url))
    if browser.until(SHOWN, f"{LEAVE} 400", 10) is None:
        return f"behind the form the page shows {browser.value(SHOWN)}"
    return None


def page_in_a_browser_ends_no_node(program):
    """A Chromium shows a page of another origin that fetches the path with the node's name, and posts a form there. It
    gets no answer that it can read, and a 400. The node lives on. Without a Chromium this is skipped."""
    path = needed(*BROWSERS)
    with Lone(program, keys=LEAVING) as node, empty_page() as page:
        with Browser(path, page) as browser:
            fault = fault_in_a_browser(browser, f"http://{HOST}:{node.status}{LEAVE}")
        return fault or fault_of_living_on(node)
