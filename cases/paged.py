"""What `lg explain --html FILE` writes into its file, beside the lines of the slow judge of explanations, and what it
tells and leaves there if it can't."""

import pathlib
import re
import resource
import subprocess
import tempfile
from contextlib import contextmanager

from explained import EXAMPLES
from fuzzing.explain import Asked, explained
from fuzzing.recording import files_of
from recorded import SECONDS, first_difference

# How a page begins and ends, and the parts of it that say what a line does.
FRONT, END = b"<!DOCTYPE html>\n<html lang=\"en\">\n", b"</body>\n</html>\n"
PARTS = re.compile(r"<h2>(.*)</h2>|<li><b>(\d+)</b> (.*)</li>|<p>(.*)</p>")
MISSING = "Some of the past is missing"
# What a file has before it is written over: more than any page here.
BEFORE = 200_000 * b"x"
# How many bytes a file may have at most in the run in which it is limited.
LIMIT = 1000
# Paths at which no file can be made or written, and what is told of them.
UNWRITTEN = (("missing/c.html", "its folder isn't there"), ("", "its folder isn't there"),
             ("file/c.html", "a part of its path is no folder"), (".", "it is a folder"),
             ("/dev/full", "no space is left"))


@contextmanager
def room():
    """A folder with a file `c.html`, which is to be written over, and another."""
    with tempfile.TemporaryDirectory(prefix="lg-page-") as folder:
        for name in ("c.html", "file"):
            pathlib.Path(folder, name).write_bytes(BEFORE)
        yield pathlib.Path(folder)


def run(program, folder, words, limit=None):
    """How the program ends that runs in a folder: its status, and what it wrote and told. With a limit its files have
    at most so many bytes. With its signals restored it would end at that."""
    ran = subprocess.run(
        [program, *words], cwd=folder, capture_output=True, stdin=subprocess.DEVNULL, timeout=SECONDS, check=False,
        restore_signals=limit is None,
        preexec_fn=limit and (lambda: resource.setrlimit(resource.RLIMIT_FSIZE, (limit, limit))))
    return ran.returncode, ran.stdout, ran.stderr.decode()


def text_in(page):
    """The lines that a page stands for: those of `lg explain` without `--html`."""
    found = filter(None, map(PARTS.fullmatch, page.decode().splitlines()))
    return "".join(f"{line_of(*it.groups())}\n" for it in found).encode()


def line_of(heading, moment, told, last):
    """The line that a part of a page stands for."""
    if moment:
        return f"  {moment}  {told}"
    return heading or (f"  {last}" if last.startswith(MISSING) else last)


def page_of(program, recording, asked, *flags):
    """The page of a member by a recording, and how the program ended that wrote it over a larger file."""
    with room() as folder:
        ended = run(program, folder, [*asked.words(str(recording)), "--html", "c.html", *flags])
        return (folder / "c.html").read_bytes(), ended


def mispaged(program, recording, asked):
    """What is wrong with the page of a member, which is the same if other forms are asked for too."""
    wanted, status = explained(files_of(recording), asked)
    pages = [page_of(program, recording, asked, *flags) for flags in ((), ("--json", "--entries"))]
    page, _ = pages[0]
    if pages != 2 * [(page, (status, b"", ""))] or not page.startswith(FRONT) or not page.endswith(END):
        return f"{recording.name}: {[(page[:200], ended) for page, ended in pages]}, wanted status {status}"
    return None if text_in(page) == wanted else f"{recording.name}: {first_difference(text_in(page), wanted)}"


def pages_of_recordings(program):
    """The pages of each member by the recordings of the repository say what the slow judge does. One that was never
    suspected has a page that says so, and status 1."""
    asked = [Asked(bytes([it]), is_all=is_all) for it in b"abcdez" for is_all in (False, True)]
    faults = (mispaged(program, EXAMPLES / it, form) for it in ("killed", "slow", "lossy") for form in asked)
    return next(filter(None, faults), None)


def unwritten_pages(program):
    """A file that can't be made or written is told, with status 1. One that would be too large has a beginning of the
    page."""
    words = [*Asked(b"c").words(str(EXAMPLES / "killed")), "--html"]
    for path, why in UNWRITTEN:
        with room() as folder:
            ended = run(program, folder, [*words, path])
            if ended != (1, b"", f"lg: write\nthe file {path} can't be written: {why}\n"):
                return f"{path!r} ended with {ended}"
            if (folder / "file").read_bytes() != BEFORE:
                return f"{path!r} changed another file"
    with room() as folder:
        ended, left = run(program, folder, [*words, "c.html"], LIMIT), (folder / "c.html").read_bytes()
        if ended != (1, b"", "lg: write\nthe file c.html can't be written: it would be too large\n"):
            return f"a limited file ended with {ended}"
        page, _ = page_of(program, EXAMPLES / "killed", Asked(b"c"))
        return None if left == page[:LIMIT] else f"a limited file has {len(left)} bytes: {left[:200]}"


def untouched_pages(program):
    """If a folder can't be read, or a text is bad, the file is as it was, or isn't made."""
    rows = [(["c", "--record", "missing"], 1, "lg: read\nthe folder missing can't be listed: it isn't there\n"),
            (["c", "--record", "."], 1, "lg: read\nthe folder . has no file of a recording\n"),
            (["a/b", "--record", "."], 3, "lg: bad names\n")]
    for words, *told in rows:
        with room() as folder:
            ended = [run(program, folder, ["explain", *words, "--html", it]) for it in ("c.html", "new.html")]
            if any([status, errors] != told or output for status, output, errors in ended):
                return f"{words} ended with {ended}"
            if (folder / "c.html").read_bytes() != BEFORE or (folder / "new.html").exists():
                return f"{words} touched the file"
    return None


PAGE_CHECKS = (pages_of_recordings, unwritten_pages, untouched_pages)
