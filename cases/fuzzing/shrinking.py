"""Makes a case smaller as long as it still shows its difference."""

import time

SECONDS = 20


def shortest_front(pieces, shows):
    """The first pieces that show a difference, if all pieces up to one do so exactly from some piece on."""
    least, most = 0, len(pieces)
    while least < most:
        middle = (least + most) // 2
        least, most = (least, middle) if shows(pieces[:middle]) else (middle + 1, most)
    return pieces[:most]


def without_parts(pieces, size):
    """The lists without one part of some size each, from the last part on."""
    for start in reversed(range(0, len(pieces), size)):
        yield pieces[:start] + pieces[start + size:]


def shrunk(pieces, shows, seconds=SECONDS):
    """The fewest pieces found within some seconds that still show a difference: first the end is left out, and then
    parts of the list, the larger ones first. The pieces themselves stay in their order."""
    end = time.monotonic() + seconds
    pieces = shortest_front(pieces, shows)
    size = max(1, len(pieces) // 2)
    while time.monotonic() < end:
        smaller = next((rest for rest in without_parts(pieces, size) if time.monotonic() < end and shows(rest)), None)
        if smaller is None and size == 1:
            break
        size = size // 2 if smaller is None else min(size, max(1, len(smaller) // 2))
        pieces = pieces if smaller is None else smaller
    return pieces


def shrunk_bytes(lines, shows, seconds=SECONDS):
    """The same of the bytes of each line, one line after another."""
    end = time.monotonic() + seconds
    for place, line in enumerate(lines):
        def still(part, place=place):
            return shows([*lines[:place], bytes(part), *lines[place + 1:]])

        left = end - time.monotonic()
        if left > 0:
            lines = [*lines[:place], bytes(shrunk(list(line), still, left)), *lines[place + 1:]]
    return lines
