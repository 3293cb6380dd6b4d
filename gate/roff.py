"""Makes manual pages of Markdown: of the part of it that the documents use, in the macros man(7).

A heading, a paragraph, a list, a table, a block of code, and in them code, bold and italic words and links. What else
there is in Markdown isn't known here, and comes out as it stands.
"""

import re
import textwrap
from dataclasses import dataclass, field

# How many characters a line of a page has in its source, and the greatest width of a table that is shown as one.
LINE, TABLE = 78, 70
# A tag of a list that is longer has lines of its own, and a word that is longer may be broken.
TAG, WORD = 56, 40
# In a list that stands for a table, cells up to this length share a line, and a number takes a name up to this along.
SHORT, NAME = 28, 40

HEADING = re.compile(r"(#+) (.*)")
ITEM = re.compile(r"(- |\d+\. )(.*)")
FENCE = "```"
SPAN = re.compile(r"`([^`]+)`|\*\*(.+?)\*\*|\*(.+?)\*")
# A sentence ends here, and the next one begins in a line of its own.
SENTENCE = re.compile(r"(?<=[^ ][.?!])((?:\\f[BIR]|\\\(cq|[\"')])*) +")
QUOTED = re.compile(r"(?<!\w)'(?=\S)(.+?)(?<=\S)'(?!\w)")

SIGNS = {"\\": r"\(rs", "`": r"\(ga", "^": r"\(ha", "~": r"\(ti", '"': r"\(dq"}


@dataclass
class Block:
    """A block of Markdown: its kind, and its text, lines, items or rows. Of a heading it has the level too."""

    kind: str
    parts: list = field(default_factory=list)
    level: int = 0


# ---- Reading


def cells_of(line):
    """The cells of a row of a table. In Markdown `\\|` is no end of a cell."""
    return [it.strip().replace(r"\|", "|") for it in re.split(r"(?<!\\)\|", line.strip().strip("|"))]


def kind_of(line):
    """The kind of the block that a line belongs to."""
    if line.startswith(FENCE):
        return "code"
    if HEADING.fullmatch(line):
        return "heading"
    if line.startswith("|"):
        return "table"
    if line.startswith("<!--"):
        return "comment"
    return "list" if ITEM.fullmatch(line) else "paragraph"


def goes_on(kind, line):
    """Whether a block of this kind goes on with a line."""
    return line.strip() and (kind_of(line) == kind or kind == "list" and line.startswith(" "))


def block_of(lines):
    """The block that these lines begin with, and how many of them it has."""
    kind, count = kind_of(lines[0]), 1
    if kind == "code":
        count = next((at for at, line in enumerate(lines) if at and line.startswith(FENCE)), len(lines))
        return Block(kind, lines[1:count]), count + 1
    if kind in ("heading", "comment"):
        found = HEADING.fullmatch(lines[0])
        return Block(kind, [found[2] if found else lines[0][4:-3].strip()], len(found[1]) if found else 0), 1
    while count < len(lines) and goes_on(kind, lines[count]):
        count += 1
    if kind == "table":
        rows = [cells_of(it) for it in lines[:count]]
        return Block(kind, rows[:1] + rows[2:]), count
    if kind == "list":
        # A line that is set in belongs to the item above it.
        items = re.sub(r"\n +", " ", "\n".join(lines[:count])).split("\n")
        return Block(kind, [list(ITEM.fullmatch(it).groups()) for it in items]), count
    return Block(kind, [" ".join(it.strip() for it in lines[:count])]), count


def blocks_of(text):
    """The blocks of a text."""
    lines, found = text.splitlines(), []
    while lines:
        if not lines[0].strip():
            del lines[0]
            continue
        block, count = block_of(lines)
        found.append(block)
        del lines[:count]
    return found


# ---- Words


def escaped(text):
    """A text so that it is shown letter by letter."""
    text = "".join(SIGNS.get(it, it) for it in text)
    text = QUOTED.sub(r"\\(oq\1\\(cq", text)
    return "".join(it if ord(it) < 128 else rf"\[u{ord(it):04X}]" for it in text)


def literal(text):
    """Code, in which a hyphen and a quote are those of the keyboard."""
    text = escaped(text.replace("'", "\0")).replace("\0", r"\(aq")
    return text.replace("-", r"\-")


def word_of_code(word):
    """A word of code. A long one may be broken anywhere, and none ends a sentence."""
    parts = textwrap.wrap(word, 8, break_on_hyphens=False) if len(word) > WORD else [word]
    shown = r"\:".join(map(literal, parts))
    return shown + r"\&" if word[-1:] in (".", "?", "!") else shown


def code(text):
    """Code in a text. If spaces begin or end it, it stands between quotes, so that they are seen."""
    words = " ".join(map(word_of_code, text.split(" ")))
    return rf"\fB{words}\fR" if text == text.strip() else rf"\(dq\fB{words}\fR\(dq"


def plain(text):
    """A text without its signs of Markdown."""
    return SPAN.sub(lambda it: it[1] or it[2] or it[3], text)


def span(found):
    """What stands for code, and for bold and italic words."""
    words, bold, italic = found.groups()
    if words:
        return code(words)
    # The name of a page is bold, and isn't broken at its hyphen.
    told = escaped(plain(bold or italic)).replace("-", r"\-")
    return rf"\fB{told}\fR" if bold else rf"\fI{told}\fR"


def shown(text):
    """What stands for a text of Markdown."""
    told, last = "", 0
    for it in SPAN.finditer(text):
        told += escaped(text[last : it.start()]) + span(it)
        last = it.end()
    return told + escaped(text[last:])


def guarded(line):
    """A line of text, which roff would take as a request if it began so."""
    return rf"\&{line}" if line[:1] in ("", ".", "'") else line


def lines_of(text):
    """The lines of the source that show a text."""
    sentences = SENTENCE.sub(r"\1\n", shown(text)).split("\n")
    return [guarded(line) for it in sentences for line in wrapped(it.strip()) if line]


def wrapped(text):
    """A text in lines that aren't too long, if its words aren't."""
    return textwrap.wrap(text, LINE, break_long_words=False, break_on_hyphens=False)


# ---- Pages


class Page:
    """A page that is made, line by line."""

    def __init__(self):
        self.lines, self.begins = [], True

    def add(self, *lines):
        """Adds lines of text."""
        self.lines += lines
        self.begins = False

    def paragraph(self):
        """Begins a paragraph. Behind a heading there is one anyway."""
        if not self.begins:
            self.lines.append(".PP")

    def put(self, block):
        """Adds a block."""
        getattr(self, f"put_{block.kind}")(block)

    def put_heading(self, block):
        title = plain(block.parts[0])
        self.lines.append(f".SH {escaped(title.upper())}" if block.level <= 2 else f".SS {escaped(title)}")
        self.begins = True

    def put_name(self, block):
        """Adds the line from which the command whatis has the name of the page and what it is about."""
        name, about = block.parts
        self.add(rf"{escaped(name)} \- {escaped(about)}")

    def put_lines(self, block):
        self.paragraph()
        for place, text in enumerate(block.parts):
            self.add(*([".br"] if place else []), *lines_of(text))

    def put_items(self, block):
        for tag, text in block.parts:
            self.put_item(tag, text)

    def put_paragraph(self, block):
        lines = lines_of(block.parts[0])
        if lines:
            self.paragraph()
            self.add(*lines)

    def put_list(self, block):
        for mark, text in block.parts:
            tag = r"\(bu 2" if mark == "- " else f"{mark.strip()} 4"
            self.add(f".IP {tag}", *lines_of(text))

    def put_code(self, block):
        self.paragraph()
        self.add(".RS 4", ".EX", *(guarded(literal(it)) for it in block.parts), ".EE", ".RE")

    def put_item(self, tag, *texts):
        """Adds an item with a tag, and lines that each begin anew."""
        if len(plain(tag)) > TAG:
            self.paragraph()
            self.add(*lines_of(tag), ".RS 7")
        else:
            self.add(".TP", guarded(shown(tag)))
        for place, text in enumerate(texts):
            self.add(*([".br"] if place else []), *lines_of(text))
        if len(plain(tag)) > TAG:
            self.add(".RE")

    def put_table(self, block):
        head, *rows = block.parts
        widths = [max(len(plain(it)) for it in column) for column in zip(*block.parts)]
        if sum(widths) + 3 * (len(widths) - 1) <= TABLE:
            self.put_narrow(head, rows)
        else:
            self.put_wide(head, rows)

    def put_narrow(self, head, rows):
        """Shows a table as one. It isn't kept on one page: man shows all as one long page, whose length grows, and
        warns of a table that has to be kept and stands just where it grows."""
        count = len(head)
        self.paragraph()
        self.add(".TS", "nokeep;", " ".join(["lb"] * count), f"{' '.join(['l'] * count)}.")
        for row in [head, *rows]:
            self.add(guarded("\t".join(shown(it) for it in row)))
        self.add(".TE")

    def put_wide(self, head, rows):
        """Shows a table as a list, with an item for each row."""
        tags = columns_of_tag(head, rows)
        behind = range(tags, len(head))
        if len(behind) == 1 and head[tags]:
            self.put_item(*(f"*{it}*" if it else "" for it in (", ".join(filter(None, head[:tags])), head[tags])))
        for row in rows:
            if len(behind) == 1:
                texts = [row[tags]]
            else:
                texts = lines_of_cells([(head[at], row[at]) for at in behind if row[at]])
            self.put_item(", ".join(filter(None, row[:tags])), *texts)


def columns_of_tag(head, rows):
    """How many of the first cells of a row stand for it. It is one, but numbers take a short name along, and a row has
    to differ from the others."""
    count = 1
    is_numbered = all(len(row[0]) <= 4 for row in rows)
    if len(head) > 2 and is_numbered and all(len(row[1]) <= NAME for row in rows):
        count = 2
    while count < len(head) - 1 and len({tuple(row[:count]) for row in rows}) < len(rows):
        count += 1
    return count


def lines_of_cells(cells):
    """The lines of an item for cells with their heads. Short ones share a line."""
    lines, was_short = [], False
    for head, cell in cells:
        text = cell if head == "Meaning" else f"{head}: {cell}"
        is_short = len(cell) <= SHORT and head != "Meaning"
        if was_short and is_short:
            lines[-1] += f"; {text}"
        else:
            lines.append(text)
        was_short = is_short
    return lines


def page_of(head, blocks):
    """A page, of what stands behind `.TH` and its blocks."""
    page = Page()
    for block in blocks:
        page.put(block)
    # Without adjusted lines and hyphens a word of code is shown as it is typed.
    first = ["'\\\" t", '.\\" Made by gate/manual.', ".nr HY 0", f".TH {head}", ".ad l"]
    return "\n".join([*first, *page.lines]) + "\n"
