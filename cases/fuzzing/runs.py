"""Runs of the program over a case, and what they give beside what was wanted."""

import shutil
import subprocess
from dataclasses import dataclass

SECONDS = 30
# Something that a person can read, whatever it is.
ANYTHING = None


@dataclass(frozen=True)
class Case:
    """The words behind the program's name, its input, the bytes of the file that FILE stands for, and the names and
    bytes of the files in the folder that FOLDER stands for."""

    words: tuple
    given: bytes = b""
    file: bytes = b""
    folder: tuple = ()


@dataclass(frozen=True)
class Outcome:
    """What a run gives: its status, its output, and the lines on standard error, of which one may be anything."""

    status: int
    output: bytes
    errors: tuple = ()


def text_of(lines):
    """The bytes of some lines."""
    return "".join(f"{line}\n" for line in lines).encode()


def are_met(got, wanted):
    """Whether lines are the wanted ones."""
    return len(got) == len(wanted) and all(
        mine == its or its is ANYTHING and mine and mine.isascii() and mine.isprintable()
        for mine, its in zip(got, wanted))


def first_difference(got, wanted):
    """Where two outcomes differ, in words. None if they don't."""
    if got.status != wanted.status:
        return f"status {got.status}, wanted {wanted.status}; standard error: {got.errors[:3]}"
    if not are_met(got.errors, wanted.errors):
        return f"standard error: got {got.errors[:3]}, wanted {wanted.errors[:3]}"
    if got.output == wanted.output:
        return None
    pair = zip(got.output.split(b"\n"), wanted.output.split(b"\n"))
    place, mine, its = next(((count, *it) for count, it in enumerate(pair, 1) if it[0] != it[1]), (0, b"", b""))
    return f"line {place} of the output: got {mine.decode(errors='replace')!r}, wanted {its.decode()!r}"


class Programs:
    """The programs that are tried by one process, and a folder of it."""

    def __init__(self, program, player, folder):
        self.program, self.player, self.folder = program, player, folder

    def fill(self, folder, files):
        """Makes a folder that has these files alone."""
        shutil.rmtree(folder, ignore_errors=True)
        folder.mkdir()
        for name, data in files:
            (folder / name).write_bytes(data)

    def run(self, case, program=None):
        """Runs a program over a case."""
        paths = {"FILE": self.folder / "file", "FOLDER": self.folder / "folder"}
        paths["FILE"].write_bytes(case.file)
        if "FOLDER" in case.words:
            self.fill(paths["FOLDER"], case.folder)
        words = [str(paths.get(word, word)) for word in case.words]
        try:
            done = subprocess.run([program or self.program, *words], input=case.given, capture_output=True,
                                  timeout=SECONDS, cwd=self.folder)
        except subprocess.TimeoutExpired:
            return Outcome(-1, b"", (f"it ran longer than {SECONDS} seconds",))
        return Outcome(done.returncode, done.stdout, tuple(done.stderr.decode(errors="replace").splitlines()))


# ---- A case as a test


def line_shown(mark, line, end=b"\n"):
    """A line of a text as a line of a `.case` file, with or without its end."""
    try:
        text = line.decode()
    except UnicodeDecodeError:
        text = "\0"
    if not text.isprintable():
        return f"{mark}x {(line + end).hex()}"
    return f"{mark if end else mark + '-'} {text}".rstrip(" " if not text else "")


def lines_shown(mark, text):
    """A text as lines of a `.case` file."""
    *whole, last = text.split(b"\n")
    return [line_shown(mark, line) for line in whole] + ([line_shown(mark, last, b"")] if last else [])


def test_of(case, wanted, name):
    """A case with what is wanted of it, in the format of `cases/*.case`."""
    errors = ["!?"] if ANYTHING in wanted.errors else [f"! {line}" for line in wanted.errors]
    lines = [f"## {name}", f"$ {' '.join(case.words)}", *lines_shown("<", case.given), *lines_shown("|", case.file),
             *lines_shown(">", wanted.output), *errors]
    return "\n".join(lines + ([f"= {wanted.status}"] if wanted.status else []))
