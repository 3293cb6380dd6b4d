"""A program that a bench measures. Its crate stands outside the workspace, since the gate proves each crate of that."""

import hashlib
import os
import shutil
import subprocess
import sys
import tempfile
from dataclasses import dataclass
from pathlib import Path

TOP = Path(__file__).resolve().parent.parent


@dataclass
class Program:
    """The program in benches/NAME_program, which is kept as .lg/NAME. Its files end in .txt, so that ./lg doesn't take
    them for its own: F.rt.txt is src/F.rt, and F.antt.txt says what the proof of the function F in main.rt takes."""

    name: str
    libraries: str
    # What it is run with once it is built, to see that it runs.
    words: list[str]
    # A library that ./lg doesn't build, with those below it.
    beside: str = ""

    @property
    def source(self) -> Path:
        return TOP / "benches" / f"{self.name}_program"

    def lines_below(self) -> dict[str, str]:
        """Returns the lines of crates.txt of the crates of this repository that the program stands on."""
        lines = {}
        for line in (TOP / "crates.txt").read_text(encoding="utf-8").splitlines():
            if words := line.partition("#")[0].partition(":")[0].split():
                lines[words[0]] = line.partition("#")[0]
        found, left = {}, self.libraries.split()
        while left:
            name = left.pop()
            if name in lines and name not in found:
                found[name] = lines[name]
                left += lines[name].partition(":")[2].replace(",", " ").split()
        return found

    def lay_out(self, room: Path) -> Path:
        """Copies the crates below the program, with the libraries that are built, and puts the program's crate beside
        them. Returns the folder of that crate."""
        below = self.lines_below()
        for crate in (TOP / "crates" / name for name in below):
            for part in ("src", "specs", "proofs", "out/rlib"):
                if (crate / part).is_dir():
                    to = room / "crates" / crate.name / part
                    to.parent.mkdir(parents=True, exist_ok=True)
                    subprocess.run(["cp", "-a", "--reflink=auto", crate / part, to], check=True)
        made = room / "crates" / self.name
        for file in self.source.glob("*.txt"):
            stem, kind, _ = file.name.split(".")
            to = made / "src" / f"{stem}.rt" if kind == "rt" else made / "proofs" / stem / "Invariants.antt"
            to.parent.mkdir(parents=True, exist_ok=True)
            shutil.copyfile(file, to)
        lines = [*below.values(), f"{self.name}: {self.libraries}"]
        (room / "crates.txt").write_text("\n".join(lines) + "\n", encoding="utf-8")
        shutil.copyfile(TOP / "HANDLES", room / "HANDLES")
        return made

    def build(self, kept: Path) -> None:
        """Builds the program over the libraries that are built in out/ of their crates, by `./lg` or by `rt ci`."""
        print("benches: proving and building the program; this takes some minutes", file=sys.stderr, flush=True)
        if self.beside:
            run(["rt", "lib"], TOP / "crates" / self.beside, f"the library {self.beside}")
        folder = os.environ.get("TMPDIR", "/var/tmp")
        with tempfile.TemporaryDirectory(prefix=f"lg-{self.name}-", dir=folder) as room:
            crate = self.lay_out(Path(room))
            run(["rt", "run", "--", *self.words], crate, "the program")
            shutil.copy(crate / "out" / self.name, kept)

    def bring_up_to_date(self) -> Path:
        """Builds the program, unless it is built for these crates and this source. Returns where it is."""
        if subprocess.run([TOP / "lg", "--help"], stdout=subprocess.DEVNULL).returncode:
            raise SystemExit("benches: ./lg could not build the libraries")
        kept, sum_of_kept = TOP / ".lg" / self.name, TOP / ".lg" / f"{self.name}-sum"
        texts = [TOP / ".lg" / "sum", *sorted(self.source.glob("*.txt"))]
        now = hashlib.sha256(b"\0".join(file.read_bytes() for file in texts)).hexdigest()
        if not kept.is_file() or not sum_of_kept.is_file() or sum_of_kept.read_text(encoding="utf-8") != now:
            sum_of_kept.unlink(missing_ok=True)
            self.build(kept)
            sum_of_kept.write_text(now, encoding="utf-8")
        return kept


def run(words: list[str], folder: Path, what: str) -> None:
    ran = subprocess.run(words, cwd=folder, stdout=subprocess.PIPE, stderr=subprocess.STDOUT, text=True)
    if ran.returncode:
        raise SystemExit(f"benches: {what} could not be built:\n{ran.stdout[-2000:]}")
