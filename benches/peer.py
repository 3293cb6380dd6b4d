"""A program in another language, which a bench measures beside its own."""

import hashlib
import os
import shutil
import subprocess
import tempfile
from dataclasses import dataclass
from pathlib import Path

from program import TOP

GO_SOURCES = Path("/usr/share/gocode")


@dataclass
class Peer:
    """A program in another language: its name, its one source, the compiler, its words, and what it is built with."""

    name: str
    source: str
    compiler: str
    words: list[str]
    environment: dict[str, str]
    # A folder without which there is no such program.
    needs: Path | None = None

    def version(self) -> bytes:
        word = "version" if self.compiler == "go" else "--version"
        return subprocess.run([self.compiler, word], stdout=subprocess.PIPE, check=True).stdout

    def built(self) -> Path | None:
        """Builds the program, unless it is built for this source. Returns where it is, if there are the
        compiler and what it needs."""
        if not shutil.which(self.compiler) or (self.needs and not self.needs.is_dir()):
            return None
        source, made = TOP / "benches" / self.source, TOP / ".lg" / self.name
        kept = made.with_name(f"{self.name}-sum")
        now = hashlib.sha256(self.version() + source.read_bytes()).hexdigest()
        if not made.is_file() or not kept.is_file() or kept.read_text(encoding="utf-8") != now:
            made.parent.mkdir(exist_ok=True)
            kept.unlink(missing_ok=True)
            with tempfile.TemporaryDirectory(prefix="lg-peer-") as room:
                copy = Path(room) / source.name.removesuffix(".txt")
                shutil.copyfile(source, copy)
                self.compile(made, copy)
            kept.write_text(now, encoding="utf-8")
        return made

    def compile(self, made: Path, source: Path) -> None:
        words = [self.compiler, *self.words, "-o", made, source]
        how = {"env": {**os.environ, **self.environment}, "stdout": subprocess.PIPE, "stderr": subprocess.STDOUT}
        ran = subprocess.run(words, text=True, **how)
        if ran.returncode:
            raise SystemExit(f"benches: the program {self.name} could not be built:\n{ran.stdout[-2000:]}")


def memberlist_peer(name: str, source: str) -> Peer:
    """A program over memberlist, as Debian's package golang-github-hashicorp-memberlist-dev installs its sources."""
    environment = {"GO111MODULE": "off", "GOPATH": str(GO_SOURCES)}
    return Peer(name, source, "go", ["build"], environment, GO_SOURCES / "src/github.com/hashicorp/memberlist")
