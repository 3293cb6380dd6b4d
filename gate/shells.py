"""Shells that complete a line: bash and zsh at a pseudo terminal, and fish, which tells its completions when asked."""

import os
import pty
import select
import shlex
import signal
import subprocess
import time

SECONDS = 10
# The key that has the shell tell its line and forget it.
TELL = "\x0f"


class Typed:
    """A shell at a pseudo terminal, which tells its line through a named pipe."""

    def __init__(self, folder, words, first, file):
        """Starts the shell in a folder. `first` is the file that it reads first, with these lines."""
        self.told, self.patience = b"", SECONDS
        pipe = f"{folder}/told"
        if not os.path.exists(pipe):
            os.mkfifo(pipe)
        with open(f"{folder}/{first}", "w", encoding="utf-8") as it:
            paths = {"file": file, "folder": os.path.dirname(file), "pipe": pipe}
            it.write(self.BEGIN.format(**{name: shlex.quote(path) for name, path in paths.items()}))
        # Held open for both, so that neither side waits for the other.
        self.pipe = os.open(pipe, os.O_RDWR | os.O_NONBLOCK)
        self.child, self.terminal = pty.fork()
        if not self.child:
            self.become(folder, words)
        try:
            self.line()
        except OSError:
            self.close()
            raise

    def become(self, folder, words):
        """Makes this process the shell. What it reads at its start are our files alone."""
        try:
            os.chdir(folder)
            kept = {"PATH": os.environ["PATH"], "HOME": folder, "ZDOTDIR": folder, "INPUTRC": "/dev/null"}
            os.execvpe(words[0], words, {**kept, "TERM": "dumb", "LC_ALL": "C.UTF-8", "COLUMNS": "500"})
        finally:
            os._exit(127)

    def line(self):
        """The next line that the shell tells. What it shows meanwhile is read, so that it never waits."""
        until = time.monotonic() + self.patience
        while b"\n" not in self.told:
            ready, _, _ = select.select([self.pipe, self.terminal], [], [], max(until - time.monotonic(), 0))
            if not ready:
                # Whatever is typed behind this has no answer either.
                self.patience = 0
                raise TimeoutError("the shell told nothing")
            if self.pipe in ready:
                self.told += os.read(self.pipe, 65536)
            if self.terminal in ready:
                os.read(self.terminal, 65536)
        line, _, self.told = self.told.partition(b"\n")
        return line.decode()

    def typed(self, text, key):
        """The line behind a text and a key."""
        os.write(self.terminal, (text + key + TELL).encode())
        return self.line()

    def tab(self, text):
        """The line once Tab was pressed behind a text."""
        return self.typed(text, "\t")

    def offered(self, text):
        """All words that are offered behind a text."""
        begin = text[: text.rindex(" ") + 1]
        line = self.typed(text, self.ALL)
        return [] if line == text else [it.rstrip("=") for it in line.removeprefix(begin).split()]

    def close(self):
        """Ends the shell."""
        os.kill(self.child, signal.SIGKILL)
        os.waitpid(self.child, 0)
        os.close(self.terminal)
        os.close(self.pipe)


class Bash(Typed):
    """A bash. Its key for all completions at once is Meta-*."""

    TOOL, FILE, BEHIND, ALL = "bash", "lg.bash", " ", "\x1b*"
    BEGIN = """
source {file}
tell() {{ printf '%s\\n' "$READLINE_LINE" >{pipe}; READLINE_LINE=; READLINE_POINT=0; }}
bind -x '"\\C-o": tell'
bind 'set bell-style none'
echo ready >{pipe}
"""

    def __init__(self, folder, file):
        super().__init__(folder, ["bash", "--noprofile", "--rcfile", "begin.bash", "-i"], "begin.bash", file)


class Zsh(Typed):
    """A zsh. It puts = behind an option that takes a value."""

    TOOL, FILE, BEHIND, ALL = "zsh", "_lg", "=", "\x18a"
    BEGIN = """
bindkey -e
fpath=({folder} $fpath)
autoload -Uz compinit
compinit -D -u
tell() {{ print -r -- "$BUFFER" >{pipe}; BUFFER= }}
zle -N tell
bindkey '^O' tell
zle -C all-matches complete-word _generic
bindkey '^Xa' all-matches
zstyle ':completion:all-matches::::' completer _all_matches _complete
zstyle ':completion:all-matches:*' insert true
unsetopt beep
print ready >{pipe}
"""

    def __init__(self, folder, file):
        super().__init__(folder, ["zsh", "-d", "-i"], ".zshrc", file)


class Fish:
    """Fish, which is asked for the completions of a line without a terminal."""

    TOOL, FILE, BEHIND = "fish", "lg.fish", " "

    def __init__(self, folder, file):
        self.folder, self.file = folder, file
        self.run("-n", file)

    def run(self, *words):
        """What fish writes."""
        where = {it: self.folder for it in ("HOME", "XDG_CONFIG_HOME", "XDG_DATA_HOME", "XDG_CACHE_HOME")}
        kept = {"PATH": os.environ["PATH"], "TERM": "dumb", "LC_ALL": "C.UTF-8", **where}
        how = {"stdin": subprocess.DEVNULL, "capture_output": True, "text": True, "timeout": SECONDS, "env": kept}
        ran = subprocess.run(["fish", "--no-config", *words], cwd=self.folder, check=False, **how)
        if ran.returncode or ran.stderr:
            raise ValueError(f"fish ended with status {ran.returncode}: {ran.stderr.strip()}")
        return ran.stdout

    def offered(self, text):
        """All words that are offered behind a text."""
        asked = f"source {shlex.quote(self.file)}; complete -C {shlex.quote(text)}"
        return [it.partition("\t")[0] for it in self.run("-c", asked).splitlines()]

    def tab(self, text):
        """The line once Tab was pressed behind a text, if one word is offered at most."""
        offered = self.offered(text)
        if len(offered) > 1:
            return f"{text}: {' '.join(offered)}"
        # A space behind a backslash ends no word.
        begin = text.replace(r"\ ", "__").rindex(" ") + 1
        if not offered:
            return text
        # Behind a folder the line may go on with what is in it.
        behind = "" if offered[0].endswith("/") else " "
        return text[:begin] + offered[0].replace(" ", r"\ ") + behind

    def close(self):
        """Nothing of it runs any more."""
