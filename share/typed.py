#!/usr/bin/env python3
"""Types into an interactive shell on a terminal, and shows what a call of decl is given: share/typed.py SHELL LINE..

A tab in a line asks the shell to complete. The shell (bash, zsh or fish) has the completion of this folder, starts at the
top of the repository and reads no file of the user's. In place of `decl` it runs a script that keeps its words. For each
line the words are written in one line, then ` < ` and the first line of the input where that is no terminal.
"""

import os
import pathlib
import pty
import select
import shutil
import signal
import sys
import tempfile
import time

ROOT = pathlib.Path(__file__).resolve().parent.parent
READY = "READY> "
SECONDS = 15

SCRIPT = """#!/bin/sh
{
    printf '%s' "$*"
    [ -t 0 ] || { printf ' < '; head -n 1; }
} > "$DECL_GIVEN.part"
mv "$DECL_GIVEN.part" "$DECL_GIVEN"
"""

SHELLS = {
    "bash": (["bash", "--norc", "--noprofile", "-i"], ["PS1='READY''> '", "source share/decl.bash"]),
    "zsh": (
        ["zsh", "-f", "-i"],
        ["fpath=($DECL_ROOM $fpath)", "autoload -U compinit", "compinit -u -D", "PS1='READY''> '", "PROMPT_EOL_MARK="],
    ),
    "fish": (
        ["fish", "--no-config", "-i"],
        ["function fish_prompt; echo -n 'READY''> '; end", "source share/decl.fish"],
    ),
}


class Terminal:
    """A shell on a terminal of its own."""

    def __init__(self, words, world):
        self.child, self.file = pty.fork()
        if self.child == 0:
            os.chdir(ROOT)
            os.execvpe(words[0], words, world)
        self.shown = b""

    def read(self, seconds):
        """Adds what is shown within so many seconds; whether anything was."""
        if not select.select([self.file], [], [], seconds)[0]:
            return False
        try:
            self.shown += os.read(self.file, 65536)
        except OSError:
            return False
        return True

    def quiet(self, seconds=0.3):
        """Waits until nothing has been shown for so long."""
        end = time.monotonic() + SECONDS
        while self.read(seconds) and time.monotonic() < end:
            pass

    def prompt(self):
        """Waits for the next prompt."""
        end = time.monotonic() + SECONDS
        while READY.encode() not in self.shown and time.monotonic() < end:
            self.read(0.2)
        self.quiet()
        self.shown = b""

    def type(self, text):
        """Types a text as it is."""
        os.write(self.file, text.encode())

    def close(self):
        """Ends the shell."""
        os.kill(self.child, signal.SIGKILL)
        os.close(self.file)
        os.waitpid(self.child, 0)


def given(terminal, kept, line):
    """What decl is given where this line is typed, with its tabs, and then a return."""
    for part in line.replace("\t", "\t\n").split("\n"):
        terminal.type(part)
        terminal.quiet()
    terminal.type("\r")
    end = time.monotonic() + SECONDS
    while not kept.exists() and time.monotonic() < end:
        terminal.read(0.1)
    terminal.prompt()
    if not kept.exists():
        return f"nothing: {terminal.shown.decode(errors='replace')}"
    written = kept.read_text().rstrip("\n")
    kept.unlink()
    return written


def main():
    """Types the lines, one after the other."""
    if len(sys.argv) < 3 or sys.argv[1] not in SHELLS:
        sys.exit("usage: share/typed.py bash|zsh|fish LINE..")
    words, begun = SHELLS[sys.argv[1]]
    with tempfile.TemporaryDirectory() as folder:
        room = pathlib.Path(folder)
        (room / "decl").write_text(SCRIPT)
        (room / "decl").chmod(0o755)
        shutil.copy(ROOT / "share" / "decl.zsh", room / "_decl")
        kept = room / "given"
        world = {"PATH": f"{room}:{os.environ['PATH']}", "HOME": folder, "TERM": "dumb", "INPUTRC": "/dev/null"}
        world.update({"DECL_GIVEN": str(kept), "DECL_ROOM": folder, "LANG": "C.UTF-8"})
        terminal = Terminal([shutil.which(words[0]), *words[1:]], world)
        for line in begun:
            terminal.quiet()
            terminal.type(line + "\r")
        terminal.prompt()
        for line in sys.argv[2:]:
            print(given(terminal, kept, line), flush=True)
        terminal.close()


if __name__ == "__main__":
    main()
