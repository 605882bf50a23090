"""Finds the program, and runs it once."""

import contextlib
import os
import pathlib
import shutil
import signal
import subprocess
from typing import Iterable, Optional, Sequence, Tuple, Union

from . import faults
from .told import fault_of


#: Where a wheel that has the program puts it, beside these modules.
INSIDE = pathlib.Path(__file__).parent / "bin" / "decl"


def find() -> str:
    """The program that DECL names, else the one of the package, where it has one, else `decl` on the path."""
    named = os.environ.get("DECL") or (str(INSIDE) if INSIDE.exists() else "decl")
    found = shutil.which(named)
    if found is None:
        raise faults.ProgramNotFound(
            f"there is no program {named!r} to run: put decl on the path, or its place in the variable DECL",
            program=named,
        )
    return found


def as_text(text: Union[str, bytes]) -> str:
    """The text as a `str` with no NUL; bytes have to be UTF-8."""
    if isinstance(text, bytes):
        given = text
        try:
            text = given.decode("utf-8")
        except UnicodeDecodeError as cause:
            line, column = place_in(given, cause.start)
            if given.startswith((b"\xff\xfe", b"\xfe\xff")):
                told = 'the text is in UTF-16: read the file with encoding="utf-16"'
                raise faults.NotText(told, line=line, column=column) from None
            raise faults.NotText(f"{line}:{column}: the text is no UTF-8", line=line, column=column) from None
    if not isinstance(text, str):
        raise TypeError(f"a text is a str or bytes, not {type(text).__name__}")
    try:
        data = text.encode("utf-8")
    except UnicodeEncodeError as cause:
        line, column = place_in(text[: cause.start].encode("utf-8"), None)
        raise faults.NotText(f"{line}:{column}: the text is no UTF-8", line=line, column=column) from None
    nul = data.find(b"\0")
    if nul >= 0:
        line, column = place_in(data, nul)
        raise faults.NotText(f"{line}:{column}: the text has a NUL byte", line=line, column=column)
    return text


def place_in(data: bytes, offset: Optional[int]) -> Tuple[int, int]:
    """Line and column of an offset in bytes, from 1; of the end, where the offset is None."""
    before = data if offset is None else data[:offset]
    return before.count(b"\n") + 1, len(before) - (before.rfind(b"\n") + 1) + 1


def as_word(word: object) -> str:
    """A word of the command line as a `str` that the system can pass on."""
    word = str(word)
    if "\0" in word:
        raise faults.NotText(f"the word {word!r} has a NUL byte", line=None, column=None)
    try:
        os.fsencode(word)
    except UnicodeEncodeError:
        raise faults.NotText(f"the word {word!r} is no UTF-8", line=None, column=None) from None
    return word


def ended(words: Sequence[str], given: bytes, timeout: Optional[float]) -> "subprocess.CompletedProcess[bytes]":
    """The command after its end, with what it wrote. It has a process group of its own: a timeout, or another exception that ends the
    waiting, ends all that it started too."""
    pipe = subprocess.PIPE
    with subprocess.Popen(words, stdin=pipe, stdout=pipe, stderr=pipe, start_new_session=True) as running:
        try:
            written, told = running.communicate(given, timeout)
        except BaseException:
            with contextlib.suppress(ProcessLookupError):
                os.killpg(running.pid, signal.SIGKILL)
            raise
    return subprocess.CompletedProcess(words, running.returncode, written, told)


def refusal(program: str, text: str, timeout: Optional[float]) -> Optional[str]:
    """What `fmt` says against a text: empty where it reads the text, None where it does not end by a fault of the text."""
    try:
        done = ended([program, "fmt"], text.encode("utf-8"), timeout)
    except (subprocess.TimeoutExpired, OSError):
        return None
    return done.stderr.decode("utf-8", "replace") if done.returncode in (0, 3) else None


def call(
    words: Iterable[str], text: Union[str, bytes], asks: Sequence[str] = (), timeout: Optional[float] = None
) -> str:
    """What the program writes for these words and this text; `asks` are those of the words, for messages."""
    text = as_text(text)
    words = [as_word(word) for word in words]
    program = find()
    try:
        done = ended([program, *words], text.encode("utf-8"), timeout)
    except subprocess.TimeoutExpired:
        raise faults.TookTooLong(f"decl took more than {timeout} seconds, and was ended", seconds=timeout) from None
    except OSError as cause:
        raise faults.ProgramNotFound(f"{program} cannot be run: {cause.strerror}", program=program) from cause
    if done.returncode < 0:
        raise faults.killed(-done.returncode)
    if done.returncode:
        told = done.stderr.decode("utf-8", "replace")
        raise fault_of(done.returncode, told, text, words, list(asks), lambda other: refusal(program, other, timeout))
    return done.stdout.decode("utf-8", "replace")
