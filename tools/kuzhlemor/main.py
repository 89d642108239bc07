"""The workbench's commands over files: what is read, written and said, and the status."""
import os
import signal
import stat
import subprocess
import sys
import tempfile
from typing import List, Optional, TextIO

from .assemble import END_OF_TEXT, Assembled, assemble
from .image import BYTES_READ, read_image
from .progress import Progress
from .questions import QUESTIONS, question_text, ranges
from .show import show
from .source import shown

# Statuses: an answer, none, and what was written wrongly, a text or an argument.
DONE, NO_ANSWER, MISTAKES = 0, 1, 2
# More than a text for 8,192 words can need.
SOURCE_MOST = 16_000_000
MISTAKES_MOST = 1000


class Failed(Exception):
    """There is no answer; says why."""


def _named(path: str) -> str:
    return "standard input" if path == "-" else path


def _read(path: str, most: int) -> bytes:
    """A file's first bytes."""
    try:
        if path == "-":
            return sys.stdin.buffer.read(most)
        with open(path, "rb") as file:
            return file.read(most)
    except OSError:
        raise Failed(f"{_named(path)}: can't be read") from None


def _source_text(path: str) -> str:
    data = _read(path, SOURCE_MOST + 1)
    if len(data) > SOURCE_MOST:
        raise Failed(f"{_named(path)}: more than {SOURCE_MOST} bytes are no source")
    # Editors put a mark in front that isn't part of the text.
    return data.decode("utf-8-sig", "replace")


def _excerpt(lines: List[str], line: int, column: int) -> str:
    """The line with a caret below the column; nothing for what is past the end or too long to help."""
    text = lines[line - 1] if line <= len(lines) else ""
    if not text.strip() or len(text) > 200:
        return ""
    text = "".join(c if " " <= c <= "~" else "?" for c in text.rstrip().replace("\t", " "))
    return f"    {text}\n    {' ' * (column - 1)}^\n"


def _say(path: str, text: str, assembled: Assembled) -> None:
    """Mistakes and warnings, each with its place in the text."""
    lines = text.split("\n")
    said = []
    for mistake in assembled.mistakes[:MISTAKES_MOST]:
        said.append(f"{_named(path)}:{mistake.text()}\n")
        if mistake.found != END_OF_TEXT:
            said.append(_excerpt(lines, mistake.line, mistake.column))
    if len(assembled.mistakes) > MISTAKES_MOST:
        said.append(f"{_named(path)}: and {len(assembled.mistakes) - MISTAKES_MOST} mistakes more\n")
    for line, column, warning in assembled.warnings:
        said.append(f"{_named(path)}:{line}:{column}: warning: {warning}\n")
    _note("".join(said))


def _write(path: str, data: bytes) -> None:
    """Writes a file whole or not at all: beside it first, with its permissions; it then takes its place."""
    named, path = path, os.path.realpath(path)
    mask = os.umask(0)
    os.umask(mask)
    mode = 0o666 & ~mask
    part = ""
    try:
        if os.path.exists(path):
            mode = stat.S_IMODE(os.stat(path).st_mode)
        handle, part = tempfile.mkstemp(prefix="kuzhlemor.", dir=os.path.dirname(path))
        with open(handle, "wb") as file:
            file.write(data)
        os.chmod(part, mode)
        os.replace(part, path)
        part = ""
    except OSError:
        raise Failed(f"{named}: can't be written") from None
    finally:
        if part:
            os.unlink(part)


def _put(data: bytes, stream: Optional[TextIO]) -> bool:
    """Past Python's own buffer, of which it would complain once more as it ends. False where that couldn't be."""
    # None where it is closed.
    if stream is None:
        return False
    try:
        while data:
            data = data[os.write(stream.fileno(), data) :]
    except BrokenPipeError:
        # Nobody reads on.
        pass
    except OSError:
        return False
    return True


def _print(data: bytes, what: str) -> None:
    if not _put(data, sys.stdout):
        raise Failed(f"{what} couldn't be written")


def _note(text: str) -> bool:
    """On standard error."""
    return _put(os.fsencode(text), sys.stderr)


def assemble_file(source: str, image: str) -> int:
    if "-" not in (source, image) and os.path.exists(image) and os.path.samefile(source, image):
        raise Failed(f"{image}: is the source itself")
    text = _source_text(source)
    assembled = assemble(text)
    _say(source, text, assembled)
    if assembled.image is None:
        return MISTAKES
    if image == "-":
        _print(assembled.image_bytes(), "the image")
    else:
        _write(image, assembled.image_bytes())
    return DONE


def show_file(path: str) -> int:
    _print(show(read_image(_read(path, BYTES_READ))).encode("ascii"), "the text")
    return DONE


def explain_number(argument: str) -> int:
    """What the question of that number asks, and so on."""
    digits = argument.lstrip("0")
    is_number = argument.isascii() and argument.isdigit()
    question = QUESTIONS.get(int(digits)) if is_number and 0 < len(digits) < 9 else None
    if question is not None:
        _print(question_text(question).encode("ascii"), "the text")
        return DONE
    _note(f"kuzhlemor: explain: {shown(argument)} is no question's number; those are {ranges(QUESTIONS)}\n")
    return MISTAKES


def run_explained(path: str, program: str, library: str) -> int:
    """The program's listing of an image, and then a paragraph on its last line."""
    # Here alone: the other commands do without ctypes, which not every Python has.
    try:
        from .explain import explanation
        from .library import Library
    except ImportError as error:
        raise Failed(f"run --explain: {error}") from None
    if sys.stdout is None:
        raise Failed("the listing couldn't be written")
    data = _read(path, BYTES_READ)
    try:
        proved = Library(library)
        # The program has no status to tell that nobody reads on, or that a disk is full.
        written = subprocess.Popen(["cat"], stdin=subprocess.PIPE, stderr=subprocess.DEVNULL)
        assert written.stdin is not None
        with written.stdin as to:
            ran = subprocess.run([program], input=data, stdout=to, stderr=subprocess.PIPE)
        status = written.wait()
    except OSError as error:
        raise Failed(f"what was built can't be used: {error}") from None
    if ran.stderr:
        raise Failed(ran.stderr.decode("utf-8", "replace").rstrip("\n"))
    if ran.returncode:
        # By a signal it is what a shell would give.
        return ran.returncode if ran.returncode > 0 else 128 - ran.returncode
    if status:
        # As where nobody reads on.
        if status < 0:
            return 128 - status
        raise Failed("the listing couldn't be written")
    return DONE if _note(explanation(read_image(data), proved)) else NO_ANSWER


def page_file(path: str, program: str, library: str) -> int:
    """An image as a page for a browser."""
    try:
        from .library import Library
        from .page import page
        from .trace import Disagreement
    except ImportError as error:
        raise Failed(f"page: {error}") from None
    data = _read(path, BYTES_READ)
    name = _named(path) if path == "-" else os.path.basename(path)
    progress = Progress()
    try:
        text = page(name, data, read_image(data), program, Library(library), progress.say)
    except OSError as error:
        raise Failed(f"what was built can't be used: {error}") from None
    except Disagreement as disagreement:
        raise Failed(f"no page: {disagreement}") from None
    finally:
        progress.end()
    _print(text.encode("utf-8", "replace"), "the page")
    return DONE


def _end(number: int, frame: object) -> None:
    raise KeyboardInterrupt


def main(arguments: List[str]) -> int:
    for number in (signal.SIGTERM, signal.SIGHUP):
        signal.signal(number, _end)
    try:
        if len(arguments) == 3 and arguments[0] == "assemble":
            return assemble_file(arguments[1], arguments[2])
        if len(arguments) == 2 and arguments[0] == "show":
            return show_file(arguments[1])
        if len(arguments) == 2 and arguments[0] == "explain":
            return explain_number(arguments[1])
        if len(arguments) == 4 and arguments[0] == "run":
            return run_explained(*arguments[1:])
        if len(arguments) == 4 and arguments[0] == "page":
            return page_file(*arguments[1:])
        raise Failed(
            "workbench: assemble SOURCE IMAGE, show IMAGE, explain NUMBER, run IMAGE PROGRAM LIBRARY, or page IMAGE PROGRAM LIBRARY"
        )
    except Failed as failed:
        _note(f"kuzhlemor: {failed}\n")
        return NO_ANSWER
    except KeyboardInterrupt:
        return 130
