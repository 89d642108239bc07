"""What the workbench's tests share: answers checked and counted, the command and the proved programs."""
import errno
import shutil
import signal
import subprocess
import sys
import tempfile
from pathlib import Path
from typing import Optional, Sequence

TOP = Path(__file__).resolve().parent.parent.parent
COMMAND = str(TOP / "kuzhlemor")
EXAMPLES = TOP / "examples"
LIBRARY = TOP / "target" / "kuzhlemor.so"

_count = 0


def counted() -> int:
    """How many answers were as expected."""
    return _count


def blame() -> None:
    """Says where a test that fails has met a full disk."""
    for folder in (TOP, tempfile.gettempdir()):
        left = shutil.disk_usage(folder).free >> 20
        if left < 64:
            print(f"tests/workbench: the disk of {folder} has only {left} MB left: that is the machine's fault, not the project's", file=sys.stderr)


def fail(what: str) -> None:
    print(f"tests/workbench: {what}", file=sys.stderr)
    blame()
    sys.exit(1)


def needs(*tools: str) -> None:
    for tool in tools:
        if not shutil.which(tool):
            print(
                f"tests/workbench: this machine has no {tool}, and nothing was tested: that is the machine's fault, not the project's",
                file=sys.stderr,
            )
            sys.exit(1)


def end_by(kind, error, trace) -> None:
    sys.__excepthook__(kind, error, trace)
    if isinstance(error, OSError) and error.errno == errno.ENOSPC:
        blame()


sys.excepthook = end_by


def check(holds: bool, what: str) -> None:
    global _count
    _count += 1
    if not holds:
        fail(what)


def run(arguments: Sequence[object], data: Optional[bytes] = None, **options) -> subprocess.CompletedProcess:
    if data is not None:
        options["input"] = data
    return subprocess.run([str(argument) for argument in arguments], capture_output=True, **options)


def command(status: int, *arguments: object, data: Optional[bytes] = None, **options) -> subprocess.CompletedProcess:
    """What the command answers; its status must be this one, and it may not end with a trace."""
    answer = run([COMMAND, *arguments], data, **options)
    said = answer.stderr.decode()
    check(answer.returncode == status, f"{arguments}: status {answer.returncode}, not {status}: {said}")
    check("Traceback" not in said, f"{arguments}: {said}")
    return answer


def says(answer: subprocess.CompletedProcess, what: str) -> None:
    check(what in answer.stderr.decode(), f"{answer.args}: standard error says: {answer.stderr.decode()}")


def built(name: str) -> Path:
    """Where rt puts a program."""
    return TOP / "crates" / name / "out" / name


def program(name: str, data: bytes) -> str:
    return run([built(name)], data).stdout.decode()


def heed_interrupts() -> None:
    """For a program that is about to start: what a shell has in the background, as the gate has these tests, ignores a Ctrl-C."""
    signal.signal(signal.SIGINT, signal.SIG_DFL)
