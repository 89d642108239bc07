"""docs/GUIDE.md as its reader follows it: its files are written, its commands run in one shell, and what they print compared."""
import os
import re
from pathlib import Path
from typing import List, NamedTuple, Tuple

from checks import TOP, check, run

# A block with a file's name in its first line is that file; one of a console has commands after `$ `.
_BLOCK = re.compile(r"^```(\S+)(?: (\S+))?\n(.*?)^```$", re.M | re.S)
_END = "\x01"


class Command(NamedTuple):
    text: str
    printed: str


def _commands(block: str) -> List[Command]:
    parts = re.split(r"^\$ ", block, flags=re.M)[1:]
    return [Command(*part.partition("\n")[::2]) for part in parts]


def _script(guide: str) -> Tuple[str, List[Command]]:
    """The whole guide for a shell, which says where the output of each command ends."""
    lines, commands = ["exec 2>&1"], []
    for kind, name, block in _BLOCK.findall(guide):
        if kind == "console":
            for command in _commands(block):
                commands.append(command)
                lines += [command.text, f"printf '{_END}'"]
        elif name:
            lines += [f"cat > {name} <<'{_END}'", block + _END]
    return "\n".join(lines) + "\n", commands


def check_all(home: Path) -> None:
    """The shell starts in the clone, as the reader does."""
    script, commands = _script((TOP / "docs" / "GUIDE.md").read_text())
    environment = {"HOME": str(home), "PATH": os.environ["PATH"], "LC_ALL": "C"}
    said = run(["sh"], script.encode(), cwd=TOP, env=environment).stdout.decode()
    printed = said.split(_END)
    check(len(commands) > 20, "docs/GUIDE.md: its commands aren't found")
    check(len(printed) == len(commands) + 1, f"docs/GUIDE.md: the shell ended early: {said[-500:]}")
    for command, was in zip(commands, printed):
        check(was == command.printed, f"docs/GUIDE.md: $ {command.text}\nprinted:\n{was}and the guide has:\n{command.printed}")
