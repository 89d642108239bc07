"""What is followed of an image's run: every step by the proved library, compared line by line with the proved program's listing;
which steps are kept where there are many; and what is known of those."""
import io
import subprocess
from typing import Callable, Iterator, List, NamedTuple, Optional, Sequence, Tuple

from .image import Image, Registers
from .library import FAULT, HALTED, SPENT, Library, Machine, Reply
from .words import OPCODE_NAMED, Pointer

# A longer budget is lowered to this.
STEPS_MOST = 1_000_000
NOTHING, CALL, RETURN, DELIVERED = range(4)
_EVENTS = {OPCODE_NAMED["CALL"].number: CALL, OPCODE_NAMED["RETURN"].number: RETURN}
# Of the steps that are kept a quarter each: the first, the last, those with an event or another ring, and evenly spaced ones.
QUARTERS = 4
_SAID_EVERY = 1 << 14


class Disagreement(Exception):
    """The library and the program answer differently, or the program has no answer; says which."""


class Run:
    """All steps that were followed. Index 0 of the three is the start, k is after step k."""

    def __init__(self, start: Pointer) -> None:
        self.rings = bytearray([start.ring])
        self.pointer_words = bytearray([0])
        self.events = bytearray([NOTHING])
        self.total = 0
        self.end: Optional[Reply] = None
        self.last_line = ""

    def count(self) -> int:
        return len(self.rings) - 1

    def is_fault(self) -> bool:
        return self.end is not None and self.end.kind == FAULT

    def moves(self) -> List[int]:
        """The steps with an event, or after which the ring is another."""
        rings, events = self.rings, self.events
        return [k for k in range(1, len(rings)) if events[k] or rings[k] != rings[k - 1]]


def listing_of(program: str, data: bytes) -> bytes:
    """What the proved program prints for an image."""
    try:
        answer = subprocess.run([program], input=data, capture_output=True)
    except OSError:
        raise Disagreement(f"{program}: can't be run") from None
    if answer.returncode or answer.stderr:
        raise Disagreement(f"{program}: gave no answer")
    return answer.stdout


def with_budget(data: bytes, budget: int) -> bytes:
    """An accepted image, which ends with its budget, with another one."""
    return data[:-4] + budget.to_bytes(4, "big")


def _last_line(end: Reply, total: int) -> str:
    if end.kind == FAULT:
        ring, segment, word = end.pointer
        return f"fault {end.number} {end.count} {ring} {segment} {word} {total}"
    return f"{'halted' if end.kind == HALTED else 'spent'} {end.count} {total}"


def follow(library: Library, image: Image, data: bytes, program: str, say: Callable[[str], None]) -> Run:
    """Takes an accepted image's steps one by one; each must be the listing's."""
    budget = min(image.budget, STEPS_MOST)
    listing = io.BytesIO(listing_of(program, with_budget(data, budget)))
    machine = Machine(library, image)
    ipr = machine.ipr()
    run = Run(ipr)
    end = Reply(SPENT, 0, budget, Pointer(0, 0, 0), 0)
    for step in range(1, budget + 1):
        word = machine.word_at(ipr)
        reply, fault = machine.step_and_fault()
        if reply.kind == FAULT:
            end = reply._replace(count=step - 1)
            break
        ipr = machine.ipr()
        if listing.readline() != b"%d %d %d %d %d\n" % (step, *ipr, reply.pointer_words):
            raise Disagreement(f"the library and the listing differ at step {step}")
        run.rings.append(ipr.ring)
        run.pointer_words.append(reply.pointer_words)
        run.events.append(event_of(word, fault))
        if reply.kind == HALTED:
            end = reply._replace(count=step)
            break
        if step % _SAID_EVERY == 0:
            say(f"{step} of {budget} steps")
    run.end, run.total = end, sum(run.pointer_words)
    run.last_line = _last_line(end, run.total)
    if listing.read() != run.last_line.encode() + b"\n":
        raise Disagreement("the library and the listing's last line differ")
    return run


def event_of(word: Optional[int], fault: Optional[Reply]) -> int:
    """What a completed step was, by the word at IPR before it."""
    if fault is not None:
        return DELIVERED
    return NOTHING if word is None else _EVENTS.get(word >> 24 & 0xFF, NOTHING)


class Kept(NamedTuple):
    """The steps that are kept, 0 for the start among them, and why."""

    steps: List[int]
    # How many of the first, of the last, of the moves and of those evenly spaced; the moves of the whole run. 0 where all are kept.
    each: int
    moves: int


def spaced(items: Sequence[int], most: int) -> Sequence[int]:
    """At most so many, evenly spaced, the first among them."""
    if len(items) <= most:
        return items
    return [items[k * len(items) // most] for k in range(most)]


def keep(run: Run, most: int) -> Kept:
    """The steps to keep; the start and the last are always among them."""
    count = run.count()
    if count < most:
        return Kept(list(range(count + 1)), 0, 0)
    each = max(most // QUARTERS, 1)
    moves = run.moves()
    chosen = {*range(each), *range(count + 1 - each, count + 1), *spaced(moves, each), *spaced(range(count + 1), each)}
    return Kept(sorted(chosen), each, len(moves))


class Entry(NamedTuple):
    """The start, a completed step, or the fault that ends the run; what stands after it, and where it was before."""

    step: int
    is_end: bool
    pointer_words: int
    event: int
    before: Optional[Pointer]
    word: Optional[int]
    fault: Optional[Reply]
    registers: Registers


def entries(library: Library, image: Image, run: Run, steps: Sequence[int]) -> Iterator[Tuple[Entry, Machine]]:
    """What is known of each step that is kept, with the machine as it stands after it. What lies between is run in one go."""
    machine = Machine(library, image)
    done = 0
    for step in steps:
        if step == 0:
            yield Entry(0, False, 0, NOTHING, None, None, None, machine.registers()), machine
            continue
        machine.run(step - 1 - done)
        done = step
        before = machine.ipr()
        word = machine.word_at(before)
        reply, fault = machine.step_and_fault()
        if machine.ipr().ring != run.rings[step]:
            raise Disagreement(f"the library's runs and steps differ at step {step}")
        yield Entry(step, False, reply.pointer_words, event_of(word, fault), before, word, fault, machine.registers()), machine
    if run.is_fault():
        end, at = run.end, machine.ipr()
        yield Entry(done + 1, True, end.pointer_words, NOTHING, at, machine.word_at(at), end, machine.registers()), machine
