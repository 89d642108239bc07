"""How an image ends, explained: what the last line of its listing says, with the comparison that said no and both its numbers.
Registers and memory at the end are the proved library's."""
from textwrap import fill
from typing import Callable, Dict, Iterator, Optional, Tuple

from .image import Image, descriptor_question, segment_name
from .library import FAULT, HALTED, SPENT, Library, Machine, Reply
from .questions import WIDTH, ranges
from .show import refusal_text
from .words import (
    OPCODE_NUMBERED,
    Descriptor,
    Pointer,
    decode_dbr,
    decode_descriptor,
    decode_pointer,
    flags_text,
    instruction_text,
    number_text,
    opcode_of,
)

# Steps of the library at a time: a Ctrl-C is heard only between two calls.
STEPS_AT_A_TIME = 2**22
FRAME_WORDS = 13
NOT_FOUND = "none of its comparisons says no, so that this can't be explained"

# Stands for a space at which no line ends.
TIE = "\0"

# Whether a comparison says no, and how that is said.
Comparisons = Iterator[Tuple[bool, str]]


class _Asked:
    """A pointer under question, and the registers and the memory that it is asked of."""

    def __init__(self, machine: Machine, pointer: Pointer, pointer_words: int = 0) -> None:
        self.pointer = pointer
        # How many the instruction has read.
        self.pointer_words = pointer_words
        self.registers = machine.registers()
        self.words = machine.words
        self._memory = machine.memory

    @property
    def ipr(self) -> Pointer:
        return self.registers.ipr

    def descriptor(self, segment: int) -> Optional[Descriptor]:
        """A segment's, unless 11 says no."""
        address = self.registers.dbr_address + segment
        is_there = segment < self.registers.dbr_length and address < self.words
        return decode_descriptor(self._memory[address]) if is_there else None

    def word_at(self, pointer: Pointer, distance: int = 0) -> Optional[int]:
        """The word so far behind a pointer, unless one of 11 to 15 says no."""
        d = self.descriptor(pointer.segment)
        word = pointer.word + distance
        if d is None or descriptor_question(d, self.words) or word >= d.length:
            return None
        return self._memory[d.address + word]

    def instruction(self) -> Optional[int]:
        """The word at IPR, unless its fetch fails by 11 to 15."""
        return self.word_at(self.ipr)

    def opcode_name(self) -> str:
        word = self.instruction()
        opcode = None if word is None else opcode_of(word)
        return opcode.name if opcode else ""


def _segment_number(asked: _Asked, d: Descriptor) -> Comparisons:
    segment, length = asked.pointer.segment, asked.registers.dbr_length
    yield segment >= length, f"segment {segment} isn't below DBR's LENGTH {length}"


def _validity(asked: _Asked, d: Descriptor) -> Comparisons:
    yield not d.valid, "V is off"


def _rings(asked: _Asked, d: Descriptor) -> Comparisons:
    yield d.r1 > d.r2, f"R1 = {d.r1} is above R2 = {d.r2}"
    yield d.r2 > d.r3, f"R2 = {d.r2} is above R3 = {d.r3}"


def _within_memory(asked: _Asked, address: int, length: int) -> Comparisons:
    end = address + length
    yield end > asked.words, f"ADDRESS {address} + LENGTH {length} = {end} is above memory's {asked.words} words"


def _segment_end(asked: _Asked, d: Descriptor) -> Comparisons:
    yield from _within_memory(asked, d.address, d.length)


def _word_number(asked: _Asked, d: Descriptor) -> Comparisons:
    word = asked.pointer.word
    if word < d.length and asked.opcode_name() == "RCU":
        last = word + FRAME_WORDS - 1
        yield last >= d.length, f"word {last}, the last of the frame from word {word} on, isn't below LENGTH {d.length}"
    yield word >= d.length, f"word {word} isn't below LENGTH {d.length}"


def _execute(asked: _Asked, d: Descriptor, ring_name: str = "the effective ring") -> Comparisons:
    ring = asked.pointer.ring
    yield not d.execute, "E is off"
    yield ring > d.r2, f"{ring_name} {ring} is above R2 = {d.r2}"
    yield ring < d.r1, f"{ring_name} {ring} is below R1 = {d.r1}"


def _fetch(asked: _Asked, d: Descriptor) -> Comparisons:
    yield from _execute(asked, d, "IPR's ring")


def _read(asked: _Asked, d: Descriptor) -> Comparisons:
    ring = asked.pointer.ring
    yield not d.read, "R is off"
    yield ring > d.r2, f"the effective ring {ring} is above R2 = {d.r2}"


def _write(asked: _Asked, d: Descriptor) -> Comparisons:
    ring = asked.pointer.ring
    yield not d.write, "W is off"
    yield ring > d.r1, f"the effective ring {ring} is above R1 = {d.r1}"


def _transfer(asked: _Asked, d: Descriptor) -> Comparisons:
    ring = asked.pointer.ring
    yield ring != asked.ipr.ring, f"the effective ring {ring} isn't IPR's ring {asked.ipr.ring}"


def _call_execute(asked: _Asked, d: Descriptor) -> Comparisons:
    yield not d.execute, "E is off"


def _call_gate(asked: _Asked, d: Descriptor) -> Comparisons:
    segment, word = asked.pointer.segment, asked.pointer.word
    text = f"word {word} isn't below GATE {d.gate}, and segment {segment} isn't the instruction's segment {asked.ipr.segment}"
    yield segment != asked.ipr.segment and word >= d.gate, text


def _call_most(asked: _Asked, d: Descriptor) -> Comparisons:
    yield asked.pointer.ring > d.r3, f"the effective ring {asked.pointer.ring} is above R3 = {d.r3}"


def _call_least(asked: _Asked, d: Descriptor) -> Comparisons:
    yield asked.pointer.ring < d.r1, f"the effective ring {asked.pointer.ring} is below R1 = {d.r1}"


def _call_new_ring(asked: _Asked, d: Descriptor) -> Comparisons:
    ring = asked.pointer.ring
    new = min(ring, d.r2)
    text = f"the new ring {new}, the smaller of the effective ring {ring} and R2 = {d.r2}, is above IPR's ring {asked.ipr.ring}"
    yield new > asked.ipr.ring, text


def _chain(asked: _Asked, d: Optional[Descriptor]) -> Comparisons:
    number = asked.pointer_words + 1
    yield number > 64, f"this pointer word would be the instruction's number {number}, which is above 64"


def _opcode(asked: _Asked, d: Descriptor) -> Comparisons:
    word = asked.instruction()
    if word is not None:
        text = f"opcode {word >> 24 & 0xFF} isn't one of the table's, {ranges(OPCODE_NUMBERED)}"
        yield opcode_of(word) is None, text


def _privilege(asked: _Asked, d: Descriptor) -> Comparisons:
    yield asked.ipr.ring != 0, f"{asked.opcode_name()} is privileged, and IPR's ring {asked.ipr.ring} isn't 0"


def _new_dbr(asked: _Asked, d: Descriptor) -> Comparisons:
    word = asked.word_at(asked.pointer, 3 if asked.opcode_name() == "RCU" else 0)
    if word is not None:
        address, length = decode_dbr(word)
        yield length > 4096, f"the new DBR's LENGTH {length} is above 4096"
        for says_no, text in _within_memory(asked, address, length):
            yield says_no, f"the new DBR's {text}"


def _frame_rings(asked: _Asked, d: Descriptor) -> Comparisons:
    frame = [asked.word_at(asked.pointer, k) for k in range(FRAME_WORDS)]
    if None not in frame:
        ring, *rings = [decode_pointer(word).ring for word in frame[4:]]
        least = min(rings)
        yield least < ring, f"the ring {least} of the frame's PR{rings.index(least)} is below its IPR's ring {ring}"


_COMPARISONS: Dict[int, Callable[[_Asked, Descriptor], Comparisons]] = {
    11: _segment_number,
    12: _validity,
    13: _rings,
    14: _segment_end,
    15: _word_number,
    21: _fetch,
    22: _read,
    23: _write,
    24: _transfer,
    25: _execute,
    26: _call_execute,
    27: _call_gate,
    28: _call_most,
    29: _call_least,
    30: _call_new_ring,
    31: _chain,
    32: _opcode,
    33: _privilege,
    34: _new_dbr,
    52: _frame_rings,
}
# Those that need no descriptor: a pointer word that isn't read may be anywhere.
_WITHOUT_DESCRIPTOR = (11, 31)
# Those that are asked of the instruction at IPR, and not of what it uses.
_OF_THE_FETCH = (21, 32, 33)


def _comparison(asked: _Asked, number: int) -> Optional[str]:
    """What a question compares and finds a no; None where it finds none."""
    d = asked.descriptor(asked.pointer.segment)
    if number not in _COMPARISONS or d is None and number not in _WITHOUT_DESCRIPTOR:
        return None
    return _all_no(_COMPARISONS[number](asked, d))


def _all_no(comparisons: Comparisons) -> Optional[str]:
    """All that say no: to mend one of them may not be enough."""
    return ", and ".join(text for says_no, text in comparisons if says_no) or None


def _segment(number: int) -> str:
    return f"segment {number} ({segment_name(number)})"


def _place(pointer: Pointer) -> str:
    return f"in ring {pointer.ring} at word {pointer.word} of {_segment(pointer.segment)}"


def _steps(count: int) -> str:
    return f"{count} step{'' if count == 1 else 's'}"


def _tied(text: str) -> str:
    return text.replace(" ", TIE)


def _fields(asked: _Asked) -> str:
    """What the descriptor of the segment under question says."""
    d = asked.descriptor(asked.pointer.segment)
    if d is None:
        return f"That segment has no descriptor: DBR's LENGTH is {asked.registers.dbr_length}."
    flags = f"flags {flags_text(d)}" + ("" if d.valid else " and V off")
    fields = f"R1 = {d.r1}, R2 = {d.r2}, R3 = {d.r3}, {flags}, LENGTH {d.length}, GATE {d.gate}, ADDRESS {d.address}"
    return f"That segment has {', '.join(map(_tied, fields.split(', ')))}."


def _instruction(asked: _Asked) -> str:
    """Which instruction it is and where it stands; one that couldn't be fetched has only a place."""
    word = asked.instruction()
    place = _place(asked.ipr)
    if word is None:
        return f"An instruction was to be fetched {place}."
    text = instruction_text(word) or f"the word {number_text(word)}"
    read = asked.pointer_words
    chain = f", and has read {read} pointer word{'' if read == 1 else 's'}" if read else ""
    return f"The instruction is {_tied(text)}, {place}{chain}."


def _saving(asked: _Asked, d: Descriptor) -> Comparisons:
    """What is asked of a save segment after 11 to 14."""
    yield d.length < FRAME_WORDS, f"its LENGTH {d.length} is below {FRAME_WORDS}"
    yield not d.write, "its W is off"


def _delivery(asked: _Asked, machine: Machine) -> str:
    """Why a fault wasn't delivered though the switch is on."""
    segment = asked.registers.save
    if not asked.registers.switch:
        return ""
    save = _Asked(machine, Pointer(0, segment, 0))
    d = save.descriptor(segment)
    answers = [_comparison(save, number) for number in (11, 12, 13, 14)]
    if d is not None:
        answers.append(_all_no(_saving(save, d)))
    why = next(filter(None, answers), NOT_FOUND)
    return f"The fault isn't delivered, since the save {_segment(segment)} can't take the frame: {why}."


def _fault(machine: Machine, reply: Reply) -> str:
    number, pointer = reply.number, reply.pointer
    # Taken once more, as a single step, the faulting one says how many pointer words it read.
    asked = _Asked(machine, pointer, machine.step().pointer_words)
    is_fetch = number in _OF_THE_FETCH or asked.instruction() is None
    sentences = (
        f"Fault {number} after {_steps(reply.count)}: {_comparison(asked, number) or NOT_FOUND}.",
        _instruction(asked),
        "" if is_fetch else f"Under question is word {pointer.word} of {_segment(pointer.segment)}, in ring {pointer.ring}.",
        _fields(asked),
        _delivery(asked, machine),
        _more(number),
    )
    return " ".join(filter(None, sentences))


def _more(number: int) -> str:
    return f"See {_tied(f'kuzhlemor explain {number}')}."


def _run(machine: Machine, budget: int) -> Reply:
    """The run's reply, but for its pointer words."""
    count = 0
    while True:
        reply = machine.run(min(budget - count, STEPS_AT_A_TIME))
        count += reply.count
        if reply.kind != SPENT or count == budget:
            return reply._replace(count=count)


def _end(machine: Machine, budget: int) -> str:
    reply = _run(machine, budget)
    ipr = machine.ipr()
    if reply.kind == FAULT:
        return _fault(machine, reply)
    if reply.kind == HALTED:
        halt = ipr._replace(word=ipr.word - 1 & 0xFFFF)
        return f"Halted after {_steps(reply.count)} of a budget of {budget}, by HLT {_place(halt)}."
    if reply.kind == SPENT:
        return f"Spent: the budget of {_steps(budget)} is used up, and the next instruction would be fetched {_place(ipr)}."
    return f"Refused with {reply.number}: {NOT_FOUND}. {_more(reply.number)}"


def explanation(image: Image, library: Library) -> str:
    """One paragraph on the last line of an image's listing."""
    refused = image.refused
    if refused is not None:
        text = f"Refused {refusal_text(refused)}: {refused.why}. {_more(refused.number)}"
    else:
        text = _end(Machine(library, image), image.budget)
    return fill(text, WIDTH, break_long_words=False, break_on_hyphens=False).replace(TIE, " ") + "\n"
