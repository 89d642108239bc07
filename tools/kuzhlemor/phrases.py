"""What the page says of registers, steps and ends, as text."""
from typing import Dict, NamedTuple, Optional

from .image import Image, Refused, Registers, segment_name
from .library import FAULT, HALTED, Reply
from .questions import QUESTIONS
from .trace import STEPS_MOST, Entry, Run
from .words import Pointer, instruction_text, number_text


class EntryWords(NamedTuple):
    """A step: what it is called, what it performed and where, what there is to say of it, and all that in a line."""

    title: str
    did: str
    said: str
    summary: str


def counted(number: int, what: str) -> str:
    return f"{number:,} {what}" if number == 1 else f"{number:,} {what}s"


def place_text(segment: int, word: int) -> str:
    return f"{segment_name(segment)}.{word}"


def pointer_text(pointer: Pointer) -> str:
    return f"ring {pointer.ring}, {place_text(pointer.segment, pointer.word)}"


def register_texts(r: Registers) -> Dict[str, str]:
    """The registers that a step may change, by name."""
    texts = {
        "IPR": pointer_text(r.ipr),
        "A": str(r.a) if r.a < 10 else f"{r.a} ({r.a:#x})",
        "DBR": f"address {r.dbr_address}, length {r.dbr_length}",
    }
    texts.update({name: pointer_text(pointer) for name, pointer in r.pointers()[1:]})
    return texts


def switch_text(r: Registers) -> str:
    if r.switch == 0:
        return "switch off: a fault ends the run"
    switch = "switch on" if r.switch == 1 else f"switch {r.switch}"
    return f"{switch}: frames go to {segment_name(r.save)}, the handler is {segment_name(r.handler)}"


def performed_text(word: Optional[int], at: Optional[Pointer]) -> str:
    """The instruction of a word, with its operand's word in its own segment where P is off."""
    if at is None:
        return ""
    if word is None:
        return "no word"
    text = instruction_text(word, lambda offset: place_text(at.segment, at.word + offset & 0xFFFF))
    return text or f"{number_text(word)}, no opcode"


def fault_text(fault: Reply) -> str:
    """Which question says no, of which pointer."""
    return f"Question {fault.number}, asked of {pointer_text(fault.pointer)}: {QUESTIONS[fault.number].asks} No."


def entry_words(entry: Entry) -> EntryWords:
    if entry.before is None:
        return EntryWords("The start", "Nothing has been performed yet.", "", f"Start: {pointer_text(entry.registers.ipr)}")
    did = performed_text(entry.word, entry.before)
    at = pointer_text(entry.before)
    now = pointer_text(entry.registers.ipr)
    title = f"Step {entry.step:,}"
    read = f" It read {counted(entry.pointer_words, 'pointer word')}." if entry.pointer_words else ""
    if entry.is_end:
        fault = f"fault {entry.fault.number}"
        said = f"{fault_text(entry.fault)} The fault ends the run, and nothing was changed."
        said += f"{read[:-1]}, which the total leaves out." if read else ""
        return EntryWords(f"The end: {fault}", f"{did} at {at}", said, f"End: {did} at {at}: {fault}")
    if entry.fault is not None:
        said = f"{fault_text(entry.fault)} The fault was delivered to the handler.{read}"
        summary = f"{title}: {did} at {at}: fault {entry.fault.number} delivered; then {now}"
        return EntryWords(title, f"{did} at {at}", said, summary)
    return EntryWords(title, f"{did} at {at}", read.strip(), f"{title}: {did} at {at}; then {now}")


def _refusal(refused: Refused) -> str:
    place = f", at record {refused.record}, byte {refused.offset}" if refused.asked_of_record() else ""
    return f"Refused with {refused.number}{place}: {refused.why}."


def end_text(image: Image, run: Optional[Run]) -> str:
    """The last line in words."""
    if run is None:
        return _refusal(image.refused)
    end = run.end
    steps = counted(end.count, "step")
    if end.kind == FAULT:
        return f"Fault {end.number} ended the run after {steps}, at {pointer_text(end.pointer)}."
    if end.kind == HALTED:
        return f"HLT ended the run after {steps}."
    if image.budget > STEPS_MOST:
        return f"The page follows the first {steps} of a budget of {image.budget:,}; the run goes on after them."
    return f"The budget of {steps} is spent."


def end_question(image: Image, run: Optional[Run]) -> str:
    """The question behind the end, if there is one."""
    number = image.refused.number if run is None else run.end.number if run.end.kind == FAULT else 0
    return f"Question {number}: {QUESTIONS[number].asks} No." if number else ""
