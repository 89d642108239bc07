"""The proved library, called from Python: steps, runs and CALL's check over the registers and the memory of an image."""
import ctypes
from typing import Dict, NamedTuple, Optional, Tuple

from .image import Image, Registers
from .words import Pointer

REFUSED, SPENT, HALTED, FAULT, PASSES = range(5)


class _Pointer(ctypes.Structure):
    _fields_ = [("ring", ctypes.c_uint8), ("segment", ctypes.c_uint16), ("word", ctypes.c_uint16)]

    def plain(self) -> Pointer:
        return Pointer(self.ring, self.segment, self.word)


class _Dbr(ctypes.Structure):
    _fields_ = [("address", ctypes.c_uint32), ("length", ctypes.c_uint16)]


class _Registers(ctypes.Structure):
    _fields_ = [
        ("a", ctypes.c_uint64),
        ("dbr", _Dbr),
        ("ipr", _Pointer),
        ("prs", _Pointer * 8),
        ("fault_switch", ctypes.c_uint16),
        ("save_segment", ctypes.c_uint16),
        ("handler_segment", ctypes.c_uint16),
    ]


class _Reply(ctypes.Structure):
    _fields_ = [
        ("kind", ctypes.c_uint32),
        ("number", ctypes.c_uint32),
        ("count", ctypes.c_uint32),
        ("pointer", _Pointer),
        ("pointer_words", ctypes.c_uint64),
    ]


class _Check(ctypes.Structure):
    _fields_ = [("kind", ctypes.c_uint32), ("number", ctypes.c_uint32), ("ring", ctypes.c_uint32), ("pointer", _Pointer)]


# include/kuzhlemor.h asserts the same sizes.
assert [ctypes.sizeof(record) for record in (_Pointer, _Registers, _Reply, _Check)] == [6, 80, 32, 20]


class Reply(NamedTuple):
    """What a step or a run answers; what a kind doesn't name is 0."""

    kind: int
    number: int
    count: int
    pointer: Pointer
    pointer_words: int


class Check(NamedTuple):
    """What CALL's check answers; what a kind doesn't name is 0."""

    kind: int
    number: int
    ring: int
    pointer: Pointer


class Library:
    """The entries of the library, which the command has proved and linked as a shared object."""

    def __init__(self, path: str) -> None:
        loaded = ctypes.CDLL(path)
        lent = [ctypes.POINTER(_Registers), ctypes.POINTER(ctypes.c_uint64), ctypes.c_size_t]
        self.run = loaded.kuzhlemor_run
        self.run.argtypes, self.run.restype = lent + [ctypes.c_uint32], _Reply
        self.step = loaded.kuzhlemor_step
        self.step.argtypes, self.step.restype = lent, _Reply
        self.may_call = loaded.kuzhlemor_may_call
        self.may_call.argtypes, self.may_call.restype = lent + [ctypes.c_uint8, ctypes.c_uint16, ctypes.c_uint16], _Check


class Machine:
    """Registers and memory as an accepted image gives them, and as the library's steps leave them."""

    def __init__(self, library: Library, image: Image) -> None:
        assert image.refused is None and image.words is not None and image.registers is not None
        self._library = library
        self.words = image.words
        # The library asks for a memory even where it has no words.
        self.memory = (ctypes.c_uint64 * max(self.words, 1))()
        for address, word in image.memory.items():
            self.memory[address] = word
        self._registers = _lent(image.registers)

    def registers(self) -> Registers:
        """As they stand now."""
        lent, plain = self._registers, Registers()
        plain.a, plain.dbr_address, plain.dbr_length = lent.a, lent.dbr.address, lent.dbr.length
        plain.ipr, plain.prs = lent.ipr.plain(), [pr.plain() for pr in lent.prs]
        plain.switch, plain.save, plain.handler = lent.fault_switch, lent.save_segment, lent.handler_segment
        return plain

    def ipr(self) -> Pointer:
        return self._registers.ipr.plain()

    def descriptor_words(self) -> Dict[int, int]:
        """The descriptor words that aren't zero, by segment, as they stand now."""
        dbr = self._registers.dbr
        words = self.memory[dbr.address : min(dbr.address + dbr.length, self.words)]
        return {number: word for number, word in enumerate(words) if word}

    def word_at(self, pointer: Pointer) -> Optional[int]:
        """The word to which a pointer leads, if there is one; whether it may be read isn't asked."""
        dbr, (_, segment, word) = self._registers.dbr, pointer
        if segment >= dbr.length or dbr.address + segment >= self.words:
            return None
        descriptor = self.memory[dbr.address + segment]
        address = (descriptor & 0xFFFFFF) + word
        return self.memory[address] if word < descriptor >> 24 & 0xFFFF and address < self.words else None

    def step(self) -> Reply:
        return _plain(self._library.step(self._registers, self.memory, self.words))

    def step_and_fault(self) -> Tuple[Reply, Optional[Reply]]:
        """A step's reply, and the fault that it delivered or ended with. It is tried with the switch off first: a fault then
        changes nothing and says its number and pointer, and any other step is the same with the switch on."""
        lent = self._registers
        switch, lent.fault_switch = lent.fault_switch, 0
        reply = self.step()
        lent.fault_switch = switch
        if reply.kind != FAULT:
            return reply, None
        return (self.step() if switch else reply), reply

    def run(self, budget: int) -> Reply:
        return _plain(self._library.run(self._registers, self.memory, self.words, budget))

    def may_call(self, segment: int, word: int, ring: Optional[int] = None) -> Check:
        """Whether a CALL at IPR may go there; with no ring given, in IPR's."""
        ring = self._registers.ipr.ring if ring is None else ring
        check = self._library.may_call(self._registers, self.memory, self.words, ring, segment, word)
        return Check(check.kind, check.number, check.ring, check.pointer.plain())


def _plain(reply: _Reply) -> Reply:
    return Reply(reply.kind, reply.number, reply.count, reply.pointer.plain(), reply.pointer_words)


def _lent(plain: Registers) -> _Registers:
    lent = _Registers()
    lent.a, lent.dbr = plain.a, _Dbr(plain.dbr_address, plain.dbr_length)
    lent.ipr = _Pointer(*plain.ipr)
    for k, pr in enumerate(plain.prs):
        lent.prs[k] = _Pointer(*pr)
    lent.fault_switch, lent.save_segment, lent.handler_segment = plain.switch, plain.save, plain.handler
    return lent
