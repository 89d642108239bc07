"""Words as document 01 lays them out: descriptors, pointer words, instructions, and the one table of the opcodes."""
from typing import Callable, Dict, List, NamedTuple, Optional, Tuple

WORD_MOST = 2**64 - 1


class Descriptor(NamedTuple):
    """A descriptor's fields; between them they hold every bit of the word."""

    address: int
    length: int
    r1: int
    r2: int
    r3: int
    read: bool
    write: bool
    execute: bool
    valid: bool
    gate: int


class Pointer(NamedTuple):
    """What IPR, each PR and TPR hold. Registers of an image may hold more than a pointer word can."""

    ring: int
    segment: int
    word: int


class Instruction(NamedTuple):
    """An instruction's fields; between them they hold every bit of the word."""

    opcode: int
    p: bool
    prnum: int
    offset: int
    i: bool
    reg: int
    lit: int


class Opcode(NamedTuple):
    """An entry of the table: which fields it uses beside its number. An operand is P, PRNUM, OFFSET and I."""

    number: int
    name: str
    operand: bool = True
    reg: bool = False
    lit: bool = False
    privileged: bool = False


OPCODES = (
    Opcode(1, "LDA"),
    Opcode(2, "STA"),
    Opcode(3, "ADA"),
    Opcode(4, "SBA"),
    Opcode(5, "ANA"),
    Opcode(6, "ORA"),
    Opcode(7, "XRA"),
    Opcode(8, "CNT"),
    Opcode(9, "AOS"),
    Opcode(10, "LDI", operand=False, lit=True),
    Opcode(16, "EAP", reg=True),
    Opcode(17, "SPP", reg=True),
    Opcode(24, "TRA"),
    Opcode(25, "TZE"),
    Opcode(26, "TMI"),
    Opcode(32, "CALL"),
    Opcode(33, "RETURN"),
    Opcode(40, "LDBR", privileged=True),
    Opcode(41, "HLT", operand=False, privileged=True),
    Opcode(42, "RCU", privileged=True),
)
OPCODE_NUMBERED: Dict[int, Opcode] = {opcode.number: opcode for opcode in OPCODES}
OPCODE_NAMED: Dict[str, Opcode] = {opcode.name: opcode for opcode in OPCODES}


def decode_descriptor(word: int) -> Descriptor:
    return Descriptor(
        address=word & 0xFFFFFF,
        length=word >> 24 & 0xFFFF,
        r1=word >> 40 & 7,
        r2=word >> 43 & 7,
        r3=word >> 46 & 7,
        read=bool(word >> 49 & 1),
        write=bool(word >> 50 & 1),
        execute=bool(word >> 51 & 1),
        valid=bool(word >> 52 & 1),
        gate=word >> 53,
    )


def encode_descriptor(d: Descriptor) -> int:
    rings = d.r1 | d.r2 << 3 | d.r3 << 6
    flags = d.read | d.write << 1 | d.execute << 2 | d.valid << 3
    return d.address | d.length << 24 | rings << 40 | flags << 49 | d.gate << 53


def decode_pointer(word: int) -> Pointer:
    """RING, SEGNO and WORDNO; I is bit 31, and bits 32 to 63 are ignored on reading."""
    return Pointer(ring=word >> 28 & 7, segment=word >> 16 & 0xFFF, word=word & 0xFFFF)


def pointer_is_indirect(word: int) -> bool:
    return bool(word >> 31 & 1)


def encode_pointer(pointer: Pointer, indirect: bool = False) -> int:
    return pointer.word | pointer.segment << 16 | pointer.ring << 28 | indirect << 31


def decode_dbr(word: int) -> Tuple[int, int]:
    """DBR's ADDRESS and LENGTH as LDBR reads them; the other bits are ignored."""
    return word & 0xFFFFFF, word >> 24 & 0x1FFF


def decode_instruction(word: int) -> Instruction:
    return Instruction(
        opcode=word >> 24 & 0xFF,
        p=bool(word >> 19 & 1),
        prnum=word >> 16 & 7,
        offset=word & 0xFFFF,
        i=bool(word >> 20 & 1),
        reg=word >> 21 & 7,
        lit=word >> 32,
    )


def encode_instruction(i: Instruction) -> int:
    low = i.offset | i.prnum << 16 | i.p << 19 | i.i << 20 | i.reg << 21
    return low | i.opcode << 24 | i.lit << 32


def opcode_of(word: int) -> Optional[Opcode]:
    """The table's entry for an instruction word, if it has one (32)."""
    return OPCODE_NUMBERED.get(word >> 24 & 0xFF)


def unused_fields(word: int) -> List[str]:
    """The fields of an instruction that aren't zero though its opcode doesn't use them; the instruction's text leaves them out."""
    i = decode_instruction(word)
    opcode = OPCODE_NUMBERED[i.opcode]
    unused = []
    if not opcode.operand:
        unused += [name for name, on in (("P", i.p), ("I", i.i)) if on]
    if i.prnum and not (opcode.operand and i.p):
        unused.append(f"PRNUM {i.prnum}")
    if i.offset and not opcode.operand:
        unused.append(f"OFFSET {i.offset}")
    if i.reg and not opcode.reg:
        unused.append(f"REG {i.reg}")
    if i.lit and not opcode.lit:
        unused.append(f"LIT {i.lit}")
    return unused


def relative_text(offset: int) -> str:
    """An operand with P off as so many words from the instruction."""
    return f"+{offset}" if offset < 0x8000 else f"-{0x10000 - offset}"


def instruction_text(word: int, target: Callable[[int], str] = relative_text) -> Optional[str]:
    """An instruction as the assembler reads it, or None where its opcode isn't in the table. `target` says an OFFSET with P off."""
    i = decode_instruction(word)
    opcode = OPCODE_NUMBERED.get(i.opcode)
    if opcode is None:
        return None
    if opcode.lit:
        return f"{opcode.name} {i.lit}"
    if not opcode.operand:
        return opcode.name
    operand = f"PR{i.prnum}|{i.offset}" if i.p else target(i.offset)
    if i.i:
        operand = f"[{operand}]"
    return f"{opcode.name} PR{i.reg}, {operand}" if opcode.reg else f"{opcode.name} {operand}"


def flags_text(d: Descriptor) -> str:
    """R, W and E as the assembler and a table of brackets have them; V is said apart."""
    letters = ("R" if d.read else "") + ("W" if d.write else "") + ("E" if d.execute else "")
    return letters or "-"


def descriptor_text(d: Descriptor) -> str:
    """A descriptor's fields as the assembler reads them."""
    text = f"at {d.address} length {d.length} rings {d.r1} {d.r2} {d.r3} flags {flags_text(d)}"
    if d.gate:
        text += f" gate {d.gate}"
    return text if d.valid else text + " invalid"


def number_text(word: int) -> str:
    """A word as a number: decimal while a reader can tell it at a glance."""
    return str(word) if word < 1_000_000 else hex(word)
