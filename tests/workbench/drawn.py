"""Images drawn with a seed, as wild as those of the comparison: descriptors valid and broken, over each other and over code and
descriptors; words of every kind; registers in and out of range; records in any order, and damaged."""
from random import Random
from typing import List

from kuzhlemor.image import Image, Registers, descriptor_question, descriptors, st_record, wd_record
from kuzhlemor.words import (
    OPCODES,
    Descriptor,
    Instruction,
    Pointer,
    decode_descriptor,
    decode_instruction,
    encode_descriptor,
    encode_instruction,
    encode_pointer,
)

OPCODE_NUMBERS = [opcode.number for opcode in OPCODES]


def _size(random: Random) -> int:
    draw = random.random()
    if draw < 0.001:
        return random.choice((0, 1, 8191, 8192))
    if draw < 0.002:
        return random.randint(4090, 4300)
    if draw < 0.02:
        return random.randint(257, 600)
    return random.randint(97, 256) if draw < 0.1 else random.randint(16, 72)


def _instruction(random: Random) -> int:
    """Half of them as an assembler would write them, the others with fields that their opcode doesn't use."""
    bits = random.getrandbits(64)
    opcode = random.choice(OPCODES) if bits & 63 else None
    number = opcode.number if opcode else bits >> 56
    p = bits >> 6 & 3 != 0
    offset = bits >> 8 & 7 if bits >> 11 & 15 else bits >> 16 & 0xFFFF
    lit = bits >> 32 & 0xFF if bits >> 40 & 3 else bits >> 20 & 0xFFFFFFFF
    i = Instruction(number, p, bits >> 44 & 7, offset, bits >> 47 & 3 == 0, bits >> 49 & 7, lit)
    if opcode is None or bits >> 62 == 0:
        return encode_instruction(i)
    if not opcode.operand:
        i = i._replace(p=False, offset=0, i=False)
    return encode_instruction(
        i._replace(prnum=i.prnum if i.p else 0, reg=i.reg if opcode.reg else 0, lit=i.lit if opcode.lit else 0)
    )


def _pointer(random: Random, segments: int) -> int:
    bits = random.getrandbits(64)
    pointer = Pointer(bits & bits >> 3 & 7, (bits >> 8 & 0xFF) % segments, bits >> 16 & 15)
    return encode_pointer(pointer, bits >> 20 & 3 == 0) | (bits >> 24 & 0xFFFFFFFF) << 32 * (bits >> 60 == 0)


def _word(random: Random, segments: int) -> int:
    draw = random.getrandbits(4)
    if draw < 4:
        return _pointer(random, segments)
    if draw < 10:
        return _instruction(random)
    if draw < 12:
        return random.getrandbits(8)
    if draw == 12:
        return random.choice((random.getrandbits(64), 2**64 - 1, 2**63, 0xFFFF, 0x10000, 999_999, 1_000_000))
    return 0


def _descriptor(random: Random, words: int, table_end: int) -> int:
    rings = sorted(random.getrandbits(3) for _ in range(3))
    length = 1 + random.randrange(max(1, min(40, words // 2)))
    first = table_end if random.random() < 0.9 and table_end + length < words else 0
    address = first + random.randrange(max(1, words - length - first + 1))
    flags = [random.random() < 0.75 for _ in range(3)]
    return encode_descriptor(Descriptor(address, length, *rings, *flags, True, random.randrange(length + 2)))


def _damaged_descriptor(random: Random, word: int, words: int) -> int:
    d = decode_descriptor(word)
    draw = random.randrange(8)
    if draw == 0:
        d = d._replace(valid=False)
    elif draw == 1:
        d = d._replace(r1=random.getrandbits(3))
    elif draw == 2:
        d = d._replace(r2=random.getrandbits(3))
    elif draw == 3:
        d = d._replace(length=0, address=min(2**24 - 1, words + random.randrange(2)))
    elif draw == 4:
        d = d._replace(address=random.getrandbits(24))
    elif draw == 5:
        d = d._replace(length=random.getrandbits(16))
    elif draw == 6:
        d = d._replace(gate=random.getrandbits(11))
    else:
        return random.getrandbits(64)
    return encode_descriptor(d)


def _spoil(random: Random, registers: Registers, words: int) -> None:
    """One thing of the registers so that 2, 3 or 4 may be no, or their numbers extreme."""
    draw = random.randrange(12)
    k = random.randrange(8)
    if draw == 0:
        registers.prs[k] = registers.prs[k]._replace(ring=random.getrandbits(8))
    elif draw == 1:
        registers.prs[k] = registers.prs[k]._replace(segment=random.choice((4094, 4095, 4096, 65535)))
    elif draw == 2:
        registers.ipr = registers.ipr._replace(ring=random.getrandbits(8))
    elif draw == 3:
        registers.ipr = registers.ipr._replace(segment=random.choice((4095, 4096, 65535)), word=65535)
    elif draw == 4:
        registers.dbr_address = random.choice((2**24 - 1, 2**24, 2**32 - 1, 2**31))
    elif draw == 5:
        registers.dbr_length = random.choice((0, 4095, 4096, 4097, 65535))
    elif draw == 6:
        registers.dbr_address = max(0, words - registers.dbr_length) + random.randrange(3)
    elif draw == 7:
        registers.prs[k] = registers.prs[k]._replace(ring=max(0, registers.ipr.ring - 1))
    elif draw == 8:
        registers.switch = random.choice((2, 3, 128, 255))
    elif draw == 9:
        registers.save = random.choice((4095, 4096, 65535))
    elif draw == 10:
        registers.handler = random.choice((4095, 4096, 65535))
    else:
        registers.prs = [Pointer(random.getrandbits(8), random.getrandbits(16), random.getrandbits(16)) for _ in range(8)]


def _registers(random: Random, image: Image, segments: int) -> None:
    registers = image.registers
    ring = random.getrandbits(3)
    registers.a = random.choice((0, random.getrandbits(8), random.getrandbits(64), 1 << random.getrandbits(6)))
    registers.ipr = Pointer(ring, random.randrange(segments), random.randrange(16))
    for k in range(8):
        pr_ring = max(ring, random.getrandbits(3)) if random.random() < 0.3 else ring
        registers.prs[k] = Pointer(pr_ring, random.randrange(segments), random.randrange(16))
    if random.random() < 0.5:
        registers.prs[random.randrange(8)] = Pointer(ring, 0, 0)
    if random.random() < 0.5:
        registers.switch = random.getrandbits(1)
        registers.save = random.randrange(segments + 1)
        registers.handler = random.randrange(segments + 1)


def machine(random: Random, budget_most: int = 2**32 - 1) -> Image:
    """A memory, registers and a budget."""
    image = Image()
    words = image.words = _size(random)
    registers = image.registers = Registers()
    segments = random.randint(2, 24 if words > 100 else 9)
    if words < segments:
        segments = max(1, words)
    table = random.choice((0, 0, 0, random.randrange(9), max(0, words - segments), random.randrange(max(1, words - segments + 1))))
    registers.dbr_address = table
    registers.dbr_length = segments if random.random() < 0.95 else random.randrange(2 * segments)
    step = 37 if words > 1000 and random.random() < 0.9 else 1
    density = random.choice((0.2, 0.5, 1.0))
    for address in range(0, words, step):
        if random.random() < density:
            image.memory[address] = _word(random, segments)
    for number in range(segments):
        if table + number < words:
            word = _descriptor(random, words, table + segments) if random.random() < 0.9 else 0
            if random.random() < 0.06:
                word = _damaged_descriptor(random, word, words)
            image.memory[table + number] = word
    _registers(random, image, segments)
    image.budget = min(budget_most, random.choice((0, 9, 100, random.getrandbits(32))))
    if random.random() < 0.1:
        _spoil(random, registers, words)
    return image


def _put_operand(random: Random, image: Image, opcode: int, pointer: Pointer, address: int) -> None:
    """What is seldom drawn: a pointer word that leads to itself, and for RCU a frame with a DBR that passes 34."""
    if opcode == 42:
        words = [random.getrandbits(3) << 28 for _ in range(13)]
        words[3] = image.registers.dbr_address | image.registers.dbr_length << 24
    else:
        words = [encode_pointer(pointer, indirect=True)]
    for k, word in enumerate(words):
        if address + k < image.words:
            image.memory[address + k] = word


def runnable(random: Random, budget_most: int) -> Image:
    """A machine whose first instruction can be fetched, mostly in ring 0 if it is privileged, and whose PRs point to words that are
    there; if it has segments for that."""
    image = machine(random, budget_most)
    word = _instruction(random)
    instruction = decode_instruction(word)
    found = [(n, d) for n, d in descriptors(image).items() if d.length and descriptor_question(d, image.words) == 0]
    programs = [(n, d) for n, d in found if d.execute]
    if instruction.opcode >= 40:
        programs = [(n, d) for n, d in programs if d.r1 == 0] or programs
    if not programs:
        return image
    number, d = random.choice(programs)
    registers = image.registers
    registers.ipr = Pointer(random.choice((d.r1, random.randint(d.r1, d.r2))), number, random.randrange(d.length))
    image.memory[d.address + registers.ipr.word] = word
    for k in range(8):
        number, operand = random.choice(found)
        ring = max(registers.ipr.ring, random.choice((0, 0, random.getrandbits(3))))
        registers.prs[k] = Pointer(ring, number, random.randrange(min(operand.length, 4)))
        if instruction.p and instruction.prnum == k and instruction.offset == 0:
            _put_operand(random, image, instruction.opcode, registers.prs[k], operand.address + registers.prs[k].word)
    return image


def records(random: Random, image: Image) -> List[bytes]:
    """A machine's records: ME, ST somewhere, its words in some order, some of them zero, RN."""
    words = [wd_record(address, word) for address, word in image.memory.items() if word or random.random() < 0.1]
    if random.random() < 0.3:
        random.shuffle(words)
    place = 0 if random.random() < 0.5 else random.randrange(len(words) + 1)
    words.insert(place, st_record(image.registers))
    return [b"ME" + image.words.to_bytes(4, "big"), *words, b"RN" + image.budget.to_bytes(4, "big")]


def damaged(random: Random, parts: List[bytes]) -> bytes:
    """Records exchanged, dropped or doubled, bytes cut, changed or added; often several of these."""
    parts = list(parts)
    one, other = random.randrange(len(parts)), random.randrange(len(parts))
    draw = random.randrange(6)
    if draw == 0:
        parts[one], parts[other] = parts[other], parts[one]
    elif draw == 1:
        del parts[one]
    elif draw == 2:
        parts.insert(other, parts[one])
    elif draw == 3:
        parts = [part[:61] if part.startswith(b"ST") else part for part in parts]
    data = bytearray(b"".join(parts))
    draw = random.randrange(5)
    if draw == 0:
        del data[random.randrange(len(data) + 1) :]
    elif draw == 1 and data:
        data[random.randrange(len(data))] = random.getrandbits(8)
    elif draw == 2 and data:
        data[random.randrange(min(72, len(data)))] ^= 1 << random.getrandbits(3)
    elif draw == 3:
        data += random.getrandbits(16).to_bytes(2, "big")[: 1 + random.getrandbits(1)]
    return bytes(data)
