"""An image's records: read as far as they go, with the question that refuses them, and written in the library's form."""
from typing import Dict, List, NamedTuple, Optional, Tuple

from .words import Descriptor, Pointer, decode_descriptor

MEMORY_MOST = 8192
SEGMENT_MOST = 4095
# With their marks.
RECORD_SIZES = {b"ME": 6, b"ST": 66, b"WD": 14, b"RN": 6}
# No byte after these can change what an image is answered: at the latest its second ME or ST, or its WD past 8,192, is refused.
BYTES_READ = 6 + 66 + 14 * MEMORY_MOST + 66 + 1


class Registers:
    """What ST holds, as it stands there: fields out of range are kept."""

    def __init__(self) -> None:
        self.a = 0
        self.dbr_address = 0
        self.dbr_length = 0
        self.ipr = Pointer(0, 0, 0)
        self.prs: List[Pointer] = [Pointer(0, 0, 0)] * 8
        self.switch = 0
        self.save = 0
        self.handler = 0

    def __eq__(self, other: object) -> bool:
        return isinstance(other, Registers) and self.__dict__ == other.__dict__

    def pointers(self) -> List[Tuple[str, Pointer]]:
        """IPR and the PRs with their names."""
        return [("IPR", self.ipr)] + [(f"PR{k}", pr) for k, pr in enumerate(self.prs)]


class Refused(NamedTuple):
    """The first question that an image answers no. 1 to 4 are asked at RN, whose place then says nothing."""

    number: int
    why: str
    # Counted from 1; the record's first byte, from 0; its first two bytes, fewer where there aren't so many.
    record: int
    offset: int
    mark: bytes

    def asked_of_record(self) -> bool:
        return self.number > 4


class Image:
    """What an image's records give. Where it is refused, as far as they were taken: what hasn't come is None."""

    def __init__(self) -> None:
        self.words: Optional[int] = None
        self.memory: Dict[int, int] = {}
        self.registers: Optional[Registers] = None
        self.budget: Optional[int] = None
        self.refused: Optional[Refused] = None

    def word(self, address: int) -> int:
        return self.memory.get(address, 0)

    def loads_as(self, other: "Image") -> bool:
        """Whether both have the same memory, registers and budget."""
        if (self.words, self.budget, self.registers) != (other.words, other.budget, other.registers):
            return False
        return nonzero_words(self) == nonzero_words(other)


def nonzero_words(image: Image) -> Dict[int, int]:
    return {address: word for address, word in image.memory.items() if word}


def descriptor_words(image: Image) -> Dict[int, int]:
    """The descriptor words that aren't zero, by segment: LENGTH words from DBR's ADDRESS, as far as memory has them."""
    if image.words is None or image.registers is None:
        return {}
    first = image.registers.dbr_address
    end = min(first + min(image.registers.dbr_length, SEGMENT_MOST + 1), image.words)
    memory = image.memory
    return {address - first: memory[address] for address in range(first, end) if memory.get(address)}


def descriptors(image: Image) -> Dict[int, Descriptor]:
    return {number: decode_descriptor(word) for number, word in descriptor_words(image).items()}


def segment_name(number: int) -> str:
    """An image keeps no names: those that are shown come from the numbers."""
    return f"s{number}"


def segment_names(image: Image) -> Dict[int, str]:
    return {number: segment_name(number) for number in descriptor_words(image)}


def descriptor_question(d: Descriptor, words: int) -> int:
    """The first of 12, 13 and 14 that a descriptor answers no, or 0."""
    if not d.valid:
        return 12
    if not d.r1 <= d.r2 <= d.r3:
        return 13
    return 14 if d.address + d.length > words else 0


def start_question(registers: Registers, words: int) -> Optional[Tuple[int, str]]:
    """The first of 2 to 4 that registers and a memory of so many words answer no, and why. (1 can't be: 43 comes before it.)"""
    for name, pointer in registers.pointers():
        if pointer.ring > 7:
            return 2, f"{name}'s ring {pointer.ring} is above 7"
        if pointer.segment > SEGMENT_MOST:
            return 2, f"{name}'s segment {pointer.segment} is above 4095"
    if registers.dbr_address >= 2**24:
        return 2, f"DBR's address {registers.dbr_address} is above 16777215"
    if registers.switch > 1:
        return 2, f"the switch is {registers.switch}, neither 0 nor 1"
    for name, segment in (("save", registers.save), ("handler", registers.handler)):
        if segment > SEGMENT_MOST:
            return 2, f"the {name} segment {segment} is above 4095"
    for name, pointer in registers.pointers():
        if pointer.ring < registers.ipr.ring:
            return 3, f"{name}'s ring {pointer.ring} is below IPR's {registers.ipr.ring}"
    if registers.dbr_length > 4096:
        return 4, f"DBR's length {registers.dbr_length} is above 4096"
    end = registers.dbr_address + registers.dbr_length
    if end > words:
        return 4, f"the descriptor segment ends at address {end}, past memory's {words} words"
    return None


def _number(data: bytes, at: int, size: int) -> int:
    return int.from_bytes(data[at : at + size], "big")


def _pointer(data: bytes, at: int) -> Pointer:
    return Pointer(data[at], _number(data, at + 1, 2), _number(data, at + 3, 2))


def _registers(data: bytes, at: int) -> Registers:
    """From the byte after ST's mark."""
    registers = Registers()
    registers.a = _number(data, at, 8)
    registers.dbr_address = _number(data, at + 8, 4)
    registers.dbr_length = _number(data, at + 12, 2)
    registers.ipr = _pointer(data, at + 14)
    registers.prs = [_pointer(data, at + 19 + 5 * k) for k in range(8)]
    registers.switch = data[at + 59]
    registers.save = _number(data, at + 60, 2)
    registers.handler = _number(data, at + 62, 2)
    return registers


def _order(mark: bytes, image: Image, is_last: bool) -> Optional[str]:
    """Why a whole record is a no to 42, if it is."""
    if mark == b"ME":
        return None if image.words is None else "ME has come already"
    if image.words is None:
        return f"{mark.decode()} comes before ME"
    if mark == b"ST" and image.registers is not None:
        return "ST has come already"
    if mark == b"RN" and image.registers is None:
        return "RN comes before ST"
    if mark == b"RN" and not is_last:
        return "bytes follow RN"
    return None


def _take(mark: bytes, data: bytes, at: int, image: Image) -> Optional[Tuple[int, str]]:
    """Takes a whole record in its place up, unless 43, 44 or 51 refuses it; `at` is the byte after its mark."""
    if mark == b"WD":
        address = _number(data, at, 4)
        if address >= image.words:
            return 44, f"address {address} isn't below memory's {image.words} words"
        if address in image.memory:
            return 51, f"an earlier WD has the address {address}"
        image.memory[address] = _number(data, at + 4, 8)
    elif mark == b"ST":
        image.registers = _registers(data, at)
    elif mark == b"ME":
        words = _number(data, at, 4)
        if words > MEMORY_MOST:
            return 43, f"{words} words are more than 8192"
        image.words = words
    else:
        image.budget = _number(data, at, 4)
        return start_question(image.registers, image.words)
    return None


def _stored_hint(data: bytes, image: Image) -> str:
    """A stored image's ST takes up the next record's first bytes, so that the one after it has no mark."""
    if image.registers is None or data[6:8] != b"ST" or data[67:69] not in RECORD_SIZES:
        return ""
    return "; ST may be a stored image's, of 59 bytes: see kuzhlemor convert"


def read_image(data: bytes) -> Image:
    """An image's content; `refused` says where it ends before its time, and by which question. Never raises."""
    image = Image()
    at = 0
    record = 0

    def refuse(number: int, why: str) -> Image:
        image.refused = Refused(number, why, record, at, data[at : at + 2])
        return image

    while True:
        record += 1
        if at == len(data):
            return refuse(42, "the image ends without RN" if at else "the image is empty")
        mark = data[at : at + 2]
        size = RECORD_SIZES.get(mark)
        if size is None:
            return refuse(41, "no record has this mark" + _stored_hint(data, image))
        left = len(data) - at
        if left < size:
            return refuse(41, f"{mark.decode()} has {left} bytes of {size}")
        why = _order(mark, image, left == size)
        if why is not None:
            return refuse(42, why)
        answer = _take(mark, data, at + 2, image)
        if answer is not None:
            return refuse(*answer)
        if mark == b"RN":
            return image
        at += size


def _pointer_bytes(pointer: Pointer) -> bytes:
    return bytes([pointer.ring]) + pointer.segment.to_bytes(2, "big") + pointer.word.to_bytes(2, "big")


def st_record(registers: Registers) -> bytes:
    parts = [b"ST", registers.a.to_bytes(8, "big"), registers.dbr_address.to_bytes(4, "big")]
    parts.append(registers.dbr_length.to_bytes(2, "big"))
    parts += [_pointer_bytes(pointer) for _, pointer in registers.pointers()]
    parts.append(bytes([registers.switch]) + registers.save.to_bytes(2, "big") + registers.handler.to_bytes(2, "big"))
    return b"".join(parts)


def wd_record(address: int, word: int) -> bytes:
    return b"WD" + address.to_bytes(4, "big") + word.to_bytes(8, "big")


def write_image(image: Image) -> bytes:
    """ME, ST, a WD for each word that isn't zero by address, RN: the form of the library's own writer."""
    parts = [b"ME" + image.words.to_bytes(4, "big"), st_record(image.registers)]
    parts += [wd_record(address, word) for address, word in sorted(image.memory.items()) if word]
    parts.append(b"RN" + image.budget.to_bytes(4, "big"))
    return b"".join(parts)
