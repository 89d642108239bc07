"""A text made into an image: segments numbered and laid out, labels and places resolved, words and registers encoded."""
from bisect import insort
from typing import Dict, List, NamedTuple, Optional, Tuple

from .image import SEGMENT_MOST, Image, Registers, descriptor_question, start_question, write_image
from .source import END, NUMBER, Mistake, Token, found_at, meant, number_of, shown
from .statements import (
    PR_NAMES,
    BrokenWord,
    DescriptorWord,
    Fields,
    InstructionWord,
    InText,
    LabelText,
    NumberWord,
    Operand,
    Place,
    PointerText,
    PointerWord,
    SegmentText,
    Source,
    Word,
    WordText,
    read_source,
)
from .words import Descriptor, Instruction, Pointer, encode_descriptor, encode_instruction, encode_pointer

# Where a statement is missing.
END_OF_TEXT = "the end of the text"


class Section:
    """Where words go: a segment, or memory, whose words are counted by their addresses."""

    def __init__(self, name: str, text: Optional[SegmentText] = None) -> None:
        self.name = name
        self.text = text
        self.number: Optional[int] = None
        self.labels: Dict[str, int] = {}
        self.label_lines: Dict[str, int] = {}
        # The word that comes next, and the end of those that are there.
        self.next_word = 0
        self.end = 0
        self.at: Optional[int] = 0 if text is None else None
        self.length: Optional[int] = None


class Placed(NamedTuple):
    section: Section
    index: int
    word: Word
    token: Token


class Assembled(NamedTuple):
    """An image, if the text has no mistake; what the loader or a use of a segment will refuse is no mistake, but told."""

    image: Optional[Image]
    mistakes: List[Mistake]
    warnings: List[Tuple[int, int, str]]

    def image_bytes(self) -> bytes:
        return write_image(self.image)


def assemble(text: str) -> Assembled:
    mistakes: List[Mistake] = []
    assembler = _Assembler(read_source(text, mistakes), mistakes)
    image = assembler.image()
    if mistakes:
        return Assembled(None, sorted(set(mistakes)), [])
    return Assembled(image, [], assembler.warnings(image))


def _descriptor(fields: Fields, address: int, length: int) -> Descriptor:
    r1, r2, r3 = fields.rings
    flags = fields.flags
    valid = not fields.invalid
    return Descriptor(address, length, r1, r2, r3, "R" in flags, "W" in flags, "E" in flags, valid, fields.gate or 0)


class _Assembler:
    def __init__(self, source: Source, mistakes: List[Mistake]) -> None:
        self.source = source
        self.mistakes = mistakes
        self.memory = Section("memory")
        self.sections: List[Section] = []
        self.named: Dict[str, Section] = {}
        self.numbered: Dict[int, Section] = {}
        self.placed: List[Placed] = []
        self.dbr_address: Optional[int] = 0
        self.dbr_length = 0
        # What is at an address already: the line that put it there.
        self.lines: Dict[int, int] = {}
        self.result = Image()

    def note(self, token: Token, expected: str, found: Optional[str] = None) -> None:
        self.mistakes.append(Mistake(token.line, token.column, found or found_at(token), expected))

    def image(self) -> Image:
        self.number_segments()
        self.place_words()
        self.lay_out()
        self.put_descriptors()
        for placed in self.placed:
            word = self.encode(placed)
            if word is not None:
                self.put(placed, word)
        self.set_rest()
        return self.result

    # Segments: names, numbers and where they lie.

    def number_segments(self) -> None:
        for text in self.source.segments:
            section = Section(text.name.text, text)
            self.sections.append(section)
            earlier = self.named.setdefault(section.name, section)
            if earlier is not section:
                self.note(text.name, f"a name of its own: line {earlier.text.name.line} has it")
            if text.number is not None:
                self.give_number(section, text.number.value, text.number.token)
        free = 0
        for section in self.sections:
            if section.text.number is None:
                while free in self.numbered:
                    free += 1
                self.give_number(section, free, section.text.name)

    def give_number(self, section: Section, number: int, token: Token) -> None:
        if number > SEGMENT_MOST:
            self.note(token, "at most 4096 segments", "one segment more")
            return
        section.number = number
        earlier = self.numbered.setdefault(number, section)
        if earlier is not section:
            self.note(token, f"a number of its own: line {earlier.text.name.line} has it")

    def place_words(self) -> None:
        """Gives each word its place in its section, and each label its word."""
        section: Optional[Section] = None
        is_told = False
        for item in self.source.items:
            if isinstance(item, InText):
                section = self.section_of(item)
                is_told = section is None
            elif section is None:
                is_broken = isinstance(item, WordText) and isinstance(item.word, BrokenWord)
                if not is_told and not is_broken:
                    self.note(item.token, "'in SEGMENT' before the first word")
                is_told = True
            elif isinstance(item, LabelText):
                self.put_label(section, item)
            else:
                if isinstance(item, WordText):
                    self.placed.append(Placed(section, section.next_word, item.word, item.token))
                section.next_word += 1 if isinstance(item, WordText) else item.count
                section.end = max(section.end, section.next_word)

    def section_of(self, item: InText) -> Optional[Section]:
        section: Optional[Section] = self.memory
        if item.segment is not None:
            section = None if item.segment.kind is END else self.declared(item.segment)
        if section is not None and item.word is not None:
            section.next_word = item.word.value
        return section

    def declared(self, token: Token) -> Optional[Section]:
        """The segment of that name or number, which a statement has declared."""
        section = self.named.get(token.text)
        if token.kind is NUMBER:
            section = self.numbered.get(number_of(token.text))
        if section is None:
            self.note(token, "a segment that a segment statement declares" + meant(token.text, self.named))
        return section

    def put_label(self, section: Section, item: LabelText) -> None:
        name = item.token.text
        if section is self.memory:
            self.note(item.token, "no label: memory has none")
        elif name in section.labels:
            self.note(item.token, f"a label of its own: line {section.label_lines[name]} has it in {section.name}")
        else:
            section.labels[name] = section.next_word
            section.label_lines[name] = item.token.line

    def lay_out(self) -> None:
        """Addresses and lengths, given or chosen: the descriptor segment first, then the segments in the text's order, each at the
        lowest address where it lies over nothing else."""
        taken: List[Tuple[int, int]] = []
        for section in self.sections:
            self.set_length(section)
            given = section.text.fields.at
            if given is not None and section.length is not None:
                section.at = given.value
                _occupy(taken, section.at, section.length)
        for placed in self.placed:
            if placed.section is self.memory:
                _occupy(taken, placed.index, 1)
        self.lay_out_descriptors(taken)
        for section in self.sections:
            if section.at is None and section.length is not None:
                section.at = self.room(taken, section.length, section.text.name)

    def set_length(self, section: Section) -> None:
        given = section.text.fields.length
        if section.text.is_broken:
            return
        if given is None and section.end == 0:
            self.note(section.text.name, "some, or its length", f"no words in {shown(section.name)}")
            return
        section.length = section.end if given is None else given.value
        if section.length > 65535:
            self.note(section.text.name, "at most 65535 words", f"{section.length} words in {shown(section.name)}")
            section.length = None

    def lay_out_descriptors(self, taken: List[Tuple[int, int]]) -> None:
        given = self.source.dbr or Fields()
        self.dbr_length = max(self.numbered, default=-1) + 1
        if given.length is not None:
            self.dbr_length = given.length.value
        if given.at is not None:
            self.dbr_address = given.at.value
            _occupy(taken, self.dbr_address, self.dbr_length)
            return
        token = given.length.token if given.length else self.sections[0].text.name if self.sections else None
        if token is not None:
            self.dbr_address = self.room(taken, self.dbr_length, token)

    def room(self, taken: List[Tuple[int, int]], length: int, token: Token) -> Optional[int]:
        """The lowest address with so much room."""
        at = 0
        for first, end in taken:
            if at + length <= first:
                break
            at = max(at, end)
        size = self.source.numbers.get("memory")
        if size is not None and at + length > size.value:
            self.note(token, "more memory, or an address for it", f"no room for {length} words")
            return None
        _occupy(taken, at, length)
        return at

    # Words.

    def put_descriptors(self) -> None:
        for number, section in sorted(self.numbered.items()):
            token = section.text.number.token if section.text.number else section.text.name
            if number >= self.dbr_length:
                self.note(token, f"a number below dbr's length {self.dbr_length}", f"segment {number}")
            elif section.at is not None and section.length is not None and self.dbr_address is not None:
                word = encode_descriptor(_descriptor(section.text.fields, section.at, section.length))
                self.put_at(self.dbr_address + number, word, token, f"the descriptor of segment {number}")

    def put(self, placed: Placed, word: int) -> None:
        section = placed.section
        given = section.text.fields.length if section.text else None
        if given is not None and placed.index >= given.value:
            self.note(placed.token, f"a word below its length {given.value}", f"word {placed.index} of {section.name}")
        elif section.at is not None:
            what = "a word" if section is self.memory else f"word {placed.index} of {section.name}"
            self.put_at(section.at + placed.index, word, placed.token, what)

    def put_at(self, address: int, word: int, token: Token, what: str) -> None:
        size = self.source.numbers.get("memory")
        if size is not None and address >= size.value:
            self.note(token, f"an address below memory's {size.value}", f"{what} at address {address}")
            return
        line = self.lines.setdefault(address, token.line)
        if address in self.result.memory:
            self.note(token, f"each word once: line {line} has put one there", f"{what} at address {address}")
            return
        self.result.memory[address] = word

    def encode(self, placed: Placed) -> Optional[int]:
        """A word; None where it has a mistake."""
        word = placed.word
        if isinstance(word, InstructionWord):
            return self.encode_instruction(word, placed)
        if isinstance(word, NumberWord):
            return word.value
        if isinstance(word, PointerWord):
            pointer = self.pointer(word.pointer, placed.section, SEGMENT_MOST)
            return None if pointer is None else encode_pointer(pointer, word.indirect)
        if isinstance(word, DescriptorWord):
            fields = word.fields
            return encode_descriptor(_descriptor(fields, fields.at.value, fields.length.value))
        return None

    def encode_instruction(self, word: InstructionWord, placed: Placed) -> Optional[int]:
        instruction = Instruction(word.opcode.number, False, 0, 0, False, word.reg, word.lit)
        operand = word.operand
        if operand is not None:
            offset = self.offset(operand, placed)
            if offset is None:
                return None
            p = operand.pr is not None
            instruction = instruction._replace(p=p, prnum=operand.pr or 0, offset=offset & 0xFFFF, i=operand.indirect)
        return encode_instruction(instruction)

    def offset(self, operand: Operand, placed: Placed) -> Optional[int]:
        if not isinstance(operand.offset, Place):
            return operand.offset
        place = operand.offset
        if operand.pr is None and place.segment is not None:
            number = self.segment_number(place.segment, SEGMENT_MOST)
            if number is None:
                return None
            if number != placed.section.number:
                self.note(place.segment, f"a word of {placed.section.name}, or PRn|OFFSET to go to another segment")
                return None
        word = self.word(place, placed.section)
        if word is None or operand.pr is not None:
            return word
        return word - placed.index

    # Places.

    def segment_number(self, token: Token, most: int) -> Optional[int]:
        if token.kind is not NUMBER:
            section = self.declared(token)
            return None if section is None else section.number
        number = number_of(token.text)
        if number is None or number > most:
            self.note(token, f"SEGNO, a number from 0 to {most}, or a segment's name")
            return None
        return number

    def word(self, place: Place, here: Optional[Section]) -> Optional[int]:
        """A place's word number."""
        if place.word.kind is NUMBER:
            word = number_of(place.word.text)
            # What is too large was told as it was read.
            if word is None or word > 65535:
                return None
        else:
            section = here
            if place.segment is not None:
                section = self.numbered.get(number_of(place.segment.text)) if place.segment.kind is NUMBER else None
                section = section or self.named.get(place.segment.text)
            word = section.labels.get(place.word.text) if section is not None else None
            if word is None:
                self.note(place.word, self.label_expected(place, section))
                return None
        if not 0 <= word + place.plus <= 65535:
            self.note(place.word, "a word from 0 to 65535", f"word {word + place.plus}")
            return None
        return word + place.plus

    def label_expected(self, place: Place, section: Optional[Section]) -> str:
        if section is None:
            return f"a word's number: segment {place.segment.text} has no labels"
        if section is self.memory:
            return "no label: memory has none"
        what = f"a label of {section.name}" if place.segment else f"a label of {section.name} or SEGMENT.WORD"
        return what + meant(place.word.text, section.labels)

    def pointer(self, text: PointerText, here: Optional[Section], most: int, ring: int = 0) -> Optional[Pointer]:
        place = text.place
        number: Optional[int]
        if place.segment is not None:
            number = self.segment_number(place.segment, most)
        else:
            number = here.number
            if here is self.memory:
                self.note(place.word, "SEGMENT.WORD: memory has no labels")
                return None
        if number is None:
            return None
        word = self.word(place, here)
        if word is None:
            return None
        return Pointer(ring if text.ring is None else text.ring, number, word)

    # Everything else.

    def set_rest(self) -> None:
        source = self.source
        image = self.result
        registers = image.registers = Registers()
        numbers = source.numbers
        end = Token(END, "", source.last_line + 1, 1)
        for key in ("memory", "budget", "ipr"):
            if key not in source.seen:
                self.note(end, f"{key}, which is missing", END_OF_TEXT)
        image.words = numbers["memory"].value if "memory" in numbers else 0
        image.budget = numbers["budget"].value if "budget" in numbers else 0
        registers.a = numbers["a"].value if "a" in numbers else 0
        registers.switch = numbers["switch"].value if "switch" in numbers else 0
        registers.dbr_address = self.dbr_address or 0
        registers.dbr_length = self.dbr_length
        registers.ipr = self.register("ipr", Pointer(0, 0, 0))
        # A PR that isn't given has IPR's ring, so that 3 passes.
        other = Pointer(registers.ipr.ring, 0, 0)
        registers.prs = [self.register(name, other) for name in PR_NAMES]
        registers.save = self.fault_segment("save")
        registers.handler = self.fault_segment("handler")

    def register(self, name: str, default: Pointer) -> Pointer:
        text = self.source.pointers.get(name)
        if text is None:
            return default
        return self.pointer(text, None, 65535, default.ring) or default

    def fault_segment(self, name: str) -> int:
        token = self.source.fault_segments.get(name)
        return 0 if token is None else self.segment_number(token, 65535) or 0

    def warnings(self, image: Image) -> List[Tuple[int, int, str]]:
        """What is no mistake of the text, but refused later on."""
        told = []
        for section in self.sections:
            d = _descriptor(section.text.fields, section.at, section.length)
            if descriptor_question(d, image.words) == 13:
                told.append((section, f"rings {d.r1} {d.r2} {d.r3} don't go up, so every use is fault 13"))
            if descriptor_question(d, image.words) == 14:
                told.append((section, f"it ends at {d.address + d.length}, past memory's {image.words}, so every use is fault 14"))
        warnings = [(s.text.name.line, s.text.name.column, f"{s.name}: {what}") for s, what in told]
        refused = start_question(image.registers, image.words)
        if refused is not None:
            ipr = self.source.seen["ipr"]
            warnings.append((ipr.line, ipr.column, f"the image will be refused with {refused[0]}: {refused[1]}"))
        return warnings


def _occupy(taken: List[Tuple[int, int]], at: int, length: int) -> None:
    """Keeps the taken stretches in order."""
    if length > 0:
        insort(taken, (at, at + length))
