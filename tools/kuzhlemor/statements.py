"""The text's statements, one a line: what each is made of, not yet what its names stand for."""
from typing import Callable, Dict, List, NamedTuple, Optional, Sequence, Union

from .image import MEMORY_MOST, SEGMENT_MOST
from .source import END, NAME, NUMBER, SIGN, Line, Mistake, Token, Wrong, listed, meant, shown
from .words import OPCODE_NAMED, WORD_MOST, Opcode

PR_NAMES = tuple(f"pr{k}" for k in range(8))
ATTRIBUTES = ("at", "length", "rings", "flags", "gate", "invalid")
PLACE = "SEGMENT.WORD"
OPERAND = "an operand: PRn|OFFSET, a label, SEGMENT.WORD, +N or -N, or one of these in [ ]"


class Given(NamedTuple):
    """A number, and where it stands."""

    value: int
    token: Token


class Place(NamedTuple):
    """A word of a segment: SEGMENT.WORD, or a label of the segment that is being written. `word` is a number or a label."""

    segment: Optional[Token]
    word: Token
    plus: int


class Operand(NamedTuple):
    """PRn|OFFSET, with `pr`, or a place or a distance in words with P off. The offset is a number or a place."""

    pr: Optional[int]
    offset: Union[int, Place]
    indirect: bool


class PointerText(NamedTuple):
    ring: Optional[int]
    place: Place


class NumberWord(NamedTuple):
    value: int


class PointerWord(NamedTuple):
    pointer: PointerText
    indirect: bool


class InstructionWord(NamedTuple):
    opcode: Opcode
    reg: int
    lit: int
    operand: Optional[Operand]


class BrokenWord(NamedTuple):
    """A word whose statement has a mistake: it keeps its place."""


class Fields:
    """A descriptor's fields as far as they are given."""

    def __init__(self) -> None:
        self.at: Optional[Given] = None
        self.length: Optional[Given] = None
        self.rings: Optional[List[int]] = None
        self.flags: Optional[str] = None
        self.gate: Optional[int] = None
        self.invalid = False


class DescriptorWord(NamedTuple):
    fields: Fields


Word = Union[NumberWord, PointerWord, InstructionWord, DescriptorWord, BrokenWord]


class SegmentText:
    """A segment statement. One with a mistake keeps its name, and its number if it has one."""

    def __init__(self, number: Optional[Given], name: Token) -> None:
        self.number = number
        self.name = name
        self.fields = Fields()
        self.is_broken = True


class InText(NamedTuple):
    """Where the words that follow go. `segment` is None for memory, and `word` where the last ones there ended; a statement with a
    mistake has a token END."""

    segment: Optional[Token]
    word: Optional[Given]
    token: Token


class LabelText(NamedTuple):
    token: Token


class SkipText(NamedTuple):
    count: int
    token: Token


class WordText(NamedTuple):
    word: Word
    token: Token


Item = Union[InText, LabelText, SkipText, WordText]


class Source:
    """What the text says."""

    def __init__(self) -> None:
        self.numbers: Dict[str, Given] = {}
        self.pointers: Dict[str, PointerText] = {}
        self.fault_segments: Dict[str, Token] = {}
        self.dbr: Optional[Fields] = None
        self.segments: List[SegmentText] = []
        self.items: List[Item] = []
        # The statements that may be there once, by their names: where each stands.
        self.seen: Dict[str, Token] = {}
        self.last_line = 0


def _attribute(line: Line, fields: Fields, key: str) -> None:
    if key == "at":
        token = line.peek()
        fields.at = Given(line.number_needed("ADDRESS", 2**24 - 1), token)
    elif key == "length":
        token = line.peek()
        fields.length = Given(line.number_needed("LENGTH", 65535), token)
    elif key == "rings":
        fields.rings = [line.number_up_to(ring, 7) for ring in ("R1", "R2", "R3")]
    elif key == "flags":
        fields.flags = _flags(line)
    elif key == "gate":
        fields.gate = line.number_up_to("GATE", 2047)
    else:
        fields.invalid = True


def _flags(line: Line) -> str:
    """Letters of R, W and E, each once; a wrong letter has the column of its own."""
    expected = "FLAGS: letters of R, W and E, each once, or - for none"
    if line.skip("-"):
        return ""
    token = line.name(expected)
    letters = token.text.upper()
    for k, letter in enumerate(letters):
        if letter not in "RWE" or letter in letters[:k]:
            line.note(token._replace(column=token.column + k), expected, shown(token.text[k]))
            return ""
    return letters


def _fields(line: Line, fields: Fields, needed: Sequence[str]) -> None:
    """The attributes up to the line's end, in any order, each once; the needed ones are said with their numbers."""
    given: List[str] = []
    while line.peek().kind is not END:
        key = line.peek().text.lower()
        left = [name for name in ATTRIBUTES if name not in given]
        if key not in left:
            line.fail(listed(left + ["the end of the line"]))
        line.take()
        given.append(key)
        _attribute(line, fields, key)
    for attribute in needed:
        if attribute.split()[0] not in given:
            line.fail(attribute)


def _place(line: Line, needs_segment: bool) -> Place:
    first = line.peek()
    what = PLACE if needs_segment else f"a label or {PLACE}"
    if first.kind is not NAME and first.kind is not NUMBER:
        line.fail(what)
    line.take()
    segment = None
    if line.skip("."):
        segment = first
        first = line.peek()
        if first.kind is not NAME and first.kind is not NUMBER:
            line.fail("a label or a word's number")
        line.take()
    elif needs_segment:
        line.fail(f"'.' and a word, for {PLACE}")
    elif first.kind is NUMBER:
        line.fail(what, first)
    if first.kind is NUMBER:
        line.number_token(first, "WORDNO", 65535)
    return Place(segment, first, _plus(line))


def _plus(line: Line) -> int:
    if line.skip("+"):
        return line.number_up_to("a distance", 65535)
    return -line.number_up_to("a distance", 65535) if line.skip("-") else 0


def _pointer(line: Line, needs_ring: bool, needs_segment: bool, ring_most: int) -> PointerText:
    ring = None
    if line.next_is("ring") and line.after_next().text != ".":
        line.take()
        ring = line.number_up_to("RING", ring_most)
    elif needs_ring:
        line.fail("'ring'")
    return PointerText(ring, _place(line, needs_segment))


def _pr(line: Line) -> int:
    token = line.peek()
    if token.text.lower() not in PR_NAMES:
        line.fail("PR0 to PR7")
    line.take()
    return int(token.text[2:])


def _bare_operand(line: Line) -> Operand:
    """Without the brackets that put I on."""
    token = line.peek()
    if token.text.lower() in PR_NAMES:
        pr = _pr(line)
        line.need("|", "'|' and an offset")
        if line.peek().kind is NAME or line.after_next().text == ".":
            return Operand(pr, _place(line, False), False)
        return Operand(pr, line.number_up_to("OFFSET", 65535, -32768), False)
    if token.kind is SIGN and token.text in "+-":
        return Operand(None, _plus(line), False)
    if line.after_next().text == "|":
        line.fail("PR0 to PR7")
    if token.kind is not NAME and line.after_next().text != ".":
        line.fail(OPERAND)
    return Operand(None, _place(line, False), False)


def _operand(line: Line) -> Operand:
    if not line.skip("["):
        return _bare_operand(line)
    operand = _bare_operand(line)
    line.need("]")
    return operand._replace(indirect=True)


def _instruction(line: Line, opcode: Opcode) -> InstructionWord:
    reg = lit = 0
    operand = None
    if opcode.reg:
        reg = _pr(line)
        line.need(",", "',' and an operand")
    if opcode.lit:
        lit = line.number_up_to("LIT", 2**32 - 1)
    if opcode.operand:
        operand = _operand(line)
    return InstructionWord(opcode, reg, lit, operand)


def _number_word(line: Line) -> Word:
    return NumberWord(line.number_up_to("a word", WORD_MOST, -(2**63)) & WORD_MOST)


def _pointer_word(line: Line) -> Word:
    pointer = _pointer(line, needs_ring=True, needs_segment=False, ring_most=7)
    indirect = line.skip("indirect")
    if not indirect and line.peek().kind is not END:
        line.fail("indirect or the end of the line")
    return PointerWord(pointer, indirect)


def _descriptor_word(line: Line) -> Word:
    fields = Fields()
    _fields(line, fields, ("at ADDRESS", "length LENGTH", "rings R1 R2 R3", "flags FLAGS"))
    return DescriptorWord(fields)


_WORDS: Dict[str, Callable[[Line], Word]] = {
    "word": _number_word,
    "pointer": _pointer_word,
    "descriptor": _descriptor_word,
}


def _segment_number(line: Line) -> Optional[Given]:
    """None where it is out of range: the segment then gets one that is free, and keeps its name."""
    token = line.peek()
    noted = len(line.mistakes)
    value = line.number_up_to("SEGNO", SEGMENT_MOST)
    return Given(value, token) if len(line.mistakes) == noted else None


def _read_segment(line: Line, source: Source, token: Token) -> None:
    has_number = line.peek().kind is NUMBER
    number = _segment_number(line) if has_number else None
    # 'segment 4 at 16' has no name, while 'segment gate length 8' has one.
    if line.next_is("invalid") or line.peek().text.lower() in ATTRIBUTES and line.after_next().kind is NUMBER:
        line.fail("the segment's name")
    name = line.name("the segment's name" if has_number else "the segment's number or name")
    if name.text.lower() in PR_NAMES or name.text == "memory":
        line.note(name, "a name that isn't PR0 to PR7 nor memory")
    segment = SegmentText(number, name)
    source.segments.append(segment)
    _fields(line, segment.fields, ("rings R1 R2 R3", "flags FLAGS"))
    segment.is_broken = False


def _read_in(line: Line, source: Source, token: Token) -> None:
    # Words after an 'in' with a mistake belong nowhere, and no more is said of it.
    source.items.append(InText(token._replace(kind=END), None, token))
    segment: Optional[Token] = line.peek()
    if segment.kind is not NAME and segment.kind is not NUMBER:
        line.fail("a segment or memory")
    line.take()
    in_memory = segment.text == "memory"
    word = None
    if line.skip("."):
        word_token = line.peek()
        most = MEMORY_MOST - 1 if in_memory else 65535
        word = Given(line.number_up_to("an address" if in_memory else "WORDNO", most), word_token)
    line.end()
    source.items[-1] = InText(None if in_memory else segment, word, segment)


def _read_skip(line: Line, source: Source, token: Token) -> None:
    source.items.append(SkipText(line.number_up_to("a number of words", 65535), token))


def _read_dbr(line: Line, source: Source, token: Token) -> None:
    fields = source.dbr = Fields()
    while line.peek().kind is not END or fields.at is fields.length:
        at = line.peek()
        if fields.at is None and line.skip("at"):
            fields.at = Given(line.number_needed("ADDRESS", 2**32 - 1), at)
        elif fields.length is None and line.skip("length"):
            fields.length = Given(line.number_needed("LENGTH", 65535), at)
        else:
            line.fail("at ADDRESS or length LENGTH, each once", at)


def _read_switch(line: Line, source: Source, token: Token) -> None:
    at = line.peek()
    value = 1 if line.skip("on") else 0 if line.skip("off") else None
    if value is None:
        if at.kind is not NUMBER:
            line.fail("on or off")
        value = line.number_up_to("the switch", 255)
    source.numbers["switch"] = Given(value, at)


def _read_fault_segment(line: Line, source: Source, token: Token) -> None:
    segment = line.peek()
    if segment.kind is not NAME and segment.kind is not NUMBER:
        line.fail("a segment's name or number")
    line.take()
    source.fault_segments[token.text.lower()] = segment


def _read_number(most: int) -> Callable[[Line, Source, Token], None]:
    def read(line: Line, source: Source, token: Token) -> None:
        at = line.peek()
        source.numbers[token.text.lower()] = Given(line.number_needed(token.text.lower(), most), at)

    return read


def _read_a(line: Line, source: Source, token: Token) -> None:
    at = line.peek()
    source.numbers["a"] = Given(line.number_up_to("A", WORD_MOST, -(2**63)) & WORD_MOST, at)


def _read_register(line: Line, source: Source, token: Token) -> None:
    key = token.text.lower()
    source.pointers[key] = _pointer(line, needs_ring=key == "ipr", needs_segment=True, ring_most=255)


# Those that may be there once.
_ONCE: Dict[str, Callable[[Line, Source, Token], None]] = {
    "memory": _read_number(MEMORY_MOST),
    "budget": _read_number(2**32 - 1),
    "dbr": _read_dbr,
    "a": _read_a,
    "ipr": _read_register,
    "switch": _read_switch,
    "save": _read_fault_segment,
    "handler": _read_fault_segment,
}
_ONCE.update({name: _read_register for name in PR_NAMES})
_OTHERS: Dict[str, Callable[[Line, Source, Token], None]] = {
    "segment": _read_segment,
    "in": _read_in,
    "skip": _read_skip,
}


def _unknown(line: Line, source: Source, token: Token) -> None:
    following = line.peek().text
    if following.upper() in OPCODE_NAMED or following.lower() in _WORDS:
        source.items.insert(-1, LabelText(token))
        line.fail(f"':' after the label {shown(token.text)}")
    known = list(OPCODE_NAMED) + [*_WORDS, *_ONCE, *_OTHERS]
    expected = "an opcode, word, pointer, descriptor, skip, in, segment or another statement"
    line.fail(expected + (meant(token.text.upper(), known) or meant(token.text.lower(), known)), token)


def _read_word(line: Line, source: Source, token: Token) -> bool:
    """Reads a statement that makes a word, if it is one."""
    opcode = OPCODE_NAMED.get(token.text.upper())
    read = _WORDS.get(token.text.lower())
    if opcode is None and read is None:
        return False
    try:
        word = _instruction(line, opcode) if opcode is not None else read(line)
        line.end()
    except Wrong:
        source.items.append(WordText(BrokenWord(), token))
        raise
    source.items.append(WordText(word, token))
    return True


def _read_statement(line: Line, source: Source) -> None:
    token = line.take()
    if token.kind is not NAME:
        line.fail("a statement or a label", token)
    if _read_word(line, source, token):
        return
    key = token.text.lower()
    read = _ONCE.get(key)
    if read is not None:
        earlier = source.seen.setdefault(key, token)
        if earlier is not token:
            line.fail(f"{key} once: it stands in line {earlier.line} already", token)
    else:
        read = _OTHERS.get(key)
    if read is None:
        # Most likely an instruction: it keeps its place, so that the words behind it do.
        source.items.append(WordText(BrokenWord(), token))
        _unknown(line, source, token)
    read(line, source, token)
    line.end()


def _read_line(line: Line, source: Source) -> None:
    if line.peek().kind is NAME and line.after_next().text == ":":
        label = line.take()
        line.take()
        if label.text.lower() in PR_NAMES:
            line.note(label, "a name that isn't PR0 to PR7")
        source.items.append(LabelText(label))
    if line.peek().kind is not END:
        _read_statement(line, source)


def read_source(text: str, mistakes: List[Mistake]) -> Source:
    """The text's statements; its mistakes are noted."""
    source = Source()
    for number, line_text in enumerate(text.split("\n"), 1):
        if line_text.lstrip(" \t\r")[:1] in ("", "#", ";"):
            continue
        source.last_line = number
        try:
            _read_line(Line(line_text, number, mistakes), source)
        except Wrong:
            pass
    return source
