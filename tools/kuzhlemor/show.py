"""An image shown as text that assembles to one that loads the same; a damaged one as far as it goes."""
from bisect import bisect_left, bisect_right
from typing import Dict, List, Optional, Tuple

from .image import Image, Refused, Registers, descriptor_question, descriptors, nonzero_words, segment_name
from .words import (
    Descriptor,
    Pointer,
    decode_pointer,
    descriptor_text,
    instruction_text,
    number_text,
    opcode_of,
    pointer_is_indirect,
    relative_text,
    unused_fields,
)

# How many segments that lie over one are named; the others are counted.
NAMED_MOST = 4
COMMENT_COLUMN = 40
QUESTIONS = {
    12: "V is off: every use is fault 12",
    13: "the rings don't go up: every use is fault 13",
    14: "it ends past memory: every use is fault 14",
}


def show(image: Image) -> str:
    return "\n".join(_Show(image).lines()) + "\n"


def _with_comment(text: str, comment: str) -> str:
    return f"{text:<{COMMENT_COLUMN - 1}} # {comment}" if comment else text


def stretch_text(first: int, end: int, what: str) -> str:
    """Words, segments or addresses from the first up to the end, which isn't one of them."""
    if end == first + 1:
        return f"{what} {first}"
    return f"{what}{'es' if what.endswith('s') else 's'} {first} to {end - 1}"


def refusal_text(refused: Refused) -> str:
    """Which question refuses an image, and where."""
    if not refused.asked_of_record():
        return f"with {refused.number}, asked of ST once RN has come"
    place = f"record {refused.record}, at byte {refused.offset}"
    found = f"its mark is {_mark(refused.mark)}" if refused.mark else "where the image ends"
    return f"with {refused.number} at {place} ({found})"


def _mark(mark: bytes) -> str:
    is_plain = all(32 < byte < 127 for byte in mark)
    return mark.decode("ascii") if is_plain else "the bytes " + " ".join(f"{byte:02x}" for byte in mark) + " hex"


class _Covers:
    """Which descriptors cover a stretch of memory, found without asking each."""

    def __init__(self, found: Dict[int, Descriptor], words: int) -> None:
        stretches = sorted((d.address, min(d.address + d.length, words), number) for number, d in found.items())
        self.stretches = [stretch for stretch in stretches if stretch[0] < stretch[1]]
        self.firsts = [first for first, _, _ in self.stretches]
        self.ends = sorted(end for _, end, _ in self.stretches)

    def over(self, first: int, end: int, number: int) -> Tuple[List[int], int]:
        """Some of the other segments that have words from the first up to the end, and how many there are."""
        before_end = bisect_left(self.firsts, end)
        count = before_end - bisect_right(self.ends, first) - 1
        wanted = min(count, NAMED_MOST)
        some: List[int] = []
        if wanted == 0:
            return some, 0
        for _, other_end, other in reversed(self.stretches[:before_end]):
            if other_end > first and other != number:
                some.append(other)
                if len(some) == wanted:
                    break
        return sorted(some), count


class _Show:
    def __init__(self, image: Image) -> None:
        self.image = image
        self.words = image.words or 0
        self.memory = nonzero_words(image)
        self.descriptors = descriptors(image)
        self.covers = _Covers(self.descriptors, self.words)
        self.first_descriptor = image.registers.dbr_address if image.registers else 0
        self.owned: Dict[int, List[int]] = {}
        self.unowned: List[int] = []
        self.share_out()

    def share_out(self) -> None:
        """Each word that isn't zero is shown once: as a descriptor, in the first segment that can be used and has it, or by its
        address."""
        descriptor_addresses = {self.first_descriptor + number for number in self.descriptors}
        left = sorted(address for address in self.memory if address not in descriptor_addresses)
        for number, d in self.descriptors.items():
            if descriptor_question(d, self.words) == 0:
                first = bisect_left(left, d.address)
                end = bisect_left(left, d.address + d.length)
                if first < end:
                    self.owned[number] = left[first:end]
                    del left[first:end]
        self.unowned = left

    def lines(self) -> List[str]:
        lines = []
        if self.image.refused is not None:
            lines += [f"# REFUSED {refusal_text(self.image.refused)}:", f"# {self.image.refused.why}."]
            if self.image.refused.asked_of_record():
                lines.append("# What the records before it hold:")
            lines.append("")
        lines += self.sizes()
        lines += self.segments()
        lines += self.registers()
        for number in self.owned:
            lines += self.section(number)
        return lines + self.outside()

    def sizes(self) -> List[str]:
        image = self.image
        memory = "# memory: no ME was taken" if image.words is None else f"memory {image.words}"
        budget = "# budget: no RN was taken" if image.budget is None else f"budget {image.budget}"
        return [memory, budget]

    def segments(self) -> List[str]:
        if self.image.registers is None:
            return []
        lines = [""]
        for number, d in self.descriptors.items():
            lines.append(f"segment {number} {segment_name(number)} {descriptor_text(d)}")
            question = descriptor_question(d, self.words)
            if question:
                lines.append(f"    # {QUESTIONS[question]}")
            lines += self.shared(number, d)
        registers = self.image.registers
        lines.append(f"dbr at {registers.dbr_address} length {registers.dbr_length}")
        return lines

    def shared(self, number: int, d: Descriptor) -> List[str]:
        """Which words of a segment other descriptors cover as well, and which are descriptors themselves."""
        end = min(d.address + d.length, self.words)
        if d.address >= end:
            return []
        lines = []
        others, count = self.covers.over(d.address, end, number)
        for other in others:
            e = self.descriptors[other]
            first = max(d.address, e.address)
            last = min(end, e.address + e.length)
            mine = stretch_text(first - d.address, last - d.address, "word")
            theirs = stretch_text(first - e.address, last - e.address, "word")
            lines.append(f"    # {mine}: also {segment_name(other)}'s {theirs}")
        if count > len(others):
            more = count - len(others)
            lines.append(f"    # and {more} more {'descriptor covers' if more == 1 else 'descriptors cover'} words of it")
        return lines + self.over_descriptors(d, end)

    def over_descriptors(self, d: Descriptor, end: int) -> List[str]:
        first = max(d.address, self.first_descriptor)
        last = min(end, self.first_descriptor + self.image.registers.dbr_length)
        if first >= last:
            return []
        mine = stretch_text(first - d.address, last - d.address, "word")
        segments = stretch_text(first - self.first_descriptor, last - self.first_descriptor, "segment")
        return [f"    # {mine}: also the {'descriptor' if last == first + 1 else 'descriptors'} of {segments}"]

    def registers(self) -> List[str]:
        r = self.image.registers
        if r is None:
            return ["", "# registers: no ST was taken"]
        lines = ["", f"a {number_text(r.a)}", f"ipr {self.pointer(r.ipr)}"]
        other = Pointer(r.ipr.ring, 0, 0)
        lines += [f"pr{k} {self.pointer(pr)}" for k, pr in enumerate(r.prs) if pr != other]
        if other in r.prs:
            lines.append(f"# the other PRs: ring {other.ring} {self.place(0, 0)}")
        return lines + self.faults(r)

    def faults(self, r: Registers) -> List[str]:
        if (r.switch, r.save, r.handler) == (0, 0, 0):
            return ["switch off"]
        switch = {0: "off", 1: "on"}.get(r.switch, str(r.switch))
        return [f"switch {switch}", f"save {self.segment(r.save)}", f"handler {self.segment(r.handler)}"]

    def segment(self, number: int) -> str:
        return segment_name(number) if number in self.descriptors else str(number)

    def place(self, segment: int, word: int) -> str:
        return f"{self.segment(segment)}.{word}"

    def pointer(self, pointer: Pointer) -> str:
        return f"ring {pointer.ring} {self.place(pointer.segment, pointer.word)}"

    # Words: each is a text and a comment, which may be empty.

    def section(self, number: int) -> List[str]:
        d = self.descriptors[number]
        labels = self.labels(number) if d.execute else {}
        lines = ["", _with_comment(f"in {segment_name(number)}", stretch_text(d.address, d.address + d.length, "address"))]
        expected = d.address
        for address in self.owned[number]:
            if address > expected:
                lines.append(self.gap(expected, address))
            word = self.memory[address]
            text, comment = self.code(word, address, d, labels) if d.execute else self.data(word)
            label = labels.get(address)
            lines.append(_with_comment(f"{label + ':' if label else '':<8}{text}", comment))
            expected = address + 1
        return lines

    def gap(self, first: int, end: int) -> str:
        is_zero = not any(address in self.memory for address in range(first, end))
        return _with_comment(f"        skip {end - first}", "" if is_zero else "some of them are shown elsewhere")

    def labels(self, number: int) -> Dict[int, str]:
        """Names for the words of a section that its own instructions go to."""
        d = self.descriptors[number]
        shown = set(self.owned[number])
        labels = {}
        for address in self.owned[number]:
            word = self.memory[address]
            opcode = opcode_of(word)
            if opcode is not None and opcode.operand and not word >> 19 & 1:
                target = d.address + (address - d.address + word & 0xFFFF)
                if target in shown:
                    labels[target] = f"w{target - d.address}"
        return labels

    def code(self, word: int, address: int, d: Descriptor, labels: Dict[int, str]) -> Tuple[str, str]:
        """A word of a segment with E on: an instruction where its text says all of it, else as data."""
        comment = ""

        def target(offset: int) -> str:
            nonlocal comment
            goes_to = address - d.address + offset & 0xFFFF
            label = labels.get(d.address + goes_to)
            if label is None:
                comment = f"word {goes_to}"
            return label or relative_text(offset)

        text = instruction_text(word, target)
        if text is None:
            return self.data(word)
        unused = unused_fields(word)
        if not unused:
            return text, comment
        pointer = self.pointer_word(word)
        return (pointer, "") if pointer else (f"word {number_text(word)}", f"{text}, and {', '.join(unused)}")

    def data(self, word: int) -> Tuple[str, str]:
        pointer = self.pointer_word(word)
        if pointer is not None:
            return pointer, ""
        ignored = word >> 32
        pointer = self.pointer_word(word & 0xFFFFFFFF) if ignored else None
        return f"word {number_text(word)}", f"{pointer}, and {hex(ignored)} above it" if pointer else ""

    def pointer_word(self, word: int) -> Optional[str]:
        """A word as a pointer, where it says no more than one and leads to a word that is there."""
        if word >> 32 or word < 0x10000:
            return None
        pointer = decode_pointer(word)
        d = self.descriptors.get(pointer.segment)
        if d is None or pointer.word >= d.length:
            return None
        return f"pointer {self.pointer(pointer)}{' indirect' if pointer_is_indirect(word) else ''}"

    def outside(self) -> List[str]:
        """Words that no segment which can be used has: as data, with the instruction that they would be."""
        lines = []
        expected = None
        for address in self.unowned:
            if address != expected:
                lines += ["", f"in memory.{address}"]
            word = self.memory[address]
            text, comment = self.data(word)
            if text.startswith("word") and opcode_of(word) is not None and not unused_fields(word):
                comment = instruction_text(word) or ""
            lines.append(_with_comment(f"        {text}", comment))
            expected = address + 1
        return lines
