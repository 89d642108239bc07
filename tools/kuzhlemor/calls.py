"""Whether a CALL would pass, for every word of every segment, as the proved library answers it; equal answers are kept once."""
from itertools import groupby
from typing import Dict, List, NamedTuple, Sequence, Tuple

from .library import FAULT, PASSES, Check, Machine
from .words import decode_descriptor

WORD_MOST = 65535
# How often the library is asked of one segment: of the first and the last of its gates, its other words and those past its end.
ASKS = 6
GATES, OTHERS, PAST_END, ALL = "gates", "other words", "past the end", "no descriptor"


class Answer(NamedTuple):
    """What the library says of some words: the ring in which a CALL goes on, or the number of the question that says no."""

    kind: int
    number: int
    ring: int


class Range(NamedTuple):
    first: int
    last: int
    what: str
    answer: int


class Row(NamedTuple):
    """A segment at some step: its descriptor word, or 0, and the answers for its words."""

    word: int
    ranges: Tuple[Range, ...]


def parts(word: int) -> List[Tuple[int, int, str]]:
    """The words of a segment by what a CALL's questions ask of them: 15 and 27."""
    if not word:
        return [(0, WORD_MOST, ALL)]
    d = decode_descriptor(word)
    gates = min(d.gate, d.length)
    found = [(0, gates - 1, GATES), (gates, d.length - 1, OTHERS), (d.length, WORD_MOST, PAST_END)]
    return [part for part in found if part[0] <= part[1]]


def _plain(check: Check) -> Answer:
    return Answer(check.kind, check.number, check.ring)


class Calls:
    """The answers for some segments at the steps asked for. Nothing is kept twice; a table has a row's index for each segment."""

    def __init__(self, segments: Sequence[int]) -> None:
        self.segments = segments
        self.answers: Dict[Answer, int] = {}
        self.rows: Dict[Row, int] = {}
        self.tables: Dict[Tuple[int, ...], int] = {}

    def ask(self, machine: Machine) -> int:
        """The index of the table for a machine as it stands."""
        words = machine.descriptor_words()
        table = tuple(self._row(machine, number, words.get(number, 0)) for number in self.segments)
        return self.tables.setdefault(table, len(self.tables))

    def _row(self, machine: Machine, segment: int, word: int) -> int:
        ranges = [found for part in parts(word) for found in self._ranges(machine, segment, *part)]
        return self.rows.setdefault(Row(word, tuple(ranges)), len(self.rows))

    def _ranges(self, machine: Machine, segment: int, first: int, last: int, what: str) -> List[Range]:
        """One range, unless its first and last word differ: then every word is asked."""
        answer = self._answer(machine, segment, first)
        if first == last or self._answer(machine, segment, last) == answer:
            return [Range(first, last, what, answer)]
        ranges = []
        for found, some in groupby(range(first, last + 1), lambda word: self._answer(machine, segment, word)):
            some_words = list(some)
            ranges.append(Range(some_words[0], some_words[-1], what, found))
        return ranges

    def _answer(self, machine: Machine, segment: int, word: int) -> int:
        answer = _plain(machine.may_call(segment, word))
        return self.answers.setdefault(answer, len(self.answers))


def says(answer: Answer) -> str:
    if answer.kind == PASSES:
        return f"yes: it would go on in ring {answer.ring}"
    return f"no: question {answer.number}" if answer.kind == FAULT else f"refused: question {answer.number}"
