"""Memory as segments by address: which bar goes into which lane, and which words are in several segments."""
from bisect import bisect_right
from typing import Callable, Dict, List, NamedTuple, Optional, Tuple

from .image import Image, segment_name
from .words import Descriptor

LANES_MOST = 24
# The share of the width that a name takes, and each of its letters. A bar has so much room at least, unless there are too many.
NAME_SHARE, LETTER_SHARE = 0.012, 0.009
# How many segments are named of those that share a word, and how many such stretches are listed.
NAMED_MOST = 6
LISTED_MOST = 100


class Stretch(NamedTuple):
    """Addresses from the first up to the end, which isn't one of them; the segment, or None for the descriptor segment."""

    first: int
    end: int
    segment: Optional[int]


class Shared(NamedTuple):
    """A stretch that the same segments have, and how many have it. Some of them are named."""

    first: int
    end: int
    count: int
    named: List[Stretch]


class MemoryMap(NamedTuple):
    lanes: List[List[Stretch]]
    # Whether bars may stand closer than their names allow, and how many have no room at all.
    is_dense: bool
    undrawn: int
    # Those without a word in memory.
    outside: List[int]
    descriptor_segment: Optional[Stretch]
    # Every address that several have, as stretches without a gap; and the first of them by who has them.
    shared: List[Tuple[int, int]]
    listed: List[Shared]
    unlisted: int


def stretch_of(d: Descriptor, number: int, words: int) -> Optional[Stretch]:
    """A segment's words, as far as memory has them."""
    end = min(d.address + d.length, words)
    return Stretch(d.address, end, number) if d.address < end else None


def descriptor_segment(image: Image) -> Optional[Stretch]:
    if image.registers is None or image.words is None:
        return None
    first = image.registers.dbr_address
    end = min(first + image.registers.dbr_length, image.words)
    return Stretch(first, end, None) if first < end else None


def _room(stretch: Stretch, words: int) -> float:
    """Where the bar of a segment ends, or its name."""
    share = NAME_SHARE + LETTER_SHARE * len(segment_name(stretch.segment))
    return max(stretch.end, stretch.first + share * words)


def _pack(stretches: List[Stretch], end_of: Callable[[Stretch], float]) -> Tuple[List[List[Stretch]], int]:
    """Each bar in the first lane where it has room; how many have none."""
    lanes: List[List[Stretch]] = []
    ends: List[float] = []
    undrawn = 0
    for stretch in stretches:
        lane = next((k for k, end in enumerate(ends) if end <= stretch.first), len(ends))
        if lane == LANES_MOST:
            undrawn += 1
            continue
        if lane == len(ends):
            lanes.append([])
            ends.append(0)
        lanes[lane].append(stretch)
        ends[lane] = end_of(stretch)
    return lanes, undrawn


def _shared(stretches: List[Stretch]) -> Tuple[List[Tuple[int, int]], List[Shared], int]:
    firsts = sorted(stretch.first for stretch in stretches)
    ends = sorted(stretch.end for stretch in stretches)
    bounds = sorted({*firsts, *ends})
    joined: List[Tuple[int, int]] = []
    listed: List[Shared] = []
    unlisted = 0
    for first, end in zip(bounds, bounds[1:]):
        count = bisect_right(firsts, first) - bisect_right(ends, first)
        if count < 2:
            continue
        if joined and joined[-1][1] == first:
            joined[-1] = (joined[-1][0], end)
        else:
            joined.append((first, end))
        if len(listed) < LISTED_MOST:
            having = [stretch for stretch in stretches if stretch.first <= first < stretch.end]
            listed.append(Shared(first, end, count, having[:NAMED_MOST]))
        else:
            unlisted += 1
    return joined, listed, unlisted


def memory_map(image: Image, found: Dict[int, Descriptor]) -> MemoryMap:
    """The map of memory as the image starts, with its descriptors; as far as its records go where it is refused."""
    words = image.words or 0
    every = {number: stretch_of(d, number, words) for number, d in found.items()}
    outside = [number for number, stretch in every.items() if stretch is None]
    stretches = sorted(filter(None, every.values()), key=lambda stretch: (stretch.first, -stretch.end, stretch.segment))
    lanes, undrawn = _pack(stretches, lambda stretch: _room(stretch, words))
    is_dense = undrawn > 0
    if is_dense:
        lanes, undrawn = _pack(stretches, lambda stretch: stretch.end)
    table = descriptor_segment(image)
    return MemoryMap(lanes, is_dense, undrawn, outside, table, *_shared(stretches + ([table] if table else [])))
