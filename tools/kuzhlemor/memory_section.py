"""The page's map of memory as HTML: bars by address, the words that several segments have marked and listed."""
from typing import Dict, Optional

from .image import Image, descriptor_question, segment_name
from .memory_map import MemoryMap, Shared, Stretch, memory_map
from .phrases import counted
from .show import QUESTIONS as UNUSABLE
from .show import stretch_text
from .words import Descriptor

LANE_HEIGHT = 28
TICKS_MOST = 16
# Of the marks on shared words; more wouldn't be seen.
MARKS_MOST = 400
NAMED_MOST = 20


def _share(address: int, words: int) -> str:
    return f"{address * 100 / words:.3f}".rstrip("0").rstrip(".")


def _place(stretch: Stretch, words: int) -> str:
    return f"left:{_share(stretch.first, words)}%;width:{_share(stretch.end - stretch.first, words)}%"


def _bar(stretch: Stretch, lane: int, words: int, found: Dict[int, Descriptor]) -> str:
    number = stretch.segment
    name = segment_name(number)
    unusable = descriptor_question(found[number], words)
    says = f"{name}: {stretch_text(stretch.first, stretch.end, 'address')}"
    if unusable:
        says += f"; {UNUSABLE[unusable]}"
    return (
        f'<button class="bar{" unusable" if unusable else ""}" data-segment="{number}" title="{says}" aria-label="{says}"'
        f' aria-pressed="false" style="top:{lane * LANE_HEIGHT}px;{_place(stretch, words)}">{name}</button>'
    )


def _axis(words: int) -> str:
    distance = 1
    while words > distance * TICKS_MOST:
        distance *= 2
    ticks = "".join(f'<span style="left:{_share(a, words)}%">{a}</span>' for a in range(0, words, distance))
    return f'<div class="axis" aria-hidden="true">{ticks}</div>'


def _table_track(table: Optional[Stretch], words: int) -> str:
    if table is None:
        return ""
    says = f"the descriptor segment: {stretch_text(table.first, table.end, 'address')}"
    return (
        '<div class="track-name">Descriptor segment (DBR)</div><div class="track ground" style="height:26px">'
        f'<div class="bar table" title="{says}" style="top:0;{_place(table, words)}">DBR</div></div>'
    )


def _shared_track(found: MemoryMap, words: int) -> str:
    if not found.shared:
        return ""
    marks = "".join(
        f'<div class="mark" style="{_place(Stretch(first, end, None), words)}"></div>' for first, end in found.shared[:MARKS_MOST]
    )
    return f'<div class="track-name">Words in several segments</div><div class="track ground" style="height:14px">{marks}</div>'


def _shared_item(shared: Shared, found: Dict[int, Descriptor], dbr_address: int) -> str:
    named = []
    for stretch in shared.named:
        base = dbr_address if stretch.segment is None else found[stretch.segment].address
        own = stretch_text(shared.first - base, shared.end - base, "word")
        named.append(f"the descriptor segment's {own}" if stretch.segment is None else f"{segment_name(stretch.segment)}'s {own}")
    if shared.count > len(named):
        named.append(f"{shared.count - len(named):,} more")
    return f"<li>{stretch_text(shared.first, shared.end, 'address').capitalize()}: {', '.join(named)}</li>"


def _shared_list(drawn: MemoryMap, found: Dict[int, Descriptor], dbr_address: int) -> str:
    if not drawn.listed:
        return "<p>No word is in several segments.</p>"
    items = "".join(_shared_item(shared, found, dbr_address) for shared in drawn.listed)
    if drawn.unlisted:
        items += f"<li>And {drawn.unlisted:,} more, which aren't listed.</li>"
    return f'<h3 class="later">Words in several segments</h3><ul class="shared">{items}</ul>'


def _undrawn(drawn: MemoryMap) -> str:
    said = ""
    if drawn.undrawn:
        said += f"<p>{counted(drawn.undrawn, 'segment')} more would need further lanes and aren't drawn; the table has all.</p>"
    if drawn.outside:
        names = [segment_name(number) for number in drawn.outside[:NAMED_MOST]]
        if len(drawn.outside) > len(names):
            names.append(f"{len(drawn.outside) - len(names):,} more")
        said += f"<p>Without a word in memory, and so not drawn: {', '.join(names)}.</p>"
    return said


def memory(image: Image, found: Dict[int, Descriptor]) -> str:
    """The map, as the image starts."""
    words = image.words or 0
    if not words:
        said = "Its size isn't known, since no ME was taken." if image.words is None else "It has no words."
        return f'<section id="memory"><h2>Memory</h2><p>{said}</p></section>'
    drawn = memory_map(image, found)
    bars = "".join(_bar(stretch, lane, words, found) for lane, some in enumerate(drawn.lanes) for stretch in some)
    height = max(len(drawn.lanes), 1) * LANE_HEIGHT
    dbr_address = image.registers.dbr_address if image.registers else 0
    choose = "" if image.refused else ' <span class="scripted unprinted">Choose a segment to learn where a CALL may go.</span>'
    return f"""<section id="memory"><h2>Memory</h2>
<p class="note">Addresses from left to right, as the image starts. Each segment is a bar. Those that overlap, or whose names
would, stand in lanes below each other.{choose}</p>
<div class="map">{_table_track(drawn.descriptor_segment, words)}
<div class="track-name">Segments</div>
<div class="track ground pick{' dense' if drawn.is_dense else ''}" style="height:{height}px">{bars}</div>
{_shared_track(drawn, words)}{_axis(words)}</div>
{_undrawn(drawn)}{_shared_list(drawn, found, dbr_address)}</section>"""
