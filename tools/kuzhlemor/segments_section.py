"""The page's segments as HTML: their brackets as strips of rings, and the panel that says where a CALL may go."""
from typing import Dict, Sequence, Tuple

from .image import Image, descriptor_question, segment_name
from .phrases import counted
from .show import QUESTIONS as UNUSABLE
from .words import Descriptor

# A longer table is several, of which a browser lays out those in view; about a row's height in pixels.
ROWS_MOST = 100
ROW_HEIGHT = 56


def _strip(d: Descriptor) -> str:
    """The brackets as lanes; what a letter in the class names is off."""
    lanes = (("w", d.write), ("r", d.read), ("e", d.execute), ("g", d.execute and d.gate))
    off = " ".join(name for name, on in lanes if not on)
    style = f"--w:{d.r1 + 1};--r:{d.r2 + 1};--x:{d.r1};--e:{d.r2 - d.r1 + 1};--y:{d.r2 + 1};--g:{d.r3 - d.r2}"
    return f'<div class="strip" aria-hidden="true"><b>W\nR\nE\nG</b><i class="{off}" style="{style}"></i></div>'


def _flags(d: Descriptor) -> str:
    """R, W, E and V, a dash for what is off."""
    return "".join(name if on else "-" for name, on in (("R", d.read), ("W", d.write), ("E", d.execute), ("V", d.valid)))


def _notes(d: Descriptor, words: int) -> str:
    """What the flags and the strip don't say at a glance."""
    unusable = descriptor_question(d, words)
    if unusable:
        said = UNUSABLE[unusable]
        return f"<strong>{said[0].upper()}{said[1:]}</strong>"
    if not d.length:
        return "It has no words"
    if d.gate and not d.execute:
        return "Gates, but E is off"
    if d.gate > d.length:
        return f"Of {d.gate} gates {d.length} exist"
    return ""


def _segment_row(number: int, d: Descriptor, words: int) -> str:
    strip = _strip(d) if d.r1 <= d.r2 <= d.r3 else ""
    note = _notes(d, words)
    note = f'<div class="what">{note}</div>' if note else ""
    unusable = ' class="unusable"' if descriptor_question(d, words) else ""
    numbers = "".join(f'<td class="n">{text}</td>' for text in (d.address, d.length, d.gate, f"{d.r1} {d.r2} {d.r3}"))
    return (
        f'<tr{unusable} data-segment="{number}"><th scope="row"><button class="name" aria-pressed="false">{segment_name(number)}'
        f"</button></th>{numbers}"
        f'<td class="mono flags">{_flags(d)}</td><td>{strip}{note}</td></tr>'
    )


_SEGMENT_HEAD = (
    '<tr><th scope="col">Segment</th><th scope="col" class="n">Address</th><th scope="col" class="n">Length</th>'
    '<th scope="col" class="n">Gate</th><th scope="col" class="n">R1 R2 R3</th><th scope="col" class="flags">RWEV</th>'
    '<th scope="col">Rings<br><span class="rings" aria-hidden="true"><span></span>'
    + "".join(f"<span>{ring}</span>" for ring in range(8))
    + "</span></th></tr>"
)
_STRIP_LEGEND = """<ul class="legend"><li><b class="key write"></b>W write: rings 0 to R1</li>
<li><b class="key read"></b>R read: 0 to R2</li><li><b class="key execute"></b>E execute: R1 to R2</li>
<li><b class="key gate"></b>G call at a gate: R2 + 1 to R3</li><li><b class="key broken"></b>broken line: off</li></ul>"""


def _segment_table(items: Sequence[Tuple[int, Descriptor]], words: int) -> str:
    rows = "".join(_segment_row(number, d, words) for number, d in items)
    height = len(items) * ROW_HEIGHT
    return f"""<div class="chunk" style="contain-intrinsic-height:auto {height}px"><table><thead>{_SEGMENT_HEAD}</thead>
<tbody>{rows}</tbody></table></div>"""


def _later(later: Sequence[int]) -> str:
    if not later:
        return ""
    names = " ".join(
        f'<button class="name" data-segment="{number}" aria-pressed="false">{segment_name(number)}</button>' for number in later
    )
    return f'<p class="later pick scripted">These get a descriptor during the run: {names}</p>'


def _call_panel(is_refused: bool) -> str:
    if is_refused:
        return '<div class="panel"><h3>CALL</h3><p>The image is refused, so that no CALL is asked about.</p></div>'
    return """<div class="panel scripted" role="region" aria-label="Where a CALL may go" aria-live="polite">
<h3 id="call-title">CALL</h3><p id="call-from"></p><p class="note mono" id="call-descriptor"></p>
<table class="answers"><thead><tr><th scope="col">Words</th><th scope="col">Would a CALL pass?</th></tr></thead>
<tbody id="call-answers"></tbody></table></div>"""


def segments(image: Image, found: Dict[int, Descriptor], later: Sequence[int]) -> str:
    """Every segment with a descriptor as the image starts, and where a CALL may go."""
    words = image.words or 0
    if found:
        items = list(found.items())
        tables = "".join(_segment_table(items[k : k + ROWS_MOST], words) for k in range(0, len(items), ROWS_MOST))
        table = f'<div class="scroll segments pick" tabindex="0" role="region" aria-label="Segments">{tables}</div>{_STRIP_LEGEND}'
    else:
        table = "<p>No segment has a descriptor.</p>"
    panel = _call_panel(image.refused is not None) if found or later else ""
    return f"""<section id="segments"><h2>Segments</h2>
<p class="note">{counted(len(found), 'segment')} with a descriptor word that isn't zero, as the image starts.</p>
<div class="pair"><div>{table}{_later(later)}</div>{panel}</div></section>"""
