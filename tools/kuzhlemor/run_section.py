"""The page's run as HTML: the chart, the listing, and the registers after the chosen step."""
from html import escape
from typing import List, Sequence

from .chart import EVENT_NAMES, drawing
from .image import segment_name
from .phrases import counted, entry_words, performed_text, register_texts
from .show import stretch_text
from .trace import DELIVERED, Entry, Kept, Run


def listing_line(entry: Entry) -> str:
    ring, segment, word = entry.registers.ipr
    return f"{entry.step} {ring} {segment} {word} {entry.pointer_words}"


def _event(entry: Entry) -> str:
    """The marks are drawn by their classes: many drawings would take a browser long."""
    if entry.is_end:
        return f'<span class="event fault">fault {entry.fault.number}</span>'
    if entry.event == DELIVERED:
        return f'<span class="event delivered">fault {entry.fault.number} delivered</span>'
    return f'<span class="event {EVENT_NAMES[entry.event]}">{EVENT_NAMES[entry.event]}</span>' if entry.event else ""


def _listing_row(k: int, entry: Entry) -> str:
    first = "start" if entry.step == 0 else "end" if entry.is_end else str(entry.step)
    numbers: Sequence[object] = ("", "", "", "") if entry.is_end else (*entry.registers.ipr, entry.pointer_words)
    cells = "".join(f'<td class="n">{number}</td>' for number in (first, *numbers))
    did = escape(performed_text(entry.word, entry.before))
    did = f"<code>{did}</code> {_event(entry)}" if did else ""
    return f'<tr id="e{k}" aria-selected="false">{cells}<td>{did}</td></tr>'


def _listing(run: Run, found: Sequence[Entry]) -> str:
    rows: List[str] = []
    expected = 0
    for k, entry in enumerate(found):
        if entry.step > expected:
            left_out = stretch_text(expected, entry.step, "step")
            rows.append(f'<tr class="gap"><td colspan="6">{left_out} left out</td></tr>')
        rows.append(_listing_row(k, entry))
        expected = entry.step + 1
    return f"""<div class="scroll listing" id="listing-box">
<table id="listing" tabindex="0" role="grid" aria-label="Listing" aria-readonly="true">
<thead><tr><th class="n">Step</th><th class="n">Ring</th><th class="n">Segment</th><th class="n">Word</th>
<th class="n" title="Pointer words that the step read">Pointers</th><th>Performed</th></tr></thead>
<tbody>{''.join(rows)}<tr class="last"><td colspan="6"><code>{run.last_line}</code></td></tr></tbody></table></div>"""


def _kept_text(run: Run, kept: Kept) -> str:
    """Which steps the page has, plainly."""
    if not kept.each:
        return ""
    count, have = run.count(), len(kept.steps) - 1
    moves = f" {kept.moves:,}" if kept.moves <= kept.each else f" {kept.each:,} of the {kept.moves:,}"
    moves = f"{moves} with a call, a return, a delivered fault or another ring," if kept.moves else ""
    return (
        f'<p><strong>{counted(count, "step")} were followed. {have:,} of them are kept here, {count - have:,} are left out'
        f"</strong> of the listing and the registers. Kept are the first and the last {kept.each:,},{moves} and"
        f" {kept.each:,} evenly spaced. The chart is drawn from all steps.</p>"
    )


def _register(name: str, text: str) -> str:
    return f'<div><dt>{name}</dt><dd class="mono" id="register-{name}">{escape(text)}</dd></div>'


def _registers(entry: Entry) -> str:
    """The pointer registers in a column of their own; what faults need no step changes."""
    r = entry.registers
    texts = {**register_texts(r), "Switch": "on" if r.switch else "off"}
    texts.update({"Save": segment_name(r.save), "Handler": segment_name(r.handler)})
    left = "".join(_register(name, text) for name, text in texts.items() if not name.startswith("PR"))
    right = "".join(_register(name, text) for name, text in texts.items() if name.startswith("PR"))
    return f'<div class="registers"><dl>{left}</dl><dl>{right}</dl></div>'


def _step_panel(entry: Entry) -> str:
    words = entry_words(entry)
    return f"""<div class="panel" role="region" aria-label="The chosen step"><h3 id="step-title">{words.title}</h3>
<p class="mono" id="step-did">{escape(words.did)}</p><p id="step-said">{escape(words.said)}</p>
{_registers(entry)}<p class="note" id="changes"></p></div>"""


def run(followed: Run, kept: Kept, found: Sequence[Entry]) -> str:
    return f"""<section id="run"><h2>Run</h2>
{_kept_text(followed, kept)}<div class="run"><div class="chart"><h3>Ring after each step</h3>{drawing(followed)}</div>
<div class="step">{_step_panel(found[0])}</div>
<div class="list"><h3>Listing</h3>{_listing(followed, found)}</div></div></section>"""
