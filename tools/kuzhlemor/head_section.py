"""The page's head as HTML: how the run ends, the image's figures, and the bar that moves the chosen step."""
from html import escape
from typing import Optional

from .image import Image
from .library import FAULT, HALTED
from .phrases import counted, end_question, end_text, switch_text
from .trace import Run

FOOTER = (
    "The listing, the registers, where a CALL may go and the number that refuses an image are answers of the proved library and"
    " program. Map, brackets, notes and the texts of instructions are read from the image by a tool that isn't proved."
    " s4.1 is word 1 of segment 4. This file needs no network."
)


def shown_name(name: str) -> str:
    return "".join(c if c.isprintable() else "?" for c in name)


def outcome_class(image: Image, run: Optional[Run]) -> str:
    if run is None:
        return "refused"
    return {FAULT: "fault", HALTED: "halted"}.get(run.end.kind, "spent")


def outcome(image: Image, run: Optional[Run]) -> str:
    question = end_question(image, run)
    last = f"refused {image.refused.number}" if run is None else run.last_line
    line = f"<span>The listing's last line: <code>{last}</code></span>"
    return escape(end_text(image, run)) + (f"<span>{escape(question)}</span>" if question else "") + line


def facts(image: Image) -> str:
    r = image.registers
    found = [
        ("Memory", "no ME was taken" if image.words is None else counted(image.words, "word")),
        ("Budget", "no RN was taken" if image.budget is None else counted(image.budget, "step")),
    ]
    if r is None:
        found.append(("Registers", "no ST was taken"))
    else:
        found.append(("Descriptor segment (DBR)", f"address {r.dbr_address}, {counted(r.dbr_length, 'word')}"))
        found.append(("Faults", switch_text(r)))
    rows = "".join(f"<div><dt>{escape(name)}</dt><dd>{escape(text)}</dd></div>" for name, text in found)
    return f'<dl class="facts">{rows}</dl>'


def stepper() -> str:
    return """<nav class="stepper" aria-label="The chosen step">
<button id="step-back" aria-label="One step back">&#9664;</button>
<button id="step-on" aria-label="One step on">&#9654;</button>
<output id="stepper-text" aria-live="polite"></output>
<span class="note">Arrow keys move the step</span>
</nav>"""
