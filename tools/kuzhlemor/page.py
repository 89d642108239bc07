"""An image as one HTML page without any reference to elsewhere: its memory, its segments' brackets, its run, where a CALL may go.
Listing, registers, CALL's answers and the number that refuses an image are the proved library's and program's; the page's script
only looks them up."""
import json
import re
from html import escape
from pathlib import Path
from typing import Callable, Dict, List, NamedTuple, Optional, Sequence, Set

from . import head_section, memory_section, run_section, segments_section
from .calls import ASKS, Answer, Calls, says
from .chart import percent_of
from .image import Image, Registers, descriptors
from .library import PASSES, Library
from .phrases import entry_words, pointer_text, register_texts
from .questions import QUESTIONS
from .trace import Disagreement, Entry, Kept, Run, entries, follow, keep, listing_of
from .words import decode_descriptor, descriptor_text

# The page's size in bytes stays below this.
BYTES_MOST = 5_000_000
STEPS_KEPT = 1_000
# How often the library is asked for all of a page, which bounds the steps that are kept where there are many segments.
ASKS_MOST = 1_000_000
_FOLDER = Path(__file__).resolve().parent
Say = Callable[[str], None]


class Content(NamedTuple):
    """What a page shows: of a refused image no run."""

    name: str
    image: Image
    run: Optional[Run] = None
    kept: Optional[Kept] = None
    entries: Sequence[Entry] = ()
    # For each entry the table of answers.
    tables: Sequence[int] = ()
    calls: Optional[Calls] = None


def page(name: str, data: bytes, image: Image, program: str, library: Library, say: Say) -> str:
    """The page of an image, of which the name and the bytes are given."""
    if image.refused is not None:
        said = listing_of(program, data)
        if said != b"refused %d\n" % image.refused.number:
            raise Disagreement(f"the image is refused with {image.refused.number}, and the program says otherwise")
        return render(Content(name, image))
    run = follow(library, image, data, program, say)
    most = STEPS_KEPT
    while True:
        text = render(_content(name, image, run, library, most, say))
        if len(text.encode("utf-8", "replace")) < BYTES_MOST or most <= 4:
            return text
        most //= 2


def _content(name: str, image: Image, run: Run, library: Library, most: int, say: Say) -> Content:
    """At most so many steps, fewer where there are many segments."""
    segments: Set[int] = set()
    kept = keep(run, most)
    while True:
        segments = {number for _, machine in entries(library, image, run, kept.steps) for number in machine.descriptor_words()}
        fitting = max(ASKS_MOST // (ASKS * max(len(segments), 1)), 4)
        if len(kept.steps) <= fitting:
            break
        kept = keep(run, fitting)
    calls = Calls(sorted(segments))
    found: List[Entry] = []
    tables: List[int] = []
    for entry, machine in entries(library, image, run, kept.steps):
        found.append(entry)
        tables.append(calls.ask(machine))
        say(f"where a CALL may go: {len(found)} of {len(kept.steps)} steps")
    return Content(name, image, run, kept, found, tables, calls)


# What the script looks up.


def _answer(answer: Answer) -> Dict[str, object]:
    passes = answer.kind == PASSES
    question = None if passes else QUESTIONS[answer.number]
    found = {"passes": passes, "number": answer.number, "ring": answer.ring, "text": says(answer)}
    return {**found, "short": question.short if question else "", "asks": f"{question.asks} No." if question else ""}


def _row(word: int, ranges: Sequence[Sequence[object]]) -> Dict[str, object]:
    text = "no descriptor: its word is zero, or its number is past DBR's length"
    if word:
        text = descriptor_text(decode_descriptor(word))
    return {"descriptor": text, "ranges": [list(found) for found in ranges]}


def _entry(content: Content, k: int) -> Dict[str, object]:
    entry = content.entries[k]
    words = entry_words(entry)
    ipr = pointer_text(entry.registers.ipr)
    when = "at the start" if entry.step == 0 else "as the run ended" if entry.is_end else f"after step {entry.step:,}"
    return {
        "step": entry.step,
        "line": "" if entry.step == 0 or entry.is_end else run_section.listing_line(entry),
        "percent": percent_of(content.run, entry.step),
        "title": words.title,
        "did": words.did,
        "said": words.said,
        "summary": words.summary,
        "from": f"As if a CALL stood at IPR {when}: {ipr}.",
        "registers": list(register_texts(entry.registers).values()),
        "table": content.tables[k],
    }


def page_data(content: Content) -> Dict[str, object]:
    if content.calls is None:
        return {"last": f"refused {content.image.refused.number}", "segments": sorted(descriptors(content.image)), "entries": []}
    calls = content.calls
    return {
        "last": content.run.last_line,
        "registers": list(register_texts(Registers())),
        "segments": list(calls.segments),
        "answers": [_answer(answer) for answer in calls.answers],
        "rows": [_row(*row) for row in calls.rows],
        "tables": [list(table) for table in calls.tables],
        "entries": [_entry(content, k) for k in range(len(content.entries))],
    }


def _json(value: object) -> str:
    """For a script element, in which no end of one and no comment may begin."""
    return json.dumps(value, separators=(",", ":")).replace("<", "\\u003c")


def _part(name: str) -> str:
    return (_FOLDER / name).read_text(encoding="utf-8").strip()


def render(content: Content) -> str:
    name = head_section.shown_name(content.name)
    parts = {
        "title": escape(f"{name} - Kuzhlemor"),
        "heading": escape(name),
        "css": _part("page.css"),
        "js": _part("page.js"),
        "data": _json(page_data(content)),
        "outcome_class": head_section.outcome_class(content.image, content.run),
        "outcome": head_section.outcome(content.image, content.run),
        "facts": head_section.facts(content.image),
        "stepper": head_section.stepper() if content.run else "",
        "sections": "\n".join(_sections(content)),
        "footer": head_section.FOOTER,
    }
    return re.sub(r"\{\{(\w+)\}\}", lambda found: parts[found.group(1)], _part("page.html")) + "\n"


def _sections(content: Content) -> List[str]:
    calls, run = content.calls, content.run
    started = descriptors(content.image)
    found = [memory_section.memory(content.image, started)]
    later = [number for number in calls.segments if number not in started] if calls else []
    found.append(segments_section.segments(content.image, started, later))
    if run is not None and content.kept is not None:
        found.append(run_section.run(run, content.kept, content.entries))
    return found

