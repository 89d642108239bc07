"""The run as a drawing: ring against step, with its events, and the pointer words of each step. Where there are more steps than
columns, a column shows the lowest and the highest ring of its steps and the most pointer words."""
from typing import List, NamedTuple, Tuple

from .phrases import counted
from .trace import CALL, DELIVERED, NOTHING, RETURN, Run

COLUMNS_MOST = 800
# Paths are in a box of this width, which the browser stretches to about as many pixels: it blurs what it stretches much.
WIDTH = 1000
# Where there are more places than this, marks of one kind stand so far apart that no more are drawn.
MARKS_MOST = 60
RING_HEIGHT = 21
HEIGHT = 8 * RING_HEIGHT
POINTERS_HEIGHT = 36
# Labels below the chart; fewer where they are long.
TICKS_MOST, LONG_TICKS_MOST, LONG = 8, 4, 10_000
MARK_IDS = {CALL: "mark-call", RETURN: "mark-return", DELIVERED: "mark-delivered"}
EVENT_NAMES = {CALL: "call", RETURN: "return", DELIVERED: "delivered fault"}
END_ID = "mark-fault"


class _Tick(NamedTuple):
    step: int
    percent: float


def _slots(run: Run) -> int:
    """How many places there are: the start, each step, and the fault that ends the run."""
    return run.count() + 1 + run.is_fault()


def _y(ring: int) -> float:
    return (7 - ring) * RING_HEIGHT + RING_HEIGHT / 2


def _x(column: float, columns: int) -> str:
    return f"{column * WIDTH / columns:.2f}".rstrip("0").rstrip(".")


def _columns(run: Run) -> List[Tuple[int, int]]:
    """The steps of each column, from the first up to the end."""
    count = _slots(run)
    columns = min(count, COLUMNS_MOST)
    return [(k * count // columns, (k + 1) * count // columns) for k in range(columns)]


def _band(run: Run) -> List[Tuple[int, int]]:
    """The lowest and the highest ring of each column; a fault at the end leaves the ring as it was."""
    rings = run.rings + run.rings[-1:] if run.is_fault() else run.rings
    return [(min(rings[first:end]), max(rings[first:end])) for first, end in _columns(run)]


def _edge(levels: List[int]) -> str:
    """A line along some rings, a column each."""
    path = [f"M0 {_y(levels[0]):g}"]
    for column, level in enumerate(levels):
        if column and level != levels[column - 1]:
            path.append(f"H{_x(column, len(levels))}V{_y(level):g}")
    return "".join(path) + f"H{WIDTH}"


def _ring_paths(run: Run) -> Tuple[str, str]:
    """The line (two where columns have several rings) and what lies between the two."""
    band = _band(run)
    lows, highs = [low for low, _ in band], [high for _, high in band]
    if lows == highs:
        return _edge(lows), ""
    area = _edge(highs) + "".join(f"V{_y(low):g}H{_x(k, len(lows))}" for k, low in reversed(list(enumerate(lows))))
    return _edge(highs) + _edge(lows), area + "Z"


def _most_pointer_words(run: Run) -> int:
    return max(run.pointer_words)


def _pointer_path(run: Run) -> str:
    """Bars as high as a column's most pointer words."""
    most = _most_pointer_words(run)
    columns = _columns(run)
    bars = []
    for k, (first, end) in enumerate(columns):
        highest = max(run.pointer_words[first:end], default=0)
        if highest:
            left, right = _x(k + 0.2, len(columns)), _x(k + 0.8, len(columns))
            top = POINTERS_HEIGHT - max(2.0, highest / most * (POINTERS_HEIGHT - 2))
            bars.append(f"M{left} {POINTERS_HEIGHT}V{top:.4g}H{right}V{POINTERS_HEIGHT}Z")
    return "".join(bars)


def percent_of(run: Run, slot: int) -> float:
    """The middle of a place, in hundredths of the width."""
    return round((slot + 0.5) * 100 / _slots(run), 3)


def _marks(run: Run) -> List[str]:
    """The events, and the fault at the end, as uses of the marks."""
    found = []
    drawn = set()
    count = _slots(run)
    for step, event in enumerate(run.events):
        place = (event, step * MARKS_MOST // count)
        if event != NOTHING and (count <= MARKS_MOST or place not in drawn):
            drawn.add(place)
            found.append(_mark(MARK_IDS[event], percent_of(run, step), run.rings[step]))
    if run.is_fault():
        found.append(_mark(END_ID, percent_of(run, count - 1), run.rings[-1]))
    return found


def _mark(name: str, percent: float, ring: int) -> str:
    return f'<use href="#{name}" x="{percent:g}%" y="{_y(ring):g}"/>'


def _ticks(run: Run) -> List[_Tick]:
    """Steps at round numbers, the start among them."""
    count = run.count()
    most = TICKS_MOST if count < LONG else LONG_TICKS_MOST
    distance = next(m * 10**k for k in range(9) for m in (1, 2, 5) if count // (m * 10**k) <= most)
    return [_Tick(step, percent_of(run, step)) for step in range(0, count + 1, distance)]


def _icon(name: str) -> str:
    return f'<svg viewBox="-8 -8 16 16" aria-hidden="true"><use href="#{name}"/></svg>'


def _legend(run: Run) -> str:
    items = []
    for event, name in EVENT_NAMES.items():
        times = run.events.count(event)
        if times:
            items.append(f"<li>{_icon(MARK_IDS[event])}{counted(times, name)}</li>")
    if run.is_fault():
        items.append(f"<li>{_icon(END_ID)}the fault that ends the run</li>")
    return f'<ul class="legend">{"".join(items)}</ul>' if items else ""


def _pointer_track(run: Run) -> str:
    return f"""<svg height="{POINTERS_HEIGHT}" viewBox="0 0 {WIDTH} {POINTERS_HEIGHT}" preserveAspectRatio="none" class="pointers">
<path class="pointer-bars" d="{_pointer_path(run)}"/></svg>"""


def _tick(tick: _Tick) -> str:
    """Below its place; a long label that would leave the chart stands before it."""
    text = f"{tick.step:,}" if tick.step else "start"
    side = "middle end" if tick.percent > 96 and len(text) > 6 else "middle"
    return f'<span class="{side}" style="left:{tick.percent:g}%">{text}</span>'


def _chart_note(run: Run, has_area: bool) -> str:
    said = [f"The steps read {counted(run.total, 'pointer word')}." if run.total else "No step read a pointer word."]
    if has_area:
        said.append("Where the rings of many steps share a place, the lowest and the highest are drawn.")
    if _slots(run) > MARKS_MOST:
        said.append("A mark may stand for several.")
    return " ".join(said)


def drawing(run: Run) -> str:
    """The chart as HTML, with its legend; the script moves the cursor in it."""
    line, area = _ring_paths(run)
    grid = "".join(
        f'<line class="grid" x1="0" x2="100%" y1="{y:g}" y2="{y:g}"/>'
        for y in (RING_HEIGHT * (k + 0.5) for k in range(8))
    )
    most = _most_pointer_words(run)
    names = "".join(f"<div>{'ring ' if ring == 7 else ''}{ring}</div>" for ring in range(7, -1, -1))
    names += f'<div class="pointer-name">pointers,<br>up to {most}</div>' if most else ""
    labels = "".join(_tick(tick) for tick in _ticks(run))
    shape = f'<path class="ring-area" d="{area}"/>' if area else ""
    return f"""<div class="chart-box"><div class="chart-names" aria-hidden="true">{names}</div>
<div class="chart-area" id="chart" tabindex="0" role="slider" aria-label="Ring after each step" aria-valuemin="0"
aria-valuemax="{_slots(run) - 1}" aria-valuenow="0">
<svg height="{HEIGHT}" aria-hidden="true">{grid}<svg width="100%" height="{HEIGHT}" viewBox="0 0 {WIDTH} {HEIGHT}"
preserveAspectRatio="none">{shape}<path class="ring-line" d="{line}"/></svg>{''.join(_marks(run))}</svg>
{_pointer_track(run) if most else ""}<div class="cursor scripted" id="cursor"></div></div>
<div></div><div class="axis" aria-hidden="true">{labels}</div></div>
<p class="note">{_chart_note(run, bool(area))}</p>{_legend(run)}"""
