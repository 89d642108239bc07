"""Images, as text, that end by each question which can end a run, and what is to be said of them; worked out by hand."""
from typing import List, NamedTuple, Optional, Tuple

# Unless it is said otherwise a run starts in ring 4 at word 0 of main, which holds the instruction at fault.
BASE = """memory 128
budget 9
segment 0 zero at 16 length 4 rings 0 0 5 flags RWE gate 1
segment 1 low at 24 length 4 rings 1 2 5 flags RWE gate 2
segment 2 data at 32 length 4 rings 3 4 4 flags RW
segment 3 wide at 40 length 4 rings 2 6 6 flags RWE gate 2
segment 4 main at 48 length 16 rings 4 4 4 flags RE
segment 5 high at 64 length 4 rings 6 6 6 flags RWE gate 2
"""
START = "ipr ring 4 main.0\n"
RING_0 = "ipr ring 0 zero.0\n"
FIELDS = {
    0: "R1 = 0, R2 = 0, R3 = 5, flags RWE, LENGTH 4, GATE 1, ADDRESS 16",
    1: "R1 = 1, R2 = 2, R3 = 5, flags RWE, LENGTH 4, GATE 2, ADDRESS 24",
    2: "R1 = 3, R2 = 4, R3 = 4, flags RW, LENGTH 4, GATE 0, ADDRESS 32",
    3: "R1 = 2, R2 = 6, R3 = 6, flags RWE, LENGTH 4, GATE 2, ADDRESS 40",
    4: "R1 = 4, R2 = 4, R3 = 4, flags RE, LENGTH 16, GATE 0, ADDRESS 48",
    5: "R1 = 6, R2 = 6, R3 = 6, flags RWE, LENGTH 4, GATE 2, ADDRESS 64",
}
TABLE = "1 to 10, 16 to 17, 24 to 26, 32 to 33 and 40 to 42"


class End(NamedTuple):
    """A fault: what is put into main, the ring, segment and word under question, and the comparison. Then what isn't as usual."""

    number: int
    code: str
    at: Tuple[int, int, int]
    why: str
    more: str = ""
    start: str = START
    # What the segment under question has, where it isn't one of those above.
    fields: Optional[str] = None
    # The instruction's text, where it isn't the code; "" where it can't be fetched. Its ring, segment and word.
    instruction: Optional[str] = None
    place: Tuple[int, int, int] = (4, 4, 0)
    count: int = 0
    pointer_words: int = 0
    not_delivered: str = ""

    def text(self) -> str:
        return f"{BASE}{self.more}\n{self.start}in main\n{self.code}\n"

    def is_fetch(self) -> bool:
        return self.number in (21, 32, 33) or self.instruction == ""

    def last_line(self) -> str:
        return f"fault {self.number} {self.count} {' '.join(map(str, self.at))}"

    def paragraph(self) -> str:
        steps = "1 step" if self.count == 1 else f"{self.count} steps"
        said = [f"Fault {self.number} after {steps}: {self.why}."]
        ring, segment, word = self.place
        place = f"in ring {ring} at word {word} of segment {segment} (s{segment})"
        if self.instruction == "":
            said.append(f"An instruction was to be fetched {place}.")
        else:
            text = self.code if self.instruction is None else self.instruction
            read = {0: "", 1: ", and has read 1 pointer word"}.get(self.pointer_words, ", and has read 64 pointer words")
            said.append(f"The instruction is {text}, {place}{read}.")
        ring, segment, word = self.at
        if not self.is_fetch():
            said.append(f"Under question is word {word} of segment {segment} (s{segment}), in ring {ring}.")
        fields = FIELDS[segment] if self.fields is None else self.fields
        said.append(f"That segment has {fields}.")
        if self.not_delivered:
            said.append(f"The fault isn't delivered, since the save {self.not_delivered}.")
        return " ".join(said + [f"See kuzhlemor explain {self.number}."])


def _sixth(text: str) -> str:
    """A segment 6 beside those above, to which PR1 points."""
    return f"segment 6 sixth {text}\npr1 6.0"


def _frame(*words: str) -> str:
    """A segment 6 with a frame, which ring 0 reads by PR1: the word for DBR, IPR and PR0 to PR7."""
    return _sixth("at 72 length 13 rings 0 0 0 flags R") + "\nin 6.3\n" + "\n".join(words)


_NONE = "no descriptor: DBR's LENGTH is 6"
_FRAME_FIELDS = "R1 = 0, R2 = 0, R3 = 0, flags R, LENGTH 13, GATE 0, ADDRESS 72"
_CHAIN = "\n".join(f"pointer ring 4 6.{k} indirect" for k in range(1, 64)) + "\npointer ring 4 9.5 indirect"

SEGMENTS = [
    End(11, "LDA PR1|0", (4, 9, 0), "segment 9 isn't below DBR's LENGTH 6", "pr1 9.0", fields=_NONE),
    End(11, "TRA PR1|7", (4, 6, 9), "segment 6 isn't below DBR's LENGTH 6", "pr1 6.2", fields=_NONE),
    End(11, "EAP PR1, [PR1|0]", (5, 9, 0), "segment 9 isn't below DBR's LENGTH 6", "pr1 ring 5 9.0", fields=_NONE),
    End(
        11, "LDI 1", (4, 9, 5), "segment 9 isn't below DBR's LENGTH 6", start="ipr ring 4 9.5\n", fields=_NONE, instruction="",
        place=(4, 9, 5),
    ),
    End(
        12, "STA PR1|1", (4, 6, 1), "V is off", _sixth("at 72 length 4 rings 4 4 4 flags RW invalid"),
        fields="R1 = 4, R2 = 4, R3 = 4, flags RW and V off, LENGTH 4, GATE 0, ADDRESS 72",
    ),
    End(
        12, "CALL PR1|0", (4, 7, 0), "V is off", "dbr length 8\npr1 7.0",
        fields="R1 = 0, R2 = 0, R3 = 0, flags - and V off, LENGTH 0, GATE 0, ADDRESS 0",
    ),
    End(
        13, "LDA PR1|0", (4, 6, 0), "R1 = 5 is above R2 = 4", _sixth("at 72 length 4 rings 5 4 6 flags RW"),
        fields="R1 = 5, R2 = 4, R3 = 6, flags RW, LENGTH 4, GATE 0, ADDRESS 72",
    ),
    End(
        13, "LDA PR1|0", (4, 6, 0), "R2 = 5 is above R3 = 4", _sixth("at 72 length 4 rings 3 5 4 flags RW"),
        fields="R1 = 3, R2 = 5, R3 = 4, flags RW, LENGTH 4, GATE 0, ADDRESS 72",
    ),
    End(
        13, "LDA PR1|0", (4, 6, 0), "R1 = 6 is above R2 = 5, and R2 = 5 is above R3 = 4",
        _sixth("at 72 length 4 rings 6 5 4 flags RW"),
        fields="R1 = 6, R2 = 5, R3 = 4, flags RW, LENGTH 4, GATE 0, ADDRESS 72",
    ),
    End(
        14, "CALL PR1|0", (4, 6, 0), "ADDRESS 120 + LENGTH 9 = 129 is above memory's 128 words",
        _sixth("at 120 length 9 rings 4 4 4 flags RE gate 3"),
        fields="R1 = 4, R2 = 4, R3 = 4, flags RE, LENGTH 9, GATE 3, ADDRESS 120",
    ),
    End(15, "LDA PR2|4", (4, 2, 4), "word 4 isn't below LENGTH 4", "pr2 data.0"),
    End(15, "LDA PR2|-1", (4, 2, 65535), "word 65535 isn't below LENGTH 4", "pr2 data.0", instruction="LDA PR2|65535"),
    End(15, "LDA +16", (4, 4, 16), "word 16 isn't below LENGTH 16"),
    End(15, "LDI 1", (4, 4, 16), "word 16 isn't below LENGTH 16", start="ipr ring 4 main.16\n", instruction="", place=(4, 4, 16)),
    End(
        15, "in main.15\nLDI 1", (4, 4, 16), "word 16 isn't below LENGTH 16", start="ipr ring 4 main.15\n", instruction="",
        place=(4, 4, 16), count=1,
    ),
    End(
        15, "STA PR1|0", (4, 6, 0), "word 0 isn't below LENGTH 0", _sixth("at 128 length 0 rings 4 4 4 flags RW"),
        fields="R1 = 4, R2 = 4, R3 = 4, flags RW, LENGTH 0, GATE 0, ADDRESS 128",
    ),
    End(
        15, "in zero\nRCU PR1|3", (0, 6, 3), "word 15, the last of the frame from word 3 on, isn't below LENGTH 15",
        _sixth("at 72 length 15 rings 0 0 0 flags R"), RING_0, instruction="RCU PR1|3", place=(0, 0, 0),
        fields="R1 = 0, R2 = 0, R3 = 0, flags R, LENGTH 15, GATE 0, ADDRESS 72",
    ),
    End(
        15, "in zero\nRCU PR1|15", (0, 6, 15), "word 15 isn't below LENGTH 15",
        _sixth("at 72 length 15 rings 0 0 0 flags R"), RING_0, instruction="RCU PR1|15", place=(0, 0, 0),
        fields="R1 = 0, R2 = 0, R3 = 0, flags R, LENGTH 15, GATE 0, ADDRESS 72",
    ),
    End(
        15, "in zero\nRCU +0", (0, 0, 0), "word 12, the last of the frame from word 0 on, isn't below LENGTH 4", start=RING_0,
        instruction="RCU +0", place=(0, 0, 0),
    ),
]

USES = [
    End(21, "in data\nLDI 7", (4, 2, 0), "E is off", start="ipr ring 4 data.0\n", instruction="LDI 7", place=(4, 2, 0)),
    End(21, "in data\nLDI 7", (3, 2, 0), "E is off", start="ipr ring 3 data.0\n", instruction="LDI 7", place=(3, 2, 0)),
    End(
        21, "in low\nLDI 7", (4, 1, 0), "IPR's ring 4 is above R2 = 2", start="ipr ring 4 low.0\n", instruction="LDI 7",
        place=(4, 1, 0),
    ),
    End(21, "LDI 7", (5, 4, 0), "IPR's ring 5 is above R2 = 4", start="ipr ring 5 main.0\n", place=(5, 4, 0)),
    End(21, "LDI 7", (3, 4, 0), "IPR's ring 3 is below R1 = 4", start="ipr ring 3 main.0\n", place=(3, 4, 0)),
    End(
        21, "LDI 7", (5, 2, 1), "E is off, and IPR's ring 5 is above R2 = 4", start="ipr ring 5 data.1\n", instruction="the word 0",
        place=(5, 2, 1),
    ),
    End(22, "LDA PR2|1", (5, 2, 1), "the effective ring 5 is above R2 = 4", "pr2 ring 5 data.0"),
    End(
        22, "AOS PR1|0", (4, 6, 0), "R is off", _sixth("at 72 length 4 rings 4 4 4 flags WE"),
        fields="R1 = 4, R2 = 4, R3 = 4, flags WE, LENGTH 4, GATE 0, ADDRESS 72",
    ),
    End(
        22, "LDA [PR2|0]", (6, 2, 1), "the effective ring 6 is above R2 = 4", "pr2 data.0\nin data\npointer ring 6 data.1",
        pointer_words=1,
    ),
    # R1 of the segment that holds the pointer word raises the ring.
    End(
        22, "XRA [PR5|0]", (6, 2, 3), "the effective ring 6 is above R2 = 4", "pr5 high.0\nin high\npointer ring 0 data.3",
        pointer_words=1,
    ),
    End(22, "EAP PR0, [PR1|0]", (4, 1, 0), "the effective ring 4 is above R2 = 2", "pr1 low.0"),
    End(23, "STA +1", (4, 4, 1), "W is off"),
    End(23, "SPP PR3, PR2|0", (4, 2, 0), "the effective ring 4 is above R1 = 3", "pr2 data.0"),
    End(23, "AOS PR2|0", (4, 2, 0), "the effective ring 4 is above R1 = 3", "pr2 data.0"),
    End(23, "STA PR3|0", (6, 4, 0), "W is off, and the effective ring 6 is above R1 = 4", "pr3 ring 6 main.0"),
    End(24, "TRA PR3|0", (5, 4, 0), "the effective ring 5 isn't IPR's ring 4", "pr3 ring 5 main.0"),
    End(24, "TZE PR3|0", (7, 3, 0), "the effective ring 7 isn't IPR's ring 4", "pr3 ring 7 wide.0"),
    End(24, "TMI PR3|0", (6, 3, 0), "the effective ring 6 isn't IPR's ring 4", "a -1\npr3 ring 6 wide.0"),
    End(25, "TRA PR2|0", (4, 2, 0), "E is off", "pr2 data.0"),
    End(25, "RETURN PR3|0", (5, 4, 0), "the effective ring 5 is above R2 = 4", "pr3 ring 5 main.0"),
    End(25, "TRA PR5|0", (4, 5, 0), "the effective ring 4 is below R1 = 6", "pr5 high.0"),
    End(26, "CALL PR2|0", (4, 2, 0), "E is off", "pr2 data.0"),
    End(27, "CALL PR1|2", (4, 1, 2), "word 2 isn't below GATE 2, and segment 1 isn't the instruction's segment 4", "pr1 low.0"),
    End(28, "CALL PR1|1", (6, 1, 1), "the effective ring 6 is above R3 = 5", "pr1 ring 6 low.0"),
    End(29, "CALL PR5|0", (4, 5, 0), "the effective ring 4 is below R1 = 6", "pr5 high.0"),
    End(
        30, "CALL PR3|0", (5, 3, 0),
        "the new ring 5, the smaller of the effective ring 5 and R2 = 6, is above IPR's ring 4", "pr3 ring 5 wide.0",
    ),
    End(
        30, "CALL PR2|0", (6, 6, 0), "the new ring 5, the smaller of the effective ring 6 and R2 = 5, is above IPR's ring 4",
        _sixth("at 72 length 4 rings 2 5 7 flags E gate 1") + "\npr2 ring 6 6.0",
        fields="R1 = 2, R2 = 5, R3 = 7, flags E, LENGTH 4, GATE 1, ADDRESS 72",
    ),
    End(
        31, "LDA [PR2|0]", (4, 2, 0), "this pointer word would be the instruction's number 65, which is above 64",
        "pr2 data.0\nin data\npointer ring 4 data.0 indirect", pointer_words=64,
    ),
    # The 65th isn't read, wherever it would be.
    End(
        31, "LDA [PR1|0]", (4, 9, 5), "this pointer word would be the instruction's number 65, which is above 64",
        _sixth("at 64 length 64 rings 4 4 4 flags R") + "\nin 6\n" + _CHAIN, fields="no descriptor: DBR's LENGTH is 7",
        pointer_words=64,
    ),
    End(32, "word 5", (4, 4, 0), f"opcode 0 isn't one of the table's, {TABLE}", instruction="the word 5"),
    End(32, "word 0x2c000000", (4, 4, 0), f"opcode 44 isn't one of the table's, {TABLE}", instruction="the word 0x2c000000"),
    End(33, "HLT", (4, 4, 0), "HLT is privileged, and IPR's ring 4 isn't 0"),
    End(33, "LDBR PR2|0", (4, 4, 0), "LDBR is privileged, and IPR's ring 4 isn't 0"),
    End(
        33, "in wide\nRCU PR2|0", (2, 3, 0), "RCU is privileged, and IPR's ring 2 isn't 0", start="ipr ring 2 wide.0\n",
        instruction="RCU PR2|0", place=(2, 3, 0),
    ),
    End(
        34, "in zero\nLDBR +1\nword 0x9000078", (0, 0, 1), "the new DBR's ADDRESS 120 + LENGTH 9 = 129 is above memory's 128 words",
        start=RING_0, instruction="LDBR +1", place=(0, 0, 0),
    ),
    End(
        34, "in zero\nLDBR +1\nword 0x1001000000", (0, 0, 1),
        "the new DBR's LENGTH 4097 is above 4096, and the new DBR's ADDRESS 0 + LENGTH 4097 = 4097 is above memory's 128 words",
        start=RING_0, instruction="LDBR +1", place=(0, 0, 0),
    ),
    End(
        34, "in zero\nRCU PR1|0", (0, 6, 0), "the new DBR's ADDRESS 0 + LENGTH 129 = 129 is above memory's 128 words",
        _frame("word 0x81000000"), RING_0, _FRAME_FIELDS, "RCU PR1|0", (0, 0, 0),
    ),
    End(
        52, "in zero\nRCU PR1|0", (0, 6, 0), "the ring 2 of the frame's PR3 is below its IPR's ring 4",
        _frame("word 0x7000000", *(f"pointer ring {ring} main.0" for ring in (4, 4, 7, 4, 2, 4, 3, 4, 4))),
        RING_0, _FRAME_FIELDS, "RCU PR1|0", (0, 0, 0),
    ),
]


def _not_delivered(save: int, why: str, more: str = "") -> End:
    return End(
        33, "HLT", (4, 4, 0), "HLT is privileged, and IPR's ring 4 isn't 0", f"{more}\nswitch on\nsave {save}\nhandler zero",
        not_delivered=f"segment {save} (s{save}) can't take the frame: {why}",
    )


SAVES = [
    _not_delivered(9, "segment 9 isn't below DBR's LENGTH 6"),
    _not_delivered(6, "V is off", _sixth("at 72 length 13 rings 0 0 0 flags RW invalid")),
    _not_delivered(6, "R2 = 3 is above R3 = 2", _sixth("at 72 length 13 rings 0 3 2 flags RW")),
    _not_delivered(
        6, "ADDRESS 116 + LENGTH 13 = 129 is above memory's 128 words", _sixth("at 116 length 13 rings 0 0 0 flags RW")
    ),
    _not_delivered(2, "its LENGTH 4 is below 13"),
    _not_delivered(4, "its W is off"),
    # As long as a frame, and up to memory's end.
    _not_delivered(6, "its W is off", _sixth("at 115 length 13 rings 0 0 0 flags R")),
    _not_delivered(6, "its LENGTH 12 is below 13, and its W is off", _sixth("at 72 length 12 rings 0 0 0 flags R")),
    # The laboratory's fault is delivered. The handler puts 0 into the save segment's descriptor and then faults itself: what is
    # told is what stood at its own fault.
    End(
        32, "HLT", (0, 0, 2), f"opcode 0 isn't one of the table's, {TABLE}",
        _sixth("at 72 length 13 rings 0 0 0 flags RW") + "\ndbr at 0\nsegment 7 table at 0 length 8 rings 0 0 0 flags RW"
        "\nswitch on\nsave 6\nhandler zero\nin zero\nLDI 0\nSTA [+2]\nword 0\npointer ring 0 table.6",
        instruction="the word 0", place=(0, 0, 2), count=3, not_delivered="segment 6 (s6) can't take the frame: V is off",
    ),
]

ENDS: List[End] = SEGMENTS + USES + SAVES

# Runs without a fault: the text, how the last line begins, and the paragraph.
OTHERS = [
    (
        f"{BASE}{RING_0}in zero\nHLT\n",
        "halted 1 ",
        "Halted after 1 step of a budget of 9, by HLT in ring 0 at word 0 of segment 0 (s0).",
    ),
    (
        f"{BASE}{START}in main.3\nTRA -3\nin main.0\nTRA +3\n",
        "spent 9 ",
        "Spent: the budget of 9 steps is used up, and the next instruction would be fetched in ring 4 at word 3 of segment 4 (s4).",
    ),
    (
        BASE.replace("budget 9", "budget 0") + "ipr ring 7 9.65535\n",
        "spent 0 ",
        "Spent: the budget of 0 steps is used up, and the next instruction would be fetched in ring 7 at word 65535 of segment 9"
        " (s9).",
    ),
]

# What 2 to 4 refuse: the statement that does it, and why.
PLAIN = "memory 128\nbudget 9\nipr ring 4 0.0\n"
STARTS = [
    (2, "pr3 ring 9 0.0", "PR3's ring 9 is above 7"),
    (2, "pr3 4096.0", "PR3's segment 4096 is above 4095"),
    (2, "dbr at 16777216 length 0", "DBR's address 16777216 is above 16777215"),
    (2, "switch 2", "the switch is 2, neither 0 nor 1"),
    (2, "save 4096", "the save segment 4096 is above 4095"),
    (2, "handler 5000", "the handler segment 5000 is above 4095"),
    (3, "pr5 ring 2 0.0", "PR5's ring 2 is below IPR's 4"),
    (4, "dbr at 120 length 9", "the descriptor segment ends at address 129, past memory's 128 words"),
    (4, "dbr at 0 length 4097", "DBR's length 4097 is above 4096"),
]
