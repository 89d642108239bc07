"""Every question explained, and how an image ends: the paragraph beside the proved listing, word for word where it was worked out
by hand, and its comparison's truth where the image is drawn."""
import operator
import os
import re
import signal
import subprocess
import tempfile
import time
from pathlib import Path
from random import Random
from typing import Callable, Dict, Optional, Tuple

import drawn
from checks import COMMAND, EXAMPLES, LIBRARY, TOP, built, check, command, heed_interrupts, program, run, says
from ends import ENDS, OTHERS, PLAIN, STARTS
from kuzhlemor import explain
from kuzhlemor.assemble import assemble
from kuzhlemor.explain import NOT_FOUND, explanation
from kuzhlemor.image import BYTES_READ, Image, read_image, wd_record
from kuzhlemor.library import Library, Machine
from kuzhlemor.main import run_explained
from kuzhlemor.questions import FAULTS, QUESTIONS, markdown, question_text, ranges
from kuzhlemor.words import Descriptor, Pointer, decode_descriptor

# Drawn images: listed and explained; explained alone; damaged ones.
LISTED, DRAWN, DAMAGED = 300, 8_000, 3_000
NUMBERS = "1 to 4, 11 to 15, 21 to 34, 41 to 45 and 51 to 57"


def texts() -> None:
    """Every number has all its texts, short ones that fit a page; the guide has them too."""
    check(list(QUESTIONS) == [*range(1, 5), *range(11, 16), *range(21, 35), *range(41, 46), *range(51, 58)], "the numbers")
    check(ranges(QUESTIONS) == NUMBERS and ranges([7]) == "7", "the numbers as ranges")
    header = (TOP / "include" / "kuzhlemor.h").read_text()
    check(f"the first question, {ranges(sorted(FAULTS)).replace(' and ', ' or ')}, that" in header, "the faults in the header")
    listed = {int(number) for number in re.findall(r"^ +\*  +-?(\d+)  \w", header, re.MULTILINE)}
    check({1, 4, 45, 57} <= listed <= set(QUESTIONS), f"the header's numbers: {sorted(listed)}")
    for number, question in QUESTIONS.items():
        check(number == question.number and len(question.short) <= 60, f"{number}: {question.short}")
        check(re.search(r"\?\)?$", question.asks) is not None, f"{number}: {question.asks}")
        for text in question[1:]:
            check(bool(text) and text.isascii() and "|" not in text and "  " not in text, f"{number}: {text}")
        for text in question[3:]:
            check(text.endswith(".") and text[0].isupper(), f"{number}: {text}")
    check(markdown().count("\n") == len(QUESTIONS) + 2, "the table's lines")
    guide = TOP / "docs" / "GUIDE.md"
    if guide.exists():
        held = guide.read_text().partition("<!-- questions -->\n")[2].partition("<!-- end of questions -->")[0]
        check(held.strip("\n") == markdown().strip("\n"), "docs/GUIDE.md has another table than tools/kuzhlemor/questions.py")


def numbers() -> None:
    """explain says each number's texts; what is no number of a question has those that are."""
    for number, question in QUESTIONS.items():
        text = question_text(question)
        said = " ".join(text.split())
        kind = "is a fault" if number in FAULTS else "refuses"
        check(said.startswith(f"Question {number}: a no {kind}. asks {question.asks} when {question.when} usual cause "), text)
        check(said.endswith(f" usual cause {question.cause} look at {question.look}"), text)
        check(max(map(len, text.split("\n"))) <= 79, f"{number}: a line is too long")
    for argument, number in (("1", 1), ("24", 24), ("024", 24), ("00000000000000000057", 57)):
        answer = command(0, "explain", argument, env={"PATH": os.environ["PATH"]})
        check(answer.stdout.decode() == question_text(QUESTIONS[number]) and not answer.stderr, f"explain {argument}")
    for argument in ("0", "58", "-1", "", "x" * 50):
        answer = command(2, "explain", argument)
        cut = argument if len(argument) < 40 else argument[:37] + "..."
        said = f"kuzhlemor: explain: '{cut}' is no question's number; those are {NUMBERS}\n"
        check(answer.stderr.decode() == said and not answer.stdout, f"explain {argument}: {answer.stderr.decode()}")
    for arguments in ((), ("1", "2")):
        says(command(2, "explain", *arguments), "explain takes one number")


def plain(text: str) -> str:
    """A paragraph of lines that fit a terminal, as one line."""
    check(text.endswith("\n") and "\n\n" not in text and max(map(len, text.split("\n"))) <= 79, f"no paragraph: {text}")
    return " ".join(text.split())


# The segments of the blend, as the examples have them.
_FORMULA = "That segment has R1 = 1, R2 = 1, R3 = 5, flags RE, LENGTH 3, GATE 1, ADDRESS 9."
_STORED = (
    "Fault 23 after 4 steps: W is off, and the effective ring 4 is above R1 = 1. The instruction is STA PR2|2, in ring 4 at word 2"
    f" of segment 4 (s4). Under question is word 2 of segment 1 (s1), in ring 4. {_FORMULA}"
)
_HALT = "HLT in ring 0 at word 0 of segment 0 (s0)."
EXAMPLE_ENDS = {
    "blend": f"Halted after 8 steps of a budget of 100, by {_HALT}",
    "blend-cut-short": "Spent: the budget of 4 steps is used up, and the next instruction would be fetched in ring 4 at word 2 of"
    " segment 4 (s4).",
    "careful-formula": f"Halted after 14 steps of a budget of 100, by {_HALT}",
    "careless-formula": f"Halted after 14 steps of a budget of 100, by {_HALT}",
    "case-12": "Fault 23 after 2 steps: the effective ring 4 is above R1 = 1. The instruction is STA PR3|0, in ring 1 at word 0 of"
    " segment 5 (s5). Under question is word 0 of segment 3 (s3), in ring 4. That segment has R1 = 1, R2 = 1, R3 = 1, flags RW,"
    " LENGTH 4, GATE 0, ADDRESS 32. See kuzhlemor explain 23.",
    "endless-pointer": "Fault 31 after 1 step: this pointer word would be the instruction's number 65, which is above 64. The"
    " instruction is LDA [PR1|0], in ring 4 at word 1 of segment 4 (s4), and has read 64 pointer words. Under question is word 0 of"
    " segment 5 (s5), in ring 4. That segment has R1 = 4, R2 = 4, R3 = 4, flags RW, LENGTH 8, GATE 0, ADDRESS 24."
    " See kuzhlemor explain 31.",
    "low-pr": "Refused with 3, asked of ST once RN has come: PR5's ring 2 is below IPR's 4. See kuzhlemor explain 3.",
    "mended": f"Halted after 12 steps of a budget of 100, by {_HALT}",
    "reads-the-formula": "Fault 22 after 0 steps: the effective ring 4 is above R2 = 1. The instruction is LDA PR2|2, in ring 4 at"
    f" word 0 of segment 4 (s4). Under question is word 2 of segment 1 (s1), in ring 4. {_FORMULA} See kuzhlemor explain 22.",
    "save-too-short": f"{_STORED} The fault isn't delivered, since the save segment 3 (s3) can't take the frame: its LENGTH 12 is"
    " below 13. See kuzhlemor explain 23.",
    "slow-blend": f"Halted after 8 steps of a budget of 100, by {_HALT}",
    "two-stacks": f"Halted after 17 steps of a budget of 100, by {_HALT}",
    "without-rn": "Refused with 42 at record 16, at byte 254 (where the image ends): the image ends without RN."
    " See kuzhlemor explain 42.",
    "written-twice": "Refused with 51 at record 16, at byte 254 (its mark is WD): an earlier WD has the address 18."
    " See kuzhlemor explain 51.",
    "written-twice-converted": f"{_STORED} See kuzhlemor explain 23.",
}


def examples() -> None:
    """Each example's listing is as it is without --explain, and its paragraph as it was worked out."""
    check({path.stem for path in EXAMPLES.glob("*.img")} == set(EXAMPLE_ENDS), "an example without its paragraph")
    for name, expected in EXAMPLE_ENDS.items():
        image = EXAMPLES / f"{name}.img"
        answer = command(0, "run", "--explain", image)
        check(answer.stdout == (EXAMPLES / f"{name}.txt").read_bytes(), f"{name}: another listing")
        check(plain(answer.stderr.decode()) == expected, f"{name}: {answer.stderr.decode()}")
    answer = command(0, "run", "--explain", "-", data=image.read_bytes())
    check(answer.stdout == (EXAMPLES / f"{name}.txt").read_bytes(), f"{name}: another listing through a pipe")
    check(plain(answer.stderr.decode()) == expected, f"{name} through a pipe: {answer.stderr.decode()}")


def listed_and_explained(data: bytes) -> Tuple[int, str, str]:
    """What the command's part in Python answers for an image: status, standard output and standard error."""
    with tempfile.TemporaryDirectory() as work:
        path = Path(work) / "image"
        path.write_bytes(data)
        kept = [os.dup(1), os.dup(2)]
        with open(Path(work) / "out", "w+b") as out, open(Path(work) / "err", "w+b") as err:
            os.dup2(out.fileno(), 1)
            os.dup2(err.fileno(), 2)
            try:
                status = run_explained(str(path), str(built("simulate")), str(LIBRARY))
            finally:
                for number, saved in enumerate(kept, 1):
                    os.dup2(saved, number)
                    os.close(saved)
            out.seek(0)
            err.seek(0)
            return status, out.read().decode(), err.read().decode()


def said_of(text: str) -> Tuple[str, str]:
    """The last line of the proved listing of an image that is given as text, and its paragraph."""
    assembled = assemble(text)
    check(assembled.image is not None, f"{[mistake.text() for mistake in assembled.mistakes]}\n{text}")
    status, listing, paragraph = listed_and_explained(assembled.image_bytes())
    check(status == 0 and listing == program("simulate", assembled.image_bytes()), f"another listing of:\n{text}")
    return listing.split("\n")[-2], plain(paragraph)


def directed_ends() -> None:
    """Each question that ends a run, each end without a fault, and each way in which ST is refused."""
    check({end.number for end in ENDS} == FAULTS, "a fault without an image")
    for end in ENDS:
        last, paragraph = said_of(end.text())
        check(last.startswith(f"{end.last_line()} "), f"{end.number}: {last}\n{end.text()}")
        check(paragraph == end.paragraph(), f"{end.number}: {paragraph}\n{end.paragraph()}\n{end.text()}")
    for text, begins, expected in OTHERS:
        last, paragraph = said_of(text)
        check(last.startswith(begins) and paragraph == expected, f"{last}: {paragraph}")
    for number, statement, why in STARTS:
        last, paragraph = said_of(f"{PLAIN}{statement}\n")
        expected = f"Refused with {number}, asked of ST once RN has come: {why}. See kuzhlemor explain {number}."
        check(last == f"refused {number}" and paragraph == expected, f"{last}: {paragraph}")


def damaged_records() -> None:
    """Each way in which 41 to 44 and 51 refuse a record."""
    good = (EXAMPLES / "case-12.img").read_bytes()
    me, st, rest, rn = good[:6], good[6:72], good[72:-6], good[-6:]
    for data, number, said in (
        (b"", 42, "at record 1, at byte 0 (where the image ends): the image is empty"),
        (b"no image", 41, "at record 1, at byte 0 (its mark is no): no record has this mark"),
        (good[:40], 41, "at record 2, at byte 6 (its mark is ST): ST has 34 bytes of 66"),
        (st, 42, "at record 1, at byte 0 (its mark is ST): ST comes before ME"),
        (me + me, 42, "at record 2, at byte 6 (its mark is ME): ME has come already"),
        (me + rn, 42, "at record 2, at byte 6 (its mark is RN): RN comes before ST"),
        (good + b"x", 42, f"at record 9, at byte {len(good) - 6} (its mark is RN): bytes follow RN"),
        (b"ME\0\0\x20\1" + good[6:], 43, "at record 1, at byte 0 (its mark is ME): 8193 words are more than 8192"),
        (me + st + wd_record(64, 1), 44, "at record 3, at byte 72 (its mark is WD): address 64 isn't below memory's 64 words"),
        (me + st + rest[:14] * 2, 51, "at record 4, at byte 86 (its mark is WD): an earlier WD has the address 3"),
        (
            me + st[:61] + rest + rn, 41,
            "at record 3, at byte 72 (its mark is the bytes 03 00 hex): no record has this mark; ST may be a stored image's, of 59"
            " bytes: see kuzhlemor convert",
        ),
    ):
        status, listing, paragraph = listed_and_explained(data)
        check((status, listing) == (0, f"refused {number}\n"), f"{said}: {listing}")
        check(plain(paragraph) == f"Refused with {number} {said}. See kuzhlemor explain {number}.", f"{paragraph}\n{said}")


RELATIONS: Dict[str, Callable[[int, int], bool]] = {
    "isn't below": operator.ge,
    "is above": operator.gt,
    "is below": operator.lt,
    "isn't": operator.ne,
}
# Between a number and what is said of it there may be a clause of its own, as for a new ring.
_PAIR = re.compile(
    r"(\d+)(?:, the [^:]*?,| of the frame's PR\d|, which)? (isn't below|is above|is below|isn't) \D*?(?:R\d = )?(\d+)"
)


class Stood:
    """What stood at a fault, by the test's own reckoning from the proved library's steps, under the names that a paragraph has."""

    def __init__(self, library: Library, image: Image, last: str) -> None:
        self.number, self.count, *pointer = map(int, last.split()[1:6])
        self.pointer = Pointer(*pointer)
        machine = Machine(library, image)
        machine.run(self.count)
        registers = machine.registers()
        self.memory = machine.memory
        self.values = {"effective ring": self.pointer.ring, "IPR's ring": registers.ipr.ring, "memory's": machine.words}
        self.values["(?<!new )DBR's LENGTH"] = registers.dbr_length
        self.descriptor: Optional[Descriptor] = None
        if self.pointer.segment < registers.dbr_length:
            d = self.descriptor = decode_descriptor(self.memory[registers.dbr_address + self.pointer.segment])
            self.values.update({"R1 =": d.r1, "R2 =": d.r2, "R3 =": d.r3, "GATE": d.gate})
            self.flags = {"R": d.read, "W": d.write, "E": d.execute, "V": d.valid}

    def add_operand(self, is_frame: bool) -> None:
        """What 34 and 52 compare stands in memory."""
        first = self.descriptor.address + self.pointer.word
        dbr = self.memory[first + 3 if is_frame else first]
        self.values.update({"new DBR's LENGTH": dbr >> 24 & 0x1FFF, "new DBR's ADDRESS": dbr & 0xFFFFFF})
        if self.number == 52:
            rings = [self.memory[first + k] >> 28 & 7 for k in range(4, 13)]
            self.values.update({"the ring": min(rings[1:]), "IPR's ring": rings[0]})


def check_comparison(stood: Stood, paragraph: str) -> None:
    """The comparison is true as it is said, and of what stood at the fault."""
    check(re.match(rf"Fault {stood.number} after {stood.count} steps?: ", paragraph) is not None, paragraph)
    check(NOT_FOUND not in paragraph, paragraph)
    check(paragraph.endswith(f" See kuzhlemor explain {stood.number}."), paragraph)
    said = paragraph.partition(": ")[2].partition(". ")[0]
    pairs = _PAIR.findall(said)
    flags = re.findall(r"\b([RWEV]) is off", said)
    if stood.number == 32:
        opcode = int(re.match(r"opcode (\d+) isn't one of the table's, ", said)[1])
        check(opcode not in {*range(1, 11), 16, 17, 24, 25, 26, 32, 33, 40, 41, 42}, paragraph)
    else:
        check(len(pairs) + len(flags) >= 1, f"no comparison: {paragraph}")
        for left, relation, right in pairs:
            check(RELATIONS[relation](int(left), int(right)), f"{left} {relation} {right}: {paragraph}")
    for letter in flags:
        check(not stood.flags[letter], f"{letter} is on: {paragraph}")
    if stood.number in (34, 52):
        stood.add_operand("The instruction is RCU" in paragraph)
    for name, value in stood.values.items():
        for found in re.findall(rf"{name} (\d+)", said):
            check(int(found) == value, f"{name} is {value}: {paragraph}")
    check_places(stood, paragraph)


def check_places(stood: Stood, paragraph: str) -> None:
    """What is under question is the last line's, and its descriptor's fields are what stood there."""
    d = stood.descriptor
    fields = "That segment has no descriptor"
    if d is not None:
        flags = "".join(letter for letter in "RWE" if stood.flags[letter]) or "-"
        flags += "" if d.valid else " and V off"
        fields = f"That segment has R1 = {d.r1}, R2 = {d.r2}, R3 = {d.r3}, flags {flags}, LENGTH {d.length}, GATE {d.gate},"
        fields += f" ADDRESS {d.address}. "
    check(fields in paragraph, paragraph)
    ring, segment, word = stood.pointer
    fetched = f"in ring {ring} at word {word} of segment {segment} (s{segment})"
    check(fetched in paragraph or f"word {word} of segment {segment} (s{segment}), in ring {ring}." in paragraph, paragraph)


def drawn_images() -> None:
    """Images drawn with a seed: the listing is as it was, and a fault's comparison true; where a run has several pieces too."""
    library = Library(str(LIBRARY))
    random = Random(21)
    usual = explain.STEPS_AT_A_TIME
    for k in range(LISTED):
        explain.STEPS_AT_A_TIME = 1 + k % 20
        data = b"".join(drawn.records(random, drawn.runnable(random, budget_most=50)))
        status, listing, paragraph = listed_and_explained(data)
        check(status == 0 and listing == program("simulate", data), f"image {k}: another listing")
        check_end(library, read_image(data), listing.split("\n")[-2], plain(paragraph))
    explain.STEPS_AT_A_TIME = usual
    came = set()
    for k in range(DRAWN):
        image = read_image(b"".join(drawn.records(random, drawn.runnable(random, budget_most=500))))
        came.add(check_end(library, image, reply_line(library, image), plain(explanation(image, library))))
    check(came >= {*FAULTS, 2, 3, 4}, f"a number that didn't come: {sorted({*FAULTS, 2, 3, 4} - came)}")


def reply_line(library: Library, image: Image) -> str:
    """The last line of an image's listing, by the library."""
    if image.refused is not None:
        return f"refused {image.refused.number}"
    reply = Machine(library, image).run(image.budget)
    kind = ("refused", "spent", "halted", "fault")[reply.kind]
    middle = f"{reply.number} {reply.count} {' '.join(map(str, reply.pointer))}" if kind == "fault" else f"{reply.count}"
    return f"{kind} {middle} {reply.pointer_words}"


def check_end(library: Library, image: Image, last: str, paragraph: str) -> int:
    """The paragraph is about the last line; the number of its question, or 0."""
    kind, number = last.split()[:2]
    if kind == "fault":
        check_comparison(Stood(library, image, last), paragraph)
        return int(number)
    begins = {
        "halted": rf"Halted after {number} steps? of a budget of {image.budget}, by HLT in ring 0 at word",
        "spent": rf"Spent: the budget of {number} steps? is used up, and the next",
        "refused": rf"Refused with {number}\b.* See kuzhlemor explain {number}\.$",
    }
    check(re.match(begins[kind], paragraph) is not None, f"{last}: {paragraph}")
    return int(number) if kind == "refused" else 0


def damaged_images() -> None:
    """Damaged images are explained too, each by its question."""
    library = Library(str(LIBRARY))
    random = Random(22)
    came = set()
    for k in range(DAMAGED):
        image = read_image(drawn.damaged(random, drawn.records(random, drawn.machine(random))))
        if image.budget is not None:
            image.budget = min(image.budget, 500)
        came.add(check_end(library, image, reply_line(library, image), plain(explanation(image, library))))
    check(came >= {2, 3, 4, 41, 42, 43, 44, 51}, f"a number that didn't come: {sorted(came)}")


def without_comparison() -> None:
    """Where no comparison says no, as it never is at a fault, that is said, whatever the number and the pointer."""
    machine = Machine(Library(str(LIBRARY)), read_image((EXAMPLES / "case-12.img").read_bytes()))
    reply = machine.run(9)
    for pointer in (reply.pointer, Pointer(1, 3, 0), Pointer(0, 0, 0), Pointer(7, 4095, 65535)):
        for number in range(64):
            paragraph = explain._fault(machine, reply._replace(number=number, pointer=pointer))
            check(paragraph.startswith(f"Fault {number} after 2 steps: "), paragraph)
    check(NOT_FOUND in explain._fault(machine, reply._replace(pointer=Pointer(1, 3, 0))), "a comparison that doesn't say no")


def streams() -> None:
    """Long listings, readers that go away, Ctrl-C, and what can't be read or written."""
    loop = assemble("memory 8\nbudget 4294967295\nsegment main rings 4 4 4 flags RE\nipr ring 4 main.0\nin main\nTRA +0\n")
    endless = loop.image_bytes()
    answer = run(["sh", "-c", '{ "$@"; echo "status $?" >&2; } | head -n 1', "sh", COMMAND, "run", "--explain", "-"], endless)
    check((answer.stdout, answer.stderr) == (b"1 4 0 0 0\n", b"status 141\n"), f"a reader that went away: {answer}")
    long = endless[:-4] + (500_000).to_bytes(4, "big")
    answer = run(["sh", "-c", '"$@" | tail -n 1', "sh", COMMAND, "run", "--explain", "-"], long)
    check(answer.stdout == b"spent 500000 0\n" and b"of 500000 steps" in answer.stderr, f"a long listing: {answer}")
    for simulate, library in (("/none", LIBRARY), (built("simulate"), "/none")):
        answer = run(["python3", "-I", "-B", TOP / "tools" / "workbench", "run", EXAMPLES / "blend.img", simulate, library])
        check(answer.returncode == 1 and b"kuzhlemor: what was built can't be used: " in answer.stderr, f"{answer}")
    interrupted(endless)
    check(read_image(b"".join([endless, bytes(BYTES_READ)])).refused.number == 42, "bytes after RN")
    answer = command(0, "run", "--explain", "-", data=endless + bytes(2 * BYTES_READ))
    check(answer.stdout == b"refused 42\n", "many bytes after RN")
    case_12 = EXAMPLES / "case-12.img"
    for place, status, said in (
        (">&-", 1, b"kuzhlemor: the listing couldn't be written\n"),
        ("2>&-", 1, b""),
        ("2>/dev/full", 1, b""),
    ):
        answer = run(["sh", "-c", f'"$@" {place}', "sh", COMMAND, "run", "--explain", case_12])
        check((answer.returncode, answer.stderr) == (status, said), f"{place}: {answer}")
    says(command(1, "run", "--explain", TOP / "none"), "no such file")
    says(command(1, "run", "--explain", TOP), "is a folder")
    for place in ("<&-", "</"):
        answer = run(["sh", "-c", f'"$@" {place}', "sh", COMMAND, "run", "--explain", "-"])
        check(answer.returncode == 1 and b"standard input: can't be read" in answer.stderr, f"{place}: {answer}")
    for arguments in (("--explain",), ("--explain", case_12, case_12), (case_12, "--explain"), ()):
        says(command(2, "run", *arguments), "run takes one image, after --explain if that is wanted")


def interrupted(endless: bytes) -> None:
    """A Ctrl-C ends the command at once, while it lists and while the library runs, which is after a stand-in's only line."""
    options = {"stdin": subprocess.PIPE, "stdout": subprocess.PIPE, "stderr": subprocess.PIPE, "start_new_session": True}
    options["preexec_fn"] = heed_interrupts
    workbench = ["python3", "-I", "-B", str(TOP / "tools" / "workbench"), "run", "-", "/bin/echo", str(LIBRARY)]
    for arguments, first in (([COMMAND, "run", "--explain", "-"], b"1 4 0 0 0\n"), (workbench, b"\n")):
        with subprocess.Popen(arguments, **options) as started:
            started.stdin.write(endless)
            started.stdin.close()
            check(started.stdout.readline() == first, f"{arguments}: another line")
            time.sleep(0.3)
            check(started.poll() is None, f"{arguments}: it ended by itself")
            os.killpg(started.pid, signal.SIGINT)
            check(started.wait(20) == 130, f"{arguments}: status {started.returncode}")
            said = started.stderr.read()
            check(said == b"", f"{arguments}: something was said: {said.decode()}")


def check_all() -> None:
    # The first use links the library.
    command(0, "run", "--explain", EXAMPLES / "case-12.img")
    parts = (texts, numbers, examples, directed_ends, damaged_records, drawn_images, damaged_images, without_comparison, streams)
    for part in parts:
        part()
