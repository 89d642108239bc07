"""Pages: what they embed against the proved programs and, through a C program, the library; what they draw; their sizes; those of
damaged and hostile images."""
import json
import re
import resource
import signal
import subprocess
import sys
import tempfile
from html.parser import HTMLParser
from pathlib import Path
from random import Random
from typing import Dict, List, Sequence

import drawn
from checks import COMMAND, EXAMPLES, LIBRARY, TOP, built, check, command, fail, heed_interrupts, program, run, says
from kuzhlemor import page as page_module
from kuzhlemor.assemble import assemble
from kuzhlemor.calls import Calls, parts
from kuzhlemor.image import Image, Registers, descriptor_question, descriptor_words, descriptors, read_image, write_image
from kuzhlemor.library import Library, Machine
from kuzhlemor.memory_map import memory_map
from kuzhlemor.page import BYTES_MOST, page
from kuzhlemor.trace import STEPS_MOST, with_budget
from kuzhlemor.words import Descriptor, Pointer, decode_descriptor, descriptor_text, encode_descriptor

ANSWERED, DAMAGED, DRAWN = 1_000, 1_000, 300
# Of a range with more words the C program is asked for so many at either end.
ASKED_MOST = 400
# A laboratory's program that goes through a gate into ring 1 and back for ever.
ENDLESS = """memory 64
budget 4000000000
segment 1 formula at 9 length 3 rings 1 1 5 flags RE gate 1
segment 4 program at 16 length 8 rings 4 4 4 flags RE
segment 5 results at 24 length 8 rings 4 4 4 flags RW
ipr ring 4 program.start
pr1 results.0
pr2 formula.entry
in formula
entry:  LDA dose
        RETURN PR3|0
dose:   word 250
in program
start:  EAP PR3, back
        CALL PR2|0
back:   AOS PR1|1
        LDA [place]
        TRA start
place:  pointer ring 4 results.1
"""
# Ring 0 writes a descriptor for segment 3, closes segment 2, and goes to another descriptor segment, in which segment 5 is.
CHANGING = """memory 64
budget 20
dbr at 0 length 6
segment 0 code at 16 length 12 rings 0 0 7 flags RE gate 1
segment 1 table at 0 length 16 rings 0 0 0 flags RW
segment 2 gate at 30 length 4 rings 0 4 6 flags RE gate 2
ipr ring 0 code.start
pr1 table.0
pr2 code.start
in code
start:  LDA third
        STA PR1|3
        LDI 0
        STA PR1|2
        LDBR other
        HLT
third:  descriptor at 40 length 5 rings 0 3 5 flags RE gate 3
other:  word 0x6000028
in memory.40
        descriptor at 16 length 12 rings 0 0 7 flags RE gate 1
in memory.45
        descriptor at 50 length 2 rings 0 5 7 flags E gate 1
"""
_library: List[Library] = []


def library() -> Library:
    if not _library:
        _library.append(Library(str(LIBRARY)))
    return _library[0]


def image_of(text: str) -> bytes:
    return assemble(text).image_bytes()


def page_of(data: bytes, name: str = "an image") -> str:
    return page(name, data, read_image(data), str(built("simulate")), library(), lambda text: None)


def data_of(text: str) -> Dict:
    return json.loads(re.search(r'<script type="application/json" id="data">(.*?)</script>', text, re.DOTALL).group(1))


class _Tags(HTMLParser):
    """Every element that has an end has it in its place."""

    def __init__(self) -> None:
        super().__init__()
        self.opened: List[str] = []
        self.is_balanced = True

    def handle_starttag(self, tag: str, attributes: object) -> None:
        if tag not in ("meta", "br"):
            self.opened.append(tag)

    def handle_startendtag(self, tag: str, attributes: object) -> None:
        pass

    def handle_endtag(self, tag: str) -> None:
        self.is_balanced = self.is_balanced and self.opened[-1:] == [tag]
        del self.opened[-1:]


def check_text(text: str, what: str) -> None:
    """One file that needs no other, below its size, with its elements in order."""
    for reference in ("http:", "https:", "src=", "url(", "@import", "<link"):
        check(reference not in text, f"{what}: the page has {reference}")
    tags = _Tags()
    tags.feed(text)
    check(tags.is_balanced and not tags.opened, f"{what}: elements without an end: {tags.opened}")
    check(len(text.encode()) < BYTES_MOST, f"{what}: {len(text)} bytes")


def check_listing(text: str, data: bytes, what: str) -> Dict:
    """What is embedded and what stands in the table are the program's lines, and the last one."""
    found = data_of(text)
    image = read_image(data)
    if image.refused is None:
        data = with_budget(data, min(image.budget, STEPS_MOST))
    *lines, last = program("simulate", data).splitlines()
    check(found["last"] == last, f"{what}: {found['last']}, not {last}")
    check(f"<code>{last}</code>" in text, f"{what}: the last line isn't there")
    if image.refused is not None:
        return found
    steps = [entry for entry in found["entries"] if entry["line"]]
    check(all(lines[entry["step"] - 1] == entry["line"] for entry in steps), f"{what}: another line")
    numbers = [entry["step"] for entry in found["entries"]]
    is_fault = last.startswith("fault")
    check(numbers == sorted(set(numbers)) and numbers[0] == 0 and numbers[-1] == len(lines) + is_fault, f"{what}: steps {numbers}")
    if len(lines) < page_module.STEPS_KEPT and len(found["segments"]) < 50:
        check(len(numbers) == len(lines) + 1 + is_fault, f"{what}: steps are left out")
    rows = [re.findall(r'<td class="n">(.*?)</td>', row) for row in re.findall(r'<tr id="e\d+".*?</tr>', text)]
    check([" ".join(row) for row in rows if row[0].isdigit()] == [entry["line"] for entry in steps], f"{what}: the table")
    left_out = len(lines) - len(steps)
    check((f"{left_out:,} are left out" in text) == (left_out > 0), f"{what}: {left_out} steps are left out")
    return found


class Asked:
    """Questions for the C program, and the answers that the page has."""

    def __init__(self) -> None:
        self.questions: List[str] = []
        self.expected: List[str] = []
        self.names: List[str] = []

    def machine(self, image: Image) -> None:
        r = image.registers
        numbers = [image.words, r.a, r.dbr_address, r.dbr_length]
        for _, pointer in r.pointers():
            numbers += pointer
        numbers += [r.switch, r.save, r.handler, len(image.memory)]
        for address, word in image.memory.items():
            numbers += [address, word]
        self.questions.append("m " + " ".join(map(str, numbers)))

    def expect(self, question: str, answer: str, name: str) -> None:
        self.questions.append(question)
        self.expected.append(answer)
        self.names.append(name)

    def registers(self, entry: Dict, image: Image, name: str) -> None:
        """All registers after a step, as the page has them."""
        ipr, a, dbr, *prs = (re.findall(r"\d+", text) for text in entry["registers"])
        r = image.registers
        numbers = [a[0], *dbr, *ipr, *(number for pr in prs for number in pr), r.switch, r.save, r.handler]
        self.expect(f"r {entry['step']}", " ".join(map(str, numbers)), name)

    def calls(self, entry: Dict, found: Dict, name: str) -> None:
        """Every range of every segment; the machine stands after the entry's step."""
        for segment, row in zip(found["segments"], found["tables"][entry["table"]]):
            for first, last, _, number in found["rows"][row]["ranges"]:
                answer = found["answers"][number]
                said = f"{4 if answer['passes'] else 3} {answer['number']} {answer['ring']}"
                for start, end in _asked(first, last):
                    self.expect(f"q {segment} {start} {end}", f"{start} {end} {said}", f"{name}, segment {segment}")

    def compare(self) -> None:
        with tempfile.TemporaryDirectory() as work:
            answers = Path(work) / "answers"
            flags = ["-std=c11", "-O2", "-Wall", "-Wextra", "-Werror", f"-I{TOP / 'include'}"]
            archive = TOP / "crates/kuzhlemor/out/libkuzhlemor.a"
            built = run(["gcc", *flags, TOP / "tests/workbench/answers.c", archive, "-o", answers])
            check(built.returncode == 0, f"answers.c: {built.stderr.decode()}")
            said = run([answers], "\n".join(self.questions).encode()).stdout.decode().splitlines()
        for name, expected, answer in zip(self.names, self.expected, said):
            check(expected == answer, f"{name}: the page has {expected}, the library {answer}")
        check(len(said) == len(self.expected), f"{len(said)} answers, not {len(self.expected)}")


def _asked(first: int, last: int) -> List[Sequence[int]]:
    if last - first < 2 * ASKED_MOST:
        return [(first, last)]
    return [(first, first + ASKED_MOST), (last - ASKED_MOST, last)]


def check_answers(asked: Asked, image: Image, found: Dict, entries: Sequence[Dict], what: str) -> None:
    """The registers after each of these entries, and what CALL is answered there; each range as document 01 divides words."""
    asked.machine(image)
    for entry in entries:
        asked.registers(entry, image, f"{what}, step {entry['step']}")
        asked.calls(entry, found, f"{what}, step {entry['step']}")
    start = found["tables"][found["entries"][0]["table"]]
    words = descriptor_words(image)
    for segment, row in zip(found["segments"], start):
        word = words.get(segment, 0)
        wanted = descriptor_text(decode_descriptor(word)) if word else "no descriptor"
        check(found["rows"][row]["descriptor"].startswith(wanted), f"{what}: segment {segment}'s descriptor")
        ranges = [(first, last) for first, last, _, _ in found["rows"][row]["ranges"]]
        check(ranges == [(first, last) for first, last, _ in parts(word)], f"{what}: segment {segment}'s ranges {ranges}")


def examples(asked: Asked) -> None:
    """Every example: all steps, all segments, at every step."""
    for path in sorted(EXAMPLES.glob("*.img")):
        data = path.read_bytes()
        text = page_of(data, path.name)
        check_text(text, path.name)
        found = check_listing(text, data, path.name)
        image = read_image(data)
        if image.refused is None:
            check_answers(asked, image, found, found["entries"], path.name)
    for name in ("mended", "low-pr"):
        path = EXAMPLES / f"{name}.img"
        text = command(0, "page", path).stdout.decode()
        check(text == page_of(path.read_bytes(), path.name), f"{name}: another page by the command")
        piped = command(0, "page", "-", data=path.read_bytes()).stdout.decode()
        check(piped == text.replace(path.name, "standard input"), f"{name}: another page through a pipe")


def random_images(asked: Asked) -> None:
    """Images of random machines: a few steps of each, of those with little memory all."""
    random = Random(11)
    done = 0
    while done < ANSWERED:
        data = b"".join(drawn.records(random, drawn.machine(random, budget_most=40)))
        image = read_image(data)
        if image.refused is not None:
            continue
        text = page_of(data)
        if done % 10 == 0:
            check_text(text, f"image {done}")
        found = check_listing(text, data, f"image {done}")
        entries = found["entries"]
        some = entries if done % 10 == 0 else [entries[0], *random.sample(entries, min(2, len(entries))), entries[-1]]
        check_answers(asked, image, found, some, f"image {done}")
        done += 1


def changing(asked: Asked) -> None:
    """Descriptors that the run writes, and another descriptor segment: the answers are those of each step."""
    data = image_of(CHANGING)
    text = page_of(data)
    found = check_listing(text, data, "descriptors that change")
    check(found["segments"] == [0, 1, 2, 3, 5], f"segments {found['segments']}")
    check("These get a descriptor during the run" in text, "segments that come later aren't said")
    check_answers(asked, read_image(data), found, found["entries"], "descriptors that change")

    def answer(step: int, segment: int) -> str:
        table = found["tables"][found["entries"][step]["table"]]
        return found["answers"][found["rows"][table[found["segments"].index(segment)]]["ranges"][0][3]]["text"]

    check(answer(1, 3) == "no: question 12" and answer(2, 3).startswith("yes"), "segment 3")
    check(answer(3, 2).startswith("yes") and answer(4, 2) == "no: question 12", "segment 2")
    check(answer(4, 5) == "no: question 12" and answer(5, 5).startswith("yes"), "segment 5")


def split_ranges() -> None:
    """A range whose words are answered differently is split where the answer changes: here one over the end of segment 3."""
    machine = Machine(library(), read_image((EXAMPLES / "case-12.img").read_bytes()))
    for part, wanted in (((0, 9, ""), [(0, 3), (4, 9)]), ((0, 3, ""), [(0, 3)]), ((5, 5, ""), [(5, 5)])):
        ranges = Calls([3])._ranges(machine, 3, *part)
        check([(found.first, found.last) for found in ranges] == wanted, f"{part}: {ranges}")


def check_map(image: Image, text: str, what: str) -> None:
    """Every segment with words in memory has one bar, bars of a lane lie apart, and the words of several are those by a count."""
    found, words = descriptors(image), image.words
    drawn_map = memory_map(image, found)
    having: List[List[int]] = [[] for _ in range(words)]
    for number, d in found.items():
        for address in range(d.address, min(d.address + d.length, words)):
            having[address].append(number)
    dbr = range(image.registers.dbr_address, image.registers.dbr_address + image.registers.dbr_length)
    several = {address for address in range(words) if len(having[address]) + (address in dbr) > 1}
    check(several == {a for first, end in drawn_map.shared for a in range(first, end)}, f"{what}: words of several segments")
    if not drawn_map.unlisted:
        check(several == {a for shared in drawn_map.listed for a in range(shared.first, shared.end)}, f"{what}: words listed")
    for shared in drawn_map.listed:
        for address in range(shared.first, shared.end):
            check(shared.count == len(having[address]) + (address in dbr), f"{what}: how many have address {address}")
            named = {stretch.segment for stretch in shared.named if stretch.segment is not None}
            check(named <= set(having[address]), f"{what}: who has address {address}")
    for lane in drawn_map.lanes:
        check(all(one.end <= other.first for one, other in zip(lane, lane[1:])), f"{what}: bars over each other")
    bars = sorted(stretch.segment for lane in drawn_map.lanes for stretch in lane)
    check(bars == sorted({number for some in having for number in some}), f"{what}: bars {bars}")
    check(sorted(map(int, re.findall(r'class="bar[^"]*" data-segment="(\d+)"', text))) == bars, f"{what}: bars on the page")


def check_strips(image: Image, text: str, what: str) -> None:
    """Each ring of each strip is in the brackets that document 01 gives it, and what is off is shown as off."""
    found = descriptors(image)
    rows = {int(number): row for number, row in re.findall(r'<tr[^>]* data-segment="(\d+)">(.*?)</tr>', text, re.DOTALL)}
    check(set(rows) == set(found), f"{what}: rows {set(rows)}")
    for number, d in found.items():
        strip = re.search(r'<i class="([a-z ]*)" style="([^"]*)"', rows[number])
        check((strip is None) == (not d.r1 <= d.r2 <= d.r3), f"{what}: a strip of segment {number}")
        question = descriptor_question(d, image.words)
        check((f"every use is fault {question}" in rows[number]) == (question > 0), f"{what}: segment {number} fails {question}")
        if strip is None:
            continue
        sizes = {name: int(size) for name, size in re.findall(r"--(\w):(\d+)", strip.group(2))}
        for ring in range(8):
            shown = [ring < sizes["w"], ring < sizes["r"], 0 <= ring - sizes["x"] < sizes["e"], 0 <= ring - sizes["y"] < sizes["g"]]
            wanted = [ring <= d.r1, ring <= d.r2, d.r1 <= ring <= d.r2, d.r2 < ring <= d.r3]
            check(shown == wanted, f"{what}: segment {number}, ring {ring}")
        off = {name for name, on in zip("wreg", (d.write, d.read, d.execute, d.execute and d.gate)) if not on}
        check(set(strip.group(1).split()) == off, f"{what}: segment {number}: off are {off}")


def _levels(path: str, columns: int) -> List[List[int]]:
    """The rings along each line of a chart's path, a column each; the whole is 1,000 wide."""
    lines: List[List[int]] = []
    height = 0.0
    for letter, number, more in re.findall(r"([MHV])([\d.]+)(?: ([\d.]+))?", path):
        if letter == "H":
            lines[-1] += [7 - int(height / 21)] * (round(float(number) * columns / 1000) - len(lines[-1]))
        else:
            height = float(more or number)
            if letter == "M":
                lines.append([])
    return lines


def check_chart(text: str, lines: List[str], start: int, what: str) -> None:
    """The chart's line has the ring of each step, or of each column the highest and the lowest."""
    if 'id="chart"' not in text:
        fail(f"{what}: no chart")
    rings = [start, *(int(line.split()[1]) for line in lines[:-1])]
    rings += rings[-1:] if lines[-1].startswith("fault") else []
    columns = min(len(rings), 800)
    parted = [rings[k * len(rings) // columns : (k + 1) * len(rings) // columns] for k in range(columns)]
    drawn_lines = _levels(re.search(r'class="ring-line" d="([^"]*)"', text).group(1), columns)
    check(drawn_lines[0] == [max(part) for part in parted], f"{what}: the highest rings of the chart")
    check(drawn_lines[-1] == [min(part) for part in parted], f"{what}: the lowest rings of the chart")


    words = [0, *(int(line.split()[4]) for line in lines[:-1])]
    most = max(words)
    highest = [max(words[k * len(rings) // columns : (k + 1) * len(rings) // columns], default=0) for k in range(columns)]
    bars = re.findall(r"M([\d.]+) 36V([\d.]+)H", re.search(r'class="pointer-bars" d="([^"]*)"', text).group(1)) if most else []
    shown = {int(float(left) * columns / 1000): float(top) for left, top in bars}
    wanted = {k: 36 - max(2, 34 * some / most) for k, some in enumerate(highest) if some}
    is_near = shown.keys() == wanted.keys() and all(abs(shown[k] - wanted[k]) < 0.1 for k in wanted)
    check(is_near, f"{what}: pointer words {shown}, not {wanted}")


def check_events(text: str, image: Image, what: str) -> bool:
    """The marks of a short run are its calls, returns and delivered faults. The first delivered fault, if there is one, is the one
    that ends the run with the switch off."""
    found = data_of(text)["entries"]
    delivered = [entry for entry in found if "The fault was delivered" in entry["said"]]
    performed = [entry["did"].split()[0] for entry in found[1:] if "Question" not in entry["said"]]
    drawn_marks = re.findall(r'<use href="#mark-(\w+)" x', text)
    for name, wanted in (("call", performed.count("CALL")), ("return", performed.count("RETURN")), ("delivered", len(delivered))):
        check(drawn_marks.count(name) == wanted, f"{what}: {drawn_marks.count(name)} marks for {name}, not {wanted}")
    if delivered:
        image.registers.switch = 0
        _, number, count, ring, segment, word, _ = program("simulate", write_image(image)).splitlines()[-1].split()
        first = delivered[0]
        check(first["step"] == int(count) + 1, f"{what}: the first delivered fault is in step {first['step']}, not after {count}")
        check(first["said"].startswith(f"Question {number}, asked of ring {ring}, s{segment}.{word}:"), f"{what}: {first['said']}")
    return bool(delivered)


def drawings() -> None:
    """Map, strips, chart and events of random images, and the chart of a long run."""
    delivered = 0
    random = Random(15)
    for k in range(DRAWN):
        data = b"".join(drawn.records(random, drawn.machine(random, budget_most=50)))
        image = read_image(data)
        text = page_of(data)
        if image.refused is None:
            check_map(image, text, f"image {k}")
            check_strips(image, text, f"image {k}")
            check_chart(text, program("simulate", data).splitlines(), image.registers.ipr.ring, f"image {k}")
            delivered += check_events(text, image, f"image {k}")
    check(delivered > DRAWN // 30, f"only {delivered} images deliver a fault")
    data = with_budget(image_of(ENDLESS), 5000)
    check_chart(page_of(data), program("simulate", data).splitlines(), 4, "5,000 steps")


def long_run(asked: Asked) -> None:
    """A budget of four thousand million: a million steps are followed and thinned, with progress; the page says so."""
    data = image_of(ENDLESS)
    before = resource.getrusage(resource.RUSAGE_CHILDREN)
    answer = command(0, "page", "-", data=data)
    after = resource.getrusage(resource.RUSAGE_CHILDREN)
    says(answer, "of 1000000 steps")
    text = answer.stdout.decode()
    check_text(text, "a long run")
    found = check_listing(text, data, "a long run")
    for said in ("The page follows the first 1,000,000 steps of a budget of 4,000,000,000", "1,000,000 steps were followed."):
        check(said in text, f"a long run: it doesn't say: {said}")
    some = [*found["entries"][:3], *Random(12).sample(found["entries"], 20), found["entries"][-1]]
    check_answers(asked, read_image(data), found, some, "a long run")
    taken = after.ru_utime + after.ru_stime - before.ru_utime - before.ru_stime
    print(f"tests/workbench: a page of a million steps: {len(text)} bytes, built in {taken:.1f} s of processor time")


def many_segments(asked: Asked) -> None:
    """4,096 segments over each other, drawn; and with a lower limit of the page's size."""
    random = Random(13)
    image = Image()
    image.words, image.budget, image.registers = 8192, 100, Registers()
    image.registers.dbr_length = 4096
    for number in range(1, 4096):
        rings = sorted(random.getrandbits(3) for _ in range(3))
        flags = [random.random() < 0.7 for _ in range(4)]
        length = random.randrange(60) if random.random() < 0.9 else random.randrange(30000)
        image.memory[number] = encode_descriptor(Descriptor(random.randrange(8192), length, *rings, *flags, random.randrange(50)))
    image.memory[0] = encode_descriptor(Descriptor(8000, 20, 0, 7, 7, True, True, True, True, 5))
    image.memory[8000], image.memory[8001] = 0x09000006, 0x1800FFFF
    data = write_image(image)
    text = page_of(data)
    check_text(text, "4,096 segments")
    found = check_listing(text, data, "4,096 segments")
    check(len(found["segments"]) == 4096, "4,096 segments: some are missing")
    check_answers(asked, image, found, [found["entries"][0], found["entries"][-1]], "4,096 segments")
    print(f"tests/workbench: a page of 4,096 segments: {len(text)} bytes, {len(found['entries'])} steps kept of 100")
    try:
        page_module.BYTES_MOST = 200_000
        data = with_budget(image_of(ENDLESS), 3000)
        text = page_of(data)
    finally:
        page_module.BYTES_MOST = BYTES_MOST
    check(len(text) < 200_000, f"a lower limit: {len(text)} bytes")
    check_listing(text, data, "a lower limit")


def damaged_images() -> None:
    """Images damaged in every way, and bytes of any sort: each has its page, with the program's number."""
    random = Random(14)
    refused = 0
    for k in range(DAMAGED):
        data = drawn.damaged(random, drawn.records(random, drawn.machine(random, budget_most=20)))
        text = page_of(data)
        image = read_image(data)
        refused += image.refused is not None
        if image.refused is not None:
            check(f"Refused with {image.refused.number}" in text, f"damaged image {k}: the number isn't there")
        if k % 20 == 0:
            check_text(text, f"damaged image {k}")
            check_listing(text, data, f"damaged image {k}")
    check(DAMAGED // 3 < refused < DAMAGED, f"{refused} are refused")
    for size in (0, 1, 2, 5, 6, 72, 500):
        check_text(page_of(random.getrandbits(8 * size).to_bytes(size, "big") if size else b""), f"{size} bytes")


def hostile_images() -> None:
    """What an author seldom writes: no memory, no segment, faults delivered without an end, every bit on; names like markup."""
    sizes = ((0, 0, 0), (1, 1, 0), (64, 0, 0), (64, 64, 0), (64, 60, 9), (64, 2**32 - 1, 65535), (8192, 0, 4096))
    for words, address, length in sizes:
        image = Image()
        image.words, image.budget, image.registers = words, 2**32 - 1, Registers()
        image.registers.dbr_address, image.registers.dbr_length = address, length
        check_text(page_of(write_image(image)), f"{words} words, DBR {address} {length}")
    image = Image()
    image.words, image.budget, image.registers = 64, 5000, Registers()
    image.memory = dict.fromkeys(range(64), 2**64 - 1)
    image.memory[3] = encode_descriptor(Descriptor(40, 13, 0, 0, 0, True, True, False, True, 0))
    r = image.registers
    r.a, r.dbr_length, r.switch, r.save, r.handler = 2**64 - 1, 9, 1, 3, 8
    r.ipr, r.prs = Pointer(7, 4095, 65535), [Pointer(7, 4095, 65535)] * 8
    data = write_image(image)
    text = page_of(data)
    check_text(text, "faults without an end")
    check_listing(text, data, "faults without an end")
    check("5,000 delivered faults" in text, "faults without an end aren't counted")
    name = "</script><script>alert(1)</script>&\"'\x1b\udcff"
    text = page_of(data, name)
    check_text(text, "a name like markup")
    check("<" not in page_module._json("</script><!--"), "what is embedded could end its element")
    check("<script>alert" not in text and "&lt;/script&gt;&lt;script&gt;alert(1)" in text, "a name like markup")


def ends() -> None:
    """What the command says where there is no page, and that nothing is printed then."""
    for arguments in ((), ("a", "b")):
        says(command(2, "page", *arguments), "page takes one image")
    says(command(1, "page", TOP / "none"), "no such file")
    says(command(1, "page", EXAMPLES), "is a folder")
    for place in (">/dev/full", ">&-"):
        answer = run(["sh", "-c", f'"$@" {place}', "sh", COMMAND, "page", EXAMPLES / "case-12.img"])
        check(answer.returncode == 1, f"{place}: {answer.returncode}")
        says(answer, "the page couldn't be written")
    with tempfile.TemporaryDirectory() as work:
        other = Path(work) / "other"
        for listing, what in (
            ("1 4 4 2 0", "the library and the listing differ at step 1"),
            (r"1 4 4 1 0\n2 1 5 0 0\nfault 23 2 4 3 1 0", "the library and the listing's last line differ"),
            ("refused 3", "the library and the listing differ at step 1"),
        ):
            other.write_text(f"#!/bin/sh\ncat >/dev/null\nprintf '{listing}\\n'\n")
            other.chmod(0o755)
            answer = run([sys.executable, TOP / "tools/workbench", "page", EXAMPLES / "case-12.img", other, LIBRARY])
            check(answer.returncode == 1 and answer.stdout == b"", f"{listing}: {answer.returncode}")
            says(answer, f"kuzhlemor: no page: {what}")
        endless = Path(work) / "endless.img"
        endless.write_bytes(image_of(ENDLESS))
        options = {"stdout": subprocess.PIPE, "stderr": subprocess.PIPE, "preexec_fn": heed_interrupts}
        with subprocess.Popen([COMMAND, "page", endless], **options) as started:
            check(b" steps" in started.stderr.readline(), "no progress is told")
            started.send_signal(signal.SIGINT)
            printed, said = started.communicate()
        check(started.returncode == 130 and printed == b"", f"Ctrl-C: {started.returncode} {said.decode()}")
        check(b"Traceback" not in said, f"Ctrl-C: {said.decode()}")


def check_all() -> None:
    """Programs and library are built by then."""
    if not LIBRARY.exists():
        fail(f"{LIBRARY}: the command should have linked it")
    asked = Asked()
    for part in (examples, random_images, changing, long_run, many_segments):
        part(asked)
    asked.compare()
    for part in (split_ranges, drawings, damaged_images, hostile_images, ends):
        part()
