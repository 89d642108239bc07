"""Every question that the library or its programs have a number for, explained: one table for `explain`, labels and the guide."""
from textwrap import fill
from typing import Dict, Iterable, List, NamedTuple

WIDTH = 79


class Question(NamedTuple):
    """A no is the refusal or the fault of that number. The texts have no `|`, which would end a field of the guide's table."""

    number: int
    # One clause of what a yes says, for a label.
    short: str
    asks: str
    when: str
    cause: str
    look: str


# Before a run or a step: a no refuses the call.
_BEFORE_A_RUN = (
    Question(
        1,
        "memory: at most 16,777,216 words",
        "Has memory at most 16,777,216 words?",
        "First, before a run, a step, a check of a CALL or a table of brackets. No image meets it, since 43 comes before it.",
        "A host lends the library a longer memory.",
        "The number of words that the host hands over.",
    ),
    Question(
        2,
        "registers: every field is within its range",
        "Is every ring at most 7, every segment number at most 4,095, every word number at most 65,535 and DBR's ADDRESS at most"
        " 16,777,215? Is the switch 0 or 1, and are the save and the handler segment at most 4,095?",
        "After 1, before a run, a step or a check of a CALL, there of the pointer too; of an image once its RN has come.",
        "Bytes of ST out of their place or with the low byte first, or a register that the host never set.",
        "IPR, PR0 to PR7, DBR and the switch in kuzhlemor show; its first lines name the one that is out of range.",
    ),
    Question(
        3,
        "registers: no PR's ring is below IPR's",
        "Is the RING of every PR at least IPR's?",
        "After 2, before a run, a step or a check of a CALL; of an image once its RN has come.",
        "IPR starts in ring 4, say, and a PR was left at ring 0.",
        "The rings of PR0 to PR7 beside IPR's. A source that gives a PR no ring gives it IPR's.",
    ),
    Question(
        4,
        "DBR: LENGTH at most 4,096, and within memory",
        "Is DBR's LENGTH at most 4,096, and is ADDRESS + LENGTH within memory?",
        "After 3, before a run, a step or a check of a CALL; of an image once its RN has come. For a table of brackets after 1.",
        "A descriptor segment that was moved or made longer without its memory, or DBR's two numbers exchanged.",
        "DBR in kuzhlemor show, and the words of memory.",
    ),
)

# Whenever a segment is used; from here on a no is a fault.
_OF_A_SEGMENT = (
    Question(
        11,
        "segment: its number is below DBR's LENGTH",
        "Is the segment's number below DBR's LENGTH?",
        "First, whenever a segment is used: by a fetch, for a pointer word, for an operand, by a transfer or a CALL. 11 to 14 are"
        " also asked of the save segment; there a no keeps a fault from being delivered.",
        "A PR or a pointer word that was never set or was overwritten, or DBR's LENGTH is too small.",
        "The segment in the fault's line, where the pointer to it came from, and DBR's LENGTH.",
    ),
    Question(
        12,
        "segment: V is on",
        "Is V on in the segment's descriptor?",
        "After 11, whenever a segment is used.",
        "No descriptor was written for that number, so that its word is zero, or the descriptor says invalid.",
        "The descriptor of the segment in the fault's line, and whether the program meant another segment.",
    ),
    Question(
        13,
        "segment: R1 is at most R2, and R2 at most R3",
        "Is R1 at most R2, and R2 at most R3?",
        "After 12, whenever a segment is used.",
        "The rings of a descriptor were written in another order, or its word was overwritten.",
        "R1, R2 and R3 of the segment in the fault's line; kuzhlemor brackets can set them.",
    ),
    Question(
        14,
        "segment: ADDRESS + LENGTH is within memory",
        "Does the segment end within memory: is ADDRESS + LENGTH at most the number of words?",
        "After 13, whenever a segment is used.",
        "A descriptor with a wrong ADDRESS or LENGTH, or a memory that is too small.",
        "ADDRESS and LENGTH of the segment in the fault's line, and the words of memory.",
    ),
    Question(
        15,
        "segment: the word's number is below LENGTH",
        "Is the word's number below the segment's LENGTH? (RCU: are the numbers of all thirteen words?)",
        "After 14, whenever a segment is used.",
        "An offset too far, or a program that goes on past its last instruction.",
        "The word in the fault's line against LENGTH. Adding an OFFSET goes round from 65,535 to 0.",
    ),
)

_BY_USE = (
    Question(
        21,
        "fetch: E is on, and the ring is from R1 to R2",
        "Is E on, and is IPR's ring in the execute bracket, from R1 to R2?",
        "After 15, when the instruction at IPR is fetched.",
        "The run starts in a ring in which its program may not be executed, or a program goes on in a segment of data.",
        "IPR's ring and segment, and E, R1 and R2 of that segment.",
    ),
    Question(
        22,
        "read bracket: R is on, the effective ring at most R2",
        "Is R on, and is the effective ring at most R2?",
        "After 15, for every pointer word, and for the operand of LDA, ADA, SBA, ANA, ORA, XRA, CNT, AOS, LDBR and RCU.",
        "A program reads what belongs to a lower ring, or a pointer through which it goes has a higher ring than its own.",
        "The ring in the fault's line, and the PR and the pointer words that raised it; R and R2 of the segment.",
    ),
    Question(
        23,
        "write bracket: W is on, the effective ring at most R1",
        "Is W on, and is the effective ring at most R1?",
        "After 15, for STA and SPP; for AOS after 22.",
        "A program writes what belongs to a lower ring, or a gate writes with the pointer that its caller handed over.",
        "The ring in the fault's line, and the PR and the pointer words that raised it; W and R1 of the segment.",
    ),
    Question(
        24,
        "transfer: the effective ring is IPR's",
        "Is the effective ring equal to IPR's?",
        "After 15, when TRA, TZE or TMI transfers; one that isn't taken asks nothing of its target.",
        "The transfer goes through a PR or a pointer word of a higher ring. RETURN is for going up, and CALL for going down.",
        "The ring in the fault's line against IPR's, and the pointer that raised it.",
    ),
    Question(
        25,
        "transfer or RETURN: E is on, the ring from R1 to R2",
        "Is E on, and is the effective ring in the execute bracket, from R1 to R2?",
        "For TRA, TZE and TMI after 24, when they transfer; for RETURN after 15.",
        "The target is a segment of data, or one that is executed in other rings.",
        "The ring in the fault's line, and E, R1 and R2 of the segment there.",
    ),
    Question(
        26,
        "CALL: E is on",
        "Is E on in the segment that is called?",
        "After 15, for CALL and a check of a CALL.",
        "The call goes to a segment of data: a PR holds another pointer than the program meant.",
        "The flags of the segment in the fault's line, and the PR of the CALL.",
    ),
    Question(
        27,
        "CALL: the same segment, or the word is below GATE",
        "Does the call stay in the instruction's segment, or is the word's number below GATE?",
        "After 26, for CALL and a check of a CALL.",
        "A call from another segment past the gates, or a GATE that was left at 0.",
        "The word in the fault's line against GATE. A segment of another number isn't the same one, though it has the same words.",
    ),
    Question(
        28,
        "CALL: the effective ring is at most R3",
        "Is the effective ring at most R3, where the gate extension ends?",
        "After 27, for CALL and a check of a CALL.",
        "The gates of that segment aren't open to the caller's ring, or the pointer has a higher ring than the caller.",
        "The ring in the fault's line against R3; kuzhlemor doors lists which rings may call.",
    ),
    Question(
        29,
        "CALL: the effective ring is at least R1",
        "Is the effective ring at least R1?",
        "After 28, for CALL and a check of a CALL.",
        "A lower ring calls a program of a higher one, which CALL doesn't do.",
        "The ring in the fault's line against R1. RETURN is what goes to a higher ring.",
    ),
    Question(
        30,
        "CALL: the new ring is at most IPR's",
        "Is the new ring, the smaller of the effective ring and R2, at most IPR's?",
        "After 29, for CALL and a check of a CALL.",
        "The pointer of the call has a higher ring than IPR, and the segment is executed in that ring too.",
        "The ring in the fault's line, R2 of the segment, and IPR's ring.",
    ),
    Question(
        31,
        "pointer words: it is among the instruction's first 64",
        "Is the pointer word among the first 64 that the instruction reads?",
        "Before 11, for every pointer word.",
        "Pointer words with I on that lead back to one another, or one that leads to itself; seldom a chain that is so long.",
        "I of the pointer words, from the one that the instruction names on.",
    ),
    Question(
        32,
        "opcode: it is in the table",
        "Is the instruction's opcode in the table?",
        "After 21, of the word that was fetched.",
        "The program goes on into data, or into words that are zero.",
        "The word at IPR, and how the program came there: the listing's lines before the last.",
    ),
    Question(
        33,
        "privileged opcode: IPR's ring is 0",
        "Is IPR's ring 0, if the opcode is privileged?",
        "After 32, for LDBR, HLT and RCU.",
        "A program outside ring 0 ends with HLT itself.",
        "IPR's ring. A program of a higher ring calls a gate into ring 0, where HLT stands, as examples/blend.kuz does.",
    ),
    Question(
        34,
        "new DBR: LENGTH at most 4,096, and within memory",
        "Is LENGTH in the word that DBR is to become at most 4,096, and is ADDRESS + LENGTH within memory?",
        "After 22, for LDBR of its operand and for RCU of word 3 of the frame.",
        "The operand isn't a DBR word: ADDRESS is in bits 0 to 23, LENGTH in bits 24 to 36.",
        "The word at the address in the fault's line; for RCU the one three words after it.",
    ),
)

# Of an image's records, one after the other: a no refuses the image.
_OF_AN_IMAGE = (
    Question(
        41,
        "record: its mark is known, and it is whole",
        "Is the record's mark ME, ST, WD or RN, and is the record whole?",
        "First, of each record of an image in turn.",
        "The file was cut off, or it is no image; or it is a stored image, whose ST has 59 bytes and not 64.",
        "The record and its byte in kuzhlemor show; kuzhlemor convert makes a stored image into one of today's.",
    ),
    Question(
        42,
        "records: ME first and once, one ST, RN last",
        "Is ME first and single, ST single and before RN, and RN last?",
        "After 41, of each record in turn; also where the file ends without RN, and of any byte after RN.",
        "The end of the file is missing, something was added to it, or two images are in one file.",
        "The record and its byte in kuzhlemor show.",
    ),
    Question(
        43,
        "ME: at most 8,192 words",
        "Does ME say at most 8,192 words?",
        "After 42, of ME.",
        "A larger memory than an image may have, or a number with its low byte first.",
        "The four bytes after ME, high byte first.",
    ),
    Question(
        44,
        "WD: its address is below ME's number",
        "Is WD's address below the number that ME says?",
        "After 42, of each WD.",
        "A WD for a word that memory hasn't, or an address with its low byte first.",
        "The record in kuzhlemor show, and the words of memory.",
    ),
    Question(
        45,
        "text buffer: it has 64 * (budget + 1) bytes",
        "Has the text buffer 64 * (budget + 1) bytes?",
        "Last, after 1 to 4, by kuzhlemor_bench alone.",
        "The firmware's buffer is too small for the image's budget.",
        "The budget after RN; kuzhlemor needs says the most lines, of 64 bytes each.",
    ),
    Question(
        51,
        "WD: no earlier one has the address",
        "Has no earlier WD of the image the same address?",
        "After 44, of each WD; a stored image that is converted isn't asked.",
        "A word was written twice, by an editor or by hand; an equal word counts too.",
        "The record in kuzhlemor show; kuzhlemor convert keeps the last WD of each address of a stored image.",
    ),
)

_OF_A_FRAME = (
    Question(
        52,
        "frame of RCU: no PR's ring is below its IPR's",
        "Is the RING of every PR in the frame at least that of the frame's IPR?",
        "After 34, for RCU.",
        "A handler raised the ring of the frame's IPR but not its PRs', or the operand isn't a frame.",
        "Words 4 (IPR) and 5 to 12 (PR0 to PR7) of the frame at the address in the fault's line.",
    ),
)

_OF_A_TABLE = (
    Question(
        53,
        "table: at most 32 rows, each in order and in range",
        "Are there at most 32 rows, and in each: is FIRST at most LAST, LAST below DBR's LENGTH, R1 at most R2, R2 at most R3 and"
        " R3 at most 7?",
        "After 1 and 4, of a table of brackets as a whole.",
        "FIRST and LAST or the rings of a row are in another order, or a row is for segments that DBR hasn't.",
        "The rows of the table, and DBR's LENGTH in kuzhlemor show.",
    ),
    Question(
        54,
        "table: every segment is in a row",
        "Is the segment in a row of the table?",
        "After 53, of each segment below DBR's LENGTH, from 0 up; the lowest with a no decides, here or by 55.",
        "A segment was left out. Those without a descriptor, below DBR's LENGTH, need a row too.",
        "The ranges of the rows from segment 0 on, up to DBR's LENGTH.",
    ),
    Question(
        55,
        "table: no segment is in several rows",
        "Is the segment in no second row of the table?",
        "After 54, of each segment below DBR's LENGTH, from 0 up.",
        "Two rows overlap; equal rows count too.",
        "Where a row's LAST is at or above the next one's FIRST.",
    ),
)

_OF_OLD_WORDS = (
    Question(
        56,
        "old descriptor: bits 44 to 63 are off",
        "Are bits 44 to 63 of the old word off?",
        "Of each word that kuzhlemor from-old converts.",
        "The file already has descriptors of today's, or its words have their low byte first.",
        "The word whose index stands behind the number, counted from 0.",
    ),
    Question(
        57,
        "today's descriptor: V on, GATE 0, rings 4 4 4 or 0 0 0",
        "Is V on, is GATE 0, and are the rings 4 4 4 or 0 0 0?",
        "Of each word that kuzhlemor to-old converts.",
        "A descriptor that the old benches can't have: with gates, with other rings, or none at all, a word of zero.",
        "The word whose index stands behind the number, counted from 0.",
    ),
)

_TABLE = _BEFORE_A_RUN + _OF_A_SEGMENT + _BY_USE + _OF_AN_IMAGE + _OF_A_FRAME + _OF_A_TABLE + _OF_OLD_WORDS
QUESTIONS: Dict[int, Question] = {question.number: question for question in sorted(_TABLE)}
# Those that end a run, unless the fault is delivered.
FAULTS = frozenset(question.number for question in _OF_A_SEGMENT + _BY_USE + _OF_A_FRAME)


def ranges(numbers: Iterable[int]) -> str:
    """Numbers in rising order as stretches of them: 1 to 4, 11 to 15 and 52."""
    stretches: List[List[int]] = []
    for number in numbers:
        if stretches and number == stretches[-1][-1] + 1:
            stretches[-1].append(number)
        else:
            stretches.append([number])
    texts = [f"{some[0]} to {some[-1]}" if len(some) > 1 else str(some[0]) for some in stretches]
    return f"{', '.join(texts[:-1])} and {texts[-1]}" if len(texts) > 1 else "".join(texts)


def question_text(question: Question) -> str:
    """A question and its texts, as lines that fit a terminal."""
    lines = [f"Question {question.number}: a no {'is a fault' if question.number in FAULTS else 'refuses'}."]
    texts = (("asks", question.asks), ("when", question.when), ("usual cause", question.cause), ("look at", question.look))
    for name, text in texts:
        lines.append(fill(text, WIDTH, initial_indent=f"  {name:<13}", subsequent_indent=" " * 15, break_on_hyphens=False))
    return "\n".join(lines) + "\n"


def markdown() -> str:
    """The table as the guide has it."""
    lines = ["| number | asks | when | usual cause of a no | what to look at |", "|---|---|---|---|---|"]
    lines += [f"| {q.number} | {q.asks} | {q.when} | {q.cause} | {q.look} |" for q in QUESTIONS.values()]
    return "\n".join(lines) + "\n"
