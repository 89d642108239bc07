"""Mistakes in a source text, and what is said of each, word for word: the place, what was found and what is expected."""

STATEMENT = "expected an opcode, word, pointer, descriptor, skip, in, segment or another statement"
OPERAND = "expected an operand: PRn|OFFSET, a label, SEGMENT.WORD, +N or -N, or one of these in [ ]"

# A text without a mistake, to which those of the first table are added, from line 7 on.
HEAD = """memory 64
budget 9
ipr ring 4 main.start
segment main rings 4 4 4 flags RE
in main
start:  HLT
"""

# The kind, the lines with it, and each message in the order of its place.
IN_SEGMENT = [
    (
        "an opcode that isn't in the table",
        "        LDQ 7",
        "7:9: found 'LDQ', " + STATEMENT + "; did you mean LDI?",
    ),
    (
        "a statement misspelt",
        "budge 9",
        "7:1: found 'budge', " + STATEMENT + "; did you mean budget?",
    ),
    (
        "no statement at all",
        "= 3",
        "7:1: found '=', expected a statement or a label",
    ),
    (
        "a character that isn't ASCII",
        "\u00fc",
        "7:1: found '?', expected a statement or a label",
    ),
    (
        "a label without its colon",
        "again   HLT",
        "7:9: found 'HLT', expected ':' after the label 'again'",
    ),
    (
        "a label twice",
        "start:  HLT",
        "7:1: found 'start', expected a label of its own: line 6 has it in main",
    ),
    (
        "a register's name for a label",
        "PR1:    HLT",
        "7:1: found 'PR1', expected a name that isn't PR0 to PR7",
    ),
    (
        "more than a statement",
        "        HLT 7",
        "7:13: found '7', expected the end of the line",
    ),
    (
        "LIT missing",
        "        LDI",
        "7:12: found the end of the line, expected LIT, a number from 0 to 4294967295",
    ),
    (
        "LIT that is no number",
        "        LDI seven",
        "7:13: found 'seven', expected LIT, a number from 0 to 4294967295",
    ),
    (
        "LIT negative",
        "        LDI -1",
        "7:13: found '-', expected LIT, a number from 0 to 4294967295",
    ),
    (
        "LIT of more than 32 bits",
        "        LDI 4294967296",
        "7:13: found '4294967296', expected LIT, a number from 0 to 4294967295",
    ),
    (
        "an operand missing",
        "        LDA",
        "7:12: found the end of the line, " + OPERAND,
    ),
    (
        "an operand that might be a word or an offset",
        "        LDA 5",
        "7:13: found '5', " + OPERAND,
    ),
    (
        "a label that isn't there",
        "        TRA strat",
        "7:13: found 'strat', expected a label of main or SEGMENT.WORD; did you mean start?",
    ),
    (
        "a label of another segment",
        "        TRA there\nsegment other rings 4 4 4 flags RE\nin other\nthere:  HLT",
        "7:13: found 'there', expected a label of main or SEGMENT.WORD",
    ),
    (
        "a word of another segment without a PR",
        "        TRA other.there\nsegment other rings 4 4 4 flags RE\nin other\nthere:  HLT",
        "7:13: found 'other', expected a word of main, or PRn|OFFSET to go to another segment",
    ),
    (
        "a segment that isn't declared",
        "        TRA mian.start",
        "7:13: found 'mian', expected a segment that a segment statement declares; did you mean main?",
    ),
    (
        "PR8",
        "        LDA PR8|0",
        "7:13: found 'PR8', expected PR0 to PR7",
    ),
    (
        "a PR without an offset",
        "        LDA PR1",
        "7:16: found the end of the line, expected '|' and an offset",
    ),
    (
        "an offset missing",
        "        LDA PR1|",
        "7:17: found the end of the line, expected OFFSET, a number from -32768 to 65535",
    ),
    (
        "an offset of more than 16 bits",
        "        LDA PR1|65536",
        "7:17: found '65536', expected OFFSET, a number from -32768 to 65535",
    ),
    (
        "an offset too far back",
        "        LDA PR1|-32769",
        "7:18: found '-32769', expected OFFSET, a number from -32768 to 65535",
    ),
    (
        "a bracket that isn't closed",
        "        LDA [PR1|0",
        "7:19: found the end of the line, expected ']'",
    ),
    (
        "a bracket that isn't opened",
        "        LDA PR1|0]",
        "7:18: found ']', expected the end of the line",
    ),
    (
        "EAP without its register",
        "        EAP start",
        "7:13: found 'start', expected PR0 to PR7",
    ),
    (
        "EAP of A",
        "        EAP A, start",
        "7:13: found 'A', expected PR0 to PR7",
    ),
    (
        "EAP without a comma",
        "        EAP PR3 start",
        "7:17: found 'start', expected ',' and an operand",
    ),
    (
        "a distance too far",
        "        TRA +65536",
        "7:14: found '65536', expected a distance, a number from 0 to 65535",
    ),
    (
        "a distance missing",
        "        TRA -",
        "7:14: found the end of the line, expected a distance, a number from 0 to 65535",
    ),
    (
        "a word before the first",
        "        TRA start-1",
        "7:13: found word -1, expected a word from 0 to 65535",
    ),
    (
        "a word missing",
        "        word",
        "7:13: found the end of the line, expected a word, a number of at most 64 bits",
    ),
    (
        "a number with a letter",
        "        word 12ab",
        "7:14: found '12ab', expected a word, a number of at most 64 bits",
    ),
    (
        "a hexadecimal number with another letter",
        "        word 0x1g",
        "7:14: found '0x1g', expected a word, a number of at most 64 bits",
    ),
    (
        "a word of more than 64 bits",
        "        word 18446744073709551616",
        "7:14: found '18446744073709551616', expected a word, a number of at most 64 bits",
    ),
    (
        "a word too negative",
        "        word -9223372036854775809",
        "7:15: found '-9223372036854775809', expected a word, a number of at most 64 bits",
    ),
    (
        "two words in a statement",
        "        word 1 2",
        "7:16: found '2', expected the end of the line",
    ),
    (
        "a pointer without a ring",
        "        pointer main.0",
        "7:17: found 'main', expected 'ring'",
    ),
    (
        "a pointer's ring above 7",
        "        pointer ring 8 main.0",
        "7:22: found '8', expected RING, a number from 0 to 7",
    ),
    (
        "a pointer without a word",
        "        pointer ring 4 main",
        "7:24: found 'main', expected a label of main or SEGMENT.WORD",
    ),
    (
        "a pointer's segment above 4095",
        "        pointer ring 4 4096.0",
        "7:24: found '4096', expected SEGNO, a number from 0 to 4095, or a segment's name",
    ),
    (
        "a pointer's word above 65535",
        "        pointer ring 4 main.65536",
        "7:29: found '65536', expected WORDNO, a number from 0 to 65535",
    ),
    (
        "a label of a segment without a name",
        "        pointer ring 4 9.there",
        "7:26: found 'there', expected a word's number: segment 9 has no labels",
    ),
    (
        "another word than indirect",
        "        pointer ring 4 main.0 direct",
        "7:31: found 'direct', expected indirect or the end of the line",
    ),
    (
        "a descriptor without an address",
        "        descriptor length 2 rings 1 2 3 flags R",
        "7:48: found the end of the line, expected at ADDRESS",
    ),
    (
        "a descriptor without flags",
        "        descriptor at 1 length 2 rings 1 2 3",
        "7:45: found the end of the line, expected flags FLAGS",
    ),
    (
        "skip without a number",
        "        skip",
        "7:13: found the end of the line, expected a number of words, a number from 0 to 65535",
    ),
    (
        "in nothing",
        "in",
        "7:3: found the end of the line, expected a segment or memory",
    ),
    (
        "in a segment that isn't declared",
        "in nowhere\n        LDI 1\nhere:   LDI 2",
        "7:4: found 'nowhere', expected a segment that a segment statement declares",
    ),
    (
        "in a segment's label",
        "in main.start",
        "7:9: found 'start', expected WORDNO, a number from 0 to 65535",
    ),
    (
        "in memory past every memory",
        "in memory.8192",
        "7:11: found '8192', expected an address, a number from 0 to 8191",
    ),
    (
        "a label in memory",
        "in memory.40\nhere:   HLT",
        "8:1: found 'here', expected no label: memory has none",
    ),
    (
        "to a label from memory",
        "in memory.40\n        TRA start",
        "8:13: found 'start', expected no label: memory has none",
    ),
    (
        "a pointer to a label from memory",
        "in memory.40\n        pointer ring 4 start",
        "8:24: found 'start', expected SEGMENT.WORD: memory has no labels",
    ),
    (
        "a word written twice",
        "in main.0\n        LDI 1",
        "8:9: found word 0 of main at address 1, expected each word once: line 6 has put one there",
    ),
    (
        "an address written twice",
        "in memory.40\n        word 1\nin memory.40\n        word 1",
        "10:9: found a word at address 40, expected each word once: line 8 has put one there",
    ),
    (
        "a word over a descriptor",
        "dbr at 8\nin memory.8\n        word 1",
        "9:9: found a word at address 8, expected each word once: line 4 has put one there",
    ),
    (
        "a segment without anything",
        "segment",
        "7:8: found the end of the line, expected the segment's number or name",
    ),
    (
        "a segment without a name",
        "segment 4 at 40",
        "7:11: found 'at', expected the segment's name",
    ),
    (
        "a segment's number above 4095",
        "segment 4096 data length 1 rings 4 4 4 flags R",
        "7:9: found '4096', expected SEGNO, a number from 0 to 4095",
    ),
    (
        "a segment's number twice",
        "segment 7 one length 1 rings 4 4 4 flags R\nsegment 7 two length 1 rings 4 4 4 flags R",
        "8:9: found '7', expected a number of its own: line 7 has it",
    ),
    (
        "a segment's name twice",
        "segment main length 1 rings 4 4 4 flags R",
        "7:9: found 'main', expected a name of its own: line 4 has it",
    ),
    (
        "a register's name for a segment",
        "segment pr1 length 1 rings 4 4 4 flags R",
        "7:9: found 'pr1', expected a name that isn't PR0 to PR7 nor memory",
    ),
    (
        "memory for a segment's name",
        "segment memory length 1 rings 4 4 4 flags R",
        "7:9: found 'memory', expected a name that isn't PR0 to PR7 nor memory",
    ),
    (
        "rings missing",
        "segment data length 1 flags R",
        "7:30: found the end of the line, expected rings R1 R2 R3",
    ),
    (
        "two rings",
        "segment data length 1 rings 4 4 flags R",
        "7:33: found 'flags', expected R3, a number from 0 to 7",
    ),
    (
        "rings above 7",
        "segment data length 1 rings 8 4 9 flags R",
        "7:29: found '8', expected R1, a number from 0 to 7",
        "7:33: found '9', expected R3, a number from 0 to 7",
    ),
    (
        "flags missing",
        "segment data length 1 rings 4 4 4",
        "7:34: found the end of the line, expected flags FLAGS",
    ),
    (
        "another flag",
        "segment data length 1 rings 4 4 4 flags RX",
        "7:42: found 'X', expected FLAGS: letters of R, W and E, each once, or - for none",
    ),
    (
        "a flag twice",
        "segment data length 1 rings 4 4 4 flags RWR",
        "7:43: found 'R', expected FLAGS: letters of R, W and E, each once, or - for none",
    ),
    (
        "a gate above 2047",
        "segment data length 1 rings 4 4 4 flags R gate 2048",
        "7:48: found '2048', expected GATE, a number from 0 to 2047",
    ),
    (
        "a length above 65535",
        "segment data length 65536 rings 4 4 4 flags R",
        "7:21: found '65536', expected LENGTH, a number from 0 to 65535",
    ),
    (
        "an address above 16777215",
        "segment data at 16777216 length 1 rings 4 4 4 flags R",
        "7:17: found '16777216', expected ADDRESS, a number from 0 to 16777215",
    ),
    (
        "an attribute twice",
        "segment data length 1 length 2 rings 4 4 4 flags R",
        "7:23: found 'length', expected at, rings, flags, gate, invalid or the end of the line",
    ),
    (
        "another attribute",
        "segment data length 1 rings 4 4 4 flags R speed 9",
        "7:43: found 'speed', expected at, gate, invalid or the end of the line",
    ),
    (
        "a segment of no length",
        "segment data rings 4 4 4 flags R",
        "7:9: found no words in 'data', expected some, or its length",
    ),
    (
        "a segment without room",
        "segment data length 64 rings 4 4 4 flags R",
        "7:9: found no room for 64 words, expected more memory, or an address for it",
    ),
    (
        "a word past its segment's length",
        "segment data length 1 rings 4 4 4 flags R\nin data\n        word 1\n        word 2",
        "10:9: found word 1 of data, expected a word below its length 1",
    ),
    (
        "a word past memory",
        "segment data at 63 length 2 rings 4 4 4 flags R\nin data\n        word 1\n        word 2",
        "10:9: found word 1 of data at address 64, expected an address below memory's 64",
    ),
    (
        "a descriptor past memory",
        "dbr at 63\nsegment data length 1 rings 4 4 4 flags R",
        "8:9: found the descriptor of segment 1 at address 64, expected an address below memory's 64",
    ),
    (
        "a segment past dbr's length",
        "dbr length 4\nsegment 4 data length 1 rings 4 4 4 flags R",
        "8:9: found segment 4, expected a number below dbr's length 4",
    ),
    (
        "dbr without anything",
        "dbr",
        "7:4: found the end of the line, expected at ADDRESS or length LENGTH, each once",
    ),
    (
        "dbr's numbers without their names",
        "dbr 0 6",
        "7:5: found '0', expected at ADDRESS or length LENGTH, each once",
    ),
    (
        "a statement twice",
        "memory 64",
        "7:1: found 'memory', expected memory once: it stands in line 1 already",
    ),
    (
        "A missing",
        "a",
        "7:2: found the end of the line, expected A, a number of at most 64 bits",
    ),
    (
        "a register without a segment",
        "pr1 start",
        "7:10: found the end of the line, expected '.' and a word, for SEGMENT.WORD",
    ),
    (
        "a register's word missing",
        "pr1 main.",
        "7:10: found the end of the line, expected a label or a word's number",
    ),
    (
        "a register's ring of more than a byte",
        "pr1 ring 256 main.0",
        "7:10: found '256', expected RING, a number from 0 to 255",
    ),
    (
        "a register's segment of more than two bytes",
        "pr1 65536.0",
        "7:5: found '65536', expected SEGNO, a number from 0 to 65535, or a segment's name",
    ),
    (
        "a switch neither on nor off",
        "switch maybe",
        "7:8: found 'maybe', expected on or off",
    ),
    (
        "a switch of more than a byte",
        "switch 256",
        "7:8: found '256', expected the switch, a number from 0 to 255",
    ),
    (
        "a save segment missing",
        "save",
        "7:5: found the end of the line, expected a segment's name or number",
    ),
    (
        "a save segment that isn't declared",
        "save mian",
        "7:6: found 'mian', expected a segment that a segment statement declares; did you mean main?",
    ),
    (
        "a handler's segment of more than two bytes",
        "handler 65536",
        "7:9: found '65536', expected SEGNO, a number from 0 to 65535, or a segment's name",
    ),
]

# Whole texts.
WHOLE = [
    (
        "an empty text",
        "",
        "1:1: found the end of the text, expected budget, which is missing",
        "1:1: found the end of the text, expected ipr, which is missing",
        "1:1: found the end of the text, expected memory, which is missing",
    ),
    (
        "a text of comments",
        "# nothing\n; nothing",
        "1:1: found the end of the text, expected budget, which is missing",
        "1:1: found the end of the text, expected ipr, which is missing",
        "1:1: found the end of the text, expected memory, which is missing",
    ),
    (
        "a memory above 8192",
        "memory 8193\nbudget 9\nipr ring 4 0.0",
        "1:8: found '8193', expected memory, a number from 0 to 8192",
    ),
    (
        "a budget of more than 32 bits",
        "memory 64\nbudget 4294967296\nipr ring 4 0.0",
        "2:8: found '4294967296', expected budget, a number from 0 to 4294967295",
    ),
    (
        "no ring for IPR",
        "memory 64\nbudget 9\nipr 0.0",
        "3:5: found '0', expected 'ring'",
    ),
    (
        "words before the first segment",
        "memory 64\nbudget 9\nipr ring 4 0.0\n        HLT\n        HLT",
        "4:9: found 'HLT', expected 'in SEGMENT' before the first word",
    ),
]
