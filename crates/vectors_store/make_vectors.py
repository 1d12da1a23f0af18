#!/usr/bin/env python3
"""Writes stdin and stdout beside this file: questions about rules on disk, and what each comes to; and those of the two programs over stored files. Files are packed here from rows written by hand after
docs/LAYOUT.md; which of them load, and the numbers of the others, follow section 10 of docs/RULES.md. Nothing of the library takes part."""
import pathlib
import struct

ROWS = (9, 10, 7, 11)  # words of a row: items, statements, operands, attributes


def words(*numbers):
    return b"".join(struct.pack("<I", n & 0xFFFFFFFF) for n in numbers)


def trailer(*lengths, version=1):
    pairs, at = [], 0
    for length in lengths:
        pairs += [at, length]
        at += length
    return words(*pairs, version)


def file_of(text, *tables):
    """The file of a text and four tables, each a list of rows."""
    parts = [text] + [b"".join(words(*row) for row in rows) for rows in tables]
    return b"".join(parts) + trailer(*map(len, parts))


def load(file, room, formed=True):
    """The answer of a load into a room of bytes and words; whether the rows are well formed is told by the caller."""
    if len(file) < 44:
        return "14 0"
    tail = struct.unpack("<11I", file[-44:])
    if tail[10] != 1:
        return "13 0"
    at = 0
    for start, length in zip(tail[0:10:2], tail[1:10:2]):
        if start != at:
            return "14 0"
        at += length
    lengths = tail[1:10:2]
    if at != len(file) - 44 or any(n % (4 * row) for n, row in zip(lengths[1:], ROWS)):
        return "14 0"
    if lengths[0] > room[0] or any(n // 4 > w for n, w in zip(lengths[1:], room[1:])):
        return "15 0"
    if not formed:
        return "8 0"
    counts = [n // (4 * row) for n, row in zip(lengths[1:], ROWS)]
    again = f"0 {len(file)} {file.hex()}" if len(file) <= 1000 else "15 0"
    return f"0 {lengths[0]} {' '.join(map(str, counts))} {again}"


questions, answers = [], []


def asks_load(file, room=(300, 200, 200, 200, 200), formed=True):
    questions.append(f"L {' '.join(map(str, room))} {file.hex()}")
    answers.append(load(file, room, formed))


def asks_store(text, room, answer):
    questions.append(f"S {room} {text.hex()}")
    answers.append(answer)


# `cand 1 2`: one item, two operands
CAND_TEXT = b"cand 1 2"
CAND_ITEM = [2, 0, 0, 0, 0, 0, 2, 0, 0]
ONE, TWO = [2, 0, 0, 0, 0, 0, 1], [2, 0, 0, 0, 0, 0, 2]
CAND = file_of(CAND_TEXT, [CAND_ITEM], [], [ONE, TWO], [])
assert len(CAND) == 144 and CAND[100:] == words(0, 8, 8, 36, 44, 0, 44, 56, 100, 0, 1)

# a rule with each of the four tables: `add` is the first instruction of the grammar comment
TEXT = b"%a:i8=var (knownBits=01x) (range=[-1,2))\npc %a 1\n%bc=add %a, -1:i16\ninfer %bc (demandedBits=01)\nresult %a\n"
A, BC = (0, 2), (TEXT.index(b"%bc"), TEXT.index(b"%bc") + 3)
KNOWN, DEMANDED = (TEXT.index(b"01x"), TEXT.index(b"01x") + 3), (TEXT.index(b"01)"), TEXT.index(b"01)") + 2)
MINUS = [0xFFFFFFFF] * 4
ITEMS = [[1, 0, 3, 3, 2, 4, 5, 2, 3]]
STATEMENTS = [
    [60, *A, 8, 0, 0, 0, 0, 0, 2],
    [65, 0, 0, 0, 0, 0, 0, 2, 2, 2],
    [1, *BC, 0, 0, 0, 2, 4, 2, 2],
]
OPERANDS = [[1, 0, 0, 0, 0, 0, 0], ONE, [1, 0, 0, 0, 0, 0, 0], [2, 0, 16, *MINUS], [1, 0, 0, 0, 0, 0, 0]]
ATTRIBUTES = [
    [1, *KNOWN, 0, 0, 0, 0, 0, 0, 0, 0],
    [8, 0, 0, *MINUS, 0, 0, 0, 2],
    [9, *DEMANDED, 0, 0, 0, 0, 0, 0, 0, 0],
]
RULE = file_of(TEXT, ITEMS, STATEMENTS, OPERANDS, ATTRIBUTES)
RULE_ROOM = (len(TEXT), 9, 30, 35, 33)

# both files, whole, with exactly the room that they need, and with one byte or word less of each part
for file, room in ((CAND, (8, 9, 0, 14, 0)), (RULE, RULE_ROOM)):
    asks_load(file)
    asks_load(file, room)
    for part in range(5):
        if room[part]:
            asks_load(file, tuple(n - (k == part) for k, n in enumerate(room)))

# stores: into the file's bytes, more, one fewer, none
for text, file in ((CAND_TEXT, CAND), (TEXT, RULE), (b"", trailer(0, 0, 0, 0, 0)), (b"; none", b"; none" + trailer(6, 0, 0, 0, 0))):
    for room in (len(file), len(file) + 1, 1000):
        asks_store(text, room, f"0 {len(file)} {file.hex()}")
    for room in (len(file) - 1, 0):
        asks_store(text, room, "15 0")

# the settled files
asks_load(CAND[:-1])
asks_load(b" " + CAND)
asks_load(bytes(43))
asks_load(CAND[-43:])
asks_load(bytes(44))
asks_load(bytes(40) + words(1))
asks_load(b"A" + words(0, 1, 1, 0, 1, 0, 1, 0, 1, 0, 1))
asks_load(words(0xFFFFFFFF) + bytes(36) + words(1))
asks_load(b"")

# versions, each byte of the last word
for k in range(4):
    for byte in (0, 1, 2, 255):
        asks_load(RULE[: -4 + k] + bytes([byte]) + (RULE[-4 + k + 1 :] if k < 3 else b""))

# each word of the trailer one more, one less, and with its bytes in the other order
for file in (CAND, RULE):
    for k in range(11):
        at = len(file) - 44 + 4 * k
        (old,) = struct.unpack("<I", file[at : at + 4])
        for new in (old + 1, old - 1, old + 4, struct.unpack(">I", struct.pack("<I", old))[0]):
            asks_load(file[:at] + words(new) + file[at + 4 :])

# sums that would wrap in 32 bits: lengths that come to the right end only modulo 2^32
asks_load(words(0, 0x80000000, 0x80000000, 0x80000000, 0, 0, 0, 0, 0, 0, 1))
asks_load(b"A" + words(0, 0xFFFFFFFD, 0xFFFFFFFD, 4, 1, 0, 1, 0, 1, 0, 1))

# parts that overlap, leave a gap, run outside, stand in another order, end in a broken row
asks_load(CAND[:-44] + words(0, 8, 4, 36, 44, 0, 44, 56, 100, 0, 1))
asks_load(CAND[:-44] + words(0, 7, 8, 36, 44, 0, 44, 56, 100, 0, 1))
asks_load(CAND[:-44] + words(0, 8, 8, 36, 44, 0, 44, 84, 128, 0, 1))
asks_load(CAND[:-44] + words(0, 8, 64, 36, 100, 0, 8, 56, 100, 0, 1))
asks_load(CAND[:-44] + words(0, 12, 12, 32, 44, 0, 44, 56, 100, 0, 1))
asks_load(CAND[:-44] + words(0, 0, 0, 44, 44, 0, 44, 56, 100, 0, 1))
asks_load(CAND[:-44] + words(0, 8, 8, 92, 100, 0, 100, 0, 100, 0, 1))

# 14 before 15 before 8: a broken row in no room at all; no room for rows that are not well formed
asks_load(CAND[:-44] + words(0, 12, 12, 32, 44, 0, 44, 56, 100, 0, 1), (0, 0, 0, 0, 0))
BAD_KIND = file_of(CAND_TEXT, [[9] + CAND_ITEM[1:]], [], [ONE, TWO], [])
asks_load(BAD_KIND, (7, 9, 0, 14, 0))
asks_load(BAD_KIND, (8, 9, 0, 14, 0), formed=False)

# rows that are not well formed: kinds, codes, spans, references, names, unused fields
for k, new in ((0, 0), (0, 3), (1, 1), (3, 1), (4, 1), (6, 1), (8, 1)):
    item = list(CAND_ITEM)
    item[k] = new
    asks_load(file_of(CAND_TEXT, [item], [], [ONE, TWO], []), formed=False)
asks_load(file_of(CAND_TEXT, [CAND_ITEM], [], [ONE, TWO, TWO], []), formed=False)
asks_load(file_of(CAND_TEXT, [CAND_ITEM], [], [[3, 0, 0, 0, 0, 0, 1], TWO], []), formed=False)
asks_load(file_of(CAND_TEXT, [CAND_ITEM], [], [[2, 1, 0, 0, 0, 0, 1], TWO], []), formed=False)
asks_load(file_of(CAND_TEXT, [CAND_ITEM], [], [[2, 0, 65536, 0, 0, 0, 1], TWO], []), formed=False)
asks_load(file_of(CAND_TEXT, [CAND_ITEM], [], [[2, 0, 65535, 0, 0, 0, 1], TWO], []))
for row, k, new in ((0, 0, 67), (0, 1, 1), (0, 2, 1), (0, 3, 65536), (0, 4, 1), (1, 1, 1), (2, 1, 0), (2, 7, 3), (2, 5, 1)):
    statements = [list(r) for r in STATEMENTS]
    statements[row][k] = new
    asks_load(file_of(TEXT, ITEMS, statements, OPERANDS, ATTRIBUTES), formed=False)
for row, k, new in ((0, 0, 11), (0, 1, 0), (0, 3, 1), (1, 1, 1), (2, 0, 1)):
    attributes = [list(r) for r in ATTRIBUTES]
    attributes[row][k] = new
    asks_load(file_of(TEXT, ITEMS, STATEMENTS, OPERANDS, attributes), formed=False)

# a text at the limit and past it, with memory enough
for letters in (65536, 65537):
    file = b" " * letters + trailer(letters, 0, 0, 0, 0)
    asks_load(file, (66000, 0, 0, 0, 0), formed=letters <= 65536)

here = pathlib.Path(__file__).parent
(here / "stdin").write_text("".join(line + "\n" for line in questions))
(here / "stdout").write_text("".join(line + "\n" for line in answers))

# the two programs over stored files: the rule's file, and its print
PRINT = b"%a:i8 = var (knownBits=01x) (range=[-1,2))\n%bc = add %a, -1:i16\ninfer %bc (demandedBits=01)\nresult %a\n"
for program, given, said in (("program_store_replacements", TEXT, RULE), ("program_print_stored", RULE, PRINT)):
    (here.parent / program / "stdin").write_bytes(given)
    (here.parent / program / "stdout").write_bytes(said)
