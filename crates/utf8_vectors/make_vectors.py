#!/usr/bin/env python3
"""Writes `stdin` and `stdout` beside this file: byte sequences, and what Python's own decoder says of each.

The sequences come from table 3-7 of the Unicode Standard: of each row the first and the last sequence, their neighbours just outside
in every byte, and every beginning of them; besides every single byte, overlong forms, surrogates, numbers past 10FFFF, and the
standard's own examples of ill-formed text. Each stands alone and among ASCII bytes, also far behind them, where the check goes by the block.
The verdict is `bytes.decode('utf-8')`, and the place is `UnicodeDecodeError.start`: nothing of this repository decides it.
Run it with no argument: python3 make_vectors.py"""
import os

ROWS = [
    [(0x00, 0x7F)],
    [(0xC2, 0xDF), (0x80, 0xBF)],
    [(0xE0, 0xE0), (0xA0, 0xBF), (0x80, 0xBF)],
    [(0xE1, 0xEC), (0x80, 0xBF), (0x80, 0xBF)],
    [(0xED, 0xED), (0x80, 0x9F), (0x80, 0xBF)],
    [(0xEE, 0xEF), (0x80, 0xBF), (0x80, 0xBF)],
    [(0xF0, 0xF0), (0x90, 0xBF), (0x80, 0xBF), (0x80, 0xBF)],
    [(0xF1, 0xF3), (0x80, 0xBF), (0x80, 0xBF), (0x80, 0xBF)],
    [(0xF4, 0xF4), (0x80, 0x8F), (0x80, 0xBF), (0x80, 0xBF)],
]

OVERLONG = "c080 c0af c1bf e08080 e080af e09fbf f0808080 f08080af f08fbfbf f880808080 f888808080 fc8080808080 fc8480808080"
SURROGATES = "eda080 eda0bf edadbf edae80 edafbf edb080 edbe80 edbfbf eda080edb080 edafbfedbfbf"
PAST_THE_END = "f4908080 f4bfbfbf f5808080 f7bfbfbf f8bfbfbfbf fdbfbfbfbfbf"
NO_FIRST_BYTE = "c080 c180 fe80 ff80 feff fffe fefeffff"
STANDARD = "c0afe080bff0818241 eda080edbfbfedaf41 f4919293ff4180bf42 e180e2f09192f1bf41"
CODE_POINTS = [0x7F, 0x80, 0x7FF, 0x800, 0xFFF, 0x1000, 0x1680, 0x2028, 0x3000, 0xCFFF, 0xD000, 0xD7FF, 0xE000, 0xFEFF, 0xFFFD, 0xFFFF,
               0x10000, 0x1F600, 0x3FFFF, 0x40000, 0xFFFFF, 0x100000, 0x10FFFF]


def edges():
    """The first and last sequence of each row, each byte moved just outside its range, and each cut short."""
    for row in ROWS:
        for end in (0, 1):
            whole = [r[end] for r in row]
            yield bytes(whole)
            for i, (lo, hi) in enumerate(row):
                for b in (lo - 1, hi + 1):
                    if b >= 0:
                        yield bytes(whole[:i] + [b] + whole[i + 1:])
            for n in range(1, len(row)):
                yield bytes(whole[:n])


def sequences():
    yield from edges()
    for words in (OVERLONG, SURROGATES, PAST_THE_END, NO_FIRST_BYTE, STANDARD):
        yield from (bytes.fromhex(w) for w in words.split())
    yield from (chr(c).encode() for c in CODE_POINTS)


def tests():
    yield b""
    yield from (bytes([b]) for b in range(256))
    for s in sequences():
        yield s
        yield b"%a" + s
        yield s + b" ="
        yield b"%a" + s + b" ="
        yield s + s
    yield "é€😀".encode() * 7
    for at in range(64):
        yield b"x" * at + b"\x80" + b"x" * (63 - at)
    for at in range(0, 60, 3):
        yield b"x" * at + "😀".encode() + b"x" * (60 - at)


def verdict(s):
    try:
        s.decode("utf-8")
        return "ok"
    except UnicodeDecodeError as fault:
        return f"bad {fault.start}"


def main():
    here = os.path.dirname(os.path.abspath(__file__))
    kept = list(dict.fromkeys(tests()))
    text = "".join(s.hex() + "\n" for s in kept)
    assert all(len(s) <= 64 for s in kept) and len(text) <= 65536
    with open(os.path.join(here, "stdin"), "w") as f:
        f.write(text)
    with open(os.path.join(here, "stdout"), "w") as f:
        f.write("".join(verdict(s) + "\n" for s in kept))


main()
