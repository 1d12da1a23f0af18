#!/usr/bin/env python3
"""Writes the files stdin and stdout of the program vectors_stream: texts, one to a line, and what the lexing of each comes to
where it arrives in parts, as section 11 of docs/RULES.md says: `TOKENS NUMBER PLACE`.

The model below was written for this purpose alone, from documents 01 and 02, and not from the definitions or the code of this
repository. It lexes a whole text by regular expressions and lets Python's own decoder judge UTF-8; it knows no parts, since the
report must not depend on the cuts.

Run it as  python3 make_vectors.py  ; it writes beside itself."""
import os
import random
import re

MOST_BYTES = 65536
LONGEST_TOKEN = 4096
# White_Space of the Unicode Character Database, in UTF-8.
WHITE = [chr(c).encode() for c in
         [*range(0x09, 0x0E), 0x20, 0x85, 0xA0, 0x1680, *range(0x2000, 0x200B), 0x2028, 0x2029, 0x202F, 0x205F, 0x3000]]
GAP = re.compile(b"(?:" + b"|".join(re.escape(w) for w in WHITE) + rb"|;[^\n]*)*")
TOKEN = re.compile(rb"[,=:()\[]|%[A-Za-z0-9_.]+|[A-Za-z][A-Za-z0-9_.]*|[0-9-][0-9]*")
PATTERN = re.compile(rb"=([01x]*)")


def report(text):
    """Tokens, number and place of a text."""
    if len(text) > MOST_BYTES:
        return 0, 1, MOST_BYTES
    try:
        text.decode("utf-8")
    except UnicodeDecodeError as fault:
        return 0, 2, fault.start
    tokens, at = 0, 0
    while True:
        at = GAP.match(text, at).end()
        if at == len(text):
            return tokens, 0, 0
        token = TOKEN.match(text, at)
        if not token:
            return tokens, 3, at
        end = token.end()
        if token.group() == b"knownBits":
            if end == len(text):
                return tokens, 3, len(text) - 1
            pattern = PATTERN.match(text, end)
            if not pattern:
                return tokens, 3, end
            if not pattern.group(1):
                return tokens, 3, end + 1
            end = pattern.end()
        if end - at > LONGEST_TOKEN:
            return tokens, 16, at
        tokens, at = tokens + 1, end


def spelt(text):
    """A text in the spelling of a line: long runs of a byte by their number, bytes that are no plain ASCII by their digits."""
    out, i = [], 0
    while i < len(text):
        n = 1
        while i + n < len(text) and text[i + n] == text[i]:
            n += 1
        plain = 0x20 <= text[i] < 0x7F and text[i] != 0x5C
        if n > 8 and plain:
            out.append("\\r%05d%c" % (n, text[i]))
        else:
            out.append((chr(text[i]) if plain else "\\x%02X" % text[i]) * n)
        i += n
    return "".join(out)


def settled():
    """Worked examples of the request, and settled ones."""
    yield from [b"", b"%a = var", b"%", b"-1", b"-", b"knownBits", b"knownBitsx", b"knownBits =0", b"knownBits=", b"knownBits=0", b"; \xC3",
                b"\xE2\x80\x83", b"\xE2\x80", b"\xC3\xA9", b"\xE2", b"%a = var (knownBits =0)", b"%a = var (knownBits=)", b"12knownBits=0",
                b"knownBits.", b"knownBit", b"knownBit =0", b"kknownBits=0", b"KnownBits=0", b"knownBits=2", b"knownBits=x1 0",
                b"%1=var %0 = var pc %0 1 %2:i08=add %1, -0 cand %2 007", b"%b = block 2 %p = phi %b, 1", b"\xFF", b"a\xFF", b"%\xFF", b"; no end"]


def edges():
    """Every first letter of knownBits with each kind of byte behind it, and every edge of UTF-8's ranges."""
    for n in range(1, 10):
        for behind in (b"", b"x", b" ", b"=", b"=0", b"%", b"\xC2\x85", b"\xC3"):
            yield b"knownBits"[:n] + behind
    for first in (0x7F, 0x80, 0xC1, 0xC2, 0xDF, 0xE0, 0xE1, 0xEC, 0xED, 0xEE, 0xEF, 0xF0, 0xF1, 0xF3, 0xF4, 0xF5, 0xFF):
        for second in (0x7F, 0x80, 0x8F, 0x90, 0x9F, 0xA0, 0xBF, 0xC0):
            yield b"; " + bytes([first, second])
            yield b"; " + bytes([first, second, 0xBF, 0x80, 0x20])
            yield bytes([first, second, 0x80])
    for white in WHITE:
        yield b"a" + white + b"1" + white


def grown(count, seed):
    """Texts of pieces of the language, some of them damaged."""
    r = random.Random(seed)
    pieces = [b"%a", b"%x.1", b"var", b"add", b"i32", b"k", b"known", b"knownBits", b"knownBits=01x", b"(knownBits=", b"-", b"-7", b"007", b",", b":", b"=",
              b"(", b")", b"[", b"%", b" ", b"\n", b"\t", b"; c\n", b"; ", b"\xE2\x80\x83", b"\xC2\xA0", b"\xC3\xA9", b"#", b"_", b"."]
    for _ in range(count):
        text = b"".join(r.choice(pieces) for _ in range(r.randint(1, 14)))
        if r.random() < 0.3 and text:
            i = r.randrange(len(text))
            text = text[:i] + bytes([r.randrange(256)]) + text[i + r.randint(0, 1):]
        yield text


def long_ones():
    """Tokens of 4,095 to 4,097 bytes of each kind, at the start, behind another token, before one and at the end; texts of 65,535 to 65,537 bytes."""
    for n in (4095, 4096, 4097):
        for token in (b"a" * n, b"%" + b"b" * (n - 1), b"9" * n, b"-" + b"0" * (n - 1), b"knownBits=" + b"1" * (n - 10), b"knownBits" + b"s" * (n - 9), b"k" * n):
            yield from (token, b"x " + token, token + b",y", token + b" %")
        yield b";" * n + b"\nx"
        yield b" " * n + b"x"
    yield b"a" * 4097 + b"\xFF"
    yield b"%" + b" " + b"a" * 4097
    yield b"a" * 4097 + b"%"
    for n in (65535, 65536, 65537):
        yield b" " * n
        yield b"x" + b" " * (n - 2) + b"y"
        yield b"," * n
        yield b"\xFF" + b" " * (n - 1)
        yield b" " * (n - 1) + b"%"
        yield b" " * (n - 9) + b"knownBits"
        yield b"1" * n


def main():
    here = os.path.dirname(os.path.abspath(__file__))
    texts = list(dict.fromkeys([*settled(), *edges(), *grown(250, 6), *long_ones()]))
    with open(os.path.join(here, "stdin"), "w", newline="") as questions, open(os.path.join(here, "stdout"), "w", newline="") as answers:
        for text in texts:
            questions.write(spelt(text) + "\n")
            answers.write("%d %d %d\n" % report(text))


main()
