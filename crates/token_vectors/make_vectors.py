#!/usr/bin/env python3
"""Writes the files stdin and stdout of the program token_vectors: texts, one to a line, and the tokens that each has.

The lexer below was written for this purpose alone, from the rules (docs/RULES.md, section 1) and from `Lexer` of the crate souper-ir 2.1.0
(src/parse.rs): over characters and their offsets, as the crate has it, and not from the definitions or the code of
this repository. White_Space is the list of the 25 characters that the Unicode Character Database gives it.

Run it as  python3 make_vectors.py  ; it writes beside itself."""
import os

WHITE_SPACE = [0x09, 0x0A, 0x0B, 0x0C, 0x0D, 0x20, 0x85, 0xA0, 0x1680, 0x2000, 0x2001, 0x2002, 0x2003, 0x2004, 0x2005,
               0x2006, 0x2007, 0x2008, 0x2009, 0x200A, 0x2028, 0x2029, 0x202F, 0x205F, 0x3000]
# Characters beside those in the order of numbers, and others that some libraries take for spaces.
NEAR_MISSES = [0x00, 0x08, 0x0E, 0x1C, 0x1D, 0x1E, 0x1F, 0x21, 0x7F, 0x80, 0x84, 0x86, 0x9F, 0xA1, 0xAD, 0x167F,
               0x1681, 0x180E, 0x1FFF, 0x200B, 0x200C, 0x200D, 0x2027, 0x202A, 0x202E, 0x2030, 0x205E, 0x2060, 0x2FFF,
               0x3001, 0xFEFF, 0xFFFD, 0x10000, 0x10FFFF]

IDENT, VAL_NAME, KNOWN_BITS, INT, COMMA, COLON, EQ, OPEN_PAREN, CLOSE_PAREN, OPEN_BRACKET = range(1, 11)
SINGLE = {",": COMMA, "=": EQ, ":": COLON, "(": OPEN_PAREN, ")": CLOSE_PAREN, "[": OPEN_BRACKET}


class Refused(Exception):
    def __init__(self, place):
        self.place = place


def is_letter(c):
    return "a" <= c <= "z" or "A" <= c <= "Z"


def is_digit(c):
    return "0" <= c <= "9"


def is_ident_char(c):
    return is_letter(c) or is_digit(c) or c in "_."


class Lexer:
    def __init__(self, source):
        self.size = len(source.encode())
        self.chars = []
        offset = 0
        for c in source:
            self.chars.append((offset, c))
            offset += len(c.encode())
        self.next = 0

    # The character at hand; nothing at the end.
    def peek(self):
        return self.chars[self.next][1] if self.next < len(self.chars) else None

    # Where the character at hand starts; the size of the text at the end.
    def offset(self):
        return self.chars[self.next][0] if self.next < len(self.chars) else self.size

    def take_while(self, test):
        while self.peek() is not None and test(self.peek()):
            self.next += 1

    # The next token as kind, first byte and the byte past its last; nothing at the end.
    def next_token(self):
        while True:
            c = self.peek()
            if c is None:
                return None
            if ord(c) in WHITE_SPACE:
                self.next += 1
            elif c == ";":
                self.take_while(lambda c: c != "\n")
            else:
                break
        start, c = self.chars[self.next]
        self.next += 1
        if c in SINGLE:
            return SINGLE[c], start, self.offset()
        if c == "%":
            self.take_while(is_ident_char)
            if self.offset() == start + 1:
                raise Refused(start)
            return VAL_NAME, start, self.offset()
        if is_letter(c):
            self.take_while(is_ident_char)
            if self.offset() - start == 9 and "".join(c for _, c in self.chars[self.next - 9:self.next]) == "knownBits":
                return self.known_bits(start)
            return IDENT, start, self.offset()
        if c == "-" or is_digit(c):
            self.take_while(is_digit)
            return INT, start, self.offset()
        raise Refused(start)

    def known_bits(self, start):
        if self.peek() is None:
            raise Refused(max(self.size - 1, 0))
        if self.peek() != "=":
            raise Refused(self.offset())
        self.next += 1
        pattern = self.offset()
        self.take_while(lambda c: c in "01x")
        if self.offset() == pattern:
            raise Refused(pattern)
        return KNOWN_BITS, start, self.offset()


def tokens(text):
    lexer, out = Lexer(text), ""
    try:
        while True:
            token = lexer.next_token()
            if token is None:
                return out + "end"
            out += "%d %d %d;" % token
    except Refused as e:
        return out + "refused %d" % e.place


# Settled examples (docs/RULES.md, section 9), and the whole print.
SETTLED = ["", "%0 = add %0, 1", "%0 =", "%0", "cand - 1", "%a:i0 = var infer %a", "%a:i65536 = var infer %a",
           "%a:i65535 = var infer %a", "%a = var (knownBits =0)", "%a = var (knownBits=)", "%0=var %0=var", "pc 1 2",
           "result 1 result %x", "%b = block 2 %p = phi %b, 1", "cand 170141183460469231731687303715884105728 0",
           "cand -170141183460469231731687303715884105728 0",
           "%1=var %0 = var pc %0 1 %2:i08=add %1, -0 cand %2 007", "%1 = var\n%2:i8 = add %1, 0\ncand %2 7\n",
           "%a:i8 = add %b, 1:i8 (nonZero)", "%r = var (range=[0,4))", "block 2", "phi %b, 1", "(signBits=3)"]

KNOWN = ["knownBits", "knownBits ", " knownBits", "knownBits=", "knownBits= ", "knownBits=0", "knownBits=1",
         "knownBits=x", "knownBits=x1", "knownBits=01x10x", "knownBits=01x2", "knownBits=0)", "knownBits=2",
         "knownBits=X", "knownBits=%a", "knownBits= 0", "knownBits =0", "knownBits = 0", "knownBits\t=0",
         "knownBits\n=0", "knownBits;=0", "knownBits;c\n=0", "knownBitsx", "knownBitsx=0", "knownBits.", "knownBits.=0",
         "knownBits_", "knownBits0", "knownBits0=0", "knownBit", "knownBit=0", "KnownBits=0", "knownbits=0",
         "knownBitss=0", "aknownBits=0", "%knownBits", "%knownBits=0", "%a knownBits", "(knownBits", "(knownBits)",
         "(knownBits=01x)", "(knownBits=01x)(knownBits=", "12knownBits=0", "-knownBits=1", "12knownBits",
         "knownBits=0knownBits=1", "knownBits=0xknownBits", "knownBits=10%a", "knownBits=1-1", "knownBits=1:i8",
         "knownBits==0", "knownBits=0=1", "knownBits,0", "knownBits-0", "knownBits%a", "knownBits\u00e9",
         "knownBits\u3000=0", "knownBits=\u00e9", "knownBits=0\u00e9", "\u2003knownBits", "knownBits=0\u2003"]

TOGETHER = ["%a=var%b=var", "12add", "add12", "add12.3_4", "i8", "1i8", "%a:i8", "%1:i32=add%2,3:i8", "%%", "%a%", "%a%b",
            "% a", "%", " %", "%.", "%_", "%0a._Z9", "%-1", "--", "-", "-0", "-007", "--1", "-a", "- 1", "1-1", "0", "007",
            "123456789012345678901234567890123456789012345678901234567890", "a", "Z", "a_", "a.b", "_a", ".a", "a-b",
            "sadd.with.overflow", "usub.sat", "AZaz09_.", "[0,4)", "[-1,+1)", "]", "()", ",=:([", "a]b", "a{", "a\\b",
            "a\"b\"", "a'b", "a/b", "a*b", "a|b", "~a", "`", "@", "#", "$", "&", "^", "<", ">", "?", "!", "+", "{", "}",
            "range=[0,4)", "(range=[-128,127))", "demandedBits=0101", "01x", "0x10", "1e5", "%a.sat=1"]

COMMENTS = [";", ";;", "; a comment", "%a;b", "%a ; b\n%c", ";\n", ";\n;\n", ";\n%a", "; a\n ; b\n%c", ";\r%a", ";a\r\n%b",
            ";\x0b%a", ";\u2028%a", ";\u0085%a", "; \u00e9\u3000\U0001F600\n%a", "%a;", "%a;\n", ";%\n%", "a;b;c\nd",
            "knownBits=0;1", "%;a", "12;3\n4", "\n\n%a\n\n", ";" + "x" * 80 + "\n1"]

OTHER = ["\u00e9", "a\u00e9", "%\u00e9", "%a\u00e9", "1\u00e9", "-\u00e9", "\u0661", "a\u0661", "\uff21", "\u0391", "%a = \u00e9",
         "\U0001F600", "a \U0001F600", "\u4e2d", "a\u0301"]

EXAMPLE = """
    ;; First replacement.
    %x:i32 = var
    %2lx = slt 2, %x
    pc %2lx 1
    %1lx = slt 1, %x
    cand %1lx 1

    ;; Second replacement.
    %bb = block 3
    %phi1 = phi %bb, 1:i32, 2, 3
    %phi2 = phi %bb, 2:i32, 4, 6
    %phi1x2 = mul %phi1, 2
    cand %phi2 %phi1x2
"""


def texts():
    yield from SETTLED
    yield EXAMPLE
    for c in map(chr, WHITE_SPACE):
        yield c
        yield "%a" + c + "add" + c + c + "12" + c
        yield "knownBits" + c + "=0"
        yield "%" + c
    for c in map(chr, NEAR_MISSES):
        yield c
        yield "%a" + c + "b"
    yield from KNOWN
    yield from TOGETHER
    yield from COMMENTS
    yield from OTHER
    # every ASCII character by itself and behind the beginning of each kind of token
    for front in "", "a", "%a", "1", "knownBits", "knownBits=", "knownBits=0":
        for c in map(chr, range(128)):
            yield front + c


def spelt(text):
    return "".join(chr(b) if 0x20 <= b <= 0x7E and b != 0x5C else "\\x%02X" % b for b in text.encode())


def main():
    here = os.path.dirname(os.path.abspath(__file__))
    each = list(dict.fromkeys(texts()))
    lines = "".join(spelt(t) + "\n" for t in each)
    assert len(lines) <= 65536 and max(len(t.encode()) for t in each) <= 4096
    with open(os.path.join(here, "stdin"), "w", newline="\n") as f:
        f.write(lines)
    with open(os.path.join(here, "stdout"), "w", newline="\n") as f:
        f.write("".join(tokens(t) + "\n" for t in each))


main()
