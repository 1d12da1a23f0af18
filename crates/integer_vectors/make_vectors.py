#!/usr/bin/env python3
"""Writes the files stdin and stdout beside it: the lines that the program reads, and what it must answer.

The answers are those of Python's own integers and regular expressions, from the words of the rules (docs/RULES.md, section 1), and of nothing else here:
an integer is '-' or nothing and then digits, from -2^127 to 2^127 - 1; a type is 'i' and digits, from 1 to 65535.
Run it by hand after a change of the lines: python3 make_vectors.py"""
import os
import re

EDGES = [0, 2**8, 2**16, 2**31, 2**32, 2**63, 2**64, 2**127]


def lines():
    for sign in (1, -1):
        for edge in EDGES:
            for off in range(-2, 3):
                yield str(sign * edge + off)
    # one number twice, so that the order says `same`, in each half
    for n in (0, -1, 2**64, -(2**64), 2**127 - 1, -(2**127)):
        yield str(n)
        yield str(n)
    # the order by each half and by sign
    yield from (str(n) for n in (1, -1, 2**64 + 1, 2**64 + 2, 2**65, 3, -(2**65), -(2**64) - 1, -(2**64), -3, 2**100, -(2**100)))
    # powers of ten, each with one less: carries through every place
    for k in range(1, 40, 2):
        yield str(10**k - 1)
        yield str(10**k)
        yield str(-(10**k))
    # leading zeros, of any length
    yield from ("00", "007", "-0", "-00", "-007", "-0000000000000000000000000000000000000000000001")
    for zeros in (39, 40, 300, 900):
        yield "0" * zeros
        yield "0" * zeros + "7"
        yield "-" + "0" * zeros + "8"
        yield "0" * zeros + str(2**127 - 1)
        yield "0" * zeros + str(2**127)
        yield "-" + "0" * zeros + str(2**127)
        yield "-" + "0" * zeros + str(2**127 + 1)
    # past 128 bits, by a little and by much
    for n in (2**128 - 1, 2**128, 2**128 + 1, 2**129, 10**39 - 1, 10**39, 10**40 - 1, 10**99):
        yield str(n)
        yield str(-n)
    yield "9" * 40
    yield "-" + "9" * 40
    yield "9" * 500
    # no integers at all
    yield from ("", "-", "--", "--1", "-x", "1-", "1-2", "+1", " 1", "1 ", "-1 ", "x", "x1", "1x", "12add", "0x10", "1_000", "1.5", "1,000", "/", ":", "0/", "9:", "%0", "-%1", "\u00b9", "\u0663")
    yield "1" * 39 + "x"
    yield "-" + "1" * 39 + "x"
    # types
    yield from ("i0", "i1", "i2", "i8", "i08", "i16", "i32", "i64", "i65534", "i65535", "i65536", "i65537", "i00", "i", "i-1", "i-", "ix", "i1x", "ii1", "i 1", "i+1", "i0000000008", "i99999", "i655350")
    yield "i" + "0" * 500
    yield "i" + "0" * 500 + "1"
    yield "i" + "0" * 500 + "65535"
    yield "i" + "0" * 500 + "65536"
    yield "i" + str(2**128)
    yield "i" + str(2**128 + 8)
    yield "i" + str(2**64 + 8)
    # the order goes on past types and refusals
    yield "5"


def fits(n, width):
    return str(n) if 0 <= n < 2**width else "refused"


def told(line, before):
    """What is written about a line, and the integer that the next is compared with."""
    if line.startswith("i"):
        if not re.fullmatch("i[0-9]+", line):
            return "refused", before
        width = int(line[1:])
        return (str(width) if 1 <= width <= 65535 else "refused"), before
    if not re.fullmatch("-?[0-9]+", line):
        return "refused", before
    n = int(line)
    if not -(2**127) <= n < 2**127:
        return "refused", before
    words = [n >> shift & 0xFFFFFFFF for shift in (96, 64, 32, 0)]
    order = "first" if before is None else "less" if n < before else "same" if n == before else "more"
    return " ".join([str(n), fits(n, 32), fits(n, 8), *map(str, words), order]), n


def main():
    here = os.path.dirname(os.path.abspath(__file__))
    asked, answers, before = [], [], None
    for line in lines():
        answer, before = told(line, before)
        asked.append(line)
        answers.append(answer)
    with open(os.path.join(here, "stdin"), "w", encoding="utf-8", newline="\n") as f:
        f.write("\n".join(asked) + "\n")
    with open(os.path.join(here, "stdout"), "w", encoding="utf-8", newline="\n") as f:
        f.write("\n".join(answers) + "\n")


main()
