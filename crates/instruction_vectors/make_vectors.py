#!/usr/bin/env python3
"""make_vectors.py PARSE_RS: writes stdin and stdout beside this script.

PARSE_RS is the crate's src/parse.rs. Its grammar comment has the instructions, each with its operands, and the other words in
quotes. stdin has all of them, one a line, and words that miss them by little: each letter changed, missing, twice and in its
other case, the first letter of one before the rest of another as long, and nothing."""
import os
import re
import sys

# What a keyword is called is its place here; the comment's words are held to this list.
KEYWORDS = """var block phi reservedinst reservedconst pc blockpc infer result cand powerOfTwo negative nonNegative nonZero
hasExternalUses signBits range demandedBits harvestedFromUse""".split()


def main():
    comment = open(sys.argv[1]).read().split("/*", 1)[1].split("*/", 1)[0]
    start = comment.index("<instruction> ::=")
    rule = comment[start : comment.index("<operand> ::=")]
    instructions = [(n, operands.count("<operand>")) for n, operands in re.findall(r"'([\w.]+)'((?: <operand>| ',')*)", rule)]
    names = [n for n, _ in instructions]
    others = set(re.findall(r"'(\w{2,})'", comment)) - set(names) - {"knownBits"}
    assert len(instructions) == 59 and others == set(KEYWORDS), (len(instructions), others ^ set(KEYWORDS))

    def tell(word):
        if word in names:
            k = names.index(word)
            return "instruction %d arity %d %s" % (k, instructions[k][1], word)
        return "keyword %d" % KEYWORDS.index(word) if word in KEYWORDS else "other"

    words = names + KEYWORDS + ["", "knownBits", "knownBits=0", " ", "a", ".", "addnsw addnuw", "x" * 300]
    for w in names + KEYWORDS:
        for i in range(len(w)):
            before, letter, behind = w[:i], w[i], w[i + 1 :]
            words += [before + chr(ord(letter) ^ 1) + behind, before + behind, before + letter + letter + behind, before + letter.swapcase() + behind]
        words += [w[:-1], w[1:], w + "s", w + " ", " " + w, w.ljust(18), w[0].upper() + w[1:], w.upper(), w.swapcase(), w[:-1] + "_", w + "\0"]
    words += sorted({a[0] + b[1:] for a in names + KEYWORDS for b in names + KEYWORDS if len(a) == len(b)})
    here = os.path.dirname(os.path.abspath(__file__))
    open(os.path.join(here, "stdin"), "w").write("".join(w + "\n" for w in words))
    open(os.path.join(here, "stdout"), "w").write("".join(tell(w) + "\n" for w in words))


main()
