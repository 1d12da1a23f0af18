#!/usr/bin/env python3
"""Brings the repository's own definitions and lemmas to today's spelling: words in snake case, a dash only between two names, a prime as an apostrophe.

usage: python3 tools/respell.py [--look]    at the top of the repository, once, after port.py; --look only says what would be done

Names of Rattle source, of exported C functions, of types and modules, and all that stands in strings keep their spelling. In comments the words of Souper IR keep theirs.
Names that would fall together in a file are said, and then nothing is written.
"""

import os
import re
import sys

HEAD = re.compile(r"\s*(?:(?:abbrev|pub|unfoldable|record|data)\s+)*([^\s:(){}.,;\"]+)\s+[:({]")
NAME = re.compile(r"[^\s(){}\[\].,;:\"@|«»`]+")
MADE = re.compile(r"(invariant|decreases|loop|returns|Need|in|in_ok|in_err|if|then|else|match|overflow|bounds|slice|nonzero|same-length|shared)-")
SOUPER = {"knownBits", "signBits", "powerOfTwo", "nonNegative", "nonZero", "hasExternalUses", "demandedBits", "harvestedFromUse"}
PLAIN = {
    "length", "append", "take", "drop", "le", "lt", "eq", "ne", "add", "sub", "mul", "div", "mod", "suc", "zero", "cons", "nil", "map", "min", "max", "cond", "true",
    "false", "get_or", "set", "put", "and", "or", "not", "eqb", "leb", "ltb", "concat", "reverse", "pow", "sum", "filter", "head", "tail", "some", "none", "ok", "err",
}

# words that are no names of definitions where they stand in a name
STOP = set("all and any are as at be by for from has in is more none not of one or same so some such that then there to two with".split())
# names that would fall together with another of their file
CHOSEN = {"known-bits": "a_known_bits", "at-least": "at_least_lem", "is-value": "is_value_lem"}


def files(*ends):
    for folder, dirs, names in os.walk("crates"):
        dirs[:] = sorted(d for d in dirs if d != "out")
        for n in sorted(names):
            if n.endswith(ends):
                yield os.path.join(folder, n)


def pages():
    """The repository's papers, and its edits of definitions."""
    yield from (os.path.join("docs", n) for n in sorted(os.listdir("docs")) if n.endswith(".md"))
    yield "README.md"


def is_lemma_file(path):
    return path.endswith(".antt") and not path.endswith("Proof.antt")


def read(path):
    with open(path, encoding="utf-8") as f:
        return f.read()


def defined():
    """What the repository's files of definitions and lemmas define: all, and those of specs/."""
    every, words = set(), set()
    for path in files(".antt"):
        if not is_lemma_file(path):
            continue
        for line in read(path).split("\n"):
            if line.lstrip().startswith(("--", "use ", "let ")):
                continue
            m = HEAD.match(line)
            if m:
                name = m.group(1).strip("◌")
                every.add(name)
                if "/specs/" in path:
                    words.add(name)
    for path in files(".antt", ".rt"):
        every |= {a for a in re.findall(r"^(?:ghost )?use .*", read(path), re.M) for a in re.findall(r" as ([a-z][a-z0-9]*(?:[A-Z][A-Za-z0-9]*)+)", a)}
    return every, words


def snake(part):
    if not part[:1].islower():
        return part
    return re.sub(r"(?<=[a-z0-9])([A-Z])(?=[a-z]|$)", lambda m: "_" + m.group(1).lower(), part).replace("ℕ", "ℕ")


def respelt(name, names):
    """A name in snake case; a lemma keeps its dashes where each part is the name of a definition."""
    if name in CHOSEN:
        return CHOSEN[name]
    parts = [snake(p) for p in name.replace("′", "'").split("-")]
    return ("-" if all(p in names for p in parts) else "_").join(parts)


def pieces(text, rust):
    """(kind, text) for each stretch: 'code', 'string' or 'comment'."""
    mark = "//" if rust else "--"
    i, start, n = 0, 0, len(text)
    while i < n:
        if text[i] == '"':
            yield "code", text[start:i]
            j = i + 1
            while j < n and text[j] != '"':
                j += 2 if rust and text[j] == "\\" else 1
            yield "string", text[i : j + 1]
            i = start = j + 1
        elif rust and text[i] == "'" and re.match(r"'(\\.|[^'\\])'", text[i : i + 4]):
            i += 3 if text[i + 1] != "\\" else 4
        elif text.startswith(mark, i) and (rust or i == 0 or text[i - 1] in " \n"):
            yield "code", text[start:i]
            j = text.find("\n", i)
            j = n if j < 0 else j
            yield "comment", text[i:j]
            i = start = j
        else:
            i += 1
    yield "code", text[start:]


def foreign(text, crates):
    """The names that a file takes from modules that are not the repository's."""
    out = set()
    for m in re.finditer(r"^\s*(?:ghost )?use ([^\s{;]+?)(?:\.\{([^}]*)\}|\s+as\s|;|$)", text, re.M):
        path = m.group(1).split(".")
        if path[0] == "Rattle" and len(path) > 1 and path[1] in crates:
            continue
        for item in (m.group(2) or "").split(","):
            if item.strip():
                out.add(item.split(" as ")[0].strip().strip("◌"))
    return out


def table_of(every, words):
    """The new spelling of each name that gets one. A lemma that would have the name of a definition gets `_lem`."""
    names = ({snake(w) for w in words if "-" not in w} | PLAIN) - STOP
    taken = {respelt(n, names).replace("-", "_") for n in every if n in words or re.search("[a-z0-9][A-Z]", n)}
    table = {}
    for n in every:
        if MADE.match(n):
            continue
        to = respelt(n, names)
        if n in words:
            to = to.replace("-", "_")
        if to in taken and n not in words and not re.search("[a-z0-9][A-Z]", n) and ("-" in n or "_" in n):
            to += "_lem"
        if to != n:
            table[n] = to
    table["upTo"] = "up_to"
    return table


def turned(text, table, rust, keep, seen):
    def word(kind):
        def go(m):
            w = m.group(0)
            core = w.strip("◌")
            # a name with no capital and no dash may be that of a function of src/, which keeps it
            if core in table and re.fullmatch("[a-z0-9_']+", core) and (rust or m.string[m.end() : m.end() + 1] == "."):
                return w
            if kind == "code":
                seen.setdefault(core, core)
            if core not in table or core in keep or (kind == "comment" and (core in SOUPER or ("-" in core and "'" not in core and not re.search("[A-Z]", core)))):
                return w
            before = m.string[max(0, m.start() - 5) : m.start()]
            if before.endswith(("tie.", "goal.")):
                return w
            if kind == "code":
                seen[core] = table[core]
            return w.replace(core, table[core])

        return go

    return "".join(p if k == "string" else NAME.sub(word(k), p) for k, p in pieces(text, rust))


def main():
    look = "--look" in sys.argv
    crates = set(os.listdir("crates"))
    every, words = defined()
    table = table_of(every, words)
    bad, out = 0, {}
    wrong = ".ci/wrong-definitions"
    edits = [os.path.join(wrong, n) for n in sorted(os.listdir(wrong)) if n.endswith(".edit")] if os.path.isdir(wrong) else []
    for path in list(files(".antt", ".rt", ".edit")) + edits:
        text = read(path)
        rust = not path.endswith(".antt")
        seen = {}
        new = turned(text, table, rust, foreign(text, crates), seen)
        back = {}
        for old, to in seen.items():
            back.setdefault(to, []).append(old)
        for to, olds in back.items():
            if len(olds) > 1:
                bad += 1
                print(f"{path}: {' and '.join(sorted(olds))} fall together as {to}")
        if new != text:
            out[path] = new
    print(f"{len(table)} names, {len(out)} files, {bad} fall together")
    if look:
        for n in sorted(table):
            print(f"  {n} -> {table[n]}")
        return
    if bad and "--all-the-same" not in sys.argv:
        raise SystemExit(1)
    for path in pages():
        text = read(path)
        new = re.sub(r"`([^`\n]+)`", lambda m: m.group(0) if m.group(1) in SOUPER else "`" + NAME.sub(lambda n: table.get(n.group(0), n.group(0)) if n.group(0) not in SOUPER else n.group(0), m.group(1)) + "`", text)
        if new != text:
            out[path] = new
    for path, new in out.items():
        with open(path, "w", encoding="utf-8") as f:
            f.write(new)


main()
