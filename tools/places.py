#!/usr/bin/env python3
"""Counts, in crates/*/src, the places that docs/DESIGN-PASS.md speaks of. With --list each place is printed; with a folder, another checkout is counted."""
import collections
import glob
import re
import sys

LIST = '--list' in sys.argv
ROOTS = [a for a in sys.argv[1:] if not a.startswith('--')] or ['.']
FILES = {f[len(ROOTS[0]) + 1:]: open(f).read() for f in sorted(glob.glob(ROOTS[0] + '/crates/*/src/**/*.rt', recursive=True))}
FUNCTION = re.compile(r'^ *(?:pub(?:\(crate\))? )?(?:extern "C" )?fn (\w+)(?:<[^(]*>)?\(((?:[^()]|\([^()]*\))*)\)', re.M)


def lines(pattern, text=None):
    """The lines that a pattern stands in."""
    found = []
    for name, body in FILES.items():
        for n, line in enumerate(body.split('\n'), 1):
            if re.search(pattern, line):
                found.append(f'{name}:{n}: {line.strip()}')
    return found


def enums():
    """Enums of two or three cases, of which one holds a value and another holds nothing or a refusal."""
    found = []
    for name, body in FILES.items():
        for e in re.finditer(r'^( *)(?:pub(?:\(crate\))? )?enum (\w+)[^{]*\{(.*?)^\1\}', body, re.M | re.S):
            text = re.sub(r'//.*', '', e.group(3))
            depth, case, cases = 0, '', []
            for c in text + ',':
                depth += c in '({<'
                depth -= c in ')}>'
                if c == ',' and depth == 0:
                    if case.strip():
                        cases.append(case.strip())
                    case = ''
                else:
                    case += c
            held = [c for c in cases if re.search(r'[({]', c)]
            other = [c for c in cases if c not in held or c.startswith('Refused')]
            if len(cases) in (2, 3) and held and other:
                found.append(f'{name}: {e.group(2)}: {len(cases)} cases')
    return found


def functions():
    for name, body in FILES.items():
        for f in FUNCTION.finditer(body):
            yield name, body, f


def parameters(f):
    return [p for p in re.split(r',(?![^<\[]*[>\]])', f.group(2)) if p.strip()]


def facts():
    """Conditions that stand in the contracts of three functions or more."""
    count = collections.Counter()
    for name, body, f in functions():
        contract = re.split(r'^ *\{|;$', body[f.end():f.end() + 4000], maxsplit=1, flags=re.M)[0]
        count.update(set(re.findall(r'requires(?: \w+)? \{ (.*?) \}\s*$', contract, re.M)))
    return [f'{n} functions: {fact}' for fact, n in count.most_common() if n >= 3]


def twins():
    """Functions of three lines or more whose bodies are the same but for names, numbers and letters."""
    words = r'\b(if|else|while|loop|for|in|match|return|let|mut|as|break|continue|true|false|self)\b'
    groups = collections.defaultdict(list)
    for name, body, f in functions():
        start = re.compile(r'^( *)\{$|^(.*)\{$', re.M).search(body, f.end())
        if not start:
            continue
        indent = re.match(r' *', f.group(0)).group(0)
        end = body.find('\n' + indent + '}', start.end())
        text = re.sub(r'//.*', '', body[start.end():end])
        shape = re.sub(r"b?'(\\\\.|[^'\\\\])'|b?\"[^\"]*\"|\b\d\w*", '0', text)
        shape = re.sub(r'\b[A-Za-z_]\w*', lambda m: m.group(0) if re.fullmatch(words, m.group(0)) else 'x', shape)
        shape = re.sub(r'(x(::|\.))+x', 'x', re.sub(r'\s+', ' ', shape))
        if text.strip().count('\n') >= 2:
            groups[shape].append(f'{name}: {f.group(1)}')
    return [' ~ '.join(g) for g in groups.values() if len(g) > 1]


def proofs():
    found = {f: sum(1 for _ in open(f)) for f in glob.glob(ROOTS[0] + '/crates/*/proofs/**/Answers.antt', recursive=True)}
    return [f'{f}: {n} lines' for f, n in sorted(found.items())], sum(found.values())


ANSWERS, ANSWER_LINES = proofs()
POINTS = [
    ('1 enums of the shape of Option or Result', enums()),
    ('1 structs with a flag or a number beside a value', lines(r'^ *pub (failed|fault|number): (bool|u32)')),
    ('1 comments that a number stands for none', lines(r'//.*(; |, )(0|59|`?keyword::OTHER`?) (where|for|past|at|once)')),
    ('1 constants that number kinds', lines(r'pub const [A-Z0-9_]+: u(8|32) = [0-9]+;')),
    ('1 refusals by a number in code', lines(r'number: [0-9]+|\b(told|stop|refused)\(.*\b[0-9]+,|^ *(fault::)\w+ => [0-9]+,')),
    ('2 groups of functions alike but for names and numbers', twins()),
    ('3 while and loop', lines(r"^ *('[a-z]+: )?(while|loop)\b")),
    ('3 for and iterators', lines(r'^ *for |\.iter\(\)|\.iter_mut\(\)|\.chunks|\.windows|\.zip\(')),
    ('4 functions that compare, order, convert or print by hand', lines(r'\bfn (same|less|under|least|most|small|greater|greatest|inside|within|of_words|words|to_words|join|low|byte|wide|counted|put_decimal|digit|hex_value|digit_of|(tell|say|print)_?\w*)\b')),
    ('4 derives of more than Clone and Copy', lines(r'derive\((?!Clone, Copy\))')),
    ('4 implementations of traits', lines(r'^ *impl.* for ')),
    ('5 functions with more than six parameters', [f'{n}: {f.group(1)}: {len(parameters(f))}' for n, b, f in functions() if len(parameters(f)) > 6]),
    ('5 facts in the contracts of three functions or more', facts()),
    ('6 buffers of a fixed length', lines(r'let mut \w+(: \[\w+; \w+\])? = \[0')),
    ('6 a table as two slices', lines(r'^ *(item|statement|operand|attribute)_bytes: &\[u8\],')),
    ('7 closures and bounds on them', lines(r'\bF: Fn|\bimpl Fn|[(=] ?(move )?\|[^|]*\| ')),
    ('8 answers', ANSWERS),
]
for what, found in POINTS:
    print(f'{len(found):4} {what}')
    if LIST:
        for place in found:
            print('       ', place)
print(f'{ANSWER_LINES:4} 8 lines of answers')
