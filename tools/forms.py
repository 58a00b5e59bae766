#!/usr/bin/env python3
"""Counts the places in crates/*/src that a design pass looks at, point by point.

    tools/forms.py          the counts
    tools/forms.py -v       with the places

Each count is by a pattern, so it finds candidates: docs/DESIGN-PASS.md says which of them are kept and why.
"""
import collections
import glob
import re
import sys

FILES = sorted(f for f in glob.glob('crates/*/src/*.rt'))
TEXT = {f: open(f).read() for f in FILES}
CODE = {f: re.sub(r'//[^\n]*', '', t) for f, t in TEXT.items()}


def lines(pattern, keep=lambda f: True):
    found = []
    for f, t in CODE.items():
        if keep(f):
            for n, line in enumerate(t.split('\n'), 1):
                if re.search(pattern, line):
                    found.append(f'{f}:{n}: {line.strip()}')
    return found


def functions():
    """(file, name, signature, clauses, body) of each function with a body."""
    for f, t in CODE.items():
        for m in re.finditer(r'\bfn (\w+)', t):
            at = m.end()
            depth = 0
            # the body is the first block that opens at the start of a line's text, after the clauses
            rest = t[at:]
            head = []
            body = None
            pos = 0
            for line in rest.split('\n'):
                strip = line.strip()
                if strip == '{' or (strip.endswith('{') and not re.match(r'(requires|ensures)', strip) and '(' in ''.join(head) + line and not strip.startswith('(') and line.count('{') > line.count('}')):
                    start = pos + line.index('{') if strip == '{' else pos + line.rindex('{')
                    depth = 0
                    for i in range(start, len(rest)):
                        if rest[i] == '{':
                            depth += 1
                        elif rest[i] == '}':
                            depth -= 1
                            if depth == 0:
                                body = rest[start:i + 1]
                                break
                    break
                head.append(line)
                if strip.endswith(';'):
                    break
                pos += len(line) + 1
            head = '\n'.join(head)
            cut = re.search(r'\n\s*(requires|ensures)', head)
            sig = head[:cut.start()] if cut else head
            clauses = re.findall(r'(requires|ensures)(?: \w+)? \{(.*?)\}(?=\s*(?:requires|ensures|;|$))', head, re.S)
            yield f, m.group(1), sig, clauses, body


FUNCTIONS = list(functions())


def twins():
    """Groups of functions whose bodies differ only in names, types and numbers."""
    groups = collections.defaultdict(list)
    for f, name, sig, clauses, body in FUNCTIONS:
        if body is None or f.endswith('tests.rt'):
            continue
        words = re.findall(r'[A-Za-z_]\w*|\d[\d_]*|[^\s\w]', body)
        if len(words) < 14:
            continue
        shape = ' '.join('x' if re.match(r'[A-Za-z_0-9]', w) and w not in ('match', 'if', 'else', 'for', 'in', 'return', 'let', 'while') else w for w in words)
        groups[shape].append(f'{f}: {name}')
    found = []
    for members in groups.values():
        if len(members) > 1:
            found.append(' | '.join(members))
    return found


def facts():
    """Clauses that stand in the contracts of three or more functions, whatever value they speak of before or after a call."""
    count = collections.defaultdict(set)
    for f, name, sig, clauses, body in FUNCTIONS:
        for kind, text in clauses:
            t = re.sub(r'\.(old|new|now)\b', '', re.sub(r'\s+', ' ', text)).strip()
            t = t.replace('P.Plant.', 'P.')
            count[t].add((f.split('/')[1], f, name))
    return [f'{len(v)} functions: {k}' for k, v in sorted(count.items(), key=lambda x: -len(x[1])) if len(v) >= 3]


def travel():
    """Two or more parameters of the same names and types that stand side by side in four or more functions."""
    count = collections.defaultdict(set)
    for f, name, sig, clauses, body in FUNCTIONS:
        if f.endswith('tests.rt'):
            continue
        m = re.search(r'\((.*)\)', sig.split('->')[0], re.S)
        params = [re.sub(r'\s+', ' ', p).strip() for p in (m.group(1) if m else '').split(',')]
        params = [p for p in params if ':' in p]
        for i in range(len(params) - 1):
            count[', '.join(params[i:i + 2])].add(f'{f}: {name}')
    return [f'{len(v)} functions: {k}' for k, v in sorted(count.items(), key=lambda x: -len(x[1])) if len(v) >= 4]


POINTS = [
    ('1 refusals told by an Option', lines(r'-> Option<Refusal>')),
    ('1 a refusal handed on by hand', lines(r'if let Some\(refusal\)|Some\(refusal\) =>')),
    ('1 numbers of cases written out', lines(r'^\s*\w+::\w+ => \d+,')),
    ('1 flags in structs', lines(r'^\s*(pub(\(crate\))? )?\w+: bool,$')),
    ('2 groups of twins', twins()),
    ('3 loops over a range', lines(r'^\s*for \w+ in [^{]*\.\.', lambda f: not f.endswith('tests.rt'))),
    ('3 other loops', lines(r'^\s*(while|loop)\b')),
    ('4 constants in place of a default', lines(r'^\s*(pub )?const \w+: [A-Z]\w* = [A-Z]\w* \{')),
    ('4 names, numbers and text of cases by hand', lines(r'fn (number|\w*_name|\w*_number|print_refusal|policy_at)\b')),
    ('4 matches on Option or bool that a method says', lines(r'^\s*(None => (false|None|0|unreachable\(\))|Some\(_\) => \{\}|Some\((\w+)\) => \3),')),
    ('5 facts in three or more contracts', facts()),
    ('5 parameters that travel together', travel()),
    ('6 arrays in structs', lines(r'^\s*(pub(\(crate\))? )?\w+: \[[^\]]+; \w+\],')),
    ('7 enums', lines(r'^\s*(pub(\(crate\))? )?enum ')),
    ('7 closures', lines(r'(?<!\|)\|[\w, &()]+\| (?!\|)')),
]


def main():
    for name, found in POINTS:
        print(f'{len(found):4} {name}')
        if '-v' in sys.argv[1:]:
            for x in found:
                print('       ', x)
    proofs = [p for p in glob.glob('crates/*/proofs/**/*.antt', recursive=True)]
    print(f'{sum(len(open(p).readlines()) for p in proofs):4} 8 lines of proofs, in {len(proofs)} files')


main()
