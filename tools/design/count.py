#!/usr/bin/env python3
"""Counts the places of docs/DESIGN-PASS.md in crates/*/src. `count.py` prints the figures, `count.py POINT` lists the places of a point."""
import collections
import pathlib
import re
import sys

ROOT = pathlib.Path(__file__).resolve().parents[2]
FILES = sorted(ROOT.glob('crates/*/src/**/*.rt'))


def lines(pattern):
    """The lines that a pattern is found in, without comments."""
    found = []
    for file in FILES:
        for n, line in enumerate(file.read_text().splitlines(), 1):
            code = line.split('//')[0]
            if re.search(pattern, code) and not code.startswith('ghost use'):
                found.append(f'{file.relative_to(ROOT)}:{n}: {line.strip()}')
    return found


def functions():
    """File, name, head with its clauses, and body of each function."""
    for file in FILES:
        text = [line.split('//')[0].rstrip() for line in file.read_text().splitlines()]
        for n, line in enumerate(text):
            m = re.match(r'( *)(?:pub(?:\(crate\))? )?(?:extern "C" )?fn (\w+)', line)
            if not m:
                continue
            top = n
            while not (text[top] == m[1] + '{' or (text[top].endswith('{') and 'ensures' not in text[top] and 'requires' not in text[top])):
                top += 1
            end = top + 1
            while text[end] != m[1] + '}':
                end += 1
            yield file.relative_to(ROOT), m[2], '\n'.join(text[n:top + 1]), '\n'.join(text[top + 1:end]) + '\n'


def parameters(head):
    """The names and types of the parameters, in a head without its clauses."""
    plain = re.split(r'\n\s*(?:requires|ensures)\b', head)[0]
    return re.findall(r'(\w+): (&?(?:\'\w+ )?(?:mut )?[\w\[\]<>\'; ]+)', plain)


def clauses(head):
    """The facts that the clauses of a head join by `×`."""
    for m in re.finditer(r'\b(?:requires|ensures)\b[^{\n]*\{ (.*) \}$', head, re.M):
        for fact in re.split(r' × ', m[1]):
            fact = fact.strip()
            while fact.startswith('(') and fact.endswith(')') and ' × ' not in fact:
                fact = fact[1:-1]
            yield re.sub(r'\.(now|old|new)\b', '', fact)


def enums():
    return lines(r'^\s*(pub(\(crate\))? )?enum ')


def kinds():
    """Functions and fields that have a kind, or the kind above, as a number."""
    return lines(r'\b(kind|above|own|up): (usize|u8|u32)\b')


def refusals():
    """Functions whose number says which reason holds, or that 0 or another mark says that there is nothing."""
    names = r'(refusal|query_number|overfull|path_number|pattern_number|plain_reply|prepare|first_empty|last_label|first_byte|branch_byte)'
    return lines(rf'\bfn {names}\b')


def loops():
    return lines(r'^\s*(\'\w+: )?(while\b|loop \{)')


def counted():
    """Loops whose body counts by hand."""
    found = []
    for file, name, _, body in functions():
        for m in re.finditer(r'^(\s*)(?:\'\w+: )?(?:while\b[^\n]*|loop) \{\n(.*?)^\1\}', body, re.M | re.S):
            if re.search(r'\b\w+ [+-]= ', m[2]):
                found.append(f'{file}: {name}: {m[0].strip().splitlines()[0]}')
    return found


def conversions():
    """Functions that only convert, compare, tell a case or spell."""
    names = (r'(wide|wide32|wide64|is_fit|is_fine|goes_on|is_match|answer_number|path_number|pattern_number|compare|compare_bytes|compare_singly|equal'
             r'|least|glyph|hex_value|is_hex_digit|digit|digits|decimal|number_of|put_decimal|put_hex|print_number|print_text|print_hex)')
    return lines(rf'\bfn {names}\b') + lines(r'\benum Ordering\b')


def facts():
    """Facts of three functions or more."""
    where = collections.defaultdict(set)
    for file, name, head, _ in functions():
        for fact in clauses(head):
            where[fact].add((file.parts[1], name))
    rows = sorted(((len(w), fact) for fact, w in where.items() if len(w) >= 3 and len(fact) > 12), reverse=True)
    return [f'{n}: {fact}' for n, fact in rows if not fact.startswith('result ')]


def travellers():
    """Four parameters or more that stand together in three functions or more."""
    groups = [('m', 'l'), ('value', 'path', 'reference'), ('pattern', 'low', 'high'), ('key', 'v', 'p'), ('answer', 'room'), ('at', 'body', 'next'),
              ('path', 'body', 't'), ('b', 'path', 'next'), ('t', 'width'), ('slots', 'n'), ('store', 'answer', 'out'), ('from', 'to'), ('line', 'store', 'out')]
    found = []
    for group in groups:
        names = [f'{file.parts[1]}::{name}' for file, name, head, _ in functions() if set(group) <= {p for p, _ in parameters(head)}]
        if len(names) >= 3:
            found.append(f'{", ".join(group)}: {len(names)} functions')
    return found


def long_heads():
    """Functions of six parameters or more."""
    return [f'{file}: {name}: {len(parameters(head))}' for file, name, head, _ in functions() if len(parameters(head)) >= 6]


POINTS = {'1 enums': enums, '1 kinds': kinds, '1 numbers': refusals, '3 loops': loops, '3 counted': counted, '4 by hand': conversions, '5 facts': facts,
          '5 together': travellers, '5 six parameters': long_heads}

if len(sys.argv) > 1:
    for name, count in POINTS.items():
        if name.startswith(' '.join(sys.argv[1:])):
            print(f'# {name}')
            print('\n'.join(count()))
else:
    for name, count in POINTS.items():
        print(f'{name}: {len(count())}')
