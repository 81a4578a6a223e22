#!/usr/bin/env python3
"""count_forms.py [PLACE]: lists the places in crates/*/src/ (and, for point 8, in crates/*/proofs/) that have one of the older forms, by the points
of docs/DESIGN-PASS.md, and counts them. PLACE is the top of a checkout, else the one that this file is in."""
import collections
import os
import re
import sys

TOP = sys.argv[1] if len(sys.argv) > 1 else os.path.dirname(os.path.dirname(os.path.abspath(__file__)))
CRATES = os.path.join(TOP, 'crates')
FUNCTION = re.compile(r'^( *)(?:#\[.*\] *)?(?:pub(?:\([a-z]+\))? )?(?:const |final )?(?:extern "C" )?fn ([a-z_0-9]+)', re.M)


def sources():
    for crate in sorted(os.listdir(CRATES)):
        folder = os.path.join(CRATES, crate, 'src')
        for name in sorted(os.listdir(folder)) if os.path.isdir(folder) else []:
            with open(os.path.join(folder, name), encoding='utf-8') as file:
                yield crate, name, file.read()


def functions():
    """Each function: its place, its parameters, its clauses, its body."""
    for crate, name, text in sources():
        for found in FUNCTION.finditer(text):
            indent = found.group(1)
            end = text.find('\n' + indent + '}\n', found.start())
            semi = re.search(r';\n', text[found.start():])
            whole = text[found.start():end if end > 0 else len(text)]
            start = whole.find('\n' + indent + '{\n')
            if start < 0:
                start = whole.find('{\n')
            head, body = whole[:start], whole[start:]
            line = text.count('\n', 0, found.start()) + 1
            yield f'{crate}/src/{name}:{line} {found.group(2)}', head, body


def parameters(head):
    inside = re.search(r'fn [a-z_0-9]+(?:<.*?>)?\((.*?)\)\s*(?:->|requires|ensures|$)', head, re.S)
    return re.findall(r'(?:mut )?([a-z_]+): ', inside.group(1)) if inside else []


def one():
    for crate, name, text in sources():
        for found in re.finditer(r'^( *)(?:pub )?enum ([A-Za-z]+)(?:<.*?>)? \{\n(.*?)\n\1\}', text, re.M | re.S):
            variants = re.findall(r'^ *([A-Z][A-Za-z]*)(\(.*?\)|,)', found.group(3), re.M)
            bare = [v for v, rest in variants if rest == ',']
            full = [v for v, rest in variants if rest != ',']
            if len(variants) == 2 and full or len(variants) == 3 and len(full) == 2 and len(bare) == 1:
                yield f'{crate}/src/{name}:{text.count(chr(10), 0, found.start()) + 1} enum {found.group(2)}'
        for number, line in enumerate(text.split('\n'), 1):
            if re.match(r'^ +(pub )?[a-z_]+: bool,', line):
                yield f'{crate}/src/{name}:{number} flag {line.strip()}'
            if re.match(r'^(pub )?const [A-Z_0-9]+: u32 = \d+;', line) and 'NO_PARENT' not in line and not re.search(r'\d{5}|_', line.split('=')[1]):
                yield f'{crate}/src/{name}:{number} number {line.strip()}'
            if re.search(r'\bwhich\($', line) or re.search(r'\bwhich\(field', line):
                yield f'{crate}/src/{name}:{number} number of a word {line.strip()}'
            if re.search(r'return SHELF;|^ +SHELF$|used: 0 |twins: u32|twins: usize,$', line):
                yield f'{crate}/src/{name}:{number} number that says no or yes {line.strip()}'


def shape(body):
    tokens = re.findall(r'b?"(?:[^"\\]|\\.)*"|b\'(?:[^\'\\]|\\.)+\'|[A-Za-z_][A-Za-z_0-9:]*|[0-9][0-9_a-fx]*|[^\s]', re.sub(r'//.*', '', body))
    words = {'if', 'else', 'while', 'for', 'in', 'let', 'mut', 'return', 'match', 'true', 'false', 'as'}
    return ' '.join(t if t in words or not re.match(r'[A-Za-z_0-9"]', t) else 'x' for t in tokens)


def two():
    shapes = collections.defaultdict(list)
    for place, head, body in functions():
        if len(shape(body).split()) >= 12:
            shapes[shape(body)].append(place)
    for places in shapes.values():
        if len(places) > 1:
            yield from (f'{place} (as {places[0]})' for place in places)


def three():
    for place, head, body in functions():
        for found in re.finditer(r'while ([^{]*)\{', body):
            rest = body[found.end():]
            depth, end = 1, 0
            while depth and end < len(rest):
                depth += {'{': 1, '}': -1}.get(rest[end], 0)
                end += 1
            if re.search(r'\b([a-z_]+) (?:\+=|-=) 1;', rest[:end]):
                yield f'{place} while {found.group(1).strip()}'


def four():
    names = (r'same_bytes|same_eights|same_letter|lower|put_each|put_eights|least|count_on|number_at|byte|order_of|letter|comes_before|as_number|wide|plus|'
             r'shifted|frame_length|word|word_at|digit|digit_of|lay_digits|lay_byte|lay_hex|lay_number|mode_of|number_of|fault_number|fault_place|place_of|tell|'
             r'tell_reading|tell_twins|tell_neighbours|say_number|say_six|say_three|say_output|clear|all_zero|fill_words|fill_bytes|bytes_kept|words_kept|untouched')
    for place, head, body in functions():
        if re.fullmatch(names, place.split()[-1]):
            yield place


def five():
    facts, groups = collections.defaultdict(list), collections.defaultdict(list)
    for place, head, body in functions():
        for clause in re.findall(r'requires(?: [a-z_]+)? \{(.*?)\}\n', head + '\n', re.S):
            for fact in clause.split('×'):
                facts[re.sub(r'\s+', ' ', fact.strip().strip('()'))].append(place)
        given = tuple(p for p in parameters(head) if p in ('text', 'components', 'properties', 'parameters', 'a', 'b', 'count', 'shelf', 'n'))
        if len(given) >= 3:
            groups[given].append(place)
    for fact, places in sorted(facts.items()):
        if len(set(places)) >= 3:
            yield from (f'{place} requires {fact}' for place in places)
    for given, places in sorted(groups.items()):
        if len(places) >= 3:
            yield from (f'{place} takes {", ".join(given)}' for place in places)


def six():
    for crate, name, text in sources():
        for number, line in enumerate(text.split('\n'), 1):
            if re.search(r'^\s+(pub )?[a-z_]+: \[[A-Za-z0-9]+; |let mut [a-z_]+ = \[[A-Za-z0-9_\']+; ', line) and not re.search(r'; 0\]', line):
                yield f'{crate}/src/{name}:{number} {line.strip()}'


def seven():
    for crate, name, text in sources():
        for number, line in enumerate(text.split('\n'), 1):
            if re.search(r'match (which|class|values|mode|call|part|asked|caseless)\b|if (part ==|caseless\b)', line):
                yield f'{crate}/src/{name}:{number} {line.strip()}'


def eight():
    for crate in sorted(os.listdir(CRATES)):
        for folder, _, names in sorted(os.walk(os.path.join(CRATES, crate, 'proofs'))):
            if 'Proof.antt' in names:
                yield os.path.relpath(os.path.join(folder, 'Proof.antt'), CRATES)


for point, places in enumerate((one, two, three, four, five, six, seven, eight), 1):
    found = list(places())
    print(f'point {point}: {len(found)}')
    if os.environ.get('PLACES'):
        print(*('  ' + place for place in found), sep='\n')
