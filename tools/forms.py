#!/usr/bin/env python3
"""Counts the places in crates/*/src that docs/DESIGN-PASS.md speaks of, point by point: forms of the older language.

    python3 tools/forms.py [--list] [POINT ..]
"""
import collections
import difflib
import pathlib
import re
import sys

ROOT = pathlib.Path(__file__).resolve().parent.parent
FUNCTION = re.compile(r'^ *(?:#\[[^\n]*\]\n *)*(?:pub(?:\([a-z]+\))? )?(?:const )?(?:unsafe )?(?:extern "C" )?fn (\w+)')


def sources():
    for path in sorted((ROOT / 'crates').glob('*/src/**/*.rt')):
        lines = path.read_text().split('\n')
        yield path.relative_to(ROOT / 'crates'), lines


def functions():
    """Each function: its file, line, name, signature, clauses and body, as text without comments."""
    for path, lines in sources():
        i = 0
        while i < len(lines):
            m = FUNCTION.match(lines[i])
            if not m:
                i += 1
                continue
            indent = len(lines[i]) - len(lines[i].lstrip())
            j = i
            while j < len(lines) and lines[j] not in (' ' * indent + '}', ' ' * indent + '    }'):
                if lines[j].rstrip().endswith(';') and j == i:
                    break
                j += 1
            text = [re.sub(r' *//.*', '', line) for line in lines[i:j + 1]]
            at = next((k for k, line in enumerate(text) if line == ' ' * indent + '{'), None)
            if at is None:
                at = next((k for k, line in enumerate(text) if line.rstrip().endswith('{')), 0)
                head, body = text[:at + 1], text[at + 1:]
            else:
                head, body = text[:at], text[at:]
            sign = '\n'.join(head)
            clauses = sign[re.search(r'\n *(requires|ensures)|$', sign).start():]
            sign = sign[:len(sign) - len(clauses)]
            yield path, i + 1, m.group(1), sign, clauses, '\n'.join(body)
            i = j + 1


def enums():
    for path, lines in sources():
        for i, line in enumerate(lines):
            m = re.match(r' *(?:pub )?enum (\w+)', line)
            if m:
                j = i + 1
                depth = 1
                body = ''
                while depth:
                    depth += lines[j].count('{') - lines[j].count('}')
                    body += re.sub(r' *//.*', '', lines[j])
                    j += 1
                variants = re.findall(r'(\w+)(\([^)]*\)|\s*\{[^}]*\})?\s*,', body)
                yield path, i + 1, m.group(1), variants


def point1():
    for path, i, name, variants in enums():
        held = [v for v in variants if v[1]]
        if len(variants) == 2 and held or any(v[0] in ('Refused', 'Failed', 'Wrong') for v in variants):
            yield path, i, f'enum {name}: of the shape of Option or Result'
    for path, lines in sources():
        for i, line in enumerate(lines):
            if re.search(r'Refused\(([0-9]+|[A-Z_]+)\)', line):
                yield path, i + 1, 'a refusal by a number: ' + line.strip()
            if re.match(r'(pub )?const (WRONG|TOO|TYPES|LENT)_\w+: u8', line):
                yield path, i + 1, 'a refusal by a number: ' + line.strip()
            if re.search(r'\b(kind|end|earlier|cause): u8', line):
                yield path, i + 1, 'a kind by a number: ' + line.strip()
            if re.match(r'(pub )?const \w+: u8', line) and not re.match(r'(pub )?const (WRONG|TOO|TYPES|LENT)_', line):
                yield path, i + 1, 'a number for a kind: ' + line.strip()


def shape(text):
    return re.findall(r'\w+|[^\w\s]', text)


def point2():
    """Functions of one crate whose bodies differ in a few words."""
    by_crate = collections.defaultdict(list)
    for path, i, name, sign, clauses, body in functions():
        words = shape(body)
        if len(words) >= 30:
            by_crate[path.parts[0]].append((path, i, name, words))
    for crate, all_of in sorted(by_crate.items()):
        for k, (path, i, name, words) in enumerate(all_of):
            for other, j, second, others in all_of[k + 1:]:
                if abs(len(words) - len(others)) <= 4:
                    same = difflib.SequenceMatcher(None, words, others, autojunk=False).ratio()
                    if same >= 0.86:
                        yield path, i, f'{name} and {second} ({other.name}:{j}), {same:.2f}'


def point3():
    for path, lines in sources():
        for i, line in enumerate(lines):
            m = re.match(r'( *)while (.*) \{$', line)
            if not m:
                continue
            j = next(k for k in range(i + 1, len(lines)) if lines[k] == m.group(1) + '}')
            names = set(re.findall(r'\w+', m.group(2)))
            counted = [n for n in names if any(re.match(rf' *{n} [+-]= 1;', l) for l in lines[i + 1:j])]
            yield path, i + 1, ('counts ' + ', '.join(sorted(counted)) if counted else 'does not count by one') + ': ' + m.group(2)


def point4():
    names = re.compile(r'(^|_)(order|compare|before|same|equal|equals|copy|copied|swap|swapped|put_bytes|number|to_word|from_word|of_bits|word_of)($|_|s$)')
    for path, i, name, sign, clauses, body in functions():
        if names.search(name):
            yield path, i, f'{name}: compares, copies or converts'
    for path, lines in sources():
        for i, line in enumerate(lines):
            m = re.match(r' *(\w+)\[[^]]*\b(\w)\] = (\w+)\[[^]]*\b\2\];', line)
            if m:
                yield path, i + 1, 'copied item by item: ' + line.strip()


def parts_of(clause):
    depth, part, out = 0, '', []
    for c in clause:
        depth += c in '({' 
        depth -= c in ')}'
        if c == '×' and depth <= 0:
            out.append(part)
            part = ''
        else:
            part += c
    return [re.sub(r'\s+', ' ', p).strip() for p in out + [part]]


def point5():
    facts = collections.defaultdict(list)
    pairs = collections.defaultdict(list)
    for path, i, name, sign, clauses, body in functions():
        crate = path.parts[0]
        for kind, clause in re.findall(r'(requires|ensures) \{(.*?)\}(?=\s*(?:requires|ensures|$))', clauses, re.S):
            if kind == 'requires':
                for fact in parts_of(clause):
                    fact = re.sub(r'^\((.*)\)$', r'\1', fact)
                    facts[crate, fact].append((path, i, name))
        parameters = re.findall(r'(\w+: [^,()]+)[,)]', sign)
        for a, b in zip(parameters, parameters[1:]):
            pairs[crate, a + ', ' + b].append((path, i, name))
    for (crate, fact), at in sorted(facts.items(), key=lambda x: (x[0][0], -len(x[1]))):
        if len(at) >= 3:
            yield at[0][0], at[0][1], f'asked by {len(at)} functions: {fact}'
    for (crate, pair), at in sorted(pairs.items(), key=lambda x: (x[0][0], -len(x[1]))):
        if len(at) >= 3:
            yield at[0][0], at[0][1], f'passed to {len(at)} functions: {pair}'


def point6():
    for path, i, name, sign, clauses, body in functions():
        for a, b in re.findall(r'(\w+: &(?:mut )?\[\w+\]), (\w+: usize)', sign):
            yield path, i, f'{name}: {a} with {b}'
    for path, lines in sources():
        for i, line in enumerate(lines):
            if re.match(r' *(first|second|third|fourth|fifth): ', line) or re.match(r' *(mags|negs): ', line):
                yield path, i + 1, 'a field for each item, or arrays side by side: ' + line.strip()


def point7():
    for path, lines in sources():
        for i, line in enumerate(lines):
            if re.search(r'match (kind|\w+\.kind|op|which|part) \{', line):
                yield path, i + 1, line.strip()


def point8():
    for folder in sorted((ROOT / 'crates').iterdir()):
        answers = list(folder.glob('proofs/**/Answers.antt'))
        if answers:
            goals = sum(len(re.findall(r'^pub [\w-]+ : goal\.', f.read_text(), re.M)) for f in answers)
            at = sum(f.read_text().count('(goal.at.') for f in answers)
            yield pathlib.Path(folder.name), 0, f'{goals} answers in {len(answers)} files, {at} places by goal.at'


POINTS = {'1': point1, '2': point2, '3': point3, '4': point4, '5': point5, '6': point6, '7': point7, '8': point8}


def main():
    wanted = [a for a in sys.argv[1:] if a in POINTS] or sorted(POINTS)
    for point in wanted:
        found = list(POINTS[point]())
        print(f'point {point}: {len(found)}')
        kinds = collections.Counter(re.split(r'[:(]', what)[0] if point in '16' else '' for _, _, what in found)
        if '--list' in sys.argv:
            for path, i, what in found:
                print(f'    {path}:{i} {what}')
    return 0


sys.exit(main())
