#!/usr/bin/env python3
"""places: where the sources of the crates have a form that docs/DESIGN-PASS.md speaks of, point by point.

Run it from the root: `tools/places.py` prints how many places each point has, `tools/places.py POINT` each of them, file, line and what it is.
It reads crates/*/src/*.rt alone, by their words; what a place is, is said at each count.
"""
import collections
import pathlib
import re
import sys

FILES = sorted(pathlib.Path('crates').glob('*/src/**/*.rt'))
TEXTS = {path: path.read_text().splitlines() for path in FILES}
# a variant that says that there is nothing, that something is another thing, or that it is refused
NONE = re.compile(r'^\s+(Nothing|Other|Unknown|Refused|Revision|Retired|NoRoom|TooLong|End)\b')
NUMBERS = re.compile(r'\b(0 for none|0 where both are|0 where it is|0 where the walk|16 for another|0 while there is none|255 for none)\b')


def lines(pattern, texts=TEXTS):
    """the lines that have a pattern"""
    return [(path, n, line.strip()) for path, text in texts.items() for n, line in enumerate(text, 1) if re.search(pattern, line)]


def functions():
    """each function: its file, line, name, parameters, clauses and body"""
    for path, text in TEXTS.items():
        n = 0
        while n < len(text):
            begun = re.match(r'(\s*)(?:pub )?(?:extern "C" )?fn (\w+)', text[n])
            if not begun:
                n += 1
                continue
            end = n
            while end < len(text) and text[end] != begun[1] + '}':
                end += 1
            whole = text[n:end + 1]
            brace = next((k for k, line in enumerate(whole) if line == begun[1] + '{' or line.endswith('{') and not re.match(r'\s*(requires|ensures)', line)), 0)
            head = ' '.join(line.strip() for line in whole[:brace + 1])
            inside = head.split('(', 1)[1] if '(' in head else ''
            params = re.findall(r'(\w+): ((?:&mut |&)?[\w\[\];:<> ]+)', re.split(r'\) *(?:->|requires|ensures|\{|$)', inside)[0])
            clauses = [line.strip() for line in whole[:brace + 1] if re.match(r'\s*requires', line)]
            yield path, n + 1, begun[2], params, clauses, whole[brace:]
            n = end + 1


def enums():
    """point 1: an enum of the repository with a variant for nothing, for another thing or for a refusal beside what is wanted; and a number that
    stands for none, by the comment that says so"""
    found = []
    for path, text in TEXTS.items():
        for n, line in enumerate(text):
            begun = re.match(r'\s*(?:pub )?enum (\w+)', line)
            if begun:
                body = text[n + 1:n + 1 + next(k for k, l in enumerate(text[n:]) if l.strip() == '}')]
                if any(NONE.match(l) for l in body) and not re.search(r'Error|Fault|Refusal|Unnamed', begun[1]):
                    found.append((path, n + 1, begun[1]))
    return found + lines(NUMBERS)


def shape(body):
    """a body without what tells twins apart: names of types, constants, fields, functions and variables in their order, and numbers"""
    text = re.sub(r'//.*', '', '\n'.join(body))
    names = {}

    def word(match):
        return names.setdefault(match[0], 'w%d' % len(names)) if match[0] not in ('if', 'let', 'mut', 'return', 'match', 'while', 'for', 'in', 'as', 'else') else match[0]

    return re.sub(r'\s+', ' ', re.sub(r'\b\d+\b', '0', re.sub(r'\b[A-Za-z_]\w*\b', word, re.sub(r'b?"[^"]*"', 'S', text))))


def twins():
    """point 2: functions of one crate, of three lines or more, whose bodies are the same but for names and numbers"""
    groups = collections.defaultdict(list)
    for path, n, name, params, clauses, body in functions():
        if len(body) >= 5:
            groups[path.parts[1], shape(body)].append((path, n, name))
    return [place + () for group in groups.values() if len(group) > 1 for place in group]


def loops():
    """point 3: a `while` in whose body a variable grows or shrinks by 1"""
    found = []
    for path, text in TEXTS.items():
        for n, line in enumerate(text):
            begun = re.match(r'(\s*)while ', line)
            if begun:
                end = next(k for k in range(n, len(text)) if text[k] == begun[1] + '}')
                if any(re.search(r'\b\w+ [+-]= 1;|\b(\w+) = \1 [+-] 1;', l) for l in text[n:end]):
                    found.append((path, n + 1, line.strip()))
    return found


def by_hand():
    """point 4: equality, order, defaults, conversions and wrapping sums that std has a trait or a method for"""
    return lines(r'fn (is|same|eq|default|number|bits|of_code|row_number|number_of)\(|std::num::wrapping_')


def together():
    """point 5: a fact that stands in the `requires` of three functions of a crate, and three parameters of the same names and types in three"""
    facts, groups = collections.defaultdict(list), collections.defaultdict(list)
    for path, n, name, params, clauses, body in functions():
        for clause in clauses:
            inside = re.search(r'\{ (.*) \}', clause)
            for fact in set(re.split(r' × ', inside[1] if inside else '')):
                facts[path.parts[1], fact.strip('()').replace('.old', '.now')].append((path, n, name))
        for k in range(len(params) - 2):
            groups[path.parts[1], tuple(params[k:k + 3])].append((path, n, name))
    found = [(p[0][0], p[0][1], 'fact in %d: %s' % (len(p), key[1])) for key, p in facts.items() if len(p) >= 3]
    return found + [(p[0][0], p[0][1], 'in %d: %s' % (len(p), ', '.join(name for name, kind in key[1]))) for key, p in groups.items() if len(p) >= 3]


def buffers():
    """point 6: a buffer that is lent with a place or a length beside it, and a parallel array"""
    return lines(r'&mut \[u(8|64)\], (n|at|shift): u|&mut \[u8; \d+\], at: usize|marks: &(mut )?\[u64\], shift') + lines(r'ws: &\[usize\], vs: &\[u64\]')


def switches():
    """point 7: a flag that says which call is made"""
    return lines(r'fn \w+\((?:.*, )?builds: bool|\bif builds\b')


def answers():
    """point 8: the lines of proofs/ that answer goals"""
    return [(path, 1, '%d lines' % len(path.read_text().splitlines())) for path in sorted(pathlib.Path('crates').glob('*/proofs/**/*.antt'))]


POINTS = [enums, twins, loops, by_hand, together, buffers, switches, answers]

if len(sys.argv) > 1:
    for path, n, what in POINTS[int(sys.argv[1]) - 1]():
        print('%s:%d: %s' % (path, n, what))
else:
    for k, point in enumerate(POINTS, 1):
        found = point()
        tail = ', %d lines' % sum(int(what.split()[0]) for _, _, what in found) if k == 8 else ''
        print('%d %d%s' % (k, len(found), tail))
