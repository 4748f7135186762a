#!/usr/bin/env python3
# Lists the places in src/ that docs/DESIGN-PASS.md counts, a line each: the point, the file with its line, and what stands there. At the end the counts.
#   python3 tools/places.py [CRATE ..]
# 1   an enum of two variants one of which may carry something and the other nothing, or a refusal, a line or a carrier: an Option or a Result by hand
# 2   functions or types of one crate whose text is the same but for names, types, sizes and constants
# 3   a while or a loop that counts by hand: in its body a name that its test or an index in it has, or that it hands on, grows or shrinks by a constant
# 4   a conversion between two widths, or a comparison, as a function of its own or field by field
# 7   a bool or a number for which of two or more things to do, handed on as a parameter
import pathlib
import re
import sys

root = pathlib.Path(__file__).resolve().parent.parent
order = [line.split(':')[0].split()[0] for line in (root / 'crates.txt').read_text().splitlines() if line.strip() and not line.startswith('#')]
only = sys.argv[1:] or order


def block(text, start):
    depth = 0
    for at in range(start, len(text)):
        if text[at] == '{':
            depth += 1
        elif text[at] == '}':
            depth -= 1
            if depth == 0:
                return text[start:at + 1]
    return text[start:]


def bare(text):
    return re.sub(r'//[^\n]*', lambda m: ' ' * len(m.group()), text)


counts = {}


def tell(point, path, text, at, what):
    counts[point] = counts.get(point, 0) + 1
    print(f'{point} {path.relative_to(root)}:{text.count(chr(10), 0, at) + 1} {what}')


def shape(body):
    body = re.sub(r'\b(u8|u16|u32|u64|usize)\b', 'T', body)
    body = re.sub(r'\b[A-Z][A-Z_0-9]*\b', 'C', body)
    body = re.sub(r'\b[0-9_]+\b', 'C', body)
    seen = {}
    kept = {'let', 'mut', 'while', 'if', 'else', 'return', 'for', 'in', 'match', 'fn', 'T', 'C', 'len', 'as', 'loop', 'break', 'struct', 'enum', 'true', 'false', 'pub', 'bool'}
    body = re.sub(r'\b[A-Za-z_][A-Za-z_0-9]*\b', lambda m: m.group() if m.group() in kept else seen.setdefault(m.group(), f'n{len(seen)}'), body)
    return re.sub(r'\s+', ' ', body)


shapes = {}
for crate in order:
    for path in sorted((root / 'crates' / crate / 'src').glob('*.rt')):
        text = bare(path.read_text())
        for m in re.finditer(r'\benum (\w+) \{', text):
            inner = block(text, m.end() - 1)[1:-1]
            parts = [v for v in re.findall(r'\b([A-Z]\w*)\s*(\([^)]*\)|\{[^}]*\})?\s*,', inner)]
            if len(parts) == 2 and crate in only:
                tell('1', path, text, m.start(), f'enum {m.group(1)}: ' + ', '.join(a + b for a, b in parts))
        for m in re.finditer(r'^( *)(pub )?fn (\w+)', text, re.M):
            start = text.find('\n' + m.group(1) + '{', m.end())
            one = text.find('{', m.end())
            head_end = text.find(';', m.end())
            if start < 0 or text[m.end():start].count('\nfn ') or text[m.end():start].count('\npub fn '):
                start = one - 1
            body = block(text, text.find('{', start))
            head = re.split(r'\n\s*(?:requires|ensures)\b', text[m.end():start])[0]
            if crate in only:
                for l in re.finditer(r'\b(while\s+([^{]*)|loop\s*)\{', body):
                    inner = block(body, l.end() - 1)
                    grown = set(re.findall(r'\b(\w+) [+-]= (?:[A-Z0-9_]+);', inner))
                    test = l.group(2) or ''
                    if any(re.search(rf'\b{g}\b', test) or re.search(rf'\[[^\]]*\b{g}\b', inner) for g in grown) or (not test and grown):
                        tell('3', path, text, text.find(body, start) + l.start(), f'{m.group(3)}: while {test.strip()}' if test else f'{m.group(3)}: loop')
            if body.count('\n') > 3:
                shapes.setdefault((shape(head + body)), []).append((crate, path, text, m.start(), m.group(3)))
        if crate in only:
            for m in re.finditer(r'^( *)(pub )?fn (wide|narrow|bit|yes|either|both|lower|higher|one_if|chosen)\b', text, re.M):
                tell('4', path, text, m.start(), f'fn {m.group(3)}')
            for m in re.finditer(r'(?<![\w.])[a-z][\w.]*\.0 [!=]= [a-z][\w.]*\.0\b', text):
                tell('4', path, text, m.start(), m.group())
            for m in re.finditer(r'\b(\w+): (bool|u64|usize)(?=,|\))', text):
                if m.group(1) in ('second', 'reports', 'kind', 'short', 'shorten', 'mapped', 'listed', 'readable', 'edition', 'again', 'in_carousel'):
                    tell('7', path, text, m.start(), m.group())
for places in shapes.values():
    if len(places) > 1 and any(c in only for c, *_ in places):
        crate, path, text, at, name = places[0]
        tell('2', path, text, at, ' = '.join(f'{c}::{n}' for c, _, _, _, n in places))
for point in sorted(counts):
    print(f'point {point}: {counts[point]}')
