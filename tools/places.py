#!/usr/bin/env python3
"""Counts in src/ the places that docs/DESIGN-PASS.md speaks of, point by point.

usage: tools/places.py [POINT]    at the top of the repository; without POINT all, each with its places
"""
import collections
import glob
import re
import sys


def sources():
    for path in sorted(glob.glob('crates/*/src/**/*.rt', recursive=True)):
        yield path, open(path).read()


def balanced(text, start, opening, closing):
    """The place after the bracket that closes the one at start."""
    depth = 0
    for i in range(start, len(text)):
        if text[i] == opening:
            depth += 1
        elif text[i] == closing:
            depth -= 1
            if depth == 0:
                return i + 1
    return len(text)


HEAD = re.compile(r'^ *(?:#\[[^\n]*\]\n *)?(?:pub(?:\([a-z]+\))? )?(?:extern "C" )?(?:final )?fn (\w+)', re.M)


class Function:
    def __init__(self, path, text, match):
        self.path, self.name = path, match.group(1)
        at = match.end()
        if text[at:at + 1] == '<':
            at = balanced(text, at, '<', '>')
        end = balanced(text, text.index('(', at), '(', ')')
        self.parameters = text[text.index('(', at) + 1:end - 1]
        # clauses, up to the body: the first brace that opens a line, or ends the signature's
        rest = text[end:]
        body = re.search(r'(?:^|(?<=[\w>\]\)] ))\{$', rest, re.M)
        semicolon = re.search(r';\s*$', rest, re.M)
        if body is None or (semicolon and semicolon.start() < body.start()):
            self.clauses, self.body = rest[:semicolon.start()] if semicolon else rest, ''
        else:
            self.clauses = rest[:body.start()]
            self.body = rest[body.start():balanced(rest, body.start(), '{', '}')]
        self.place = '%s: %s' % (path, self.name)

    def names(self):
        return [p.split(':')[0].strip().removeprefix('mut ') for p in re.split(r',(?![^<(\[]*[>)\]])', self.parameters) if ':' in p]

    def requires(self):
        found = []
        for m in re.finditer(r'requires \w* ?\{|requires \{', self.clauses):
            clause = self.clauses[m.end():balanced(self.clauses, m.end() - 1, '{', '}') - 1]
            found += split_product(clause)
        return found


def split_product(clause):
    parts, depth, part = [], 0, ''
    for c in clause:
        depth += c in '([{'
        depth -= c in ')]}'
        if c == '×' and depth == 0:
            parts.append(part)
            part = ''
        else:
            part += c
    parts.append(part)
    out = []
    for p in parts:
        p = p.strip()
        if p.startswith('(') and balanced(p, 0, '(', ')') == len(p):
            p = p[1:-1]
        out.append(re.sub(r'\.(now|old|new)', '', p))
    return out


def functions():
    for path, text in sources():
        for m in HEAD.finditer(text):
            yield Function(path, text, m)


def lines(pattern, where='crates/*/src/**/*.rt'):
    for path in sorted(glob.glob(where, recursive=True)):
        for n, line in enumerate(open(path), 1):
            if re.search(pattern, line):
                yield '%s:%d: %s' % (path, n, line.strip())


def point_1():
    """own enums; a rule's number with 0 for none, beside values; constants that number roles and ranks"""
    yield from lines(r'^(pub )?enum ')
    yield from lines(r'^\s*pub rule: u8')
    for f in functions():
        if re.search(r'-> u8', f.clauses) and 'rule' in f.name:
            yield f.place + ' -> u8'
    yield from lines(r'^(pub )?const (SETS_LABEL|JUMPS_TO|BRANCHES|LOADS|STORES|CONSTANT|FLOW|EXIT)\b')


def alike(f):
    """A function's text without what tells twins apart: the width, the type and constants."""
    text = f.parameters + f.clauses.split('ensures')[0].split('requires')[0] + f.body
    text = re.sub(r'\b[ui](8|16|32|64)\b', 'T', text)
    text = re.sub(r'\b(FEW|SHORT|MAX)_OPS\b|\bLABELS\b', 'N', text)
    text = re.sub(r'0x[0-9a-fA-F_]+', 'H', text)
    text = re.sub(r'\b(\w+?)_?(32|64)\b', r'\1', text)
    text = re.sub(r' as T\b|_T\b', '', text)
    text = re.sub(r'\b\d+\b', 'D', text)
    text = text.replace('_number', '').replace(' as usize', '')
    return re.sub(r'[\s,()&]+', '', text)


def stem(name):
    return re.sub(r'_?(32|64|number|short|middle|long|label|target)$', '', name)


def point_2():
    """functions whose text differs only in a type, a width or a constant from one of the same stem"""
    groups = collections.defaultdict(list)
    for f in functions():
        groups[stem(f.name), alike(f)].append(f)
    for key, found in sorted(groups.items()):
        if len(found) > 1 and not all(f.path == found[0].path and f.name == found[0].name for f in found):
            yield ' = '.join(f.place for f in found)


def point_3():
    """loops that are no `for` and no iterator"""
    for f in functions():
        if re.search(r'^\s*(while|loop)\b', f.body, re.M):
            yield f.place + (' (counts by one)' if re.search(r'[+-]= 1;', f.body) else '')


def point_4():
    """a function that only casts, or numbers variants, or prints"""
    for f in functions():
        body = f.body.strip()[1:-1].strip()
        if re.fullmatch(r'\(?\w+( % 256\))? as \w+', body):
            yield f.place + ': ' + body
        elif re.fullmatch(r'match \w+ \{(\s*\w+::\w+ => [\w.]+,)+\s*\}', body):
            yield f.place + ': numbers variants'
        elif f.name.startswith('show_'):
            yield f.place + ': prints'
    yield from lines(r'^#\[derive\(Drop\)\]$')


def point_5():
    """a fact in the requires of three functions or more; parameters that travel together through five or more"""
    facts = collections.defaultdict(set)
    groups = collections.Counter()
    for f in functions():
        for fact in f.requires():
            facts[fact].add(f.place)
        names = f.names()
        for pair in {(a, b) for i, a in enumerate(names) for b in names[i + 1:]}:
            groups[pair] += 1
    for fact, where in sorted(facts.items()):
        if len(where) > 2:
            yield '%d functions: %s' % (len(where), fact)
    for pair, n in sorted(groups.items(), key=lambda x: -x[1]):
        if n >= 5:
            yield '%d functions take %s and %s' % (n, *pair)


def point_6():
    """a length beside a slice; arrays side by side of which one index speaks"""
    for f in functions():
        names = set(f.names())
        for pair in (('ops', 'places'), ('marks', 'constants'), ('known', 'values'), ('from', 'count'), ('p', 'count')):
            if names >= set(pair):
                yield f.place + ': ' + ' and '.join(pair)


def point_7():
    """a `match` on a number whose arms call the step to run"""
    for f in functions():
        arms = re.findall(r'^\s*(?:0x[0-9a-f]+|\d+)(?:\s*(?:\||\.\.=)\s*0x[0-9a-f]+)*\s*=> [^,\n]*\w\(', f.body, re.M)
        if len(arms) > 2:
            yield '%s: %d arms' % (f.place, len(arms))


def point_8():
    """answers that cite the names of Rattle's own steps"""
    yield from lines(r'shared_slice_known|slice_known|-own\b|(true|false)-raw', 'crates/*/proofs/**/*.antt')


POINTS = (point_1, point_2, point_3, point_4, point_5, point_6, point_7, point_8)


def main():
    chosen = sys.argv[1:]
    for number, point in enumerate(POINTS, 1):
        if chosen and str(number) not in chosen:
            continue
        places = list(point())
        print('point %d, %s: %d' % (number, point.__doc__, len(places)))
        for place in places:
            print('  ' + place)


if __name__ == '__main__':
    main()
