#!/usr/bin/env python3
"""Counts, in src/ of every crate, the places where an older form of the language may stand; with -v it lists them.

usage: tools/places.py [-v] [FOLDER]     FOLDER is the repository, by default the one that this file lies in

What a row means is said in docs/DESIGN-PASS.md, which has the counts. Tests (tests.rt and cfg(test) modules) are left out of rows 1 to 7.
"""
import collections, os, re, sys

verbose = '-v' in sys.argv
args = [a for a in sys.argv[1:] if a != '-v']
root = args[0] if args else os.path.join(os.path.dirname(os.path.abspath(__file__)), '..')
crates = os.path.join(root, 'crates')


def files(part, ends):
    for crate in sorted(os.listdir(crates)):
        for folder, _, names in sorted(os.walk(os.path.join(crates, crate, part))):
            for name in sorted(names):
                if name.endswith(ends):
                    path = os.path.join(folder, name)
                    yield crate, os.path.relpath(path, root), open(path).read()


def code():
    for crate, path, text in files('src', '.rt'):
        if not path.endswith('tests.rt'):
            text = text.split('#[cfg(test)]\nmod tests {')[0]
            # strings and comments hold no code
            text = re.sub(r'"(?:\\.|[^"\\])*"', lambda m: '"' + '\n' * m.group().count('\n') + '"', text)
            yield crate, path, re.sub(r'//[^\n]*', '', text)


def row(name, places):
    print(f'{name}: {len(places)}')
    if verbose:
        for place in places:
            print('    ' + place)


def found(pattern, group=0):
    return [f'{path}:{text.count(chr(10), 0, m.start(group)) + 1} {" ".join(m.group(group).split())[:100]}'
            for _, path, text in code() for m in re.finditer(pattern, text, re.S | re.M)]


def functions():
    """Each function with a body: its crate, place, name, parameters, clauses and body."""
    head = re.compile(r'\bfn (\w+)(<[^({]*>)?\(([^{;]*?)\)(\s*->[^{;]*?)?((?:\s+(?:requires|ensures)\b.*?\})*)\s*\n?\s*\{(?=[\n}])', re.S)
    for crate, path, text in code():
        for m in head.finditer(text):
            depth, end = 1, m.end()
            while depth and end < len(text):
                depth += {'{': 1, '}': -1}.get(text[end], 0)
                end += 1
            place = f'{path}:{text.count(chr(10), 0, m.start()) + 1}'
            yield crate, place, m.group(1), m.group(3), m.group(5) or '', text[m.end():end - 1]


def shape(body):
    """A body with its names and numbers replaced by the order in which they come."""
    seen = {}
    return ' '.join(seen.setdefault(t, f'n{len(seen)}') if re.match(r'\w', t) and t not in KEYWORDS else t
                    for t in re.findall(r"\w+|[^\w\s]", body))


KEYWORDS = set('let mut for in if else match return Some None Ok Err self while as'.split())


def twins():
    shapes = collections.defaultdict(list)
    for _, place, name, _, _, body in functions():
        if len(body.split()) > 3:
            shapes[shape(body)].append(f'{place} {name}')
    return [' ~ '.join(places) for places in shapes.values() if len(places) > 1]


def repeated():
    """Facts that three or more functions of a crate require, and groups of parameters that four or more pass along."""
    facts, groups = collections.defaultdict(set), collections.defaultdict(set)
    for crate, place, name, parameters, clauses, _ in functions():
        for fact in re.findall(r'requires (?:\w+ )?\{ (.*) \}', clauses):
            facts[crate, re.sub(r'\b[a-z]\w*\.(?:\w+\.?)*|\b(?:a|b|x|y|row|raw|sizes|from)\b', '_', fact)].add(name)
        names = [p.split(':')[0].strip() + ':' + p.split(':')[1].strip() for p in parameters.split(',') if ':' in p]
        for size in range(2, len(names) + 1):
            for at in range(len(names) - size + 1):
                groups[crate, tuple(names[at:at + size])].add(place)
    told = [f'{crate}: {fact}: {", ".join(sorted(names))}' for (crate, fact), names in sorted(facts.items()) if len(names) > 2]
    kept = []
    for (crate, group), places in sorted(groups.items(), key=lambda g: -len(g[0][1])):
        if len(places) > 3 and not any(c == crate and set(group) <= set(g) for c, g in kept):
            kept.append((crate, group))
            told.append(f'{crate}: ({", ".join(group)}) in {len(places)} functions')
    return told


row('1a enums of two cases, one bare and one with a value', found(r'enum \w+(?:<[^>]*>)? \{\s*(?:\w+,\s*\w+[({][^(){}]*[)}],?|\w+[({][^(){}]*[)}],\s*\w+,?)\s*\}'))
row('1b flags: parameters and fields of type bool', found(r'\b\w+: bool\b'))
row('1c results that are always 0', [f'{place} {name}' for _, place, name, _, _, body in functions() if body.strip() == '0'])
row('1d a number for a kind: a match on a number', found(r'^\s*0 =>.*?$'))
row('1e a failure passed on by hand: let .. else', found(r'let (?:Some|Ok)\([^;=]*?\) = [^;{]*?else \{\s*return (?:None|Err\([^;]*?\));\s*\};'))
row('1f a failure passed on by hand: an arm', found(r'^\s*(?:None => None|Some\((\w+)\) => Some\(|Ok\((\w+)\) => Ok\(|Err\(\w+\) => (?:return )?Err\(|Err\(_\) => (?:None|unreachable\(\)))'))
row('2 functions with bodies of one shape', twins())
row('3a for over a range of numbers', found(r'^\s*for \w+ in \(?[\w.()]+\.\.[^{\n]*'))
row('3b for with an index beside the item', found(r'^\s*for \(\w+, \w+\) in [^{\n]*enumerate\(\)'))
row('3c while', found(r'^\s*(?:while|loop)\b[^{\n]*'))
row('3d a count kept beside a loop', found(r'^\s*\w+ (?:\+|-)= 1;|^\s*(\w+) = \1\.saturating_add\(1\);'))
row('4a Clone, Copy or a comparison written by hand', found(r'^impl(?:<[^\n{]*>)? (?:Clone|Copy|PartialEq|Eq|PartialOrd|Ord|Hash|Default) for [^{]*|fn (?:same|equals|same_\w+)\b'))
row('4b From written by hand', found(r'^impl[^\n]*\bFrom<[^\n]* for [^{\n]*'))
row('4c a sentence made outside Display', found(r'fn (?:told|sentence|refusal)\b'))
row('4d as, between kinds of number', found(r'[\w.()?]+ as (?:u8|u16|u32|u64|usize|i8|i16|i32|i64)\b'))
row('5 facts in three contracts, parameters together in four', repeated())
row('6a arrays of a fixed size', found(r'\[[\w:]+; [A-Z0-9]\w*\]'))
row('6b an item by an index that is worked out', found(r'\b[\w.]+\[\w+ [*+-][^\]]*\]'))
row('6c two lists beside one another in a struct', found(r'\w+: Vec<[^\n]*\n\s*(?:pub )?\w+: Vec<[^\n]*'))
row('7 function pointers and dyn', found(r'\bdyn \w+|: fn\('))
sizes = collections.Counter()
for crate, path, text in files('proofs', '.antt'):
    sizes[crate] += text.count('\n')
print(f'8 lines in proofs/: {sum(sizes.values())}')
if verbose:
    for crate, lines in sorted(sizes.items()):
        print(f'    {crate} {lines}')
