#!/usr/bin/env python3
"""Lists the places in crates/*/src that a newer form of Rattle might serve better.

usage: python3 tools/places.py POINT     run at the top of the repository; the last line is the count

  1  answers and fields of type bool, and arms that give or take a number for a kind or a refusal
  2  functions of one crate with the same clauses but for names and numbers, and runs of alike lines
  3  loops over a range of indices, and loops without an iterator
  4  casts, and functions that convert, compare or print by hand
  5  facts that stand in the clauses of three or more functions, and parameters that travel together
  6  arrays of a fixed length outside of tests, and fields of a length beside a buffer
  7  matches, function pointers and dyn
  8  answers and lemmas: lines of the proofs of each crate

It only finds candidates: docs/DESIGN-PASS.md says what became of each.
"""
import collections, glob, re, sys


def lines():
    """Each line of the sources that is neither a comment nor a ghost import."""
    for path in sorted(glob.glob('crates/*/src/*.rt')):
        for at, line in enumerate(open(path), 1):
            if not re.match(r'\s*(//|ghost use)', line):
                yield path, at, line.rstrip()


def matching(pattern, but=None):
    return [f'{path}:{at}: {line.strip()}' for path, at, line in lines()
            if re.search(pattern, line) and not (but and re.search(but, path + ':' + line))]


def functions():
    """Each function as path, name, parameters and clauses."""
    for path in sorted(glob.glob('crates/*/src/*.rt')):
        text = open(path).read()
        for found in re.finditer(r'\bfn (\w+)(?:<[^>]*>)?\(', text):
            depth, at = 1, found.end()
            while depth:
                depth += {'(': 1, ')': -1}.get(text[at], 0)
                at += 1
            head = re.split(r'\n *\{\n|\n *\{\}', text[at:], maxsplit=1)[0]
            clauses = re.findall(r'(requires|ensures)\*? *\w* *\{ (.*?) \}[\n;]', head + '\n')
            yield path, found.group(1), text[found.end():at - 1], clauses


def split_facts(clause):
    """The facts of a clause: its parts between `×` outside of brackets, without their brackets."""
    parts, depth, part = [], 0, ''
    for sign in clause:
        depth += (sign in '([{') - (sign in ')]}')
        if sign == '×' and depth == 0:
            parts.append(part)
            part = ''
        else:
            part += sign
    parts.append(part)
    facts = []
    for part in (p.strip() for p in parts):
        inner = part[1:-1] if part.startswith('(') and part.endswith(')') else None
        facts += split_facts(inner) if inner and '×' in inner else [inner or part]
    return facts


def repeated():
    facts, groups = collections.defaultdict(set), collections.defaultdict(set)
    for path, name, parameters, clauses in functions():
        place = f'{path}:{name}'
        for kind, clause in clauses:
            for fact in split_facts(clause):
                if kind == 'requires' or not re.search(r'\bresult\b|\.new\b', fact):
                    facts[path.split('/')[1] + ': ' + fact].add(place)
        taken = sorted(set(re.findall(r'(\w+): ([^,()]+)', parameters)))
        for i, first in enumerate(taken):
            for second in taken[i + 1:]:
                groups[f"{path.split('/')[1]}: ({': '.join(first)}, {': '.join(second)})"].add(place)
    for found in (facts, groups):
        for text, places in sorted(found.items()):
            if len(places) >= 3:
                yield f"{text} in {', '.join(sorted(p.split(':')[1] for p in places))}"


def twins():
    alike = collections.defaultdict(list)
    for path, name, parameters, clauses in functions():
        ensured = ' '.join(c for kind, c in clauses if kind == 'ensures')
        shape = re.sub(r'[A-Za-zΣσ_][\w.Σσ]*|\d+', 'x', re.sub(r'\s+', ' ', parameters) + ' | ' + ensured)
        if clauses:
            alike[path.split('/')[1], shape].append(f'{path}:{name}')
    for (_, shape), places in sorted(alike.items()):
        if len(places) > 1:
            yield f"{', '.join(places)}"


def proofs():
    for crate in sorted(glob.glob('crates/*/proofs')):
        files = glob.glob(crate + '/**/*.antt', recursive=True)
        answers = [f for f in files if f.endswith(('Answers.antt', 'Invariants.antt', 'Proof.antt'))]
        count = lambda paths: sum(len(open(p).read().splitlines()) for p in paths)
        yield f"{crate}: {len(answers)} files of answers and invariants with {count(answers)} lines, lemmas {count(files) - count(answers)} lines"


POINTS = {
    '1': lambda: matching(r'-> (io::Result<)?\[?bool|: bool\b|\[bool|=> \d+,$|^\s*\d+ => |let (Some|Ok|Err)\(.* else \{'),
    '2': lambda: list(twins()),
    '3': lambda: matching(r'\bfor \w+ in .*\.\.|\bwhile\b|\bloop \{'),
    '4': lambda: matching(r' as (u8|u16|u32|u64|usize)\b|\bfn (\w*number\w*|word|refusal|reason|same|hex|to_bytes|print_\w+)\b|DIGITS'),
    '5': lambda: list(repeated()),
    '6': lambda: matching(r'\[[^\[\];]+; *(MOST|\d+)\]|\b(count|size|length|len): usize\b', r'crates/samples'),
    '7': lambda: matching(r'\bmatch\b|\bfn\(|\bdyn\b|Box<'),
    '8': lambda: list(proofs()),
}

if len(sys.argv) != 2 or sys.argv[1] not in POINTS:
    sys.exit(__doc__)
places = POINTS[sys.argv[1]]()
print('\n'.join(places))
print(len(places))
