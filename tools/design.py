#!/usr/bin/env python3
"""Counts, in crates/*/src, the places that docs/DESIGN-PASS.md speaks of: tools/design.py [POINT].

Each line that it prints is a place, or a group of places that are alike. What is a place of which point is said by the function that
finds it. Tests and comments do not count.
"""
import collections
import glob
import re
import sys


def sources():
    for path in sorted(glob.glob('crates/*/src/**/*.rt', recursive=True)):
        text = open(path).read().split('#[cfg(test)]')[0]
        yield path.replace('crates/', '').replace('/src/', ' ').replace('.rt', ''), re.sub(r'//[^\n]*', '', text)


def functions():
    """Module, name, parameters, result, clauses and body of each function."""
    for module, text in sources():
        for match in re.finditer(r'\bfn (\w+)(?:<[^>]*>)?\(', text):
            at = match.end()
            depth = 1
            while depth:
                depth += {'(': 1, ')': -1}.get(text[at], 0)
                at += 1
            parameters = text[match.end():at - 1]
            begin = re.compile(r'^(?:\{| *\{\n)', re.M).search(text, at) or re.compile(r'\{').search(text, at)
            head = text[at:begin.start()]
            end = begin.end()
            depth = 1
            while depth:
                depth += {'{': 1, '}': -1}.get(text[end], 0)
                end += 1
            yield module, match.group(1), ' '.join(parameters.split()), head, text[begin.end():end - 1]


def point_1():
    """A flag or a number of a refusal beside a value; a function that answers such a number; a constant that numbers a kind."""
    for module, text in sources():
        for struct in re.finditer(r'struct (\w+) \{([^}]*)\}', text):
            if re.search(r'\b(good: bool|refusal: u8)', struct.group(2)):
                yield f'struct {module} {struct.group(1)}'
        for const in re.finditer(r'const (\w+): (u8|u64|usize|bool) = (\d|true|false)\w*;', text):
            if not re.search(SIZES, const.group(1)):
                yield f'constant {module} {const.group(1)}'
    for module, name, _, head, body in functions():
        result = (re.search(r'-> (\w+)', head) or [None, ''])[1]
        if result == 'u8' and re.search(r'refusal|DONE|number', name + body):
            yield f'number of a refusal {module} {name}'


def point_2():
    """Functions of one crate or of two whose bodies differ only in names, types, sizes and constants: four lines or more of tokens."""
    shapes = collections.defaultdict(list)
    for module, name, parameters, head, body in functions():
        tokens = re.findall(r"b?\"(?:\\.|[^\"])*\"|b?'\\?.'|\w+|[^\s\w]", body)
        if len(tokens) < 14:
            continue
        shape = ' '.join(re.sub(r'^(\w+|b?".*"|b?\'.*\')$', 'x', t) if t not in KEPT else t for t in tokens)
        shapes[shape].append(f'{module} {name}')
    for names in shapes.values():
        if len(names) > 1 and len({n.split()[-1] for n in names}) + len({n.split()[0] for n in names}) > 2:
            yield ', '.join(names)


# Constants that say how many of something there are, where it lies, or which byte it is, and no kind.
SIZES = 'ROOM|MOST|LONGEST|LARGEST|BITS|BLOCK|BYTES|FIGURES|SLOTS|ROWS|CODES|SHEET$|_AT|_ROW|INPUT|NAMES$|^CR$|^LF$|SPACE|EQUALS'

KEPT = 'let mut if else for while match return in as true false'.split()


def point_3():
    """A loop by `while`, and a `for` over numbers whose body only copies from one array to another."""
    for module, name, _, _, body in functions():
        for loop in re.findall(r'\bwhile [^{]*', body):
            yield f'while {module} {name}: {" ".join(loop.split())}'
        for loop in re.findall(r'\bfor (\w+) in [^{]*\{\s*(\w+)\[([^\]]*)\] = (&?\w+)\[([^\]]*)\];\s*\}', body):
            yield f'copying for {module} {name}'


def point_4():
    """A function whose body is one literal of a struct, one field, or a comparison of all fields; bytes joined or taken apart by hand."""
    for module, name, parameters, head, body in functions():
        text = ' '.join(body.split())
        if re.fullmatch(r'\w+ \{[^{}]*\}', text) or re.fullmatch(r'\(?\*?(\w+)\.(\w+)\)?', text):
            yield f'one value {module} {name}'
        elif re.fullmatch(r'\{?.*\b(16777216|65536 % 256|/ 256 % 256|% 256)\b.*', text) and len(text) < 120:
            yield f'bytes {module} {name}'
        elif len(re.findall(r'(\w+)\.(\w+) != (\w+)\.\2', text)) > 1:
            yield f'fields compared {module} {name}'
        elif re.search(r'(\w+)\[i\] != (\w+)\[i\]', text):
            yield f'bytes compared {module} {name}'


def point_5():
    """A fact that stands in the contracts of three functions or more of src/, and three parameters that three or more have."""
    facts = collections.defaultdict(set)
    groups = collections.defaultdict(set)
    for module, name, parameters, head, _ in functions():
        for clause in re.findall(r'requires(?: \w+)? \{(.*?)\}\n', head + '\n', re.S):
            for fact in re.split(r' × ', re.sub(r'[()]', '', ' '.join(clause.split()))):
                facts[re.sub(r'\.(old|now)', '', fact.strip())].add(f'{module} {name}')
        given = [p.strip().replace("'a ", '') for p in parameters.split(',') if ':' in p]
        for i in range(len(given) - 2):
            if not re.match(r'card|\w+_c ', module):
                groups[', '.join(given[i:i + 3])].add(f'{module} {name}')
    for fact, names in sorted(facts.items(), key=lambda f: -len(f[1])):
        if len(names) > 2:
            yield f'{len(names)} functions require {fact}'
    for group, names in sorted(groups.items(), key=lambda g: -len(g[1])):
        if len(names) > 2:
            yield f'{len(names)} functions take {group}'


def point_6():
    """A struct with an array and its length, and a buffer that goes with a place in it."""
    for module, text in sources():
        for struct in re.finditer(r'struct (\w+) \{([^}]*)\}', text):
            if re.search(r'\b(length|count): usize', struct.group(2)) and '[' in struct.group(2):
                yield f'struct {module} {struct.group(1)}'
    for module, name, parameters, _, _ in functions():
        if re.search(r'(buffer|out): &(\'a )?mut \[u8\], at: usize', parameters):
            yield f'buffer and place {module} {name}'


def point_7():
    """A parameter or a variable that says which step to run, or on which of two values."""
    for module, name, parameters, _, body in functions():
        for switch in re.findall(r'\b(naming: bool|side: usize|part: u64)', parameters) + re.findall(r'for (turn) in', body):
            yield f'switch {module} {name}: {switch}'


def point_8():
    """Files of answers and invariants, and their lines."""
    for kind in 'Answers', 'Invariants', 'Proof':
        files = glob.glob(f'crates/*/proofs/**/{kind}.antt', recursive=True)
        yield f'{kind}: {len(files)} files, {sum(len(open(f).readlines()) for f in files)} lines'
    lemmas = [f for f in glob.glob('crates/*/proofs/*.antt')]
    yield f'lemmas: {len(lemmas)} files, {sum(len(open(f).readlines()) for f in lemmas)} lines'


def main():
    points = [point_1, point_2, point_3, point_4, point_5, point_6, point_7, point_8]
    for number, point in enumerate(points, 1):
        if sys.argv[1:] and sys.argv[1] != str(number):
            continue
        places = list(point())
        print(f'point {number}: {len(places)}')
        if sys.argv[1:]:
            print('\n'.join(places))


main()
