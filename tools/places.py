#!/usr/bin/env python3
"""Lists places in src/ that may read like an older Rattle: python3 tools/places.py [FOLDER OF A CHECKOUT] [-v]

Each rule goes by text, so that a listed place may be in order; docs/DESIGN-PASS.md says of each what became of it. With -v
the places are printed, each with its file and line.
"""
import collections
import glob
import itertools
import re
import sys

FACTS = 3  # a fact is listed that stands in the `requires` of so many functions of a crate


def sources(top):
    for path in sorted(glob.glob(top + '/crates/*/src/*.rt')):
        text = open(path).read()
        yield path[len(top) + 1:], text


def lines(rule, places, top):
    for path, text in sources(top):
        for number, line in enumerate(text.split('\n'), 1):
            if not line.lstrip().startswith('//') and re.search(rule, line):
                places.append(f'{path}:{number}: {line.strip()}')


def functions(text):
    """Name, parameters and clauses of each function."""
    for found in re.finditer(r'\bfn (\w+)(?:<[^(]*>)?\(', text):
        depth, end = 1, found.end()
        while depth:
            depth += {'(': 1, ')': -1}.get(text[end], 0)
            end += 1
        stop = re.search(r'\n\s*\{\n|;\n|\{\n', text[end:])
        yield found.group(1), text[found.end():end - 1], text[end:end + stop.start()] if stop else ''


def facts(top):
    seen = collections.defaultdict(set)
    for path, text in sources(top):
        crate = path.split('/')[1]
        for name, _, clauses in functions(text):
            for clause in re.findall(r'requires\s*\w*\s*\{(.*?)\}\s*(?=\n|$)', clauses, re.S):
                for fact in re.split(r'\s×\s', re.sub(r'[()]', '', clause)):
                    seen[crate, fact.strip()].add(path + ' ' + name)
    return [f'{crate}: {fact}: in {len(where)} functions' for (crate, fact), where in sorted(seen.items())
            if len(where) >= FACTS]


def parameters_of(text):
    """The names of a function's parameters, without self."""
    names = [p.split(':')[0].replace('mut ', '').strip() for p in re.split(r',(?![^<(\[]*[>)\]])', text)]
    return sorted(n for n in names if re.fullmatch(r'\w+', n) and n != 'self')


def together(top):
    """Functions of a file of which each has three parameters, or more, in common with two others."""
    out = []
    for path, text in sources(top):
        group = [(name, set(parameters_of(p))) for name, p, _ in functions(text)]
        for name, own in group:
            most = collections.Counter()
            for other, theirs in group:
                if other != name:
                    for triple in itertools.combinations(sorted(own & theirs), 3):
                        most[triple] += 1
            if most and max(most.values()) >= 2:
                out.append(f'{path}: {name}: {", ".join(max(most, key=lambda t: most[t]))}')
    return out


def places(top):
    found = collections.OrderedDict()

    def put(label, rule):
        found[label] = []
        lines(rule, found[label], top)

    found['1 results that say only whether it was done: `-> bool` of a function that takes a &mut'] = [
        f'{path}: {name}' for path, text in sources(top) for name, parameters, rest in functions(text)
        if '&mut' in parameters and re.search(r'->\s*bool', rest)]
    put('1 a flag told by a number', r'return [01];')
    put('1 a match that passes an Err or a None on', r'Err\(\w+\) => return Err|None => None,|None => \w+::zero\(\)')
    found['2 two functions whose bodies differ in a word or two'] = twins(top)
    put('3 a loop over the places of a slice', r'for \w+ in \(?(0|1|used|\w+)\.\.(=)?[\w.()\[\]]*(len\(\)|\bn\b|\bm\b|count|end)')
    put('3 a loop that answers a flag', r'return (true|false);')
    put('3 a counter kept beside a loop', r'^\s+(s|code|i|at) (\+= |= \w+\.wrapping_add)')
    put('4 printing by hand', r'fn (explained|spaced|digest)\b')
    put('4 equality, order or a smaller of two by hand', r'fn same\(&self|fn shorter\b|if \w+(\.len\(\))? < \w+(\.len\(\))? \{ \w+')
    found['5 a fact in the `requires` of three functions or more'] = facts(top)
    found['5 a function that has three parameters in common with two others of its file'] = together(top)
    put('6 a hand-searched list, or a place reckoned in flat rows', r'fn (place_of|first_row)\b|wrapping_mul\((beta|d|tail|numbers)')
    put('6 a length beside a buffer that is longer', r'let count = |count: usize')
    put('7 a table of functions, or a switch on which step to run', r'\[fn\(|match (step|stage|phase)\b')
    return found


def bodies(text):
    """Name and words of the body of each function that has one."""
    for found in re.finditer(r'\n( *)(?:pub(?:\([a-z]+\))? )?fn (\w+)', text):
        indent = found.group(1)
        end = text.find('\n' + indent + '}\n', found.end())
        start = re.compile(r'\{\n|;\n').search(text, found.end())
        clauses = re.compile(r'\n' + indent + r'\{\n').search(text, found.end())
        if end < 0 or not start or start.group() == ';\n' or start.start() > end:
            continue
        begin = clauses.end() if clauses and clauses.start() < end else start.end()
        yield found.group(2), re.findall(r'[\w.]+|[^\s\w]', text[begin:end])


def twins(top):
    by_crate = collections.defaultdict(list)
    for path, text in sources(top):
        if 'theorems.rt' in path or 'order.rt' in path:
            continue
        for name, words in bodies(text):
            by_crate[path.split('/')[1]].append((path, name, words))
    every = [(c, p, n, w) for c, group in by_crate.items() for p, n, w in group]
    out = []
    for i, (c, p, n, w) in enumerate(every):
        for d, q, m, v in every[i + 1:]:
            if len(w) == len(v) >= 12 and sum(a != b for a, b in zip(w, v)) <= max(2, len(w) // 8):
                out.append(f'{p}: {n} / {q}: {m}')
    return out


def main():
    top = next((a for a in sys.argv[1:] if a != '-v'), '.')
    for label, found in places(top).items():
        print(f'{len(found):4}  {label}')
        if '-v' in sys.argv:
            for place in found:
                print('        ' + place)


main()
