#!/usr/bin/env python3
"""Brings the repository's own definitions and lemmas to today's spelling: types and modules in upper camel case,
everything else in snake case. Names of functions of src/, exported C names and strings stay.

Run once, at the top, after port.py: python3 tools/respell.py
It renames what is declared in crates/*/specs and crates/*/proofs, wherever it is cited: in .antt files, in the clauses
of .rt files, and between backquotes in README.md and docs/. Names that the check generates (c.NAME, goal.NAME) stay.
"""
import collections
import glob
import os
import re
import sys

GENERATED = ('Answers.antt', 'Invariants.antt', 'Choices.antt', 'Proof.antt')
TOKEN = r"(?<![\w'◌«])([A-Za-z][\w'₀-₉ℕ]*(?:-[\w'₀-₉ℕ]+)*)(?![\w'◌»-])"
DECLARED = re.compile(
    r"\s*(?:(?:abbrev|pub|ruleset|unfold|opaque|record|data)\s+)*([A-Za-z][^\s:(){}\[\]=,.;◌⟨⟩]*)"
    r"(?:\s+\([^()]*(?:\([^()]*\)[^()]*)*\)|\s+\{[^{}]*\})*\s*:(?!:)")
# names that a plain respelling would make fall together with another, or that read badly
OWN = {
    'boxIn': 'box_kept',
    'takeGives': 'take_leaves',
    'box-says': 'box_said',
    'put-does': 'put_done',
    'put-says': 'put_said',
    'stands-says': 'stands_said',
    'take-says': 'take_said',
}


def files():
    for kind in ('specs', 'proofs'):
        yield from sorted(glob.glob('crates/*/%s/**/*.antt' % kind, recursive=True))


def odd(name):
    return '-' in name or (name[0].islower() and re.search('[A-Z]', name) is not None)


def snake(name):
    name = re.sub('([a-z0-9])([A-Z])', r'\1-\2', name)
    return name.replace('-', '_').lower()


def camel(name):
    return ''.join(part[0].upper() + part[1:] for part in name.split('-'))


def code_of(line, mark):
    at = line.find(mark)
    return (line, '') if at < 0 else (line[:at], line[at:])


def imported(text):
    """The names that a file takes from the kit."""
    names = set()
    for path, inner in re.findall(r"use ([\w.+'-]+)\.\{([^}]*)\}", text):
        if not re.match(r'Rattle\.(%s)\b' % '|'.join(crates()), path):
            for part in inner.split(','):
                names.add(part.split(' as ')[0].strip())
                names.add(part.strip())
    return names


_crates = None


def crates():
    global _crates
    if _crates is None:
        _crates = sorted(os.listdir('crates'))
    return _crates


def declared():
    found = {}
    for path in files():
        text = open(path).read()
        generated = os.path.basename(path) in GENERATED
        for line in text.split('\n'):
            line = code_of(line, '--')[0]
            if re.match(r'(?:pub )?use ', line):
                # what the repository calls a name of the kit
                for name in re.findall(r' as ([^\s,}]+)', line):
                    if odd(name):
                        found[name] = snake(name)
                continue
            m = DECLARED.match(line)
            if not m or not odd(m.group(1)):
                continue
            if generated and re.match(r'\s*(abbrev )?pub ', line):
                continue
            name = m.group(1)
            is_type = name[0].isupper() and not re.match(r'[ST]-symmetric$', name)
            found[name] = OWN.get(name) or (camel(name) if is_type else snake(name))
    return found


def goals_of(text):
    return set(re.findall(r'^(?:abbrev )?pub (\S+) : goal\.', text, re.M))


def respell(path, names):
    text = open(path).read()
    antt = path.endswith('.antt')
    mark = '--' if antt else '//'
    kit = imported(text)
    generated = os.path.basename(path) in GENERATED
    goals = goals_of(text) if generated else set()
    out = []
    for line in text.split('\n'):
        code, comment = code_of(line, mark)
        use = re.match(r"(?:ghost |pub )*use ([\w.+'-]+)\.\{", code)
        if use and not re.match(r'Rattle\.(%s)\b' % '|'.join(crates()), use.group(1)):
            # an import from the kit: only what it is called here
            code = re.sub(r"( as )([^\s,}]+)", lambda m: m.group(1) + names.get(m.group(2), m.group(2)), code)
            out.append(code + comment)
            continue

        def one(m):
            name = m.group(1)
            if name not in names or name in goals:
                return name
            before = code[:m.start()]
            if generated and re.search(r"(?<![\w'])(c|goal|l)\.$", before):
                return name
            field = before.endswith('.') or re.match(r'\s*=[^=]', code[m.end():]) is not None
            if name in kit and not field:
                return name
            return names[name]
        if antt:
            code = re.sub(TOKEN, one, code)
        else:
            parts = re.split(r'("(?:[^"\\]|\\.)*")', code)
            if len(parts) == 1:
                code = re.sub(TOKEN, one, code)
        out.append(code + comment)
    new = '\n'.join(out)
    if new != text:
        open(path, 'w').write(new)
        return 1
    return 0


def main():
    names = declared()
    used = collections.Counter()
    for path in list(files()) + sorted(glob.glob('crates/*/src/**/*.rt', recursive=True)):
        used.update(re.findall(TOKEN, open(path).read()))
    targets = collections.defaultdict(list)
    for name, new in names.items():
        targets[new].append(name)
    for new, olds in sorted(targets.items()):
        if len(olds) > 1 or used[new]:
            print('falls together:', new, '<-', olds, used[new])
    if '--list' in sys.argv:
        for name in sorted(names):
            print(name, names[name])
        return
    count = 0
    for path in list(files()) + sorted(glob.glob('crates/*/src/**/*.rt', recursive=True)):
        count += respell(path, names)
    for path in ['README.md'] + sorted(glob.glob('docs/*.md')):
        text = open(path).read()
        new = re.sub(r'`[^`\n]+`', lambda q: re.sub(TOKEN, lambda m: names.get(m.group(1), m.group(1)), q.group(0)), text)
        if new != text:
            open(path, 'w').write(new)
            count += 1
    print('respelled: %d names, %d files' % (len(names), count))


main()
