#!/usr/bin/env python3
"""Counts the places in crates/*/src that read like a language without Option, generics, iterators and derives (docs/DESIGN-PASS.md).

usage: tools/forms.py [-v] [COMMIT]

Without COMMIT it reads the working tree; -v prints each place.
"""
import collections
import re
import subprocess
import sys

verbose = '-v' in sys.argv
commits = [a for a in sys.argv[1:] if a != '-v']


def run(*command):
    return subprocess.run(command, capture_output=True, text=True, check=True).stdout


def files(pattern):
    names = run('git', 'ls-tree', '-r', '--name-only', commits[0]) if commits else run('git', 'ls-files')
    for name in names.split('\n'):
        if re.fullmatch(pattern, name):
            try:
                yield name, run('git', 'show', f'{commits[0]}:{name}') if commits else open(name).read()
            except FileNotFoundError:
                pass


sources = list(files(r'crates/\w+/src/.*\.rt'))
proofs = list(files(r'crates/\w+/proofs/.*\.antt'))


def show(title, places):
    print(f'{len(places):5} {title}')
    if verbose:
        for place in places:
            print('        ', place)


def lines(pattern, texts=sources):
    return [f'{name}:{i + 1}: {line.strip()}' for name, text in texts for i, line in enumerate(text.split('\n'))
            if re.search(pattern, line) and not line.lstrip().startswith('//')]


def functions():
    for name, text in sources:
        for found in re.finditer(r'^( *)(?:pub(?:\(crate\))? )?fn (\w+)', text, re.M):
            end = re.compile('^' + found[1] + r'\}', re.M).search(text, found.end())
            yield name, found[2], text[found.start():end.end() if end else len(text)]


KEPT = set('fn let mut if else match for in while loop return self pub crate as true false'.split())


def shape(name, text):
    """A function's code with names, types and constants left out."""
    code = re.sub(r'//.*|(?:requires|ensures)[^{]*\{(?:[^{}]|\{[^{}]*\})*\}', '', text)
    seen = {name: 'F'}

    def neutral(found):
        word = found[0]
        if word in KEPT:
            return word
        if word[0].isdigit():
            return 'N'
        if re.fullmatch(r'[ui]\d+|[ui]size|[A-Z]\w*', word):
            return 'T'
        return seen.setdefault(word, f'v{len(seen)}')

    return ' '.join(re.sub(r'\b\w+\b', neutral, code).split())


shapes = collections.defaultdict(list)
for file, name, text in functions():
    if len(text.strip().split('\n')) > 4:
        shapes[re.sub(r'(N => N, )+', 'N => N, ', shape(name, text))].append(f'{file}: {name}')
twins = [' = '.join(group) for group in shapes.values() if len(group) > 1]

facts = collections.Counter()
for file, name, text in functions():
    for clause in re.findall(r'requires\s*(?:\w+ )?\{((?:[^{}]|\{[^{}]*\})*)\}', text):
        for fact in re.split(r'×', ' '.join(clause.split())):
            facts[re.sub(r'\b(self|a|pos)\.', '', fact.strip().strip('()'))] += 1

show('1a enums', lines(r'^(pub(\(crate\))? )?enum '))
show('1b flags and answers as fields', lines(r'^ +(pub(\(crate\))? )?\w+: (bool|\w*Answer),$'))
show('1c numbers for kinds and refusals', lines(r'fn number\(|\.number\(\) [=!]=|== 255|-> isize|numbers?\(\) \{'))
show('2 groups of functions of one shape', twins)
show('3a while and loop', lines(r'\b(while|loop)\b'))
show('3b for over numbers', lines(r'for \w+ in [^{]*\.\.'))
show('4 equality, conversion and small library functions by hand',
     lines(r'fn (same\w*|least|one_more\w*|one_less|either|both|count|wide|word|letter|clear|number_of|'
           r'\w+_byte|\w+_word|\w+_number|\w+_from)\('))
show('5 facts in three or more requires', [f'{n} times: {fact}' for fact, n in facts.most_common() if n > 2])
show('6 fixed arrays as fields', lines(r'^ +(pub(\(crate\))? )?\w+: \[\w+; \w+\],$'))
show('7 switches on a step', lines(r'match decimals::at|while totals\.may_go_on|\bdyn |: fn\('))
show('8a answers', lines(r'^pub [^:]+ : goal\.', proofs))
show('8b lines of proofs', [x for _, text in proofs for x in text.split('\n')[:-1]] if not verbose else [])
