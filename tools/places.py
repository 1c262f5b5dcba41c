#!/usr/bin/env python3
"""Lists the places in crates/*/src that may read like an older Rattle, by the points of docs/DESIGN-PASS.md.

usage: python3 tools/places.py [TREE] [POINT..]        TREE is this repository where none is given

1  own enums; functions that answer a bool; `u64::MAX` as an answer; numbers that stand for a kind or a refusal
2  functions whose bodies have one shape, once names, numbers and texts are left out
3  loops
4  functions named as conversions, comparisons or printing
5  facts in three or more contracts of a crate, pairs of parameters in three or more of its signatures
6  fields that are arrays or lent slices
7  enums named Step, parameters that say which of two works to do, function pointers
8  files and lines of proofs
"""
import collections
import glob
import itertools
import os
import re
import sys

KEPT_WORDS = set('fn let mut if else match while for in loop return break continue as ref move Some None Ok Err true false self Self'.split())


def sources(tree):
    for path in sorted(glob.glob(os.path.join(tree, 'crates/*/src/**/*.rt'), recursive=True)):
        text = re.sub(r'//[^\n]*', '', open(path).read())
        yield os.path.relpath(path, os.path.join(tree, 'crates')), text


def lines(tree, pattern):
    found = []
    for path, text in sources(tree):
        for number, line in enumerate(text.split('\n'), 1):
            if re.search(pattern, line):
                found.append(f'{path}:{number}: {line.strip()}')
    return found


def bodies(text):
    for head in re.finditer(r'\bfn (\w+)', text):
        start = re.compile(r'^[ \t]*\{\s*$|\)( -> [^\n{]*)? \{\s*$', re.M).search(text, head.end())
        if not start:
            continue
        first = last = text.index('{', start.start())
        depth = 0
        while last < len(text):
            depth += {'{': 1, '}': -1}.get(text[last], 0)
            if depth == 0:
                break
            last += 1
        body = text[first:last + 1]
        if 'fn ' not in body:
            yield head.group(1), body


def shape(body):
    body = re.sub(r'b?"(\\.|[^"\\])*"', 'S', body)
    body = re.sub(r"b'(\\.|[^'\\])+'", 'S', body)
    tokens = re.findall(r'[A-Za-z_]\w*|\d[\w.]*|S|[^\s\w]', body)
    return tuple(t if t in KEPT_WORDS or not re.match(r'\w', t) else '0' if t[0].isdigit() else 'x' for t in tokens)


def twins(tree):
    groups = collections.defaultdict(list)
    for path, text in sources(tree):
        for name, body in bodies(text):
            groups[shape(body)].append(f'{path} {name}')
    return [f'{len(s)} tokens: ' + ', '.join(group) for s, group in sorted(groups.items(), key=lambda g: -len(g[0]))
            if len(group) > 1 and len(s) >= 14]


def repeated(tree):
    found = []
    for crate in sorted(glob.glob(os.path.join(tree, 'crates/*'))):
        facts, pairs = collections.Counter(), collections.Counter()
        for path in sorted(glob.glob(crate + '/src/**/*.rt', recursive=True)):
            text = re.sub(r'//[^\n]*', '', open(path).read())
            for clause in re.finditer(r'^\s*(requires|ensures)\s*\w*\s*\{(.*)\}\s*;?\s*$', text, re.M):
                for fact in re.split(r'\s×\s', clause.group(2)):
                    fact = re.sub(r'[()]', '', fact)
                    for word in ('.old', '.now', '.new', '.entry'):
                        fact = fact.replace(word, '.')
                    fact = re.sub(r'^self\.+', 'x.', fact.strip())
                    facts[re.sub(r'result\.*', 'x.', fact)] += 1
            for signature in re.finditer(r'\bfn \w+(<[^>]*>)?\(([^)]*)\)', text):
                parameters = sorted(set(re.findall(r'(\w+):\s*([^,]+)', signature.group(2))))
                for pair in itertools.combinations([f'{n}: {t.strip()}' for n, t in parameters], 2):
                    pairs[pair] += 1
        name = os.path.basename(crate)
        found += [f'{name}: {n} times the fact {f}' for f, n in facts.most_common() if n >= 3 and re.search('[≤<≡]', f) and ' ' in f]
        found += [f'{name}: {n} times the parameters {", ".join(p)}' for p, n in pairs.most_common() if n >= 3]
    return found


def proofs(tree):
    files = sorted(glob.glob(os.path.join(tree, 'crates/*/proofs/**/*.antt'), recursive=True))
    answers = [f for f in files if f.endswith('Answers.antt')]
    count = lambda fs: sum(open(f).read().count('\n') for f in fs)
    return [f'{len(files)} files, {count(files)} lines', f'of these {len(answers)} files of answers, {count(answers)} lines']


def places(tree):
    yield 1, 'enums', lines(tree, r'^ *(pub(\(crate\))? )?enum ')
    yield 1, 'functions that answer a bool', lines(tree, r'\bfn .*-> bool')
    yield 1, 'the largest number as an answer, and numbers for kinds or refusals', lines(tree, r'saturating_mul|fn (layer_number|number)\(|extern "C"')
    yield 2, 'groups of one shape', twins(tree)
    yield 3, 'loops', lines(tree, r'\b(while|loop)\b.*\{|\bfor\b.* in .*\{')
    yield 4, 'functions named so', lines(tree, r'\bfn (equal|of|from_\w+|\w+_word|read|parse|at|number|told|print_\w+|sent|received|state|list|numbers|layers?|two_layers|title)\b')
    yield 5, 'repeated facts and pairs of parameters', repeated(tree)
    yield 6, 'fields that are arrays or lent slices', lines(tree, r"^\s+(pub(\(crate\))? )?\w+: (&'a mut )?\[\w+(; ?\w+)?\],")
    yield 7, 'steps, choices and function pointers', lines(tree, r'enum Step|part: Part|: fn\(|&dyn|Box<dyn')
    yield 8, 'proofs', proofs(tree)


def main():
    words = sys.argv[1:]
    tree = '.'
    if words and not words[0].isdigit():
        tree = words.pop(0)
    wanted = {int(w) for w in words} or set(range(1, 9))
    for point, what, found in places(tree):
        if point in wanted:
            print(f'{point}. {what}: {len(found)}')
            for line in found:
                print('   ', line)


if __name__ == '__main__':
    main()
