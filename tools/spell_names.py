#!/usr/bin/env python3
"""Brings the repository's own definitions and lemmas to one spelling: words in snake case, types in camel case, a prime as an apostrophe.

usage: python3 tools/spell_names.py [--dry]   at the top of the repository, once, right after the kit's port.py

A name is turned where it was declared at the head of a line in specs/ or in a lemma file of proofs/, in every .antt file, in the
clauses and ghost items of every .rt file, and in the texts of must-fail edits. Labels that Rattle makes stay: names behind `goal.`, and
those of STAY. Names of src/, strings, inputs and outputs are not touched.
It prints the names that would meet another of the same spelling in some file; each of those gets the spelling that OTHER gives it.
"""
import os
import re
import sys

WORD = r'[^\s(){}.;,@"«»\[\]⌜⌝]+'
TOKEN = re.compile(WORD)
DECLARED = re.compile(r'^\s*(?:unfoldable |abbrev |pattern |pub |record |data |inductive )*(' + WORD + r')(?: \([^()]*\)| \{[^{}]*\})* :(?!:)')
ALIAS = re.compile(r' as (' + WORD + ')')
# labels that Rattle makes of a variable of the source, as w.answer-is
STAY = {('crates/day/proofs/running/make_on_open/Answers.antt', 'answer-is')}
# where the plain spelling is another's name
OTHER = {'has-child': 'child_stands', 'on-level': 'level_count', 'Filled-of': 'filled_of', 'Goes_on': 'GoesOn'}


def spelled(name):
    if name in OTHER:
        return OTHER[name]
    name = name.replace('′', "'")
    if '-' not in name:
        return name
    if name[0].isupper():
        return ''.join(w[:1].upper() + w[1:] for w in name.split('-'))
    return name.replace('-', '_')


def files():
    for d, dirs, names in os.walk('crates'):
        dirs[:] = sorted(x for x in dirs if x != 'out')
        for n in sorted(names):
            if n.endswith(('.antt', '.rt', '.edit')):
                yield os.path.join(d, n)


def is_lemma_file(p):
    return '/specs/' in p or re.fullmatch(r'crates/\w+/proofs/\w+\.antt', p)


def declared():
    found = set(OTHER)
    for p in files():
        with open(p, encoding='utf-8') as f:
            text = f.read()
        if p.endswith('.antt') and is_lemma_file(p):
            for line in text.split('\n'):
                m = DECLARED.match(line)
                if m and not line.lstrip().startswith('--') and spelled(m.group(1)) != m.group(1):
                    found.add(m.group(1))
        if p.endswith(('.antt', '.rt')):
            for line in text.split('\n'):
                if re.match(r'\s*(ghost )?use ', line):
                    for a in ALIAS.findall(line):
                        if '-' in a:
                            found.add(a)
    return found


def turned(p, text, names):
    def swap(m):
        word = m.group(0)
        if word not in names or (p, word) in STAY:
            return word
        before = text[max(0, m.start() - 5):m.start()]
        if before.endswith('goal.'):
            return word
        return spelled(word)

    return TOKEN.sub(swap, text)


def main():
    names = declared()
    dry = '--dry' in sys.argv
    for p in files():
        with open(p, encoding='utf-8') as f:
            text = f.read()
        words = set(TOKEN.findall(text))
        for n in sorted(names & words):
            if spelled(n) in words:
                print(f'meets: {p}: {n} and {spelled(n)}')
        after = turned(p, text, names)
        if after != text and not dry:
            with open(p, 'w', encoding='utf-8') as f:
                f.write(after)
    print(len(names), 'names')


main()
