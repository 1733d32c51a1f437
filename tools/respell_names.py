#!/usr/bin/env python3
"""Respells the repository's own definitions and lemmas: snake case for words, as today's Rattle writes them.

usage: python3 tools/respell_names.py [FOLDER]     FOLDER: a checkout, if not this one

Run once, right after the kit's port.py. The table respelled_names.tsv beside this script has a row for each name: old,
a tab, new. Whole words turn: in .antt files, in clauses and ghost items of .rt files, in the texts of must-fail edits,
and in the code spans of pages. Strings stay, and so do comments, but for names in camel case, which can be nothing else.
"""
import os
import re
import sys

HERE = os.path.dirname(os.path.realpath(__file__))
WORD = re.compile(r'[^\s(){}.;,@"«»\[\]|⟨⟩:/`]+')
STRING = r'"(?:[^"\\\n]|\\.)*"'
ANTT = re.compile(STRING + r'|(?<![^\s(){}.;,])--[^\n]*')
RUST = re.compile(STRING + r'|//[^\n]*')
SPAN = re.compile(r'`[^`\n]+`')
CAMEL = re.compile(r'[a-z]+[A-Za-z0-9]*[A-Z][A-Za-z0-9]*')


def table():
    with open(os.path.join(HERE, 'respelled_names.tsv'), encoding='utf-8') as f:
        return dict(line.rstrip('\n').split('\t') for line in f if line.strip())


def words(text, names):
    return WORD.sub(lambda m: names.get(m.group(), m.group()), text)


def quiet(text, names):
    """A comment or a string: code spans turn in a comment, and words in camel case."""
    if text.startswith('"'):
        return text
    text = SPAN.sub(lambda m: words(m.group(), names), text)
    return CAMEL.sub(lambda m: names.get(m.group(), m.group()), text)


def respelled(text, names, between):
    """Code turns whole, what `between` finds as `quiet` says. An item 'a as a' is written 'a'."""
    out, at = [], 0
    for m in between.finditer(text):
        out += [words(text[at:m.start()], names), quiet(m.group(), names)]
        at = m.end()
    out.append(words(text[at:], names))
    return re.sub(r'(?<![^\s{,])(\S+) as \1(?=[,}])', r'\1', ''.join(out))


def main():
    root = sys.argv[1] if len(sys.argv) > 1 else os.path.dirname(HERE)
    names = table()
    changed = 0
    for folder, dirs, files in os.walk(root):
        dirs[:] = sorted(d for d in dirs if d not in ('out', '.git', 'target'))
        for f in sorted(files):
            path = os.path.join(folder, f)
            rel = os.path.relpath(path, root)
            if f.endswith('.md') and (rel == 'README.md' or rel.startswith('docs' + os.sep)):
                turn = lambda t: SPAN.sub(lambda m: words(m.group(), names), t)
            elif not rel.startswith('crates' + os.sep):
                continue
            elif f.endswith('.antt'):
                turn = lambda t: respelled(t, names, ANTT)
            elif f.endswith('.rt'):
                turn = lambda t: respelled(t, names, RUST)
            elif f.endswith('.edit'):
                turn = lambda t: words(t, names)
            else:
                continue
            with open(path, encoding='utf-8') as h:
                old = h.read()
            new = turn(old)
            if new != old:
                with open(path, 'w', encoding='utf-8') as h:
                    h.write(new)
                changed += 1
    print(f'{len(names)} names, {changed} files changed')


main()
