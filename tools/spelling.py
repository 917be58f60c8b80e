#!/usr/bin/env python3
"""Respells the names that this repository's definitions and lemmas had in an older Rattle: types in camel case, all else in snake case.

    python3 tools/spelling.py            in the repository, once, after port.py: rewrites crates/*/**.antt, and ghost lines of crates/*/src

Names of the library, and names that Rattle makes for goals, keep their spelling, as do functions of src/, strings and comments.
Prints each two names that fall together.
"""

import collections
import os
import re

OWN = r"Rattle\.(?:meaning|queue|body|sequential|grammar|reader|checker|text|letters|worker|net|plain|plain_text|table|anew|trials)\."
TOKEN = re.compile(r"(?<![\w'\-◌+*])([A-Za-z_][\w']*(?:-[\w']+)+)(?![\w'\-◌+*])")
USE = re.compile(r"^(?:ghost )?use ([^\s{]+?)\.\{([^}]*)\}", re.M)
# The one definition of which the name is a word of clauses today, in the crate that has it.
BODY_RESULT = re.compile(r"(?<![.\w-])result(?![\w-])")


def files(end):
    for folder, dirs, names in os.walk('crates'):
        dirs[:] = sorted(d for d in dirs if d != 'out')
        for name in sorted(names):
            if name.endswith(end):
                yield os.path.join(folder, name)


def pieces(text, line_comment):
    """The text in pieces (is code, piece): comments and strings are not code."""
    out, at = [], 0
    for m in re.finditer(line_comment + r'[^\n]*|"(?:[^"\\\n]|\\.)*"', text):
        out.append((True, text[at:m.start()]))
        out.append((False, m.group()))
        at = m.end()
    out.append((True, text[at:]))
    return out


def code(text, line_comment):
    return ' '.join(p for is_code, p in pieces(text, line_comment) if is_code)


def respelled(name):
    parts = name.split('-')
    if name[0].isupper():
        return ''.join(p[0].upper() + p[1:] for p in parts)
    return '_'.join(parts)


def library_names():
    found = set()
    for end in ('.antt', '.rt'):
        for path in files(end):
            for path_of, names in USE.findall(open(path, encoding='utf-8').read()):
                if not re.match(OWN, path_of + '.'):
                    found.update(n.strip().split(' as ')[0].strip() for n in names.split(','))
                    found.update(n.strip().split(' as ')[-1].strip() for n in names.split(','))
    return found


def is_answer(path):
    return re.search(r'/proofs/.+/', path) is not None


def rename_result():
    """In body what two operands come to is `binary_result`, since `result` is what a function returns; its clauses say so, with no λ."""
    for path in files('.antt'):
        if path.startswith('crates/body/'):
            text = open(path, encoding='utf-8').read()
            new = BODY_RESULT.sub('binary_result', text)
            if new != text:
                open(path, 'w', encoding='utf-8').write(new)
    path = 'crates/body/src/lib.rt'
    text = open(path, encoding='utf-8').read()
    text = text.replace('line_op, result, Evaluated', 'line_op, binary_result, Evaluated')

    def plain(m):
        clause = m[3]
        if m[2] != '_':
            clause = re.sub(r"(?<![.\w-])result(?![\w-])", 'binary_result', clause)
            clause = re.sub(r"(?<![.\w'-])r(?![\w'-])", 'result', clause)
        return f'ensures{m[1]} {{ {clause} }}'
    text = re.sub(r'ensures\*( \w+)? \{ λ (\w+)\. ⌜ (.*) ⌝ \}', lambda m: plain({1: m[1] or '', 2: m[2], 3: m[3]}), text)
    open(path, 'w', encoding='utf-8').write(text)


def main():
    library = library_names()
    own = set()
    for path in files('.antt'):
        text = code(open(path, encoding='utf-8').read(), '--')
        if not is_answer(path):
            own.update(TOKEN.findall(text))
    own -= library
    by_new = collections.defaultdict(set)
    for name in own:
        by_new[respelled(name)].add(name)
    for new, olds in sorted(by_new.items()):
        if len(olds) > 1:
            print('fall together:', new, sorted(olds))

    def turn(text, line_comment, path, only_ghost=False):
        words = set(re.findall(r"(?<![\w'\-])[A-Za-z_][\w']*(?![\w'\-])", code(text, line_comment)))
        out = []
        for is_code, piece in pieces(text, line_comment):
            if is_code:
                def one(m):
                    name = m[1]
                    if name not in own:
                        return name
                    new = respelled(name)
                    if new in words:
                        together.add((path, name, new))
                    return new
                piece = TOKEN.sub(one, piece)
            out.append(piece)
        return ''.join(out)

    together = set()
    for path in files('.antt'):
        text = open(path, encoding='utf-8').read()
        new = turn(text, '--', path)
        if new != text:
            open(path, 'w', encoding='utf-8').write(new)
    for path in files('.rt'):
        text = open(path, encoding='utf-8').read()
        new = turn(text, '//', path)
        if new != text:
            open(path, 'w', encoding='utf-8').write(new)
    rename_result()
    for path, name, new in sorted(together):
        print('stands in the same file already:', path, name, new)


main()
