"""Compares a reader with the table tests/texts.txt.

    python3 tests/table.py [--program CMD] [--table FILE] [--most BYTES]

The program `table` runs the same table (crates/table/data/texts.txt) through the verified reader and writer.

With --program, `CMD FILE` is run for each text and is to print `taken` or `refused N at P`; else tests/reader.py is tried. Texts of more than
BYTES bytes are left out.
"""

import argparse
import os
import re
import shlex
import subprocess
import sys
import tempfile

sys.dont_write_bytecode = True

import reader

HERE = os.path.dirname(os.path.abspath(__file__))
TEXTS = os.path.join(HERE, 'texts.txt')


def unescape(string):
    def one(match):
        escape = match.group()
        if escape == '\\n':
            return '\n'
        if escape == '\\\\':
            return '\\'
        return chr(int(escape[2:], 16))
    return re.sub(r'\\n|\\\\|\\x[0-9a-f]{2}', one, string).encode('latin-1')


def expand(line):
    """The bytes that a line of the table stands for."""
    out = []
    for repeat, plain in re.findall(r'\{([0-9]+:[^}]*)\}|([^{]+)', line):
        if repeat:
            count, string = repeat.split(':', 1)
            out.append(int(count) * unescape(string))
        else:
            out.append(unescape(plain))
    return b''.join(out)


def escape(data):
    """The line of a table that stands for these bytes."""
    out = []
    for b in data:
        if b == 10:
            out.append('\\n')
        elif b == 92:
            out.append('\\\\')
        elif 32 <= b < 127 and b not in b'{}':
            out.append(chr(b))
        else:
            out.append('\\x%02x' % b)
    return ''.join(out)


def size(line):
    """How many bytes a line of the table stands for."""
    total = 0
    for repeat, plain in re.findall(r'\{([0-9]+:[^}]*)\}|([^{]+)', line):
        if repeat:
            count, string = repeat.split(':', 1)
            total += int(count) * len(unescape(string))
        else:
            total += len(unescape(plain))
    return total


def cases(path):
    """(label, line of bytes, answer) for each case."""
    with open(path, encoding='ascii') as file:
        lines = file.read().split('\n')
    at = 0
    while at < len(lines):
        if lines[at].startswith('text '):
            yield lines[at][5:], lines[at + 1], lines[at + 2]
            at += 3
        else:
            at += 1


def answer_of_reader(data):
    answer = reader.read(data)
    return 'taken' if answer[0] == 'taken' else 'refused %d at %d' % answer[1:]


def run_table(command, cases):
    """What the program `table` says of (bytes, answer) cases, and its exit status."""
    with tempfile.TemporaryDirectory() as directory:
        with open(os.path.join(directory, 'texts.txt'), 'w', encoding='ascii') as file:
            for k, (data, answer) in enumerate(cases):
                file.write('text %d\n%s\n%s\n\n' % (k, escape(data), answer))
        open(os.path.join(directory, 'models.txt'), 'w').close()
        done = subprocess.run([os.path.abspath(command)], cwd=directory, stdout=subprocess.PIPE)
        return done.stdout.decode('utf-8', 'replace'), done.returncode


class Program:
    """A program that answers for a file."""

    def __init__(self, command):
        self.command = shlex.split(command)
        self.directory = tempfile.TemporaryDirectory()
        self.path = os.path.join(self.directory.name, 'text')

    def answer(self, data):
        with open(self.path, 'wb') as file:
            file.write(data)
        done = subprocess.run(self.command + [self.path], stdout=subprocess.PIPE, stderr=subprocess.PIPE)
        return done.stdout.decode('latin-1').strip()


def main():
    parser = argparse.ArgumentParser()
    parser.add_argument('--program')
    parser.add_argument('--table', default=TEXTS)
    parser.add_argument('--most', type=int, default=2 ** 62)
    arguments = parser.parse_args()
    answer = Program(arguments.program).answer if arguments.program else answer_of_reader
    labels, tried, left, wrong = set(), 0, 0, 0
    for label, line, expected in cases(arguments.table):
        if label in labels or not re.fullmatch(r'taken|refused [1-4] at [0-9]+', expected):
            sys.exit('the table is broken at %s' % label)
        labels.add(label)
        if size(line) > arguments.most:
            left += 1
            continue
        tried += 1
        got = answer(expand(line))
        if got != expected:
            wrong += 1
            print('%s: %s, but the table has %s' % (label, got or 'nothing', expected))
    print('%d texts, %d left out, %d differ' % (tried, left, wrong))
    sys.exit(1 if wrong else 0)


if __name__ == '__main__':
    main()
