"""Random texts, good and broken, for the readers.

    python3 tests/fuzz.py [--seed N] [--models N] [--texts N] [--each N] [--program CMD] [--table-program CMD]

Random models are written, read and written again: the model must be the same, and the bytes. Good texts are then changed byte by byte (changed,
dropped, doubled, cut off), word by word and line by line, and what tests/reader.py says is compared with a second judge that has nothing in
common with it: the form by all the ways in which a text could go on, names and numbers by patterns. With --program, `CMD FILE` is run for each
text too and is to print `taken` or `refused N at P`. With --table-program crates/table/out/table all texts are given to that program at once, which
reads each with the verified reader, and writes each that is taken anew twice. --texts bounds how many changed texts are tried, --each how many of one text and one
way of changing it. The texts of the table are tried and changed too.
"""

import argparse
import os
import random
import re
import sys

sys.dont_write_bytecode = True

import reader
import table

WORDS = 'kind thing message say send to after if else again end draw it me now'.split()
LETTERS = bytes(range(ord('a'), ord('z') + 1))
DIGITS = b'0123456789'


# ---- the second judge: the form ----
#
# A state is a chain (symbol, rest) of what is still to come. A symbol is a set of bytes; the name of a rule; ('name', letters so far); or
# ('numbers', how many more a kind may have). A text breaks the form at the first byte that no state takes.

def literal(string):
    return [bytes([b]) for b in string.encode('ascii')]


RULES = {
    'text': [['kinds', 'things', 'messages']],
    'kinds': [[], ['kind', 'kinds']],
    'things': [[], ['thing', 'things']],
    'messages': [[], ['message', 'messages']],
    'kind': [literal('kind ') + [('name', ''), ('numbers', 64), b'\n', 'lines'] + literal('end\n')],
    'thing': [literal('thing ') + [('name', ''), 'values', b'\n']],
    'values': [[], [b' ', 'number', 'values']],
    'message': [literal('message ') + ['number', b' ', 'number', b' ', 'number', b'\n']],
    'lines': [[], ['line', 'lines']],
    'line': [
        [('name', '')] + literal(' = ') + ['expression', b'\n'],
        [('name', '')] + literal(' = draw ') + ['expression', b'\n'],
        literal('say ') + ['expression', b'\n'],
        literal('send ') + ['expression'] + literal(' to ') + ['expression'] + literal(' after ') + ['expression', b'\n'],
        literal('if ') + ['expression', b'\n', 'lines', 'else'] + literal('end\n'),
        literal('again ') + ['expression', b'\n', 'lines'] + literal('end\n'),
    ],
    'else': [[], literal('else\n') + ['lines']],
    'expression': [
        ['number'],
        [('name', '')],
        literal('it'),
        literal('me'),
        literal('now'),
        [b'(', 'expression', b' ', b'+-*/%<=', b' ', 'expression', b')'],
    ],
    'number': [[b'0'], [b'123456789', 'digits']],
    'digits': [[], [DIGITS, 'digits']],
}


def push(symbols, rest):
    for symbol in reversed(symbols):
        rest = (symbol, rest)
    return rest


def spread(state, out):
    """All states in which the next symbol takes a byte, or nothing is to come."""
    if state is None or state in out:
        out.add(state)
        return
    symbol, rest = state
    if isinstance(symbol, str):
        for symbols in RULES[symbol]:
            spread(push(symbols, rest), out)
    elif isinstance(symbol, bytes):
        out.add(state)
    elif symbol[0] == 'name':
        out.add(state)
        if symbol[1] and symbol[1] not in WORDS:
            spread(rest, out)
    else:
        spread(rest, out)
        if symbol[1] > 0:
            spread(push([b' ', ('name', ''), ('numbers', symbol[1] - 1)], rest), out)


def take(states, byte):
    out = set()
    for state in states:
        if state is None:
            continue
        symbol, rest = state
        if isinstance(symbol, bytes):
            if byte in symbol:
                spread(rest, out)
        else:
            letters = symbol[1]
            if len(letters) < 8 and (byte in LETTERS or letters and byte in DIGITS):
                spread((('name', letters + chr(byte)), rest), out)
    return frozenset(out)


class Form:
    """Where a text breaks the form. What was met is kept, since texts are much alike."""

    def __init__(self):
        start = set()
        spread(('text', None), start)
        self.start = frozenset(start)
        self.known = {}
        self.begins = {}

    def breaks(self, data):
        """The place, or None; and the places where a name may begin."""
        states = self.start
        names = set()
        for place, byte in enumerate(data):
            if states not in self.begins:
                self.begins[states] = any(state is not None and state[0] == ('name', '') for state in states)
            if self.begins[states]:
                names.add(place)
            key = (states, byte)
            if key not in self.known:
                if len(self.known) > 300000:
                    self.known = {}
                    self.begins = {states: self.begins[states]}
                self.known[key] = take(states, byte)
            states = self.known[key]
            if not states:
                return place, names
        return None if None in states else len(data), names


# ---- the second judge: names, numbers and limits ----

def tokens(data, first, stop):
    """Names, words and numbers from first that end at stop or before: (string, place)."""
    end = data.find(b'\n', first)
    end = len(data) if end < 0 else end
    for match in re.finditer(rb'[a-z][a-z0-9]*|[0-9]+', data[first:end]):
        if first + match.end() <= stop:
            yield match.group().decode('ascii'), first + match.start()


def judge(data, form):
    """'taken' or 'refused N at P'."""
    found = []
    broken, begins = form.breaks(data)
    stop = len(data) if broken is None else broken
    if broken is not None:
        found.append((broken, 1))
    kinds, numbers, things, others, depth, counts = {}, [], 0, 0, 0, {'t': 0, 'm': 0}
    first = 0
    while first < len(data) and first <= stop:
        end = data.find(b'\n', first)
        whole = 0 <= end < stop
        has = list(tokens(data, first, stop))
        names = [(t, p) for t, p in has if t[0].isalpha() and p in begins and t not in WORDS]
        values = [(t, p) for t, p in has if t[0].isdigit()]
        found += [(p, 3) for t, p in values if len(t) > 10 or int(t) >= 2 ** 32]
        letter = chr(data[first])
        if depth or letter == 'k':
            others += 1
            if others > 4096:
                found.append((first, 4))
            if (len(data) if end < 0 else end + 1) > first + 1024:
                found.append((first + 1024, 4))
        if depth:
            found += [(p, 2) for t, p in names if t not in numbers]
            if re.match(rb'(if|again) ', data[first:first + 6]) and first < stop:
                if depth == 17:
                    found.append((first, 4))
                depth += 1
            elif data[first:first + 4] == b'end\n':
                depth -= 1
        elif letter == 'k':
            seen = []
            for index, (t, p) in enumerate(names):
                if index == 0:
                    if t in kinds:
                        found.append((p, 2))
                else:
                    if t in seen:
                        found.append((p, 2))
                    seen.append(t)
            if whole:
                kinds.setdefault(names[0][0], len(seen))
                numbers = seen
                depth = 1
        elif letter in 'tm':
            counts[letter] += 1
            if counts[letter] > 65536:
                found.append((first, 4))
            if letter == 't':
                for t, p in names[:1]:
                    if t not in kinds:
                        found.append((p, 2))
                    elif whole and len(has) - 2 != kinds[t]:
                        found.append((first, 3))
                things += 1
            else:
                if len(values) > 1 and (len(values[1][0]) > 9 or int(values[1][0]) >= things):
                    found.append((values[1][1], 3))
        if not whole or any(place < end for place, _ in found):
            break
        first = end + 1
    if not found:
        return 'taken'
    place, number = min(found)
    return 'refused %d at %d' % (number, place)


# ---- random models ----

NAMES = ['a', 'b', 'x', 'y', 'z', 'its', 'it1', 'ends', 'says', 'iff', 'elsex', 'drawn', 'again1', 'tom', 'kinds', 'nowx', 'abcdefgh', 'abcdefgi',
         'z9999999', 'messages']


def random_name(r, taken):
    while True:
        if r.random() < 0.5:
            name = r.choice(NAMES)
        else:
            length = r.choice([1, 1, 2, 3, 8, r.randint(1, 8)])
            name = r.choice('abcdefghijklmnopqrstuvwxyz') + ''.join(r.choice('abcxyz019') for _ in range(length - 1))
        if name not in taken and name not in WORDS:
            return name


def random_number(r):
    return r.choice([0, 1, 2, 9, 10, 4294967295, 4294967294, 2147483648, r.randrange(100), r.randrange(2 ** 32)])


def random_expression(r, numbers, depth):
    if depth > 0 and r.random() < 0.5:
        return (r.choice('+-*/%<='), random_expression(r, numbers, depth - 1), random_expression(r, numbers, depth - 1))
    sort = r.randrange(5)
    if sort == 0 and numbers:
        return ('name', r.randrange(len(numbers)))
    if sort < 3:
        return ('number', random_number(r))
    return (r.choice(['it', 'me', 'now']),)


def random_lines(r, numbers, depth, most):
    lines = []
    for _ in range(r.randint(0, most)):
        sort = r.randrange(6)
        if sort >= 4 and depth == 0 or sort <= 1 and not numbers:
            sort = 2
        if sort == 0:
            lines.append(('set', r.randrange(len(numbers)), random_expression(r, numbers, 3)))
        elif sort == 1:
            lines.append(('draw', r.randrange(len(numbers)), random_expression(r, numbers, 2)))
        elif sort == 2:
            lines.append(('say', random_expression(r, numbers, 4)))
        elif sort == 3:
            lines.append(('send',) + tuple(random_expression(r, numbers, 2) for _ in range(3)))
        elif sort == 4:
            second = random_lines(r, numbers, depth - 1, 2) if r.random() < 0.5 else []
            lines.append(('if', random_expression(r, numbers, 2), random_lines(r, numbers, depth - 1, 3), second))
        else:
            lines.append(('again', random_expression(r, numbers, 2), random_lines(r, numbers, depth - 1, 3)))
    return lines


def nested(r, numbers, depth):
    """Lines that stand in each other, this deep."""
    lines = [('say', random_expression(r, numbers, 1))]
    for _ in range(depth):
        e = random_expression(r, numbers, 1)
        lines = r.choice([[('if', e, lines, [])], [('if', e, [], lines)], [('again', e, lines)]])
    return lines


def random_model(r):
    kinds = []
    for _ in range(r.choice([0, 1, 1, 1, 2, 2, 3, 5])):
        numbers = []
        for _ in range(r.choice([0, 1, 2, 3, 3, r.randint(0, 64)])):
            numbers.append(random_name(r, numbers))
        lines = nested(r, numbers, r.randint(10, 16)) if r.random() < 0.1 else random_lines(r, numbers, 3, 4)
        kinds.append((random_name(r, [kind[0] for kind in kinds]), numbers, lines))
    things, messages = [], []
    if kinds:
        for _ in range(r.choice([0, 1, 2, 5, 20])):
            k = r.randrange(len(kinds))
            things.append((k, [random_number(r) for _ in kinds[k][1]]))
    if things:
        for _ in range(r.choice([0, 1, 2, 5, 20])):
            messages.append((random_number(r), r.randrange(len(things)), random_number(r)))
    return kinds, things, messages


def with_empty_elses(r, data):
    """The same text with an `else` with no lines before some ends of an `if` that has none."""
    out, blocks = [], []
    inside = False
    for line in data.decode('ascii').splitlines():
        word = line.split(' ')[0]
        if not inside:
            inside = word == 'kind'
        elif word in ('if', 'again'):
            blocks.append(word)
        elif line == 'else':
            blocks[-1] = 'else'
        elif line == 'end':
            if not blocks:
                inside = False
            elif blocks.pop() == 'if' and r.random() < 0.5:
                out.append('else')
        out.append(line)
    return ''.join(line + '\n' for line in out).encode('ascii')


# ---- changed texts ----

BYTES = b'\n 0129aefimstxz()=+-<%AZ_\x00\x09\x0d\x7f\x80\xff'


def changed_bytes(r, data):
    """Each byte changed, dropped, doubled, and the text cut off before it."""
    for at in range(len(data) + 1):
        yield data[:at]
        if at < len(data):
            for b in r.sample(BYTES, 3):
                yield data[:at] + bytes([b]) + data[at + 1:]
            yield data[:at] + bytes([data[at] ^ 1 << r.randrange(8)]) + data[at + 1:]
            yield data[:at] + data[at + 1:]
            yield data[:at] + data[at:at + 1] + data[at:]
        yield data[:at] + bytes([r.choice(BYTES)]) + data[at:]


def changed_words(r, data):
    """Each name, word and number replaced."""
    for match in re.finditer(rb'[a-z0-9]+|[^a-z0-9]', data):
        for _ in range(2):
            other = r.choice([r.choice(WORDS), r.choice(NAMES), r.choice(WORDS) + 'x', 'abcdefghi', '4294967296', '4294967295', '00', '01', '0', '7',
                              '9' * 30, '(1 + 2)', '(', ')', 'it', '', ' ', '\n'])
            yield data[:match.start()] + other.encode('ascii') + data[match.end():]


def changed_lines(r, data):
    """Lines dropped, doubled, moved, and put in."""
    lines = data.splitlines(keepends=True)
    extra = [b'else\n', b'end\n', b'if 1\n', b'again 2\n', b'kind a\n', b'thing a\n', b'message 0 0 0\n', b'say 1\n', b'\n', b'x = draw 2\n']
    for at in range(len(lines)):
        yield b''.join(lines[:at] + lines[at + 1:])
        yield b''.join(lines[:at] + [lines[at]] + lines[at:])
        other = r.randrange(len(lines))
        yield b''.join(lines[:at] + [lines[other]] + lines[at:])
        yield b''.join(lines[:at] + [r.choice(extra)] + lines[at:])
        yield b''.join(lines[:at] + [r.choice([b'if 1\n', b'again it\n'])] * r.randint(1, 18) + lines[at:])
        if b'(' in lines[at]:
            # a line of about 1,024 bytes
            there = lines[at].index(b'(')
            count = r.randint(160, 172)
            long = lines[at][:there] + b'(1 + ' * count + str(10 ** r.randint(0, 9)).encode() + b')' * count + b'\n'
            yield b''.join(lines[:at] + [long] + lines[at + 1:])


# ---- the run ----

def main():
    parser = argparse.ArgumentParser()
    parser.add_argument('--seed', type=int, default=1)
    parser.add_argument('--models', type=int, default=400)
    parser.add_argument('--texts', type=int, default=60000)
    parser.add_argument('--each', type=int, default=200)
    parser.add_argument('--table', default=table.TEXTS)
    parser.add_argument('--program')
    parser.add_argument('--table-program')
    arguments = parser.parse_args()
    r = random.Random(arguments.seed)
    program = table.Program(arguments.program) if arguments.program else None
    form = Form()
    counts = {}
    wrong = 0
    tried_texts = []

    def count(what):
        counts[what] = counts.get(what, 0) + 1

    def differs(what, data, *answers):
        nonlocal wrong
        wrong += 1
        if wrong <= 20:
            print('%s: %s: %r' % (what, ' / '.join(answers), data))

    def compare(data):
        answer = table.answer_of_reader(data)
        second = judge(data, form)
        count(' '.join(answer.split(' ')[:2]))
        if answer != second:
            differs('reader and judge', data, answer, second)
        if arguments.table_program:
            tried_texts.append((data, answer))
        if program:
            third = program.answer(data)
            if third != answer:
                differs('reader and program', data, answer, third)
        return answer

    good = []
    for _ in range(arguments.models):
        model = random_model(r)
        data = reader.write(model)
        answer = reader.read(data)
        count('models')
        if answer != ('taken', model):
            differs('model written and read', data, str(answer)[:300])
            continue
        if reader.write(answer[1]) != data:
            differs('written anew', data)
        more = with_empty_elses(r, data)
        answer = reader.read(more)
        if more != data:
            count('with empty elses')
        if answer != ('taken', model) or reader.write(answer[1]) != data:
            differs('with empty elses', more, str(answer)[:300])
        compare(data)
        compare(more)
        good.append(more)
    good = [data for data in good if 0 < len(data) < 700]
    for label, line, expected in table.cases(arguments.table):
        data = table.expand(line) if table.size(line) <= 2000000 else b''
        if data and b'(' * 400 not in data:
            count('texts of the table')
            answer = compare(data)
            if answer != expected:
                differs('table ' + label, data[:200], answer, expected)
            if 0 < len(data) < 300:
                good.append(data)
    r.shuffle(good)
    tried = 0
    for data in good:
        if tried >= arguments.texts:
            break
        count('texts changed')
        for changed in [changed_bytes, changed_words, changed_lines]:
            texts = list(changed(r, data))
            for text in r.sample(texts, min(len(texts), arguments.each)):
                tried += 1
                if compare(text) == 'taken':
                    # What is taken is written and read as the same.
                    model = reader.read(text)[1]
                    anew = reader.write(model)
                    if reader.read(anew) != ('taken', model) or reader.write(reader.read(anew)[1]) != anew:
                        differs('taken, written and read', text)
    print(', '.join('%s %d' % pair for pair in sorted(counts.items())))
    if arguments.table_program:
        for first in range(0, len(tried_texts), 20000):
            said, status = table.run_table(arguments.table_program, tried_texts[first:first + 20000])
            print('table: ' + said.strip())
            if status or not said.strip().endswith(' texts, 0 differ'):
                wrong += 1
    print('%d changed texts, %d differ' % (tried, wrong))
    sys.exit(1 if wrong else 0)


if __name__ == '__main__':
    main()
