"""A reader, writer and player of texts, straight from docs/LANGUAGE.md: simple and slow, to compare other programs with.

    python3 tests/reader.py read FILE                  prints `taken` or `refused N at P`
    python3 tests/reader.py write FILE                 writes the text anew
    python3 tests/reader.py plain FILE LUCK END R      prints what the model says, then `done` or `not done`

How it reads. A text is read line by line. In each line all that is refused is collected as (number, place); of these the smallest place
counts, then the smallest number. Places in a line come before those in the next, so the first line with anything refused is the last one read.

A model is (kinds, things, messages):
    kind        (name, [name of a number, ..], lines)
    thing       (index of its kind, [number, ..])
    message     (time, thing, number)
    line        ('set', k, e), ('draw', k, e), ('say', e), ('send', e, f, g), ('if', e, lines, lines), ('again', e, lines)
    expression  ('number', n), ('name', k), ('it',), ('me',), ('now',), (operator, e, f)
"""

import heapq
import sys

sys.setrecursionlimit(10000)

WORDS = {'kind', 'draw', 'say', 'send', 'to', 'after', 'if', 'else', 'again', 'end', 'thing', 'message', 'it', 'me', 'now'}
LETTERS = set(b'abcdefghijklmnopqrstuvwxyz')
DIGITS = set(b'0123456789')
OPERATORS = set(b'+-*/%<=')
LIMIT = 2 ** 32         # numbers are below this
NAME = 8                # letters and digits of a name
NUMBERS = 64            # numbers of a kind
DEPTH = 16              # `if` and `again` in each other
LINES = 4096            # lines that are no thing's and no message's
LINE = 1024             # bytes of such a line, with its byte 10
THINGS = 65536
MESSAGES = 65536
BYTES = 64 * 1024 * 1024


# ---- reading ----

class Broken(Exception):
    """The form breaks at this place: refusal 1."""

    def __init__(self, place):
        self.place = place


class Line:
    """A line as it is read: where it begins, where the reading stands, and what is refused in it by 2, 3 or 4."""

    def __init__(self, data, first):
        self.data = data
        self.first = first
        self.at = first
        self.found = []

    def refuse(self, number, place):
        self.found.append((number, place))

    def byte(self):
        """The byte where the reading stands; None where the bytes end."""
        return self.data[self.at] if self.at < len(self.data) else None

    def literal(self, string):
        """These bytes and no others; broken at the first that differs."""
        for b in string:
            if self.byte() != b:
                raise Broken(self.at)
            self.at += 1

    def end(self):
        self.literal(b'\n')

    def word(self):
        """A letter and up to seven letters or digits. It ends at the first other byte, or where the bytes end. Broken at a ninth."""
        first = self.at
        if self.byte() not in LETTERS:
            raise Broken(self.at)
        while self.byte() in LETTERS or self.byte() in DIGITS:
            if self.at - first == NAME:
                raise Broken(self.at)
            self.at += 1
        return self.data[first:self.at].decode('ascii')

    def no_word_of_the_language(self, word):
        """A word of the language where a name must stand: broken at the byte behind it."""
        if word in WORDS:
            raise Broken(self.at)

    def name(self):
        """A name and its place."""
        first = self.at
        word = self.word()
        self.no_word_of_the_language(word)
        return word, first

    def index(self, name, place, names):
        """Which of the names this one is; 2 at its place if it is none."""
        if name in names:
            return names.index(name)
        self.refuse(2, place)
        return 0

    def number(self):
        """A number and its place; 3 there if it is 2^32 or more, however many digits it has. Broken at a digit behind a leading 0."""
        first = self.at
        if self.byte() not in DIGITS:
            raise Broken(self.at)
        if self.byte() == ord('0'):
            self.at += 1
            if self.byte() in DIGITS:
                raise Broken(self.at)
            return 0, first
        while self.byte() in DIGITS:
            self.at += 1
        digits = self.data[first:self.at]
        if len(digits) > 10 or int(digits) >= LIMIT:
            self.refuse(3, first)
            return LIMIT, first
        return int(digits), first

    def expression(self, names):
        if self.at - self.first > LINE:
            # The line has a byte 1,024, which is refused; nothing that begins behind it counts.
            raise Broken(self.at)
        if self.byte() in DIGITS:
            return ('number', self.number()[0])
        if self.byte() == ord('('):
            self.at += 1
            e = self.expression(names)
            self.literal(b' ')
            operator = self.byte()
            if operator not in OPERATORS:
                raise Broken(self.at)
            self.at += 1
            self.literal(b' ')
            f = self.expression(names)
            self.literal(b')')
            return (chr(operator), e, f)
        first = self.at
        word = self.word()
        if word in ('it', 'me', 'now'):
            return (word,)
        self.no_word_of_the_language(word)
        return ('name', self.index(word, first, names))


class Block:
    """What is open: a kind, the first lines of an `if`, its second lines, or an `again`; and where its lines go."""

    def __init__(self, sort, lines, second=None):
        self.sort = sort        # 'kind', 'if', 'else' or 'again'
        self.lines = lines
        self.second = second    # of an `if`: where the lines behind `else` go


class Reader:
    def __init__(self, data):
        self.data = data
        self.kinds = []
        self.things = []
        self.messages = []
        self.others = 0             # lines so far that are no thing's and no message's
        self.seen = {b'thing ': 0, b'message ': 0}
        self.allowed = ['kind', 'thing', 'message']     # the words that may begin a line outside kinds
        self.blocks = []            # what is open, the innermost last

    def read(self):
        found = []
        if len(self.data) > BYTES:
            found.append((4, BYTES))
        at = 0
        while at < len(self.data):
            line = Line(self.data, at)
            try:
                if self.blocks:
                    self.inside(line)
                else:
                    self.outside(line)
            except Broken as broken:
                line.refuse(1, broken.place)
            if line.found:
                found += line.found
                break
            at = line.at
        else:
            if self.blocks:
                found.append((1, len(self.data)))       # a kind's `end` is missing
        if found:
            place, number = min((place, number) for number, place in found)
            return ('refused', number, place)
        return ('taken', (self.kinds, self.things, self.messages))

    def other(self, line):
        """A line that is no thing's and no message's: 4 if it is the 4,097th, and 4 at its byte 1,024 if it has one."""
        self.others += 1
        if self.others > LINES:
            line.refuse(4, line.first)
        if len(self.data) > line.first + LINE and b'\n' not in self.data[line.first:line.first + LINE]:
            line.refuse(4, line.first + LINE)

    # -- lines outside kinds --

    def outside(self, line):
        """The words that may begin a line here differ in their first bytes, so that byte says what line it is."""
        for word in self.allowed:
            if line.byte() == ord(word[0]):
                break
        else:
            raise Broken(line.at)
        if word == 'kind':
            self.kind(line)
        elif word == 'thing':
            self.allowed = ['thing', 'message']
            self.thing(line)
        else:
            self.allowed = ['message']
            self.message(line)

    def kind(self, line):
        """kind NAME a b .."""
        self.other(line)
        line.literal(b'kind ')
        name, place = line.name()
        if name in [kind[0] for kind in self.kinds]:
            line.refuse(2, place)
        numbers = []
        while line.byte() == ord(' ') and len(numbers) < NUMBERS:
            line.literal(b' ')
            number, place = line.name()
            if number in numbers:
                line.refuse(2, place)
            numbers.append(number)
        line.end()
        lines = []
        self.kinds.append((name, numbers, lines))
        self.blocks.append(Block('kind', lines))

    def first_word(self, line, word, most):
        """The first word of a thing's or a message's line, of which there may be so many."""
        self.seen[word] += 1
        if self.seen[word] > most:
            line.refuse(4, line.first)
        line.literal(word)

    def thing(self, line):
        """thing NAME k k .."""
        self.first_word(line, b'thing ', THINGS)
        name, place = line.name()
        names = [kind[0] for kind in self.kinds]
        kind = line.index(name, place, names)
        numbers = []
        while line.byte() == ord(' '):
            line.literal(b' ')
            numbers.append(line.number()[0])
        line.end()
        # The line ends well. A kind that isn't there has no count of numbers.
        if name in names and len(numbers) != len(self.kinds[kind][1]):
            line.refuse(3, line.first)
        self.things.append((kind, numbers))

    def message(self, line):
        """message t f k"""
        self.first_word(line, b'message ', MESSAGES)
        time, _ = line.number()
        line.literal(b' ')
        thing, place = line.number()
        if thing >= len(self.things):
            line.refuse(3, place)
        line.literal(b' ')
        number, _ = line.number()
        line.end()
        self.messages.append((time, thing, number))

    # -- lines inside a kind --

    def inside(self, line):
        self.other(line)
        names = self.kinds[-1][1]
        block = self.blocks[-1]
        word = line.word()
        if word == 'say':
            line.literal(b' ')
            e = line.expression(names)
            line.end()
            block.lines.append(('say', e))
        elif word == 'send':
            line.literal(b' ')
            e = line.expression(names)
            line.literal(b' to ')
            f = line.expression(names)
            line.literal(b' after ')
            g = line.expression(names)
            line.end()
            block.lines.append(('send', e, f, g))
        elif word == 'if':
            line.literal(b' ')
            self.deeper(line)
            e = line.expression(names)
            line.end()
            first, second = [], []
            block.lines.append(('if', e, first, second))
            self.blocks.append(Block('if', first, second))
        elif word == 'again':
            line.literal(b' ')
            self.deeper(line)
            e = line.expression(names)
            line.end()
            lines = []
            block.lines.append(('again', e, lines))
            self.blocks.append(Block('again', lines))
        elif word == 'else' and block.sort == 'if':
            line.end()
            self.blocks[-1] = Block('else', block.second)
        elif word == 'end':
            line.end()
            self.blocks.pop()
        else:
            # All other lines begin with a name.
            line.no_word_of_the_language(word)
            k = line.index(word, line.first, names)
            line.literal(b' = ')
            self.set(line, k, names, block)

    def set(self, line, k, names, block):
        """What is behind `a = `: an expression, or `draw` and an expression."""
        if line.byte() not in LETTERS:
            e = line.expression(names)
            line.end()
            block.lines.append(('set', k, e))
            return
        first = line.at
        word = line.word()
        if word == 'draw':
            line.literal(b' ')
            e = line.expression(names)
            line.end()
            block.lines.append(('draw', k, e))
        else:
            line.at = first
            e = line.expression(names)
            line.end()
            block.lines.append(('set', k, e))

    def deeper(self, line):
        """A line that has begun with `if ` or `again `: 4 at its first byte if it would stand in 16 others."""
        if len([b for b in self.blocks if b.sort != 'kind']) >= DEPTH:
            line.refuse(4, line.first)


def read(data):
    """('taken', model) or ('refused', number, place)."""
    return Reader(data).read()


# ---- writing ----

def write(model):
    kinds, things, messages = model
    out = []
    for name, numbers, lines in kinds:
        out.append(' '.join(['kind', name] + numbers))
        write_lines(out, lines, numbers)
        out.append('end')
    for kind, numbers in things:
        out.append(' '.join(['thing', kinds[kind][0]] + [str(n) for n in numbers]))
    for time, thing, number in messages:
        out.append('message %d %d %d' % (time, thing, number))
    return ''.join(line + '\n' for line in out).encode('ascii')


def write_lines(out, lines, names):
    for line in lines:
        if line[0] == 'set':
            out.append('%s = %s' % (names[line[1]], written(line[2], names)))
        elif line[0] == 'draw':
            out.append('%s = draw %s' % (names[line[1]], written(line[2], names)))
        elif line[0] == 'say':
            out.append('say %s' % written(line[1], names))
        elif line[0] == 'send':
            out.append('send %s to %s after %s' % tuple(written(e, names) for e in line[1:]))
        elif line[0] == 'if':
            out.append('if %s' % written(line[1], names))
            write_lines(out, line[2], names)
            if line[3]:
                out.append('else')
                write_lines(out, line[3], names)
            out.append('end')
        else:
            out.append('again %s' % written(line[1], names))
            write_lines(out, line[2], names)
            out.append('end')


def written(e, names):
    if e[0] == 'number':
        return str(e[1])
    if e[0] == 'name':
        return names[e[1]]
    if len(e) == 1:
        return e[0]
    return '(%s %s %s)' % (written(e[1], names), e[0], written(e[2], names))


# ---- playing ----

class NotDone(Exception):
    pass


def next_chance(c):
    return (1664525 * c + 1013904223) % LIMIT


class Handling:
    """What a thing does with one message."""

    def __init__(self, values, chance, thing, message, things, places):
        self.values = values
        self.chance = chance
        self.thing = thing
        self.now = message[0]
        self.it = message[4]
        self.things = things
        self.places = places
        self.sent = []          # (time, thing, number)
        self.said = []

    def value(self, e):
        sort = e[0]
        if sort == 'number':
            return e[1]
        if sort == 'name':
            return self.values[e[1]]
        if sort == 'it':
            return self.it
        if sort == 'me':
            return self.thing
        if sort == 'now':
            return self.now
        a = self.value(e[1])
        b = self.value(e[2])
        if sort == '+':
            return (a + b) % LIMIT
        if sort == '-':
            return (a - b) % LIMIT
        if sort == '*':
            return (a * b) % LIMIT
        if sort == '/':
            return a // b if b else 0
        if sort == '%':
            return a % b if b else 0
        if sort == '<':
            return 1 if a < b else 0
        return 1 if a == b else 0

    def play(self, lines):
        for line in lines:
            sort = line[0]
            if sort == 'set':
                self.values[line[1]] = self.value(line[2])
            elif sort == 'draw':
                below = self.value(line[2])
                self.chance = next_chance(self.chance)
                self.values[line[1]] = self.chance // 65536 % below if below else 0
            elif sort == 'say':
                self.said.append((self.now, self.thing, self.value(line[1])))
                if len(self.said) > self.places:
                    raise NotDone
            elif sort == 'send':
                number, to, after = [self.value(e) for e in line[1:]]
                if to < self.things:
                    self.sent.append((self.now + (after or 1), to, number))
                    if len(self.sent) > self.places:
                        raise NotDone
            elif sort == 'if':
                self.play(line[2] if self.value(line[1]) else line[3])
            else:
                for _ in range(min(self.value(line[1]), 1000)):
                    self.play(line[2])


def plain(model, luck, end, r):
    """The lines said, as (time, thing, number), and 'done' or 'not done'.

    Not done: more than r messages would wait (those from outside at the start, or with what a message sends, itself no more among them),
    more than r lines are said at one message, or a count would reach 2^64. Nothing of that message is printed.
    """
    kinds, things, messages = model
    values = [list(numbers) for _, numbers in things]
    chances = [next_chance(next_chance((luck + k) % LIMIT)) for k in range(len(things))]
    counts = [0] * len(things)
    lines = []
    if len(messages) > r:
        return lines, 'not done'
    # By time, whom it is for, whom it is from, count; then its number.
    waiting = [(time, to, len(things), count, number) for count, (time, to, number) in enumerate(messages)]
    heapq.heapify(waiting)
    while waiting and waiting[0][0] < end:
        message = heapq.heappop(waiting)
        k = message[1]
        handling = Handling(values[k], chances[k], k, message, len(things), r)
        try:
            handling.play(kinds[things[k][0]][2])
        except NotDone:
            return lines, 'not done'
        if len(waiting) + len(handling.sent) > r or counts[k] + len(handling.sent) >= 2 ** 64:
            return lines, 'not done'
        chances[k] = handling.chance
        lines += handling.said
        for time, to, number in handling.sent:
            heapq.heappush(waiting, (time, to, k, counts[k], number))
            counts[k] += 1
    return lines, 'done'


# ---- command line ----

def main(arguments):
    if not (len(arguments) == 2 and arguments[0] in ('read', 'write') or len(arguments) == 5 and arguments[0] == 'plain'):
        sys.exit(__doc__.split('\n\n')[1])
    with open(arguments[1], 'rb') as file:
        answer = read(file.read())
    if answer[0] == 'refused':
        print('refused %d at %d' % answer[1:])
        sys.exit(0 if arguments[0] == 'read' else 1)
    if arguments[0] == 'read':
        print('taken')
    elif arguments[0] == 'write':
        sys.stdout.buffer.write(write(answer[1]))
    else:
        luck, end, r = [int(a) for a in arguments[2:]]
        if not (0 <= luck < 2 ** 31 and 1 <= end < 2 ** 32 and r >= 0):
            sys.exit('the luck is below 2^31, the end 1 to 2^32 - 1')
        lines, outcome = plain(answer[1], luck, end, r)
        sys.stdout.write(''.join('%d %d %d\n' % line for line in lines) + outcome + '\n')


if __name__ == '__main__':
    main(sys.argv[1:])
