"""Writes a day of T trains and S signals as a text.

    python3 examples/day.py T S > day.txt

T is 1 to 9,000, S is 1 to 40,000. Time is in seconds, and the day is over at 86400; all messages come before.

Signals belong to regions of about 400. In a region, branch lines meet one trunk line; a train runs from one branch over the trunk to another
branch, most of them in the morning or evening rush. At each signal it asks, and goes on when the signal answers; at each fifth it opens its
doors, and some passengers leave and some come in. A signal is taken for a minute by each train and answers late while it is taken; where the
wait would be more than 15 minutes it refuses.

Things 0 to T - 1 are the trains, T to T + S - 1 the signals. What is printed:

    a train says its passengers     at the end of its way
    .. and 100,000 more             where a signal refused it
    .. and 200,000 more             where it stopped since the day is over
    a signal says a wait            of more than a minute
"""

import sys

KINDS = '''\
kind train first trunk last len pos load rest at
rest = 0
if (it = 1)
pos = (pos + 1)
rest = draw 30
rest = (50 + rest)
end
if (it = 2)
at = draw (load + 1)
load = (load - at)
at = draw 60
load = (load + at)
rest = (20 + (at / 2))
end
if (it = 3)
say (100000 + load)
else
if ((len * 3) < (pos + 1))
say load
else
if (80000 < now)
say (200000 + load)
else
if ((it = 1) * ((pos % 5) = 0))
send 2 to me after rest
else
at = (first + pos)
if (len < (pos + 1))
at = (trunk + (pos - len))
end
if ((len * 2) < (pos + 1))
at = (last + (pos - (len * 2)))
end
send me to at after rest
end
end
end
end
end
kind signal free wait
wait = 0
if (now < free)
wait = (free - now)
end
if (60 < wait)
say wait
end
if (900 < wait)
send 3 to it after 1
else
send 1 to it after wait
free = ((now + wait) + 60)
end
end
'''

SPANS = [(14400, 72000), (25200, 30600), (59400, 64800)]      # when trains start: all day, morning, evening
REGION = 400        # signals of a region, about
LINES = 20          # lines of a region, one of them the trunk


def day(trains, signals):
    regions = max(1, signals // REGION)
    things, messages = [], []
    for i in range(trains):
        region = i % regions
        number = i // regions                               # of the trains of this region
        count = (trains - region + regions - 1) // regions
        base = trains + region * signals // regions         # the region's first signal
        size = trains + (region + 1) * signals // regions - base
        length = max(1, size // LINES)                      # signals of a line
        branches = max(0, size // length - 1)
        trunk = base
        first = last = base
        if branches:
            one = number % branches
            other = (one + 1 + number * 7 % max(1, branches - 1)) % branches
            first = base + length * (1 + one)
            last = base + length * (1 + other)
        things.append('thing train %d %d %d %d 0 0 0 0' % (first, trunk, last, length))
        begin, end = SPANS[number % 3]
        time = begin + (end - begin) * (number // 3) // (count // 3 + 1) + i * 7919 % 180
        messages.append('message %d %d 0' % (time, i))
    things += ['thing signal 0 0'] * signals
    return KINDS + ''.join(line + '\n' for line in things + messages)


def main(arguments):
    if len(arguments) != 2 or not all(a.isdigit() for a in arguments):
        sys.exit(__doc__.split('\n\n')[1])
    trains, signals = int(arguments[0]), int(arguments[1])
    if not (1 <= trains <= 9000 and 1 <= signals <= 40000):
        sys.exit('T is 1 to 9000, S is 1 to 40000')
    sys.stdout.write(day(trains, signals))


if __name__ == '__main__':
    main(sys.argv[1:])
