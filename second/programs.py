#!/usr/bin/env python3
"""The inputs of the programs plan_to_aplx, plan_to_shared_aplx, plan_to_srom, aplx_to_plan, compare_plans, conversion_cases,
comparison_cases and flood_fill_cases, and what each must write.

programs.py write: stores them as crates/NAME/stdin, stdout and data/FILE, and the comparison of the example plans as
examples/compare.expected.
programs.py: fails where a stored file is another, or another file is stored.
"""
import os
import sys

import model
from comparison import compare_plans
from model import aplx_to_plan, plan_to_aplx, plan_to_srom
from sharing import plan_to_shared_aplx

here = os.path.dirname(os.path.abspath(__file__))
crates = os.path.join(here, '..', 'crates')


def hex_text(name):
    """The bytes that a hex text names; # begins a comment."""
    with open(os.path.join(here, '..', 'examples', name)) as f:
        return bytes(int(b, 16) for line in f for b in line.split('#')[0].split())


def words(*numbers):
    return b''.join(n.to_bytes(4, 'little') for n in numbers)


def plan(pieces, data, size=0):
    """The bytes of a plan: header, pieces, data, and zeros up to a size."""
    s = words(len(pieces), 16, 16 + 16 * len(pieces), len(data)) + b''.join(words(*p) for p in pieces) + data
    return s + bytes(max(0, size - len(s)))


# three puts of the same 21,824 bytes: 64 bytes of entries and 65,472 of data
table = bytes(k * 7 % 256 for k in range(21824))
puts = [(1, 0x60000000 + 0x10000 * k, len(table), 0) for k in range(3)]
run = (3, 0x60000000, 0, 0)

# a put and a fill: 2 + 2 x 7 bytes, and 32,720 and 32,800 of data
long = bytes(k * 5 % 251 for k in range(32720))
put_and_fill = [(1, 0x60000000, len(long), 0), (2, 0x60010000, 32800, 0x01020304)]

coefficients = hex_text('coefficients.plan.hex')
recalibrated = hex_text('recalibrated.plan.hex')

# one table for sixteen channels: channel 0 of the coefficients
channels = plan([(1, 0x400000 + 32 * k, 32, 0) for k in range(16)] + [(3, 0, 0, 0)], coefficients[112:144])

# five puts of three contents, of 21,824, 21,824 and 21,792 bytes: 96 bytes of entries and 65,440 of shared data
contents = [(len(table), 0), (len(table), 4), (len(table) - 32, 8)]
three = [(1, 0x60000000 + 0x10000 * k, *contents[which]) for k, which in enumerate((0, 1, 2, 0, 1))]
longer = table + table[:4]

# the plans of conversion_cases, in the order in which it converts them
plans = {
    'coefficients': coefficients,
    'empty': b'',
    # a put of 20 bytes: a serial ROM has it, APLX does not
    'refused': plan([(2, 0x400000, 32, 0), (1, 0x400000, 20, 0)], bytes(20)),
    # a fill of 6 bytes
    'refused_by_both': plan([(2, 0x400000, 32, 0), (2, 0x400000, 6, 0)], b''),
    # a plan of 32,768 bytes whose APLX image has 65,536
    'largest': plan(puts, table, 32768),
    # one entry more in the APLX image
    'larger': plan(puts + [run], table, 32768),
    # a byte more in the plan
    'too_long': plan(puts, table, 32769),
    # a plan of 32,768 bytes whose serial ROM image has 65,536
    'srom_largest': plan(put_and_fill, long),
    # a fill of 65,528 bytes: a byte more in the serial ROM image
    'srom_larger': plan([(2, 0x60000000, 65528, 0x01020304)], b''),
    'channels': channels,
    # a plan whose shared APLX image has 65,536 bytes, and one with an entry more
    'shared_largest': plan(three, longer),
    'shared_larger': plan(three + [run], longer),
}


END = 0xffffffff, 0, 0, 0


def shared(runs):
    """An image of 62 puts of the same 512 bytes, and some runs. Its plan has 1,008 bytes, 16 for each run, and 31,744 of data."""
    puts = [(2, 0x60000000 + 512 * k, 16 * (62 + runs + 1 - k), 512) for k in range(62)]
    return b''.join(words(*e) for e in [*puts, *[(4, 0x60000000, 0, 0)] * runs, END]) + bytes(k * 3 % 256 for k in range(512))


# an image, and bytes behind it
more = plan_to_aplx(coefficients) + bytes(k * 11 % 256 for k in range(65536))

# the images, in the order in which it reads them back
images = {
    # read back, it is the plan that was packed
    'image_coefficients': plan_to_aplx(coefficients),
    'empty': b'',
    # a run, and an ACOPY
    'image_refused': words(4, 0x60000000, 0, 0, 1, 0x400000, 0x500000, 32, *END),
    # the image of the plan `largest`: its plan has the table three times
    'image_largest': plan_to_aplx(plans['largest']),
    # a plan of 32,768 bytes, and one of 32,784
    'image_longest_plan': shared(1),
    'image_longer_plan': shared(2),
    # 65,536 bytes, of which those behind the image do not matter, and a byte more
    'image_and_more': more[:65536],
    'image_too_long': more[:65537],
}


def case(name, kind, data):
    """A title with the number of bytes, and the bytes as they stand."""
    if data is None:
        return b'%s, %s: too long, nothing is written\n' % (name.encode(), kind)
    return b'%s, %s: %d bytes\n%s\n' % (name.encode(), kind, len(data), data)


cases = b''.join(case(name, b'APLX', plan_to_aplx(s)) + case(name, b'shared APLX', plan_to_shared_aplx(s))
                 + case(name, b'SROM', plan_to_srom(s)) for name, s in plans.items())
cases += b''.join(case(name, b'plan', aplx_to_plan(s)) for name, s in images.items())


# ---- the plans of comparison_cases

TABLE, TOP = 0x400000, 2 ** 32


def put(address, data, run=None):
    """A plan of one put, and a run where one is given."""
    return plan([(1, address, len(data), 0)] + ([] if run is None else [(3, run, 0, 0)]), data)


def filled(*fills, run=None):
    """A plan of fills (address, length and word), and a run where one is given."""
    return plan([(2, *f) for f in fills] + ([] if run is None else [(3, run, 0, 0)]), b'')


def longest(last, size=32768):
    """A plan of a put of 32,736 bytes, the last one given, and zeros up to a size."""
    return plan([(1, TABLE, 32736, 0)], long + bytes(15) + bytes([last]), size)


def apart(count):
    """Two plans whose comparison has so many stretches: every second byte differs."""
    return filled((TABLE, 2 * count, 0)), filled((TABLE, 2 * count, 0x00090009))


four = bytes([1, 2, 3, 4])
five = put(TABLE, four + b'\x05')
corrected = [(2, TABLE, 32, 0), (1, TABLE, 8, 0), (1, TABLE + 16, 8, 8)]
refused = {
    # data past the data length
    2: plan([(2, TABLE, 4, 0), (1, TABLE, 4, 1)], bytes(4)),
    # behind a run
    3: plan([(3, 0, 0, 0), (2, TABLE + 2, 4, 0)], b''),
    5: filled((TABLE, 4, 0), (TABLE, 0, 0)),
    9: filled((TABLE, 4, 0), run=2),
    11: plan([(3, 0, 0, 0), (4, 0, 0, 0)], b''),
    # the first one reaches the last address, the second one goes past it
    19: filled((TOP - 8, 8, 0), (TOP - 8, 9, 0)),
}

# the old and the new plan of each case, in the order in which they are compared; None is a file that is missing
pairs = {
    'equal': (coefficients, coefficients),
    # puts of 5 bytes
    'one_address': (five, put(TABLE, four + b'\x06')),
    # different bytes, twice; then stored by the old plan only, twice; then by the new one only
    'several_stretches': (filled((TABLE, 12, 0), (TABLE + 32, 4, 1)), filled((TABLE, 8, 0x00090900), (TABLE + 40, 6, 0x04030201))),
    'most_stretches': apart(512),
    'too_many_stretches': apart(513),
    'correction_listed_last': (plan(corrected, bytes(range(1, 17))),
                               plan(corrected + [(1, TABLE + 4, 4, 16)], bytes([*range(1, 17), 0x25, 0x26, 7, 0x28]))),
    # another in bit 0 only
    'other_run': (put(TABLE, four, run=0x100), put(TABLE, four, run=0x101)),
    'no_run_against_a_run': (put(TABLE, four), put(TABLE, four, run=0x100)),
    'neither_has_a_run': (put(TABLE, four), filled((TABLE, 4, 0x04030201))),
    'missing_old': (None, five),
    'missing_new': (five, None),
    'both_missing': (None, None),
    **{'old_refused_%d' % number: (s, five) for number, s in refused.items()},
    **{'new_refused_%d' % number: (five, s) for number, s in refused.items()},
    # 32,768 bytes, and a byte more
    'longest': (longest(1), longest(2)),
    'old_too_long': (longest(1, 32769), five),
    'new_too_long': (five, longest(1, 32769)),
    'old_too_long_new_refused': (longest(1, 32769), refused[9]),
    'old_refused_new_too_long': (refused[9], longest(1, 32769)),
    # up to the last address, whose byte is another
    'top_of_the_address_space': (filled((TOP - 8, 8, 0)), filled((TOP - 65536, 65536, 0), (TOP - 4, 4, 0x09000000))),
}
comparisons = b''.join(name.encode() + b':\n' + b''.join(compare_plans(*pair)) + b'\n' for name, pair in pairs.items())


# ---- the messages of flood_fill_cases: the kind, how many bytes of the image are lent, and three numbers

class Draw:
    """Numbers that are the same each time."""

    def __init__(self, seed):
        self.state = seed

    def below(self, n):
        self.state = (self.state * 6364136223846793005 + 1442695040888963407) % 2 ** 64
        return (self.state >> 33) % n

    def shuffled(self, items):
        return [items.pop(self.below(len(items))) for _ in range(len(items))]


def sent(draw, words, size, blocks, lost):
    """The messages of some blocks of an image, each with its words shuffled, one in `lost` lost and one in 8 sent twice."""
    for block in blocks:
        part = words[block * size:(block + 1) * size]
        data = draw.shuffled([(2, block, k, word) for k, word in enumerate(part)])
        for message in [(1, block, len(part), 0), *data, (3, block, 0, 0)]:
            if not lost or draw.below(lost):
                yield message
            if not draw.below(8):
                yield message


def series(draw, count, size, last):
    """An image of so many blocks, passed along three times: with messages lost, with damaged ones between, and whole."""
    words = [draw.below(2 ** 31) * 2 + 1 for _ in range((count - 1) * size + last)]
    start = 0, count - 1, size, 0
    yield start
    yield from sent(draw, words, size, draw.shuffled(list(range(count))), 6)
    for message in sent(draw, words, size, draw.shuffled(list(range(count))), 9):
        yield message
        if not draw.below(6):
            yield draw.below(4), draw.below(count + 2), draw.below(size + 2), draw.below(2 ** 31)
    yield start
    yield from sent(draw, words, size, draw.shuffled(list(range(count))), 0)


draw = Draw(14)
messages = [(k, 1200, a, b, c) for shape in ((5, 8, 3), (1, 256, 256), (60, 1, 1), (3, 100, 1))
            for k, a, b, c in series(draw, *shape)]
# the first one comes before any Start; now and then less of the image is lent
messages = [(1, 1200, 0, 1, 0)] + [(k, draw.below(1200) if k and not draw.below(40) else lent, a, b, c)
                                   for k, lent, a, b, c in messages]

image = bytearray(b'\xee' * 1200)
receiver = model.Receiver()
told = b''
for kind, lent, a, b, c in messages:
    part = memoryview(image)[:lent]
    answer = (model.flood_fill_start(receiver, part, a, b) if kind == 0 else
              model.flood_fill_block_start(receiver, part, a, b) if kind == 1 else
              model.flood_fill_block_data(receiver, part, a, b, c) if kind == 2 else
              model.flood_fill_block_end(receiver, part, a))
    told += ' '.join(map(str, answer[:3])).encode() + b'\n'

stored = {
    'flood_fill_cases/data/messages': b''.join(words(*m) for m in messages),
    'flood_fill_cases/stdout': told + image,
    'plan_to_aplx/stdin': coefficients,
    'plan_to_aplx/stdout': plan_to_aplx(coefficients),
    'plan_to_shared_aplx/stdin': channels,
    'plan_to_shared_aplx/stdout': plan_to_shared_aplx(channels),
    'plan_to_srom/stdin': coefficients,
    'plan_to_srom/stdout': plan_to_srom(coefficients),
    'aplx_to_plan/stdin': plan_to_aplx(coefficients),
    'aplx_to_plan/stdout': aplx_to_plan(plan_to_aplx(coefficients)),
    'compare_plans/data/old': coefficients,
    'compare_plans/data/new': recalibrated,
    'compare_plans/stdout': compare_plans(coefficients, recalibrated)[0],
    '../examples/compare.expected': compare_plans(coefficients, recalibrated)[0],
    'conversion_cases/stdout': cases,
    'comparison_cases/stdout': comparisons,
}
stored.update(('conversion_cases/data/' + name, s) for name, s in {**plans, **images}.items())
stored.update(('comparison_cases/data/%s_%s' % (name, which), s)
              for name, pair in pairs.items() for which, s in zip(('old', 'new'), pair) if s is not None)

different = 0
for name, expected in stored.items():
    path = os.path.join(crates, name)
    if sys.argv[1:] == ['write']:
        os.makedirs(os.path.dirname(path), exist_ok=True)
        with open(path, 'wb') as f:
            f.write(expected)
    else:
        with open(path, 'rb') as f:
            if f.read() != expected:
                print('%s: not what the second program writes' % path)
                different = 1
for folder in 'conversion_cases/data', 'compare_plans/data', 'comparison_cases/data':
    for name in os.listdir(os.path.join(crates, folder)):
        if folder + '/' + name not in stored:
            print('%s/%s: the second program does not write it' % (folder, name))
            different = 1
sys.exit(different)
