#!/usr/bin/env python3
"""What crates/replay must write, by the rules in model.py: the calls of its two data files, one after the other.

replay.py write: stores it as crates/replay/stdout.
replay.py: fails where the stored file is another.

The head of crates/replay/data/cases says how a call is written and what is written for it. `=` is the buffer of the same
kind (table, memory, output, input) as the last call of the file left it. A flood-fill receiver is of the kind table, its image
of the kind memory; a rom, a packet, a plan and an APLX image are of the kind input. The old one of two plans that are compared, and the
plan of an image that is checked, are of the kind memory.
"""
import re
import struct
import sys
import pathlib

import checking
import comparison
import model
import sharing

REPLAY = pathlib.Path(__file__).resolve().parent.parent / 'crates' / 'replay'
LONGEST = 8192

# The arguments of each call: a kind of buffer, or the largest number.
WORD, LONG = 2 ** 32 - 1, 2 ** 64 - 1
CALLS = {
    'map_add': ('table', WORD, WORD, WORD, WORD),
    'srom_load': ('table', 'memory', 'input', LONG),
    'aplx_load': ('table', 'memory', WORD),
    'scp_answer': ('table', 'memory', WORD, WORD, WORD, WORD, WORD, 'input', 'output'),
    'plan_read': ('input', WORD),
    'pack_srom': ('input', 'output'),
    'pack_aplx': ('input', 'output'),
    'pack_aplx_shared': ('input', 'output'),
    'aplx_read': ('input', 'output'),
    'compare': ('memory', 'input', 'output'),
    'aplx_check': ('memory', 'input'),
    'map_sound': ('table', LONG),
    'lookup': ('table', 4, WORD, LONG),
    'run_entry': ('table', WORD),
    'flood_fill_start': ('table', 'memory', WORD, WORD),
    'flood_fill_block_start': ('table', 'memory', WORD, WORD),
    'flood_fill_block_data': ('table', 'memory', WORD, WORD, WORD),
    'flood_fill_block_end': ('table', 'memory', WORD),
}

# The buffers that a call may change.
CHANGED = {
    'map_add': ('table',),
    'srom_load': ('memory',),
    'aplx_load': ('memory',),
    'scp_answer': ('memory', 'output'),
    'pack_srom': ('output',),
    'pack_aplx': ('output',),
    'pack_aplx_shared': ('output',),
    'aplx_read': ('output',),
    'compare': ('output',),
    'flood_fill_start': ('table',),
    'flood_fill_block_start': ('table',),
    'flood_fill_block_data': ('table',),
    'flood_fill_block_end': ('table', 'memory'),
}


class NoCall(Exception):
    pass


# ---- a map as a table of bytes

def regions_of(table):
    """The regions of a table; None where it is no map of at most 8 whose rights are known."""
    count = int.from_bytes(table[:4], 'little')
    if len(table) != 132 or count > 8:
        return None
    regions = []
    for at in range(4, 4 + 16 * count, 16):
        base, length, place, rights = (int.from_bytes(table[k:k + 4], 'little') for k in range(at, at + 16, 4))
        if rights > 7:
            return None
        regions.append(model.Region(base, length, place, rights_of(rights)))
    return regions


def rights_of(number):
    return ''.join(right for k, right in enumerate('rwx') if number >> k & 1)


def map_add(table, base, length, place, rights):
    regions = regions_of(table)
    if rights > 7 or regions is None or not model.add(regions, model.Region(base, length, place, rights_of(rights)))[1]:
        return [1]
    at = 4 + 16 * len(regions)
    table[at:at + 16] = b''.join(n.to_bytes(4, 'little') for n in (base, length, place, rights))
    table[:4] = (len(regions) + 1).to_bytes(4, 'little')
    # the table is written anew: rights past the count have their three known bits
    for at in range(16, 132, 16):
        table[at:at + 4] = bytes([table[at] % 8, 0, 0, 0])
    return [0]


# ---- a flood-fill receiver as bytes

# blocks, full size, open block, its size; a byte for each block, a byte for each word, the words
RECEIVER = struct.Struct('<4H256s256s256I')


def receiver_of(table):
    if len(table) != RECEIVER.size:
        raise NoCall
    blocks, full_size, block, size, done, come, *words = RECEIVER.unpack(table)
    receiver = model.Receiver(blocks, full_size)
    receiver.block, receiver.size = block, size
    receiver.done, receiver.come, receiver.words = list(done), list(come), words
    return receiver


def bytes_of(receiver):
    return RECEIVER.pack(receiver.blocks, receiver.full_size, receiver.block, receiver.size,
                         bytes(receiver.done), bytes(receiver.come), *receiver.words)


# ---- answers as numbers

KIND = {'ARM': 1, 'Thumb': 2}


def numbers(answer):
    """The returned number and the eight numbers of the outcome, of a value that model.py, comparison.py, checking.py or sharing.py
    answers."""
    outcome = {
        'refused': lambda number, place, needed, plan=0: dict(refusal=number, place=place, event=0, kind=plan, bytes=needed),
        'end': lambda place, taken, stored: dict(place=place, event=1, items=taken, bytes=stored),
        'unknown': lambda command, place, taken, stored: dict(place=place, event=2, address=command, items=taken, bytes=stored),
        'run': lambda kind, address, resume, taken, stored:
            dict(event=3, kind=KIND[kind], address=address, resume=resume, items=taken, bytes=stored),
        'run loaded': lambda kind, address, resume: dict(event=3, kind=KIND[kind], address=address, resume=resume),
        'run asked': lambda kind, address: dict(event=4, kind=KIND[kind], address=address),
        'response': lambda size: dict(event=5, bytes=size),
        'silent': lambda: dict(event=6),
        'pieces': lambda count: dict(event=7, items=count),
        'size': lambda size: dict(event=8, bytes=size),
        'accepted': lambda: dict(event=9),
        'ignored': lambda: dict(event=10),
        'missing': lambda count, lowest: dict(place=lowest, event=11, items=count),
        'done': lambda: dict(event=12),
        'same run': lambda stretches: dict(event=13, items=len(stretches), bytes=16 * len(stretches)),
        'other run': lambda stretches: dict(event=14, items=len(stretches), bytes=16 * len(stretches)),
        'checked': lambda: dict(event=15),
    }[answer[0]](*answer[1:])
    eight = [outcome.get(name, 0) for name in ('refusal', 'place', 'event', 'kind', 'address', 'resume', 'items', 'bytes')]
    return [eight[0]] + eight


# ---- the calls, each over its arguments; the buffers are bytearrays

def srom_load(table, memory, rom, offset):
    return numbers(model.srom_load(regions_of(table), memory, rom, offset))


def aplx_load(table, memory, header):
    return numbers(model.aplx_load(regions_of(table), memory, header))


def scp_answer(table, memory, node, physical, virtual, version, date, packet, output):
    identity = node % 65536, physical % 256, virtual % 256, version % 65536, date
    return numbers(model.scp_answer(regions_of(table), memory, identity, packet, output))


def plan_read(plan, target):
    return numbers(model.plan_read(plan, {0: 32, 1: 4}.get(target, 1)))


def pack_srom(plan, output):
    return numbers(model.pack_srom(plan, output))


def pack_aplx(plan, output):
    return numbers(model.pack_aplx(plan, output))


def pack_aplx_shared(plan, output):
    return numbers(sharing.pack_aplx_shared(plan, output))


def aplx_read(image, output):
    return numbers(model.aplx_read(image, output))


def compare(old, new, output):
    return numbers(comparison.compare(old, new, output))


def aplx_check(plan, image):
    return numbers(checking.check(plan, image))


def map_sound(table, size):
    return [0 if model.sound(regions_of(table), size) else 1]


def lookup(table, right, address, length):
    if right not in (1, 2, 4):
        raise NoCall
    place = model.permitted(regions_of(table) or [], rights_of(right), address, length)
    return [4, 0] if place is None else [0, place]


def run_entry(table, address):
    kind = model.run_kind(regions_of(table) or [], address)
    return [9, 0, 0] if kind is None else [0, KIND[kind], address]


def flood_fill(message, table, *arguments):
    """The answer of a flood-fill message; the receiver's bytes become what it leaves."""
    receiver = receiver_of(table)
    answer = numbers(message(receiver, *arguments))
    table[:] = bytes_of(receiver)
    return answer


def flood_fill_start(table, image, last_block, block_size):
    return flood_fill(model.flood_fill_start, table, image, last_block, block_size)


def flood_fill_block_start(table, image, block, size):
    return flood_fill(model.flood_fill_block_start, table, image, block, size)


def flood_fill_block_data(table, image, block, word_id, word):
    return flood_fill(model.flood_fill_block_data, table, image, block, word_id, word)


def flood_fill_block_end(table, image, block):
    return flood_fill(model.flood_fill_block_end, table, image, block)


# ---- the text

def number(text, most):
    if not re.fullmatch('[0-9]+', text) or int(text) > most:
        raise NoCall
    return int(text)


def byte_string(text, kept):
    if text == '=':
        return bytearray(kept)
    out = bytearray()
    for part in text.split('+'):
        found = re.fullmatch(r'x((?:[0-9a-f]{2})*)(?:\*([0-9]+))?', part)
        times = 1 if not found or found[2] is None else int(found[2])
        if not found or not 1 <= times <= 65536:
            raise NoCall
        out += bytes.fromhex(found[1]) * times
    if len(out) > LONGEST:
        raise NoCall
    return out


def written(name, buffer):
    """The line of a buffer: its bytes. For compare the ones at the end that are all the same stand as one of them and their number."""
    if name != 'compare' or not buffer:
        return buffer.hex()
    front = buffer.rstrip(buffer[-1:])
    return '%s+%02x*%d' % (front.hex(), buffer[-1], len(buffer) - len(front))


def call(line, kept):
    """The lines that are written for a call; kept has the buffers as the last call left them."""
    name, *words = line.split(' ')
    if name not in CALLS or len(words) != len(CALLS[name]):
        raise NoCall
    arguments = []
    for word, kind in zip(words, CALLS[name]):
        if isinstance(kind, int):
            arguments.append(number(word, kind))
        else:
            kept[kind] = byte_string(word, kept.get(kind, b''))
            arguments.append(kept[kind])
    answer = globals()[name](*arguments)
    return [name, ' '.join(map(str, answer))] + [written(name, kept[kind]) for kind in CHANGED.get(name, ())]


def replay(text):
    """What is written for a file, and whether every line was one."""
    out, kept = '', {}
    for count, line in enumerate(text.split('\n'), 1):
        if line == '' or line.startswith('#'):
            continue
        if line.startswith(': '):
            out += line[2:] + ': '
            continue
        try:
            out += '\n'.join(call(line, kept)) + '\n'
        except NoCall:
            return out + 'not a call: line %d\n' % count, False
    return out, True


def main():
    expected = ''
    for name in 'cases', 'vectors':
        out, whole = replay((REPLAY / 'data' / name).read_text())
        expected += out
        if not whole:
            print('data/%s: %s' % (name, out.splitlines()[-1]))
            return 1
    path = REPLAY / 'stdout'
    if sys.argv[1:] == ['write']:
        path.write_text(expected)
    elif path.read_text() != expected:
        print('%s: not what the second program writes' % path)
        return 1
    return 0


sys.exit(main())
