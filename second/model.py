"""An independent second program: the rules of paper 01, of images read back and of flood fill in Python, written from the papers and not
from the specs. Two plans are compared in comparison.py, another firm's images checked in checking.py, equal data shared in sharing.py.

It makes the expected output of the program replay (see replay.py). Nothing of the product depends on it.

An answer is a tuple: a word and its values.
  ('refused', number, place, bytes that the output needed, of refusal 10)
  a load: ('end', place, taken, stored), ('unknown', command, place, taken, stored), ('run', kind, address, resume, taken, stored)
  a packet: ('silent',), ('response', size), ('run asked', kind, address), ('run loaded', kind, address, resume)
  a plan that was read: ('pieces', count); one that was packed, and an image that was read back: ('size', bytes)
  a flood-fill message: ('accepted',), ('ignored',), ('missing', number of words, the lowest), ('done',)
"""


class Refused(Exception):
    def __init__(self, number, place=0, needed=0):
        self.answer = 'refused', number, place, needed


# ---- Memory map

class Region:
    def __init__(self, base, length, place, rights):
        self.base, self.length, self.place, self.rights = base, length, place, rights

    def addresses(self):
        return range(self.base, self.base + self.length)

    def places(self):
        return range(self.place, self.place + self.length)


def overlap(a, b):
    return len(range(max(a.start, b.start), min(a.stop, b.stop))) > 0


def rules_hold(regions):
    """Whether the regions may stand in one map; None is what no map can be."""
    if regions is None or len(regions) > 8:
        return False
    for i, r in enumerate(regions):
        if r.base % 4 or r.length % 4 or not 4 <= r.length <= 16777216 or r.base + r.length > 4294967280:
            return False
        for q in regions[:i]:
            if overlap(r.addresses(), q.addresses()) or overlap(r.places(), q.places()):
                return False
    return True


def add(regions, region):
    """The map after the addition, and whether it was taken."""
    longer = regions + [region]
    return (longer, True) if rules_hold(longer) else (regions, False)


def sound(regions, size):
    return rules_hold(regions) and all(r.place + r.length <= size for r in regions)


def permitted(regions, right, address, length):
    """The buffer place of a non-empty range inside one region with the right, or None."""
    if length > 0:
        for r in regions:
            if right in r.rights and r.base <= address and address + length <= r.base + r.length:
                return r.place + address - r.base
    return None


def run_kind(regions, address):
    """'ARM' or 'Thumb' for a legal run address, else None."""
    if address % 2 == 1:
        return 'Thumb' if permitted(regions, 'x', address - 1, 1) is not None else None
    if address % 4 == 0:
        return 'ARM' if permitted(regions, 'x', address, 1) is not None else None
    return None


# ---- Serial ROM

def srom_load(regions, memory, rom, offset):
    """The answer; memory (a bytearray) is changed only by an accepted load."""
    try:
        if not sound(regions, len(memory)):
            raise Refused(1)
        if len(rom) > 16777216:
            raise Refused(13)
        stores, at = [], offset
        while True:
            while at < len(rom) and rom[at] == 0x55:
                at += 1
            if at >= len(rom):
                raise Refused(2, len(rom))
            if rom[at] != 0x3a:
                stop = 'end', at
                break
            if at + 7 > len(rom):
                raise Refused(2, at)
            words = int.from_bytes(rom[at + 1:at + 3], 'big')
            address = int.from_bytes(rom[at + 3:at + 7], 'big')
            after = at + 7 + 4 * words
            if words == 0:
                kind = run_kind(regions, address)
                if kind is None:
                    raise Refused(9, at)
                stop = 'run', kind, address, after
                break
            if address % 4:
                raise Refused(3, at)
            if after > len(rom):
                raise Refused(2, at)
            place = permitted(regions, 'w', address, 4 * words)
            if place is None:
                raise Refused(4, at)
            stores.append((place, [int.from_bytes(rom[k:k + 4], 'big') for k in range(at + 7, after, 4)]))
            at = after
    except Refused as r:
        return r.answer
    count = 0
    for place, words in stores:
        for k, word in enumerate(words):
            memory[place + 4 * k:place + 4 * k + 4] = word.to_bytes(4, 'little')
            count += 4
    return stop + (len(stores), count)


# ---- APLX

def aplx_load(regions, memory, header):
    """The answer; memory (a bytearray) is changed only by an accepted load."""
    def word(place):
        return int.from_bytes(memory[place:place + 4], 'little')

    def rounded(length):
        return (length + 31) // 32 * 32

    try:
        if not sound(regions, len(memory)):
            raise Refused(1)
        if header % 4:
            raise Refused(3)
        actions, stop = [], None
        for index in range(256):
            address = header + 16 * index
            place = permitted(regions, 'r', address, 16)
            if place is None:
                raise Refused(6, index)
            command, x, y, z = (word(place + 4 * k) for k in range(4))
            if command in (1, 2, 3):
                length = rounded(y if command == 3 else z)
                if length == 0:
                    raise Refused(5, index)
                if x % 4:
                    raise Refused(3, index)
                source = None
                if command != 3:
                    source = y if command == 1 else (address + y) % 2 ** 32
                    if source % 4:
                        raise Refused(3, index)
                to = permitted(regions, 'w', x, length)
                if to is None:
                    raise Refused(4, index)
                start = None
                if command != 3:
                    start = permitted(regions, 'r', source, length)
                    if start is None:
                        raise Refused(4, index)
                actions.append((range(x, x + length), to, start, z))
            elif command == 4:
                kind = run_kind(regions, x)
                if kind is None:
                    raise Refused(9, index)
                stop = 'run', kind, x, address + 16
                break
            else:
                stop = ('end', index) if command == 0xffffffff else ('unknown', command, index)
                break
        if stop is None:
            raise Refused(7, 256)
        read = range(header, header + 16 * (len(actions) + 1))
        for index, (destination, _, _, _) in enumerate(actions):
            if overlap(destination, read):
                raise Refused(8, index)
    except Refused as r:
        return r.answer
    count = 0
    for destination, to, start, fill in actions:
        for k in range(0, len(destination), 4):
            value = fill if start is None else word(start + k)
            memory[to + k:to + k + 4] = value.to_bytes(4, 'little')
            count += 4
    return stop + (len(actions), count)


# ---- SCP

def scp_answer(regions, memory, identity, packet, output):
    """The answer; memory and output (bytearrays) are changed as the packet asks."""
    def word(at):
        return int.from_bytes(packet[at:at + 4], 'little')

    def reply(code, rest=b''):
        response = code.to_bytes(2, 'little') + bytes(packet[2:4]) + rest
        output[:len(response)] = response
        return 'response', len(response)

    ok, length_error, command_error, argument_error = 0x80, 0x81, 0x83, 0x84
    if len(output) < 272:
        return 'refused', 10, 0, 272
    if not sound(regions, len(memory)):
        return 'refused', 1, 0, 0
    if len(packet) < 4:
        return ('silent',)
    if len(packet) > 272:
        return reply(length_error)
    command = int.from_bytes(packet[0:2], 'little')
    if command > 4:
        return reply(command_error)
    if len(packet) < {0: 4, 1: 8, 2: 16, 3: 16, 4: 8}[command]:
        return reply(length_error)
    if command == 0:
        node, physical, virtual, version, date = identity
        numbers = (node << 16 | physical << 8 | virtual, version << 16 | 256, date)
        return reply(ok, b''.join(n.to_bytes(4, 'little') for n in numbers) + b'SARK/SpiNNaker\0')
    if command == 1:
        kind = run_kind(regions, word(4))
        return reply(argument_error) if kind is None else ('run asked', kind, word(4))
    if command == 4:
        answer = aplx_load(regions, memory, word(4))
        if answer[0] == 'refused':
            return reply(argument_error)
        if answer[0] == 'run':
            return ('run loaded',) + answer[1:4]
        return reply(ok)
    address, size, kind = word(4), word(8), word(12)
    if size > 256 or kind > 2:
        return reply(argument_error)
    if command == 3 and len(packet) != 16 + size:
        return reply(length_error)
    unit = (1, 2, 4)[kind]
    if address % unit or size % unit:
        return reply(argument_error)
    if size == 0:
        return reply(ok)
    place = permitted(regions, 'r' if command == 2 else 'w', address, size)
    if place is None:
        return reply(argument_error)
    if command == 2:
        return reply(ok, bytes(memory[place:place + size]))
    memory[place:place + size] = packet[16:]
    return reply(ok)


# ---- plans

def read_plan(plan, unit, ends=False):
    """The pieces of a plan; unit is 32 for APLX, 4 for SROM, 1 where 12 is not tested; ends: 19 is tested."""
    def word(at):
        return int.from_bytes(plan[at:at + 4], 'little')

    if len(plan) < 16:
        raise Refused(2)
    count, table, data, length = (word(4 * k) for k in range(4))
    if count > 64:
        raise Refused(11)
    if table + 16 * count > len(plan) or data + length > len(plan):
        raise Refused(2)
    pieces = []
    for index in range(count):
        kind, address, size, last = (word(table + 16 * index + 4 * k) for k in range(4))
        if kind not in (1, 2, 3):
            raise Refused(11, index)
        if kind == 3:
            if size or last:
                raise Refused(11, index)
            if address % 4 == 2:
                raise Refused(9, index)
            pieces.append(('run', address))
            continue
        if size == 0:
            raise Refused(5, index)
        if size > 65536:
            raise Refused(11, index)
        if address % 4:
            raise Refused(3, index)
        if kind == 1 and last + size > length:
            raise Refused(2, index)
        if size % unit:
            raise Refused(12, index)
        if ends and address + size > 2 ** 32:
            raise Refused(19, index)
        if kind == 1:
            pieces.append(('put', address, bytes(plan[data + last:data + last + size])))
        else:
            pieces.append(('fill', address, (last.to_bytes(4, 'little') * size)[:size]))
    return pieces


def plan_read(plan, unit):
    """The answer: how many pieces there are."""
    try:
        return 'pieces', len(read_plan(plan, unit))
    except Refused as r:
        return r.answer


def pack_srom(plan, output):
    """The answer; the image at the output's front."""
    try:
        pieces = read_plan(plan, 4)
        image = bytearray(b'\x55')
        for piece in pieces:
            data = b'' if piece[0] == 'run' else piece[2]
            image += b'\x3a' + (len(data) // 4).to_bytes(2, 'big') + piece[1].to_bytes(4, 'big')
            for k in range(0, len(data), 4):
                image += data[k:k + 4][::-1]
        image += b'\xff'
        if len(image) > len(output):
            raise Refused(10, len(pieces), len(image))
    except Refused as r:
        return r.answer
    output[:len(image)] = image
    return 'size', len(image)


def pack_aplx(plan, output):
    """The answer; the image at the output's front."""
    try:
        pieces = read_plan(plan, 32)
        entries, data = bytearray(), bytearray()
        for index, piece in enumerate(pieces):
            # the data of the puts begins behind the end entry
            behind = 16 * (len(pieces) + 1) + len(data) - 16 * index
            if piece[0] == 'put':
                words = 2, piece[1], behind, len(piece[2])
                data += piece[2]
            elif piece[0] == 'fill':
                words = 3, piece[1], len(piece[2]), int.from_bytes(piece[2][:4], 'little')
            else:
                words = 4, piece[1], 0, 0
            entries += b''.join(word.to_bytes(4, 'little') for word in words)
        image = entries + b'\xff' * 4 + bytes(12) + data
        if len(image) > len(output):
            raise Refused(10, len(pieces), len(image))
    except Refused as r:
        return r.answer
    output[:len(image)] = image
    return 'size', len(image)


# ---- an APLX image read back as a plan

def read_image(image):
    """The pieces of an image up to its end word, each as four words of a plan, and the data of its puts."""
    pieces, data = [], bytearray()
    while True:
        index = len(pieces)
        entry = image[16 * index:16 * index + 16]
        if len(entry) < 16:
            raise Refused(2, index)
        command, address, third, fourth = (int.from_bytes(entry[k:k + 4], 'little') for k in range(0, 16, 4))
        if command == 0xffffffff:
            return pieces, data
        if command not in (2, 3, 4):
            raise Refused(20, index)
        if index == 64:
            raise Refused(21, index)
        if command == 4:
            if address % 4 == 2:
                raise Refused(9, index)
            pieces.append((3, address, 0, 0))
            continue
        length = fourth if command == 2 else third
        if length == 0:
            raise Refused(5, index)
        if length % 32 or length > 65536:
            raise Refused(22, index)
        if address % 4 or command == 2 and third % 4:
            raise Refused(3, index)
        if command == 3:
            pieces.append((2, address, length, fourth))
            continue
        start = (16 * index + third) % 2 ** 32
        if start + length > len(image):
            raise Refused(23, index)
        pieces.append((1, address, length, len(data)))
        data += image[start:start + length]


def aplx_read(image, output):
    """The answer; the plan at the output's front."""
    try:
        pieces, data = read_image(image)
        header = len(pieces), 16, 16 + 16 * len(pieces), len(data)
        plan = b''.join(word.to_bytes(4, 'little') for words in [header, *pieces] for word in words) + data
        if len(plan) > len(output):
            raise Refused(10, len(pieces), len(plan))
    except Refused as r:
        return r.answer
    output[:len(plan)] = plan
    return 'size', len(plan)


# ---- the programs

def converted(pack, plan):
    """What a program writes for what it reads: plans up to 32,768 bytes, images up to 65,536."""
    if len(plan) > 32768:
        return b'refused 11 at 0\n'
    output = bytearray(65536)
    return shown(pack(plan, output), output)


def shown(answer, output):
    """The bytes that were written, or the line of a refusal."""
    if answer[0] == 'refused':
        return b'refused %d at %d\n' % answer[1:3]
    return bytes(output[:answer[1]])


def plan_to_aplx(plan):
    return converted(pack_aplx, plan)


def plan_to_srom(plan):
    return converted(pack_srom, plan)


def aplx_to_plan(image):
    """The plan of an image: images up to 65,536 bytes, plans up to 32,768. None for a longer image: nothing is written."""
    if len(image) > 65536:
        return None
    output = bytearray(32768)
    return shown(aplx_read(image, output), output)


# ---- Flood fill

class Receiver:
    """An image that comes in blocks of words. A mark is any number but 0; there are marks and words for 256 blocks and words."""

    def __init__(self, blocks=0, full_size=0):
        self.blocks, self.full_size = blocks, full_size  # as the last Start declared them; no blocks before any
        self.block, self.size = 0, 0                     # the open block and its own size, which is 0 where none is open
        self.done = [0] * 256                            # the marks of the blocks
        self.come, self.words = [0] * 256, [0] * 256     # the marks of the open block's words, and the words


def marked(marks, index):
    return index >= len(marks) or marks[index] != 0


def answered(message):
    """The message with its refusal as an answer. One that is refused has changed nothing."""
    def answer(*arguments):
        try:
            return message(*arguments)
        except Refused as r:
            return r.answer
    return answer


def test_image(image, blocks, size):
    if len(image) < 4 * blocks * size:
        raise Refused(24)


@answered
def flood_fill_start(receiver, image, last_block, block_size):
    blocks = last_block + 1
    test_image(image, blocks, block_size)
    if blocks > 256 or not 1 <= block_size <= 256 or blocks * block_size > 8192:
        raise Refused(25)
    receiver.__init__(blocks, block_size)
    return ('accepted',)


@answered
def flood_fill_block_start(receiver, image, block, size):
    test_image(image, receiver.blocks, receiver.full_size)
    if receiver.blocks == 0:
        raise Refused(26)
    if block >= receiver.blocks:
        raise Refused(27)
    shorter = block == receiver.blocks - 1 and size < receiver.full_size
    if size == 0 or size != receiver.full_size and not shorter:
        raise Refused(28)
    if marked(receiver.done, block):
        return ('ignored',)
    receiver.block, receiver.size, receiver.come = block, size, [0] * 256
    return ('accepted',)


@answered
def flood_fill_block_data(receiver, image, block, word_id, word):
    test_image(image, receiver.blocks, receiver.full_size)
    if block != receiver.block or word_id >= receiver.size or marked(receiver.come, word_id):
        return ('ignored',)
    receiver.words[word_id], receiver.come[word_id] = word, 1
    return ('accepted',)


@answered
def flood_fill_block_end(receiver, image, block):
    test_image(image, receiver.blocks, receiver.full_size)
    if receiver.size == 0 or block != receiver.block:
        raise Refused(29)
    missing = [k for k in range(receiver.size) if not marked(receiver.come, k)]
    if missing:
        return 'missing', len(missing), missing[0]
    data = b''.join(word.to_bytes(4, 'little') for word in receiver.words[:receiver.size])
    at = 4 * block * receiver.full_size
    if at + len(data) <= len(image):
        image[at:at + len(data)] = data
    receiver.block, receiver.size = 0, 0
    if block < len(receiver.done):
        receiver.done[block] = 1
    return ('done',)
