"""Another firm's APLX image checked against the plan that it was packed from. Part of the independent second program; see model.py.

An answer is a tuple, as in model.py: ('refused', number, place, 0), ('checked',)
"""
import struct

from model import Refused, read_plan

RCOPY, FILL, EXEC, END = 2, 3, 4, 0xffffffff
MOST = 256  # entries


def taken(rest, at, entry, behind, image):
    """How many bytes the entry at an offset takes of what is left of a piece; None where it is not its run or its next part. Behind is the
    offset behind the end entry."""
    kind, address, *data = rest
    command, to, third, fourth = entry
    if to != address:
        return None
    if kind == 'run':
        return 0 if command == EXEC else None
    size = third if kind == 'fill' else fourth
    if size % 32 or not 32 <= size <= len(data[0]):
        return None
    if kind == 'fill':
        return size if command == FILL and fourth.to_bytes(4, 'little') == data[0][:4] else None
    start = (at + third) % 2 ** 32
    if command != RCOPY or start % 4 or start < behind or start + size > len(image):
        return None
    return size if image[start:start + size] == data[0][:size] else None


def match(pieces, entries, image):
    """Takes the pieces off, entry by entry, up to the end; refused at the first entry that is not the one that is due."""
    ends = [index for index, entry in enumerate(entries) if entry[0] == END]
    if not ends:
        raise Refused(30, len(entries))
    left = list(pieces)
    for index, entry in enumerate(entries[:ends[0]]):
        size = taken(left[0], 16 * index, entry, 16 * (ends[0] + 1), image) if left else None
        if size is None:
            raise Refused(30, index)
        kind, address, *data = left.pop(0)
        if data and size < len(data[0]):
            left.insert(0, (kind, address + size, data[0][size:]))
    if left:
        raise Refused(30, ends[0])


def check(plan, image):
    """The answer."""
    try:
        pieces = read_plan(plan, 1)
        whole = min(len(image) // 16, MOST)
        match(pieces, list(struct.iter_unpack('<4I', image[:16 * whole])), image)
    except Refused as r:
        return r.answer
    return ('checked',)
