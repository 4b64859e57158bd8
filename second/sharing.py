"""Plans packed for APLX with equal data kept once. Part of the independent second program; see model.py.

An answer is a tuple, as in model.py: ('refused', number, place, bytes that the output needed, of refusal 10), ('size', bytes)
"""
import struct

from model import Refused, converted, read_plan

RCOPY, FILL, EXEC, END = 2, 3, 4, 0xffffffff


def packed(pieces):
    """The image. A dict keeps the contents of the puts in the order in which they come, each once, with the place of its copy."""
    copies, end = {}, 16 * (len(pieces) + 1)
    entries = []
    for index, (kind, address, *data) in enumerate(pieces):
        if kind == 'run':
            entries.append((EXEC, address, 0, 0))
        elif kind == 'fill':
            entries.append((FILL, address, len(data[0]), int.from_bytes(data[0][:4], 'little')))
        else:
            if data[0] not in copies:
                copies[data[0]] = end
                end += len(data[0])
            entries.append((RCOPY, address, copies[data[0]] - 16 * index, len(data[0])))
    entries.append((END, 0, 0, 0))
    return b''.join(struct.pack('<4I', *entry) for entry in entries) + b''.join(copies)


def pack_aplx_shared(plan, output):
    """The answer; the image at the output's front."""
    try:
        pieces = read_plan(plan, 32)
        image = packed(pieces)
        if len(image) > len(output):
            raise Refused(10, len(pieces), len(image))
    except Refused as r:
        return r.answer
    output[:len(image)] = image
    return 'size', len(image)


def plan_to_shared_aplx(plan):
    return converted(pack_aplx_shared, plan)
