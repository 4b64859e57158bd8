"""Two plans compared: the byte addresses at which they differ, as stretches. Part of the independent second program; see model.py.

An answer is a tuple, as in model.py:
  ('refused', number, place, bytes that the output needed, of refusal 10; the plan that is refused: 0 neither, 1 the old one, 2 the new one)
  ('same run', stretches), ('other run', stretches)
A stretch is a list: first address, last address, old byte, new byte; the bytes are those at its first address, None where it is not stored.
"""
from model import Refused, read_plan

NEITHER, OLD, NEW = 0, 1, 2
MOST = 512  # stretches
LONGEST = 32768  # bytes of a plan that the program reads


def effect(pieces):
    """What the stretch from index 0 leaves: the last byte of each address that it stores, and its run address, None where it has no run."""
    memory = {}
    for piece in pieces:
        if piece[0] == 'run':
            return memory, piece[1]
        address, data = piece[1:]
        memory.update(zip(range(address, address + len(data)), data))
    return memory, None


def stretches_of(old, new):
    """The addresses at which two memories differ: ascending, each stretch as long as possible."""
    stretches = []
    for address in sorted(a for a in old.keys() | new.keys() if old.get(a) != new.get(a)):
        if stretches and stretches[-1][1] + 1 == address:
            stretches[-1][1] = address
        else:
            stretches.append([address, address, old.get(address), new.get(address)])
    return stretches


def compared(old, new, longest=2 ** 64):
    """The answer for two plans of at most so many bytes."""
    tested = NEITHER
    try:
        effects = []
        for tested, plan in (OLD, old), (NEW, new):
            if len(plan) > longest:
                raise Refused(11)
            effects.append(effect(read_plan(plan, 1, ends=True)))
        tested = NEITHER
        (old_memory, old_run), (new_memory, new_run) = effects
        stretches = stretches_of(old_memory, new_memory)
        if len(stretches) > MOST:
            raise Refused(18, MOST)
    except Refused as r:
        return r.answer + (tested,)
    return 'same run' if old_run == new_run else 'other run', stretches


def compare(old, new, output):
    """The answer; the stretches at the output's front, each as four words, 256 for a byte that is not stored."""
    if len(output) < 16 * MOST:
        return 'refused', 10, 0, 16 * MOST, NEITHER
    answer = compared(old, new)
    if answer[0] != 'refused':
        words = (256 if word is None else word for stretch in answer[1] for word in stretch)
        written = b''.join(word.to_bytes(4, 'little') for word in words)
        output[:len(written)] = written
    return answer


# ---- the program

def compare_plans(old, new):
    """What it writes to standard output and to standard error for the bytes of two files; None is a file that cannot be opened."""
    answer = compared(old or b'', new or b'', LONGEST)
    if answer[0] == 'refused':
        _, number, place, _, refused = answer
        return b'refused %d at %d\n' % (number, place), {NEITHER: b'', OLD: b'old is refused\n', NEW: b'new is refused\n'}[refused]
    lines = [' '.join(['%08x' % first, '%08x' % last, shown(old_byte), shown(new_byte)]) for first, last, old_byte, new_byte in answer[1]]
    return ''.join(line + '\n' for line in lines + [answer[0]]).encode(), b''


def shown(byte):
    return '--' if byte is None else '%02x' % byte
