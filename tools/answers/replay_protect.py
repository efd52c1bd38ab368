"""Header protection taken off: the sample's place, and finish."""
LENGTHS = ['1 byte', '2 bytes', '3 bytes', '4 bytes']
NUMBERED = ['initial', '0rtt', 'handshake', 'short']
PAST, OFFSET, FORM, SIZE = ' # place-past-the-slice', ' # number-offset', ' # form-bit', ' # size-65527'

CLASSES = {
    'finish': [f'{kind}, {length}' for kind in NUMBERED for length in LENGTHS]
    + [f'{kind}, reserved {bits}' for kind in NUMBERED for bits in ('clear', 'set')] + [f'short, key phase {phase}' for phase in (0, 1)]
    + ['retry', 'vneg', 'retry' + PAST, 'vneg' + PAST, 'no 8', 'no 8' + OFFSET, 'no 14' + OFFSET, 'no 14' + FORM, 'no 14' + SIZE],
    'sample': ['ok', 'none', 'none' + PAST, 'no 8', 'no 8' + OFFSET, 'no 14' + OFFSET, 'no 14' + SIZE],
}


def finish(question, answer, mark):
    """The packet's kind with its number's length, its reserved bits and a short packet's key phase; or the refusal."""
    words = answer.split(' ')
    tail = f' # {mark}' if mark else ''
    if words[0] == 'no':
        return [f'no {words[1]}{tail}']
    kind, k, _, reserved, phase = words[1:6]
    if k == '-':
        return [kind + tail]
    said = [f'{kind}, {LENGTHS[int(k) - 1]}', f'{kind}, reserved {"clear" if reserved == "1" else "set"}']
    return said if phase == '-' else said + [f'{kind}, key phase {phase}']


DETAIL = {}
MANY = {'finish': finish}
