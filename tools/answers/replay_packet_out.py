"""Packets out: encode, the Length step, the mask step, and all of it."""
KINDS = ['initial', '0rtt', 'handshake', 'retry', 'short', 'vneg']
LENGTHS = ['1 byte', '2 bytes', '3 bytes', '4 bytes']
# a header that cannot be written
HEADER = ['no 14 # ' + mark for mark in ('cid-over-20', 'cut-rule', 'u24-fourth-byte')]
SIZE, SHORT = 'no 14 # size-65527', 'no 15 # short-buffer'
# written with the type bits of version 2
LONG_2 = [kind + ' # version-2' for kind in KINDS[:4]]
TESTS = ['no 14 # ' + mark for mark in ('size-65527', 'short-of-header', 'header-tests')]

CLASSES = {
    'henc': [f'{kind}, {room}' for kind in KINDS for room in ('room left', 'no room left')]
    + [f'initial, token length of {n}' for n in ('1 byte', '2 bytes', '4 bytes')] + HEADER + [SIZE, SHORT] + LONG_2,
    'hlen': ['Length', 'Length # length-no-number', 'no Length', 'no number'] + TESTS + ['no 14 # length-16384'],
    'hmask': [f'{form}, {length}' for form in ('long', 'short') for length in LENGTHS] + ['no number']
    + TESTS + ['no 8 # short-of-sample', 'no 14 # form-bit'],
    'whole': KINDS + HEADER + [SIZE, 'no 14 # length-16384', 'no 8 # short-of-sample'] + LONG_2,
}


def henc(question, answer, mark):
    """A header's kind with whether the buffer is longer than it, and an Initial's token by its length field; of version 2 its kind
    alone; or the refusal."""
    words, said = question.split(' '), answer.split(' ')
    if said[0] == 'no':
        return [f'no {said[1]} # {mark}']
    if mark:
        return [f'{words[1]} # {mark}']
    found = [f'{words[1]}, {"room left" if len(said[4]) > 2 * int(said[1]) else "no room left"}']
    if words[1] == 'initial':
        token = 0 if words[7] == '-' else len(words[7]) // 2
        found.append(f'initial, token length of {"1 byte" if token < 64 else "2 bytes" if token < 16384 else "4 bytes"}')
    return found


def hlen(question, answer):
    if question[4] == '1':
        return 'Length'
    return 'no Length' if question[2] == '1' else 'no number'


def hmask(question, answer):
    """By the number's length that byte 0 has before it is masked."""
    if question[2] == '0':
        return 'no number'
    return f'{"long" if question[4] == "1" else "short"}, {LENGTHS[int(question[6][1], 16) % 4]}'


DETAIL = {'hlen': hlen, 'hmask': hmask, 'whole': lambda q, a: q[1]}
MANY = {'henc': henc}
