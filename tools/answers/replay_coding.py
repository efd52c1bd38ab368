"""Integers, reads and puts, connection ids, stream ids, ECN bits, frame types."""
from answers import size

SIZES = ['1 byte', '2 bytes', '4 bytes', '8 bytes']
WIDTHS = ['8 bits', '16 bits', '32 bits', '64 bits']
CIDS = ['length 0', 'length 1 to 19', 'length 20']
STREAMS = ['client bi', 'client uni', 'server bi', 'server uni']
SHORT, PAST, OVER = ' # short-buffer', ' # place-past-the-slice', ' # cid-over-20'

CLASSES = {
    'vread': SIZES + ['no 10'],
    'vfrom': ['ok', 'no 14'],
    'vsize': SIZES + ['no 14 # varint-62'],
    'vwrite': SIZES + ['no 14 # varint-62', 'no 15' + SHORT],
    'vput': SIZES + ['nothing # varint-62', 'nothing' + SHORT, 'nothing' + PAST],
    'get': WIDTHS + ['no 10'],
    'put': WIDTHS + [width + mark for width in WIDTHS for mark in (SHORT, PAST)],
    'puts': ['empty', 'bytes', 'empty' + PAST, 'bytes' + PAST, 'bytes' + SHORT],
    'take': ['empty', 'bytes', 'no 10', 'no 10 # varint-62', 'no 10' + PAST],
    'part': ['empty', 'bytes', 'empty' + PAST],
    'cidnew': CIDS + ['no 14' + OVER],
    'cidbuf': CIDS + ['no 14' + OVER, 'no 10 # cid-cut', 'no 10' + PAST],
    'ciddec': CIDS + ['no 3'],
    'cidenc': CIDS + ['no 14' + OVER, 'no 15' + SHORT],
    'ecnbits': ['none', 'ect1', 'ect0', 'ce'],
    'sidnew': STREAMS + ['no 14 # stream-index-60'],
    'sid': STREAMS,
    'ftypes': ['types'],
}


def cid(length):
    return 'length 0' if length == 0 else 'length 20' if length == 20 else 'length 1 to 19'


def empty(word):
    return 'empty' if word in ('-', '0') else 'bytes'


def stream(side, direction):
    return STREAMS[2 * int(side) + int(direction)]


DETAIL = {
    'vread': lambda q, a: size(int(a[2]) - int(q[1])),
    'vsize': lambda q, a: size(int(a[1])),
    'vwrite': lambda q, a: size(int(a[1])),
    'vput': lambda q, a: size(int(a[0]) - int(q[1])),
    'get': lambda q, a: f'{8 * int(q[1])} bits',
    'put': lambda q, a: f'{8 * int(q[1])} bits',
    'puts': lambda q, a: empty(q[2]),
    'take': lambda q, a: empty(a[2]),
    'part': lambda q, a: empty(a[0]),
    'cidnew': lambda q, a: cid(int(a[1])),
    'cidbuf': lambda q, a: cid(int(a[1])),
    'ciddec': lambda q, a: cid(int(a[1])),
    'cidenc': lambda q, a: cid(int(q[1])),
    'ecnbits': lambda q, a: a[0] if a[0] == 'none' else CLASSES['ecnbits'][int(a[1])],
    'sidnew': lambda q, a: stream(q[1], q[2]),
    'sid': lambda q, a: stream(a[0], a[1]),
    'ftypes': lambda q, a: 'types',
}
MANY = {}
