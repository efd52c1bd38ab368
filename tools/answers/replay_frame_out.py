"""The encoders of frames, the codecs beside them, the sizes."""
from answers import size

INTEGERS = ['reset', 'stop', 'ackfreq', 'counts', 'type', 'id', 'code']
FRAMES = INTEGERS + ['crypto', 'token', 'datagram', 'stream', 'newcid', 'close', 'appclose', 'ack']
KINDS = {
    'datagram': ['datagram', 'datagram, length'],
    'stream': [f'stream{offset}{fin}{length}' for offset in ('', ', offset') for fin in ('', ', fin') for length in ('', ', length')],
    'close': [f'close{ty}, reason {kept}' for ty in (', no type', ', type 0', ', type') for kept in ('whole', 'cut', 'left out')],
    'appclose': [f'appclose, reason {kept}' for kept in ('whole', 'cut', 'left out')],
    'ack': ['ack', 'ack, ECN'],
}
# the frames that each difference refuses with 14
REFUSED = {
    'varint-62': INTEGERS + ['crypto', 'stream', 'newcid', 'close', 'appclose', 'ack'],
    'stream-end': ['stream'],
    'ncid-out': ['newcid'],
    'cid-over-20': ['newcid'],
    'max-len': ['close', 'appclose'],
    'ack-list': ['ack'],
    'size-65527': ['crypto', 'token', 'datagram', 'close', 'appclose', 'ack'],
}
# a close by the size of its error code: the Rust counts two bytes for it, and where that tells there is a mark
CODE = {n: f'close, code of {size(n)}' for n in (1, 2, 4, 8)}
COUNTED = list(CODE.values()) + [f'{CODE[n]} # close-code' for n in (1, 4, 8)]
COUNTED += [f'{CODE[n]} no 14 # close-code' for n in (4, 8)] + [f'{CODE[1]} no 15 # close-code']
WHAT = ['type', 'id', 'code']
SIZED = ['token', 'datagram', 'datagram, length']

CLASSES = {
    'fenc': [kind for frame in FRAMES for kind in KINDS.get(frame, [frame])] + [f'{frame} no 15 # short-buffer' for frame in FRAMES]
    + [f'{frame} no 14 # {mark}' for mark, frames in REFUSED.items() for frame in frames] + COUNTED,
    'fdec': [f'{what}, {size(n)}' for what in WHAT for n in (1, 2, 4, 8)] + [f'{what} no 10' for what in WHAT],
    'fsize': SIZED + [f'{name} no 14 # size-65527' for name in SIZED],
    'bounds': ['bounds'],
}


def integer(b, at):
    """The integer at a place, and the place past it."""
    n = 1 << (b[at] >> 6)
    return int.from_bytes(b[at:at + n], 'big') % (1 << 8 * n - 2), at + n


def reason(given, written, fields):
    """How much of a close's reason stands behind so many integers, the last of which is its length."""
    b, at, given = bytes.fromhex(written), 0, 0 if given == '-' else len(given) // 2
    for _ in range(fields):
        kept, at = integer(b, at)
    return f', reason {"whole" if kept == given else "cut" if kept else "left out"}'


def written(q, a):
    """The kind of a frame that was written."""
    frame = q[1]
    if frame == 'datagram':
        return frame + (', length' if q[2] == '1' else '')
    if frame == 'stream':
        return frame + (', offset' if q[3] != '0' else '') + (', fin' if q[5] == '1' else '') + (', length' if q[6] == '1' else '')
    if frame == 'close':
        return frame + {'-': ', no type', '0': ', type 0'}.get(q[5], ', type') + reason(q[6], a[2], 4)
    if frame == 'appclose':
        return frame + reason(q[5], a[2], 3)
    if frame == 'ack':
        return frame + (', ECN' if q[3] != '-' else '')
    return frame


def named(name, kind):
    """The class of an answer: its kind or, with what was asked, its refusal."""
    def classes(question, answer, mark):
        q, a = question.split(' '), answer.split(' ')
        said = f'{name(q)} no {a[1]}' if a[0] == 'no' else kind(q, a)
        return [f'{said} # {mark}' if mark else said]
    return classes


def counted(q, a, mark):
    """The class of a close by the size of its error code."""
    said = CODE[next(n for n in CODE if int(q[3]) < 1 << 8 * n - 2)] + (f' no {a[1]}' if a[0] == 'no' else '')
    return f'{said} # {mark}' if mark else said


def fenc(question, answer, mark):
    """The classes of an encoder's answer: one, and of a close that is written or marked that of its error code."""
    q, a = question.split(' '), answer.split(' ')
    if q[1] != 'close' or a[0] == 'no' and mark != 'close-code':
        return named(lambda q: q[1], written)(question, answer, mark)
    return [counted(q, a, mark)] + ([written(q, a)] if a[0] == 'ok' else [])


DETAIL = {'bounds': lambda q, a: 'bounds'}
MANY = {
    'fenc': fenc,
    'fdec': named(lambda q: WHAT[int(q[1])], lambda q, a: f'{WHAT[int(q[1])]}, {size(int(a[2]) - int(q[2]))}'),
    'fsize': named(lambda q: SIZED[int(q[1])], lambda q, a: SIZED[int(q[1])]),
}
