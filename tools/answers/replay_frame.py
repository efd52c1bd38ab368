"""Frames read: the walk over a payload, the ACK block scan, AckIter, the ECN counts."""
TYPES = [*range(0x20), 0x30, 0x31, 0xAF]
# the types whose fields cannot be cut, and those that can be malformed
WHOLE = [0x00, 0x01, 0x1E, 0x1F, 0x30]
MALFORMED = [0x02, 0x03, 0x18]
PAST, SIZE, NUMBER, INTEGER = ' # place-past-the-slice', ' # size-65527', ' # number-62', ' # varint-62'
LAST, UNSCANNED, LIMIT = ' # last-ty', ' # ack-iter-unscanned', ' # ecn-limit'


def type_name(ty):
    return f'{ty:02x}'


CLASSES = {
    'frames': [type_name(ty) for ty in TYPES] + [f'{type_name(ty)} no 10' for ty in TYPES if ty not in WHOLE]
    + [f'{type_name(ty)} no 12' for ty in MALFORMED] + ['no 11', 'no type, no 10', 'no type, no 10' + LAST, 'no 13', 'no 14' + SIZE],
    'ackscan': ['one range', 'more ranges', 'no 10', 'no 12', 'no 10' + PAST] + ['no 14' + mark for mark in (SIZE, NUMBER, INTEGER)],
    'ackiter': ['range', 'end', 'no 10' + UNSCANNED, 'no 12' + UNSCANNED, 'no 14' + SIZE, 'no 14' + NUMBER],
    'ecn': ['none', 'ect1', 'ect0', 'ce', 'no 14' + LIMIT],
}


def frame_class(words):
    """The class of a frame, by its type as it was read, or of a refusal."""
    if words[2] != 'no':
        return type_name(int(words[2]))
    number, ty = words[3:5]
    if number == '11':
        return 'no 11'
    return f'{"no type," if ty == "-" else type_name(int(ty))} no {number}'


def with_mark(classes, mark):
    """A mark belongs to the last."""
    return classes[:-1] + [f'{classes[-1]} # {mark}'] if mark else classes


def frames(question, answer, mark):
    """The class of each frame."""
    if answer.startswith('no '):
        return with_mark([answer], mark)
    return with_mark([frame_class(frame.split(' ')) for frame in answer.split(' ; ')[1:]], mark)


def ackiter(question, answer, mark):
    """The class of each step."""
    said = [step.partition(' : ')[0] for step in answer.split(';')[:-1]]
    return with_mark([text if text[0] in 'en' else 'range' for text in said], mark)


DETAIL = {
    'ackscan': lambda q, a: 'one range' if len(a) == 3 else 'more ranges',
    'ecn': lambda q, a: a[0] if a[0] == 'none' else CLASSES['ecn'][int(q[4]) % 4],
}
MANY = {'frames': frames, 'ackiter': ackiter}
