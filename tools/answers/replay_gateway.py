"""The C surface: every function's record."""
from answers import size
from answers.replay_frame import MALFORMED, TYPES, WHOLE, type_name
from answers.replay_number import CALLED, CEILING, LENGTHS, SPACE, STEPS, UNCALLED, UNNUMBERED, step_class
from answers.replay_packet import KINDS, LISTED, TWO, VERSION_2, listed, version_at

NUMBERED = list(SPACE)
SIZE, PAST, OFFSET, FORM = ' # size-65527', ' # place-past-the-slice', ' # number-offset', ' # form-bit'
# what a step leaves as it is in the spaces that it does not name
ODD = ['odd flag beside', 'number without flag beside', 'past 2^62 beside']
SPLIT = [kind + where for kind in KINDS for where in ('', ', later')]
HEADER = [f'{kind}, {length}' for kind in NUMBERED for length in LENGTHS] + ['retry', 'vneg']
ROOM = ['room left', 'no room left']
# what the type bits of version 2 decide
SPLIT_2 = [name + TWO for name in SPLIT[:8] + ['no 1', 'no 5', 'no 7']] + LISTED
HEADER_2 = [name + TWO for name in HEADER[:12] + ['retry'] + ROOM]

CLASSES = {
    'gsplit': SPLIT + SPLIT_2 + ['end', '4 with both connection ids']
    + [f'no {n}' for n in (1, 2, 3, 4, 5, 6, 7, 14)] + ['no 14' + mark for mark in (SIZE, ' # cid-over-20', ' # versions-16')],
    'gsample': ['sample', 'none', 'none' + PAST, 'no 8', 'no 8' + OFFSET, 'no 14', 'no 14' + OFFSET, 'no 14' + SIZE],
    'gunmask': [f'{kind}, {length}' for kind in NUMBERED for length in LENGTHS]
    + [f'{kind}, reserved {bits}' for kind in NUMBERED for bits in ('clear', 'set')] + [f'short, key phase {phase}' for phase in (0, 1)]
    + ['retry', 'vneg', 'retry' + PAST, 'vneg' + PAST, 'no 8', 'no 8' + OFFSET, 'no 14', 'no 14' + OFFSET, 'no 14' + FORM, 'no 14' + SIZE],
    'gframe': [type_name(ty) for ty in TYPES] + [f'{type_name(ty)} no 10' for ty in TYPES if ty not in WHOLE]
    + [f'{type_name(ty)} no 12' for ty in MALFORMED] + ['end', 'later', 'no 11', 'no type, no 10', 'no 13', 'no 14' + SIZE],
    'gnumber': [f'{kind}: {said}' for kind in NUMBERED for said in CALLED + ['read' + CEILING, 'no step', 'no flag'] + ODD]
    + [f'{kind}: {said}' for kind in UNNUMBERED for said in UNCALLED + ['no step']] + ['no kind'],
    'gheader': HEADER + ROOM + HEADER_2 + ['no 14']
    + ['no 14 # ' + mark for mark in ('cid-over-20', 'cut-rule', 'u24-fourth-byte', 'length-16384')] + ['no 14' + SIZE, 'no 15 # short-buffer'],
    'gmask': [f'{form}, {length}' for form in ('long', 'short') for length in LENGTHS] + ['no number', 'no 14']
    + ['no 14 # ' + mark for mark in ('short-of-header', 'header-tests')] + ['no 14' + SIZE, 'no 14' + FORM, 'no 8 # short-of-sample'],
}


def gsplit(q, a):
    if a[0] == '0' and a[1] == '6':
        return ['end']
    of_list = [listed(q[4])] if a[0] in ('0', '4') and version_at(q[5], int(q[1])) == VERSION_2 else []
    if a[0] != '0':
        return [f'no {a[0]}'] + (['4 with both connection ids'] if a[0] == '4' and '-' not in a[-2:] else []) + of_list
    return [KINDS[int(a[1])] + (', later' if a[5] != '0' else '')] + of_list


def gsample(q, a):
    return [f'no {a[0]}' if a[0] != '0' else 'sample' if a[2] != '0' else 'none']


def gunmask(q, a):
    if a[0] != '0':
        return [f'no {a[0]}']
    kind = KINDS[int(q[1])]
    if kind not in NUMBERED:
        return [kind]
    said = [f'{kind}, {size(int(a[4]))}', f'{kind}, reserved {"clear" if a[1] == "1" else "set"}']
    return said + ([f'short, key phase {a[2]}'] if kind == 'short' else [])


def gframe(q, a):
    refusal, found, has_type = a[:3]
    if found == '1':
        return [type_name(int(a[5]))] + (['later'] if a[3] != '0' else [])
    if refusal in ('10', '12'):
        return [f'{type_name(int(a[5])) if has_type == "1" else "no type,"} no {refusal}']
    return ['end' if refusal == '0' else f'no {refusal}']


def odd(q, a, named):
    """What is odd in the spaces that were not named, all of which must have come back."""
    given, after = [space.split(',') for space in q[6:]], [a[4 + 5 * i:9 + 5 * i] for i in range(3)]
    others = [i for i in range(3) if i != named]
    if any(given[i] != after[i] for i in others):
        return ['changed beside']
    found = set()
    for sent, acked, largest, *has in (map(int, given[i]) for i in others):
        pairs = list(zip((acked, largest), has))
        is_odd = max(has) > 1, any(n and not flag for n, flag in pairs), max(sent, acked, largest) >= 1 << 62
        found.update(name for name, holds in zip(ODD, is_odd) if holds)
    return sorted(found)


def gnumber(q, a):
    """By the kind that is named. Of a step that was done, and that the record comes back from, what is odd beside it too."""
    step, kind = int(q[1]), int(q[2])
    if kind >= len(KINDS):
        return ['no kind']
    kind = KINDS[kind]
    if step >= 4:
        return [f'{kind}: no step']
    step, refusal = STEPS[step], a[0]
    if kind in UNNUMBERED:
        return [f'{kind}: {step} no {refusal}']
    ends = q[6 + SPACE[kind]].split(',')
    if max(map(int, ends[3:])) > 1:
        return [f'{kind}: no flag']
    if refusal != '0':
        return [f'{kind}: {step} no {refusal}']
    has, largest = (ends[3], ends[1]) if step == 'acknowledge' else (ends[4], ends[2])
    said = step_class(step, f'ok {a[3]} {a[2]}', has == '0' or int(q[3]) > int(largest))
    return [f'{kind}: {name}' for name in [said] + (odd(q, a, SPACE[kind]) if step != 'read' else [])]


def gheader(q, a):
    if a[0] != '0':
        return [f'no {a[0]}']
    kind = KINDS[int(q[1])]
    return [f'{kind}, {size(int(a[3]))}' if kind in NUMBERED else kind, 'room left' if len(a[4]) > 2 * int(a[2]) else 'no room left']


def gmask(q, a):
    """By the number's length that byte 0 has before it is masked."""
    if a[0] != '0':
        return [f'no {a[0]}']
    return ['no number' if q[2] == '0' else f'{"long" if q[3] == "1" else "short"}, {LENGTHS[int(q[5][1], 16) % 4]}']


def marked(classes):
    """A mark belongs to all of an answer's classes."""
    def of(question, answer, mark):
        found = classes(question.split(' '), answer.split(' '))
        return [f'{name} # {mark}' for name in found] if mark else found
    return of


DETAIL = {}
MANY = {op: marked(classes) for op, classes in
        dict(gsplit=gsplit, gsample=gsample, gunmask=gunmask, gframe=gframe, gnumber=gnumber, gheader=gheader, gmask=gmask).items()}
