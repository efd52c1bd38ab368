"""Packet numbers cut and read back, and runs of steps over the two number ends, of one space and of three."""
from answers import size
from answers.replay_packet import KINDS

LENGTHS = ['1 byte', '2 bytes', '3 bytes', '4 bytes']
WAYS = ['candidate', '+ window', '- window']
SHORT, U24, FAR, PAST_62, RULE = ' # short-buffer', ' # u24-fourth-byte', ' # number-too-far', ' # number-62', ' # cut-rule'
CEILING = ' # ceiling'
# the steps of a run, by their numbers
STEPS = ['send', 'acknowledge', 'read', 'accept', 'set next', 'set acked', 'set largest']
# the kinds that have a number, each with the place of its space; those that have none
SPACE = {'initial': 0, '0rtt': 2, 'handshake': 1, 'short': 2}
UNNUMBERED = ['retry', 'vneg']
# what calls say in a space, and where there is none; and to an acknowledgement of a number that only another space sent
CALLED = [f'send, {length}' for length in LENGTHS] + ['send no 14', 'send no 16', 'read', 'read no 14'] \
    + [f'{step}{said}' for step in ('acknowledge', 'accept') for said in (', larger', ', no larger', ' no 14')]
UNCALLED = [f'{step} no 14' for step in STEPS[:4]]
ELSEWHERE = 'acknowledge elsewhere no 14'

CLASSES = {
    'pnnew': LENGTHS + ['3 bytes' + U24, 'no 14' + PAST_62, 'no 14' + FAR, 'no 16' + FAR],
    'pnexp': [f'{length}, {way}' for length in LENGTHS for way in WAYS + ['candidate' + CEILING]] + ['no 14' + mark for mark in (RULE, U24, PAST_62)],
    'pndec': LENGTHS + ['no 14' + RULE],
    'pnenc': LENGTHS + ['no 14' + RULE, 'no 14' + U24, 'no 15' + SHORT],
    'pnlen': LENGTHS,
    'pntag': LENGTHS + ['no 14' + RULE, 'no 14' + U24],
    'ends': CALLED + STEPS[4:] + ['run' + CEILING],
    'spaces': [f'{kind}: {said}' for kind in SPACE for said in CALLED + [ELSEWHERE] + STEPS[4:]]
    + [f'{kind}: {said}' for kind in UNNUMBERED for said in UNCALLED + STEPS[4:]] + ['run' + CEILING],
}


def way(k, value, expected, n):
    """How a cut number was read: as the expected one with its last bytes, or a window off."""
    candidate = expected - expected % 256**k + value
    return f'{size(k)}, {WAYS[(n > candidate) - (n < candidate)]}'


def step_class(step, said, has_moved):
    """The class of one step of a run."""
    words = said.split(' ')
    if words[0] == 'no':
        return f'{step} {said}'
    if step == 'send':
        return f'send, {size(int(words[2]))}'
    if step in ('acknowledge', 'accept'):
        return step + (', larger' if has_moved else ', no larger')
    return step


def steps_of(question, answer, first, spaces):
    """Of each step of a run, its first bytes, its number, what it says, and the record of so many spaces before and after it."""
    steps, said = bytes.fromhex(question.split(' ')[1]), [part.partition(' : ') for part in answer.split(';')[:-1]]
    records = [' '.join(['0 - -'] * spaces)] + [record for _, _, record in said]
    for i, (text, _, _) in enumerate(said):
        step = steps[(first + 12) * i:]
        yield step[:first], int.from_bytes(step[first:first + 8], 'big'), text, records[i], records[i + 1]


def run_class(mark):
    return [f'run # {mark}'] if mark else []


def ends(question, answer, mark):
    """The class of each step; and of the run, where it has a mark."""
    steps = steps_of(question, answer, 1, 1)
    return [step_class(STEPS[step], said, before != after) for (step,), _, said, before, after in steps] + run_class(mark)


def is_elsewhere(kind, n, record):
    """Whether a number was sent, but not in the kind's space."""
    nexts = [int(word) for word in record.split(' ')[::3]]
    return nexts[SPACE[kind]] <= n < max(nexts)


def spaces(question, answer, mark):
    """The same for runs over three spaces, by the kind that each step names."""
    found = []
    for (step, kind), n, said, before, after in steps_of(question, answer, 2, 3):
        kind, name = KINDS[kind], step_class(STEPS[step], said, before != after)
        if name == 'acknowledge no 14' and kind in SPACE and is_elsewhere(kind, n, before):
            name = ELSEWHERE
        found.append(f'{kind}: {name}')
    return found + run_class(mark)


DETAIL = {
    'pnnew': lambda q, a: size(int(a[1])),
    'pnexp': lambda q, a: way(*map(int, q[1:]), int(a[1])),
    'pndec': lambda q, a: size(int(a[1])),
    'pnenc': lambda q, a: size(int(a[1])),
    'pnlen': lambda q, a: size(int(a[0])),
    'pntag': lambda q, a: size(int(a[1]) + 1),
}
MANY = {'ends': ends, 'spaces': spaces}
