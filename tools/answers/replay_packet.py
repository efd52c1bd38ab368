"""Packets in: header decode, split, walk, dump."""
VERSION_2 = 0x6b3343cf
KINDS = ['initial', '0rtt', 'handshake', 'retry', 'short', 'vneg']
SIZE, OVER, COUNT, TWO = ' # size-65527', ' # cid-over-20', ' # versions-16', ' # version-2'
# refusals of a header by its bytes, and of an argument
HEADER = [f'no {n}' for n in (1, 2, 3, 4, 5, 6)]
OUTSIDE = ['no 14' + mark for mark in (SIZE, OVER, COUNT)]
# of a walk its packets and its end, and where a refusal stands
ENDS = ['end', 'end after several']
WALKED = KINDS + ENDS
WHERE = ['', ' after a packet']
# of a packet of version 2 that is read, and of one that is not listed: which of 1 and 2 are listed, in their order
LISTED = [f'listed: {versions}{TWO}' for versions in ('2', '1 then 2', '2 then 1')] + ['listed: 1', 'listed: neither']
SPLIT = [f'{kind}, {rest}' for kind in KINDS[:3] for rest in ('a rest', 'no rest')]
# what the type bits of version 2 decide
LONG_2 = [kind + TWO for kind in KINDS[:4]]
SPLIT_2 = [f'{name}{TWO}' for name in SPLIT + ['retry', 'no 1', 'no 5', 'no 7']] + LISTED
WALKED_2 = LONG_2 + ['both versions' + TWO] + [end + TWO for end in ENDS + [f'refused {n}' for n in (1, 5, 7)]]

CLASSES = {
    'decode': KINDS + HEADER + OUTSIDE + LONG_2 + ['no 1' + TWO, 'no 5' + TWO] + LISTED,
    'split': SPLIT + KINDS[3:] + HEADER + ['no 7'] + OUTSIDE + SPLIT_2,
    'walk': WALKED + [f'refused {n}{where}' for n in (1, 2, 3, 4, 5, 6, 7) for where in WHERE] + ['refused 14' + mark for mark in (SIZE, OVER, COUNT)]
    + WALKED_2 + [f'refused {n} after a packet{TWO}' for n in (1, 2, 3, 4, 5, 6, 7)],
    'dump': WALKED + [f'refused {n}{where}' for n in (1, 2, 3, 4, 5, 7) for where in WHERE] + ['refused 14' + SIZE, 'no 15'],
}


def version_at(datagram, start):
    """The version of the long packet that starts at a place of a datagram; none in a short one."""
    at = 2 * start
    return int(datagram[at + 2:at + 10], 16) if datagram[at:at + 1] >= '8' and len(datagram) >= at + 10 else None


def listed(versions):
    """Which of 1 and 2 are listed, in their order."""
    names = {'1': '1', str(VERSION_2): '2'}
    return f'listed: {" then ".join(dict.fromkeys(names[v] for v in versions.split(",") if v in names)) or "neither"}'


def header(kind):
    """The class of a header, by its kind, or of its refusal; and what is listed where it is of version 2."""
    def classes(question, answer, mark):
        words, said = question.split(' '), answer.split(' ')
        found = [f'no {said[1]}' if said[0] == 'no' else kind(said)]
        if (said[0] == 'ok' or said[1] == '4') and version_at(words[4], 0) == VERSION_2:
            found.append(listed(words[3]))
        return [f'{name} # {mark}' if mark else name for name in found]
    return classes


def split(answer):
    """A packet's kind and, where it can end before the datagram does, whether something follows."""
    kind = answer[1]
    return kind if kind in KINDS[3:] else f'{kind}, {"no rest" if answer[-2] == "none" else "a rest"}'


def walked(datagram, packets, mark):
    """The kind of each packet, those of version 2 apart; whether there are both versions; and how the walk ended."""
    last = packets.pop().split(' ')
    if last[0] == 'end':
        said = 'end after several' if len(packets) > 1 else 'end'
    else:
        said = f'refused {last[2]}' + (' after a packet' if packets else '')
    words = [packet.split(' ') for packet in packets]
    versions = [version_at(datagram, int(start)) for start, *_ in words]
    kinds = [kind + (TWO if version == VERSION_2 else '') for (_, _, kind, _), version in zip(words, versions)]
    both = ['both versions' + TWO] if {1, VERSION_2} <= set(versions) else []
    return kinds + both + [f'{said} # {mark}' if mark else said]


DETAIL = {}
MANY = {
    'decode': header(lambda said: said[1]),
    'split': header(split),
    'walk': lambda question, answer, mark: walked(question.split(' ')[4], answer.split('; '), mark),
    'dump': lambda question, answer, mark: [answer] if answer == 'no 15' else walked(question.split(' ')[2], answer.split(';')[:-1], mark),
}
