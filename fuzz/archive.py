"""The archive's code as it lies in the linked program: its functions, their instructions and blocks, by nm and objdump."""
import collections
import re

from job import quiet

Instruction = collections.namedtuple('Instruction', 'at bytes text')
LINE = re.compile(r'^ *([0-9a-f]+):\t((?:[0-9a-f]{2} )+) *\t(.*)$')
JUMP = re.compile(r'(?:bnd |notrack )?j\w+ +([0-9a-f]+)\b')
# What ends a block, and what fills up between two functions.
END = re.compile(r'(bnd |notrack )?(j|ret|ud2)')
FILLER = re.compile(r'(data16 |cs )*(nop|xchg +%ax,%ax|int3)')


def symbols(path):
    """Functions, with where they start and end."""
    for line in quiet(['nm', '--defined-only', '--format=posix', path]).splitlines():
        name, kind, *place = line.split() if line.count(' ') > 1 else ('', ' ')
        if kind in 'tT' and len(place) == 2:
            start, size = (int(x, 16) for x in place)
            yield name, start, start + size


def functions(program, archive):
    """The instructions of each of the archive's functions."""
    known = {name for name, _, _ in symbols(archive)}
    found = {name: instructions(program, start, end) for name, start, end in symbols(program) if name in known}
    return found


def instructions(program, start, end):
    text = quiet(['objdump', '-d', '-w', f'--start-address={start}', f'--stop-address={end}', program])
    return [Instruction(int(m[1], 16), bytes.fromhex(m[2]), m[3]) for m in map(LINE.match, text.splitlines()) if m]


def blocks(code):
    """The instructions that start a block: the first, what a jump goes to, and what follows one unless it fills up."""
    targets = {int(m[1], 16) for m in map(JUMP.match, (i.text for i in code)) if m}
    found, is_next = [], True
    for i in code:
        if i.at in targets or is_next and not FILLER.match(i.text):
            found.append(i)
            is_next = False
        is_next = is_next or bool(END.match(i.text))
    return found


def write_list(path, blocks):
    """The blocks of all functions, as the program reads them: where each starts, and its first byte."""
    with open(path, 'w') as f:
        f.writelines(f'{i.at:x} {i.bytes[0]:02x}\n' for i in sorted(i for starts in blocks.values() for i in starts))
    return path
