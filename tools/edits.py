"""edits: small wrong changes as text, and what the check says of them, for tools/proof (must-fail edits) and tools/twins.

`file: PATH` holds for the pairs of lines `old: TEXT` and `new: TEXT` after it; `# ..` says what the edit shows. TEXT is one line, and
`old` stands in its file exactly once. After `all: FOLDER` (twins alone) `old` is changed wherever it stands in code, definitions and
proofs below that folder, once at least. All pairs are made at once, of the text as it was.

The words of an error tell only what kind it is. `search` finds no proof of a goal that is false, and none of a true one where it does not
read a test; a fact that is stronger than the one that is asked for (11 ≤ v for 10 ≤ v) differs from it too, and nothing is lost. So the
error is printed, and a person judges whether what is to be proved there is false.
"""
import collections
import hashlib
import os
import re
import shutil
import subprocess

Edit = collections.namedtuple('Edit', 'says pairs')  # pairs: (file, old, new)


def parse(text):
    says, pairs, file, old = [], [], None, None
    for line in text.split('\n'):
        word, _, rest = line.partition(' ')
        if word == '#':
            says.append(rest)
        elif word in ('file:', 'all:'):
            file = rest if word == 'file:' else rest.rstrip('/') + '/'
        elif word == 'old:':
            old = rest
        elif word == 'new:':
            pairs.append((file, old, rest))
            old = None
    return Edit(' '.join(says), pairs)


def texts(folder):
    """The files of code, definitions and proofs below a folder; not what rt makes."""
    for top, folders, names in os.walk(folder):
        folders[:] = sorted(f for f in folders if f != 'out')
        yield from (os.path.join(top, f) for f in sorted(names) if f.endswith(('.rt', '.antt')))


def places(folder, file, old):
    """(file, place) of each `old` that a pair changes; ValueError where they are not as many as they must be."""
    files = [file]
    if file.endswith('/'):
        files = sorted(os.path.relpath(f, folder) for f in texts(os.path.join(folder, file)))
    elif not os.path.isfile(os.path.join(folder, file)):
        raise ValueError(f'there is no {file}')
    found = [(f, m.start()) for f in files for m in re.finditer(re.escape(old), open(os.path.join(folder, f)).read())] if old else []
    if not found or len(found) > 1 and not file.endswith('/'):
        raise ValueError(f'{file}: `{old}` stands there {len(found)} times')
    return found


def edited(folder, pairs):
    """{file: its text with the pairs made}"""
    cuts = collections.defaultdict(list)
    for file, old, new in pairs:
        for f, at in places(folder, file, old):
            cuts[f].append((at, at + len(old), new))
    made = {}
    for f, changes in cuts.items():
        text, last = open(os.path.join(folder, f)).read(), None
        for at, end, new in sorted(changes, reverse=True):
            if last is not None and end > last:
                raise ValueError(f'{f}: two edits overlap')
            text, last = text[:at] + new + text[end:], at
        made[f] = text
    return made


# ---- a copy of the repository, checked

def crates():
    """{crate: what it depends on} of this repository, in the order of crates.txt."""
    lines = [re.sub(r'#.*', '', line).partition(':') for line in open('crates.txt')]
    deps = {head.split()[0]: rest.split() for head, colon, rest in lines if colon}
    return {c: [d for d in ds if d in deps] for c, ds in deps.items()}


def copied(top, changed):
    """The repository in the folder top, with these texts in place of its own. rt begins there with what it proved in other checkouts."""
    shutil.copytree('crates', f'{top}/crates', ignore=shutil.ignore_patterns('out'))
    shutil.copy('crates.txt', top)
    for file, text in changed.items():
        with open(f'{top}/{file}', 'w') as f:
            f.write(text)


def checked(top, crate):
    """(exit status, what was printed) of a crate's check in a copy."""
    said = {'stdin': subprocess.DEVNULL, 'stdout': subprocess.PIPE, 'stderr': subprocess.STDOUT, 'text': True, 'errors': 'replace'}
    run = subprocess.run(['rt', 'check', '--jobs', '1'], cwd=f'{top}/crates/{crate}', **said)
    return run.returncode, run.stdout


def stamp(crate, edit):
    """A sum of what the check of a crate with an edit stands on."""
    deps, below = crates(), [crate]
    for c in below:
        below += [d for d in deps.get(c, []) if d not in below]
    found = hashlib.sha256(edit.encode())
    for file in (file for c in sorted(below) for file in texts(f'crates/{c}')):
        found.update(f'{file}\n{open(file).read()}\n'.encode())
    return found.hexdigest()


# ---- what a check says

SHORT = [(r'Prim\.Native\.Nat\.|lib\.(ListN|Dec|Seq)\.|mathlib\.Core\.\w+\.', ''), (r'Rattle\.\w+\.(proofs|specs)\.', '')]


def shorten(line, width):
    for pattern, new in SHORT:
        line = re.sub(pattern, new, line)
    return line[:width]


# What a first error says, as (pattern, in words, whether a fact is lost). The first pattern that is found counts.
ERRORS = [
    (r'^\[', 'the code is no program', False),
    (r'has no `|has no field|missing field|expected type `goal\.|field\(s\)', 'the proof does not fit the code', False),
    (r'not in scope|no such name|no definition|is not a definition|does not exist', 'a name is not known', False),
    (r'was not admitted|unsolved|Parse|expected a function', 'the proof is not read', False),
    (r'ran out of|outgrew the memory limit|stopped at the step limit|ResourceLimit', 'a limit of the prover is met', False),
    (r'no occurrence of', 'what is rewritten is not there', False),
    (r'^`omega`: .*does not follow from what it read', 'the numbers do not add up', True),
    (r'^`omega`', '`omega` does not tell', False),
    (r'^`search`: no proof of .*Every way was tried', '`search` finds no proof', True),
    (r'^`search`', '`search` gave up', False),
    (r'differ only where one has (`[^`]*`)[^`]*and the other has (`[^`]*`)', r'expected \1, found \2', True),
    (r'differ only where one has', 'the two sides are not equal', True),
    (r'two types are (`[^`]*`) \(expected\) and (`[^`]*`) \(found\)', r'expected \1, found \2', True),
    (r'^it is not proved that', 'no proof is found', True),
    (r'two ends are equal|the two types|the two sides first differ|but this has type|BoundaryMismatch', 'the two sides are not equal', True),
]
# a proof names what the edit took away; that, or what such a proof is cited for, counts only where nothing else is told
GONE = re.compile(r'has no field|is not in scope|has no `')
CITED = re.compile(r'was not admitted|(was|were) not checked')
TOLD = re.compile(r'(?m)^(?:note: )?(\S+?):\d+:\d+: (?:error(?:: `([^`]+)`:|:)?)?(.*(?:\n  .*)*)')


def told(log):
    """(file below the crate, declaration, message) of each error in a check's output, and of each note of what is not proved."""
    for m in TOLD.finditer(log):
        if m[0].startswith('note: ') or ': error' in m[0].split('\n')[0]:
            file = re.sub(r'.*?(?:^|/)((?:src|specs|proofs)/)', r'\1', m[1])
            function = re.search(r'(?m)^fn \w+::(\S+): (?:not proved$|no proof: expected)', log[m.end():])
            yield file, m[2] or (function[1] if function and file.startswith('src/') else ''), m[3].strip()


def gone(error):
    """Whether an error says that a proof names what is not there."""
    return error[0].startswith('proofs/') and bool(GONE.search(error[2].split('\n')[0]))


def first_error(log):
    """The first of these that tells of the contract, else the first, or None."""
    every = list(told(log))
    return next((e for e in every if not (gone(e) or e[0].startswith('proofs/') and CITED.search(e[2].split('\n')[0]))), every[0] if every else None)


def kind_of(message):
    """(in words, whether a fact is lost)"""
    message = ' '.join(message.split())
    for pattern, words, lost in ERRORS:
        m = re.search(pattern, message)
        if m:
            words = shorten(m.expand(words), 400)
            return (words if len(words) < 120 else 'the two sides are not equal'), lost
    return 'not known: ' + message[:80], False


def function_of(file, declaration):
    """The function that an error stands in, or nothing: its folder of proofs/, or what a note of the code names."""
    m = re.match(r'proofs/(.+)/(?:Answers|Invariants|Proof)\.antt$', file)
    return '::'.join(m[1].split('/')) if m else declaration if file.startswith('src/') else ''


def where_of(file, declaration):
    """That function, else the law or definition."""
    return function_of(file, declaration) or (f'`{declaration}`' if declaration else '-')
