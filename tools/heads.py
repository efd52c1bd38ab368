"""heads: the functions of a crate as its text has them, for tools/proof and tools/cites.

Public is `pub fn` and `pub extern "C" fn`, in an `impl` block too (`pub(crate) fn` is not); a method of a `pub trait`; and a method of
`impl Trait for Type` where no name of the block's head is private to the crate. Such a method promises what the trait says of it: the
clauses of our own trait, or what the impl says in `ghost METHOD_gives`, since std's traits promise nothing without one (`can_METHOD` asks
something of the caller). Two searches find what `pub` stands before: `functions` reads each head up to its body, and `plainly` only looks
for `pub` before `fn`. What the second sees and the first does not is a form that nobody reads.
"""
import collections
import functools
import glob
import os
import re

HEAD = re.compile(r'(?:\b(pub)\b(\s*\([^()]*\))?\s+)?(?:extern\s+"C"\s+)?\bfn\s+(\w+)')
CLAUSE = re.compile(r'\b(ensures|requires)(?:\s+\w+)?\s*$')  # a clause may have a name
BLOCK = re.compile(r'(?m)^(pub\s+)?(impl|trait)\b')

# path: the names of module, type and function, as the proofs' folders have them; public: a caller outside may call it; written: `pub`
# stands before it; trait: the trait that a method is of, or '', with a dot before it where it is none of ours; of_trait: whether the trait
# itself has it, and no impl; clauses: (word, text) in their order
Function = collections.namedtuple('Function', 'file line name path public written trait of_trait clauses')
# of a block: where its braces stand, its type as a path has it, its trait, whether it is the trait's own, whether a head's name is private
Block = collections.namedtuple('Block', 'start end name trait own private')


def blank(text):
    """The text with spaces for its comments and literals, but the "C" of an extern; every place and line stays."""
    literal = r'//[^\n]*|/\*.*?\*/|b?"(?:\\.|[^"\\])*"|b?\'(?:\\.|[^\'\\\n])\''
    return re.sub(literal, lambda m: m[0] if m[0] == '"C"' else re.sub(r'[^\n]', ' ', m[0]), text, flags=re.S)


def closed(text, at, pairs='([{)]}'):
    """The place past the bracket that closes the one at this place."""
    depth, half = 0, len(pairs) // 2
    for i in range(at, len(text)):
        depth += (text[i] in pairs[:half]) - (text[i] in pairs[half:] and text[i - 1:i + 1] != '->')
        if depth == 0:
            return i + 1
    return len(text)


def clauses(text, at):
    """What stands between a function's arguments and its body: from this place on to the body's brace, at depth 0."""
    found, start = [], at
    while at < len(text) and text[at] != ';':
        if text[at] in '([':
            at = closed(text, at)
        elif text[at] == '{':
            word = CLAUSE.search(text, start, at)
            if not word:
                break
            start = closed(text, at)
            found.append((word[1], text[at + 1:start - 1]))
            at = start
        else:
            at += 1
    return found


def line_of(text, at):
    return text.count('\n', 0, at) + 1


def sources(crate):
    for top, _, files in sorted(os.walk(f'crates/{crate}/src')):
        for f in sorted(files):
            if f.endswith('.rt'):
                yield os.path.join(top, f)


# ---- blocks: impl, impl of a trait, trait

def parts(text, mark):
    """A text cut at a mark that stands in no bracket."""
    found, depth, last = [], 0, 0
    for i, c in enumerate(text):
        depth += (c in '([{<') - (c in ')]}>' and text[i - 1:i + 1] != '->')
        if depth == 0 and text.startswith(mark, i):
            found.append(text[last:i])
            last = i + len(mark)
    return found + [text[last:]]


def spelled(said):
    """A type as rt spells it in the name of an impl: of `Result<Option<Place>, [u8; 4]>` ResultOptionPlaceArrayU84."""
    said = said.strip()
    lent = re.match(r"&\s*(?:'\w+\s*)?(mut\b)?", said)
    if lent:
        return ('MutRef' if lent[1] else 'Ref') + spelled(said[lent.end():])
    if said.startswith('('):
        inside = [t for t in parts(said[1:-1], ',') if t.strip()]
        return (f'Tuple{len(inside)}' if inside else 'Unit') + ''.join(map(spelled, inside))
    if said.startswith('['):
        of, *count = parts(said[1:-1], ';')
        return ('Array' if count else 'Slice') + spelled(of) + ''.join(c.strip() for c in count)
    name, _, inside = said.partition('<')
    name = name.strip().split('::')[-1]
    given = [t for t in parts(inside.rstrip()[:-1], ',') if t.strip() and not t.strip().startswith("'")] if inside else []
    return name[:1].upper() + name[1:] + ''.join(map(spelled, given))


def block(text, m, private):
    """The block whose `impl` or `trait` stands here, or None where no brace follows."""
    at = m.end()
    if re.match(r'\s*<', text[at:]):
        at = closed(text, text.index('<', at), '<>')
    brace = re.compile(r'[^{;]*\{').match(text, at)
    if not brace:
        return None
    head = re.split(r'\bwhere\b', text[at:brace.end() - 1])[0]
    start, end = brace.end() - 1, closed(text, brace.end() - 1)
    named = set(re.findall(r'\w+', head))
    if m[2] == 'trait':
        name = re.match(r'\s*(\w+)', head)[1]
        return Block(start, end, name, name, True, not m[1])
    trait, *whom = parts(head, ' for ')
    if not whom:
        return Block(start, end, re.match(r'\s*(?:\w+::)*(\w+)', head)[1], '', False, False)
    own = re.match(r'\s*([\w:\s]*\w)', whom[0])
    whom = spelled(own[1] if own else whom[0])
    return Block(start, end, whom + spelled(trait), re.match(r'\s*(?:\w+::)*(\w+)', trait)[1], False, bool(named & private))


def blocks(text, private):
    found = (block(text, m, private) for m in BLOCK.finditer(text))
    return [b for b in found if b]


def privates(crate):
    """The types and traits that a crate keeps to itself, by their declarations alone."""
    heads = [re.findall(r'(?m)^[ \t]*(pub\s+)?(?:pub\s*\([^()]*\)\s+)?(?:struct|enum|trait)\s+(\w+)', blank(open(f).read())) for f in sources(crate)]
    return {name for found in heads for shown, name in found if not shown}


@functools.lru_cache(None)
def traits():
    """{trait of ours: {method: its clauses}}"""
    found = {}
    for file in glob.glob('crates/*/src/**/*.rt', recursive=True):
        text = blank(open(file).read())
        for b in blocks(text, set()):
            if b.own:
                methods = [m for m in HEAD.finditer(text, b.start, b.end)]
                found.setdefault(b.name, {}).update({m[3]: clauses(text, m.end()) for m in methods})
    return found


def given(text, b, method):
    """What an impl of a trait says of its method in ghost members, as clauses."""
    found = []
    for word, name in (('ensures', f'{method}_gives'), ('requires', f'can_{method}')):
        m = re.compile(rf'\bghost\s+{name}\s*=\s*\{{').search(text, b.start, b.end)
        found += [(word, text[m.end():closed(text, m.end() - 1) - 1])] if m else []
    return found


def functions(crate):
    """Every function of the crate, public or not."""
    private = privates(crate)
    for file in sources(crate):
        text = blank(open(file).read())
        there = blocks(text, private)
        module = [] if os.path.basename(file) in ('lib.rt', 'main.rt') else [os.path.basename(file)[:-3]]
        for m in HEAD.finditer(text):
            around = [b for b in there if b.start < m.start() < b.end]
            b = around[0] if around else Block(0, 0, '', '', False, False)
            path = '.'.join(module + [b.name for b in around] + [m[3]])
            said = clauses(text, m.end())
            written = bool(m[1]) and not m[2]
            trait = b.trait if b.trait in traits() or not b.trait else f'.{b.trait}'
            if trait and not b.own:
                said = said + (traits()[trait].get(m[3], []) if trait in traits() else given(text, b, m[3]))
            public = written or bool(trait) and not b.private
            yield Function(file, line_of(text, m.start(3)), m[3], path, public, written, trait, b.own, said)


def plainly(crate):
    """(file, line) of each function that `pub` stands before, by a search of its own: no bracket after it, and `fn` before the statement ends."""
    for file in sources(crate):
        text = re.sub(r'//[^\n]*', '', open(file).read())
        for m in re.finditer(r'\bpub\b(?!\s*\()[^{}();=]*?\bfn\b', text):
            yield file, line_of(text, m.end())


def unseen(crate):
    """Public functions that only the plain search finds, or only the reading of heads."""
    read = collections.Counter((f.file, f.line) for f in functions(crate) if f.written)
    plain = collections.Counter(plainly(crate))
    return sorted(((read - plain) + (plain - read)).elements())
