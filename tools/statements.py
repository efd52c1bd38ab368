"""statements: what the proofs and definitions of the tree declare, and who cites it, for tools/proof.

A declaration is `name : type` at the left edge of a file or of a module in it, with the clauses after it. It is cited by another
declaration or list of its file, by a file that brings its name in and uses it, or in src/ by a contract or by an attribute that says what
to unfold or to use (`#[tactic(auto, using(crate::proofs::Laws::f))]`). Not looked at: the parts of records and data, the answers and
invariants below proofs/FN/, whose names the check asks for, and lines `f_once`, which `proof once` holds to their functions.
A local name that is the same counts as a cite.
"""
import collections
import glob
import os
import re

EDGE = re.compile(r'( *)(?:abbrev |unfoldable |opaque )?(?:pub )?(\S+) :(?=\s|$)')
WORDS = re.compile(r'[\s(){},;.]+')
MODULE = re.compile(r'Rattle\.(\w+)\.(proofs|specs)\.(\S+)')
OF_FUNCTIONS = ('Answers.antt', 'Invariants.antt', 'Proof.antt')

Declared = collections.namedtuple('Declared', 'file line name cited')


def plain(text):
    """The text with spaces for its comments; every line stays."""
    return re.sub(r'(?s)\{-.*?-\}|--[^\n]*', lambda m: re.sub(r'[^\n]', ' ', m[0]), text)


def uses(name, words):
    """Whether a name stands among words; `if◌then◌else◌` does where its parts do."""
    return name in words or '◌' in name and all(part in words for part in name.split('◌') if part)


def words_of(lines):
    return set(WORDS.split('\n'.join(line for line in lines if not line.startswith('use '))))


def chunks(lines):
    """(first line, line past the last, name) of each declaration."""
    edges, parts = [0], None
    i = 0
    while i < len(lines):
        line = lines[i]
        indent = len(line) - len(line.lstrip())
        i += 1
        if not line.strip() or parts is not None and indent > parts:
            continue
        parts = None
        edges = [e for e in edges if e <= indent]
        if re.match(r' *module .* where\s*$', line):
            edges.append(indent + 2)
        elif re.match(r' *(pub )?(record|data)\s', line):
            parts = indent
        m = EDGE.match(line)
        if m and indent in edges:
            start = i - 1
            own = re.compile(rf' {{{indent}}}(?:{re.escape(m[2])}\s|unfolding\s|\s)|\s*$')
            while i < len(lines) and own.match(lines[i]):
                i += 1
            yield start, i, m[2]


def brought(text):
    """(file, name) of each statement of ours that a file brings in and uses."""
    words = words_of(text.split('\n'))
    for module, names in re.findall(r'(?m)^use (\S+?)\.\{(.*)\}$', text):
        m = MODULE.match(module)
        for said in names.split(',') if m else []:
            name, _, other = said.strip().partition(' as ')
            if uses(other or name, words):
                yield path_of(m), name
    for module, short in re.findall(r'(?m)^use (\S+) as (\S+)$', text):
        m = MODULE.match(module)
        for name in re.findall(rf'(?<![\w.-]){re.escape(short)}\.([^\s(){{}},;]+)', text) if m else []:
            yield path_of(m), name


def attributed(file, text):
    """(file, name) of each statement of ours that an attribute of a file of src/ names."""
    for said in re.findall(r'#!?\[tactic\((.*?)\)\]', text, re.S):
        for crate, part, path in re.findall(r'\b(\w+)::(specs|proofs)::([^\s,()]+)', said):
            *modules, name = path.split('::')
            yield f'crates/{file.split("/")[1] if crate == "crate" else crate}/{part}/{"/".join(modules)}.antt', name


def path_of(m):
    return f'crates/{m[1]}/{m[2]}/{m[3].replace(".", "/")}.antt'


def declared():
    """Each declaration of the tree, and whether another one, or a contract, cites it."""
    files = {f: plain(open(f).read()) for part in ('proofs', 'specs') for f in sorted(glob.glob(f'crates/*/{part}/**/*.antt', recursive=True))}
    cited = {cite for text in files.values() for cite in brought(text)}
    contracts = set()
    for f in glob.glob('crates/*/src/**/*.rt', recursive=True):
        text = re.sub(r'//[^\n]*', '', open(f).read())
        contracts |= set(WORDS.split(text))
        cited |= set(attributed(f, text))
    for file, text in files.items():
        if os.path.basename(file) in OF_FUNCTIONS:
            continue
        lines = text.split('\n')
        for start, end, name in chunks(lines):
            if not re.search('_once(_of)?$', name):
                there = uses(name, words_of(lines[:start] + lines[end:])) or '/specs/' in file and uses(name, contracts)
                yield Declared(file, start + 1, name, there or (file, name) in cited)


def named():
    """Every word that README.md or a page of docs/ has in backticks. What does not count: landings' notes, the two generated pages, and the page that counts lemmas to be looked at."""
    pages = {'README.md', *glob.glob('docs/*.md')} - {'docs/EDITS.md', 'docs/TWINS.md', 'docs/DESIGN-PASS.md'}
    spans = [s for page in pages for s in re.findall(r'`([^`\n]+)`', open(page).read())]
    return {word for s in spans for word in WORDS.split(s)}
