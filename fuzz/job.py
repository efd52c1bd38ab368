"""What fuzz/run and fuzz/wrong share: their usage, the build, and libFuzzer's processes with what they say."""
import argparse
import os
import re
import subprocess
import sys

HERE = os.path.dirname(os.path.abspath(__file__))
ROOT = os.path.dirname(HERE)
TARGET = os.path.join(HERE, 'target')
PROGRAM = os.path.join(TARGET, 'x86_64-unknown-linux-gnu/release/fuzz')
FINDINGS = os.path.join(TARGET, 'findings')
# The longest input, the seconds for one, the megabytes. How often an edge is taken does not guide: that is mostly how many hex digits
# a case has. What takes long is tried less often.
WORDS = ['-max_len=4096', '-timeout=10', '-rss_limit_mb=2048', '-use_counters=0', '-entropic_scale_per_exec_time=1']
# So much of a line is shown.
SHOWN = 300
STATUS = re.compile(r'^#(\d+)\t.*cov: (\d+) ft: \d+ corp: (\d+)/', re.M)


class Failed(Exception):
    pass


class Parser(argparse.ArgumentParser):
    """Reads the words of a script, and says its usage in the words at the script's head: all for --help, the first part for a word
    that is wrong."""

    def __init__(self, text):
        super().__init__(allow_abbrev=False)
        self.text = text.strip() + '\n'

    def format_help(self):
        return self.text

    def format_usage(self):
        return self.text[self.text.index('usage:'):].partition('\n\n')[0] + '\n'


def tell(text):
    """A line of progress."""
    print('fuzz:', text, file=sys.stderr, flush=True)


def quiet(command, **more):
    """Runs it; answers what it printed, or fails with its last lines."""
    try:
        run = subprocess.run(command, stdout=subprocess.PIPE, stderr=subprocess.STDOUT, text=True, **more)
    except FileNotFoundError:
        raise Failed(f'{command[0]} is not installed') from None
    if run.returncode:
        raise Failed(' '.join(command[:3]) + ' failed:\n' + '\n'.join(run.stdout.splitlines()[-10:]))
    return run.stdout


def library(folder):
    """The archive: the folder's, or as rt makes it."""
    if not folder:
        tell('tools/build gateway, which proves what is not proved yet')
        quiet([os.path.join(ROOT, 'tools/build'), 'gateway'])
        folder = os.path.join(ROOT, 'target/staticlib')
    path = os.path.join(os.path.abspath(folder), 'libgateway.a')
    if not os.path.exists(path):
        raise Failed(f'{path} is not there')
    return path


def build(archive):
    tell('building both sides')
    env = dict(os.environ, GUOBBAREL_LIB=os.path.dirname(archive))
    quiet(['cargo', 'build', '--offline', '--release', '--quiet'], cwd=HERE, env=env)


def folder(work, name):
    path = os.path.join(work, name)
    os.mkdir(path)
    return path


class Job:
    """A process of libFuzzer's. What it says goes to files in a folder, what it finds to another."""

    def __init__(self, work, name, words, program=PROGRAM, findings=FINDINGS, blocks=None):
        self.err, self.out = (os.path.join(work, f'{name}.{what}') for what in ('err', 'out'))
        os.makedirs(findings, exist_ok=True)
        command = [program, 'run', f'-artifact_prefix={findings}/', *WORDS, *words]
        env = dict(os.environ, FUZZ_BLOCKS=blocks) if blocks else None
        with open(self.err, 'w') as err, open(self.out, 'w') as out:
            self.process = subprocess.Popen(command, stdout=out, stderr=err, env=env)

    def log(self):
        with open(self.err, errors='replace') as f:
            return f.read()

    def status(self):
        """Inputs that were run, edges, and inputs that are kept, by the last line that has them."""
        found = STATUS.findall(self.log())
        return tuple(map(int, found[-1])) if found else (0, 0, 0)

    def edges(self):
        """How many edges the program has counters for."""
        found = re.search(r'\((\d+) inline 8-bit counters\)', self.log())
        return int(found[1]) if found else 0

    def counts(self):
        """The program's lines, as lists of words."""
        with open(self.out) as f:
            return [line.split('\t') for line in f.read().splitlines()]

    def finding(self):
        """What it found, after its end: nothing, or what differs and where the input is."""
        if self.process.returncode == 0:
            return ''
        log = self.log()
        said = re.search(r'^(DIFFERENT|NOT BACK|NOT CLEAN|not in docs|no case)[^\n]*(\n  [^\n]*)*', log, re.M)
        error = re.search(r'^==\d+== *ERROR: (.*)', log, re.M)
        lines = (said[0] if said else error[1] if error else log[-1000:]).split('\n')
        kept = re.search(r'Test unit written to (.*)', log)
        if kept:
            lines.append(f'  all of it: {os.path.relpath(PROGRAM, ROOT)} show {kept[1]}')
        return '\n'.join(line if len(line) <= SHOWN else line[:SHOWN] + ' ..' for line in lines)
