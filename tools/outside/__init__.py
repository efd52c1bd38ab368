"""What tools/tshark is made of.

versions has what the two versions do not share, writer ciphers and packets, flows connections of random packets, appendix the RFCs'
packets, said what is said of a packet.
"""
import collections
import os
import shutil
import subprocess
import sys

ROOT = os.path.dirname(os.path.dirname(os.path.dirname(os.path.abspath(__file__))))
HOST = os.path.join(ROOT, 'host')
CLIENT, SERVER = 0, 1
SEALED = ['initial', '0rtt', 'handshake', 'short']
SPACE = {'initial': 'initial', 'handshake': 'handshake', '0rtt': 'data', 'short': 'data'}
HEADERS = 28  # the bytes of IPv4 and UDP before a datagram
# what a packet was asked to be, the keys that it was sealed with, and its bytes
Asked = collections.namedtuple('Asked', 'kind version dst src token spin phase random number cut keys bytes')
# the side that sends, the client's address, the packets; cid_len is the length of the receiver's CIDs
Datagram = collections.namedtuple('Datagram', 'side client cid_len packets')


def fail(text):
    print('tshark:', text, file=sys.stderr)
    sys.exit(2)


class Ours:
    """host/examples/lines, asked line by line."""

    def __init__(self):
        library = os.path.abspath(os.environ.get('GUOBBAREL_LIB') or os.path.join(ROOT, 'target/staticlib'))
        if not os.path.exists(os.path.join(library, 'libgateway.a')):
            fail(f'{library} has no libgateway.a: run tools/build gateway')
        if not shutil.which('cargo'):
            fail('cargo is not installed')
        build = ['cargo', 'build', '--offline', '--release', '--quiet', '--example', 'lines']
        if subprocess.run(build, cwd=HOST, env=dict(os.environ, GUOBBAREL_LIB=library)).returncode:
            fail('host/examples/lines is not built')
        program = os.path.join(HOST, os.environ.get('CARGO_TARGET_DIR', 'target'), 'release/examples/lines')
        self.run = subprocess.Popen([program], stdin=subprocess.PIPE, stdout=subprocess.PIPE, text=True, bufsize=1)

    def ask(self, *words):
        question = ' '.join((w.hex() or '-') if isinstance(w, bytes) else str(w) for w in words)
        self.run.stdin.write(question + '\n')
        answer = self.run.stdout.readline().split()
        if answer and answer[0] == 'refused':
            print(f'our code refuses ({answer[1]}): {question}')
            sys.exit(1)
        if not answer or answer[0] == 'bad':
            fail(f'host/examples/lines does not understand: {question}')
        return answer
