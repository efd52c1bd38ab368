"""Connections of random packets."""
from outside import CLIENT, SERVER, SPACE, Datagram
from outside.appendix import client_hello, server_hello

LABEL = {
    ('0rtt', 0): 'CLIENT_EARLY_TRAFFIC_SECRET',
    ('handshake', 0): 'CLIENT_HANDSHAKE_TRAFFIC_SECRET',
    ('handshake', 1): 'SERVER_HANDSHAKE_TRAFFIC_SECRET',
    ('short', 0): 'CLIENT_TRAFFIC_SECRET_0',
    ('short', 1): 'SERVER_TRAFFIC_SECRET_0',
}
FRAMES = {4: 3, 5: 2, 16: 1, 17: 2, 18: 1, 19: 1, 20: 1, 21: 2, 22: 1, 23: 1}  # how many integers follow these frame types


def varint(n):
    size = next(s for s in range(4) if n < 1 << (8 << s) - 2)
    return (n | size << (8 << size) - 2).to_bytes(1 << size, 'big')


def integer(rng):
    return varint(rng.getrandbits(rng.choice([6, 14, 30, 60])))


def frame(rng, kind):
    """A random frame that this kind of packet may have; PADDING is followed by PING."""
    names = ['ping', 'padding'] + ['ack'] * (kind != '0rtt')
    if SPACE[kind] == 'data':
        names += ['numbers', 'numbers', 'stream', 'path', 'datagram']
    name, data = rng.choice(names), rng.randbytes(rng.randint(0, 100))
    if name == 'ack':
        blocks = [rng.randint(0, 100) for _ in range(2 * rng.randint(0, 5) + 1)]
        largest = 2000 + rng.getrandbits(rng.choice([12, 30, 60]))
        return b'\x02' + varint(largest) + integer(rng) + varint(len(blocks) // 2) + b''.join(map(varint, blocks))
    if name == 'numbers':
        frame_type = rng.choice(list(FRAMES))
        return bytes([frame_type]) + b''.join(integer(rng) for _ in range(FRAMES[frame_type]))
    if name == 'stream':
        frame_type = rng.choice([10, 11, 14, 15])
        offset = varint(rng.getrandbits(20)) if frame_type & 4 else b''
        return bytes([frame_type]) + integer(rng) + offset + varint(len(data)) + data
    if name == 'datagram':
        return b'\x31' + varint(len(data)) + data
    return {'ping': b'\x01', 'padding': bytes(1 + len(data)) + b'\x01', 'path': b'\x1a' + rng.randbytes(8)}[name]


def payload(rng, kind):
    """A few frames, and PADDING that makes it long enough for a sample."""
    return b''.join(frame(rng, kind) for _ in range(rng.randint(1, 4))) + bytes(3)


class Ids:
    """The CIDs of a capture: none is the start of another."""

    def __init__(self, rng):
        self.rng, self.made = rng, []

    def __call__(self, least, most):
        size = self.rng.randint(least, most)
        while True:
            cid = self.rng.randbytes(size)
            if not cid or not any(cid.startswith(other) or other.startswith(cid) for other in self.made):
                self.made += [cid] * bool(cid)
                return cid


class Flow:
    """The datagrams of a connection."""

    def __init__(self, writer, rng, client, ids):
        self.writer, self.version, self.rng, self.client, self.new_id = writer, writer.version, rng, client, ids
        self.ids, self.first = [ids(0, 20), ids(0, 20)], ids(8, 20)
        self.hello = rng.randbytes(32)
        self.secrets = {key: rng.randbytes(32) for key in LABEL}
        self.keys = {key: self.version.keys_of(secret) for key, secret in self.secrets.items()}
        self.key_log = ''.join(f'{LABEL[key]} {self.hello.hex()} {secret.hex()}\n' for key, secret in self.secrets.items())
        self.phase, self.last, self.datagrams = [0, 0], {}, []

    def number(self, kind, side):
        """The next number, some way above the last one, cut for an acknowledged one some way below."""
        last, size = self.last.get((SPACE[kind], side), -1), self.rng.randint(1, 4)
        distance = self.rng.randint(1 if size == 1 else 1 << 8 * size - 9, (1 << 8 * size - 1) - 1)
        number = last + self.rng.choice([1, self.rng.randint(1, distance)])
        self.last[SPACE[kind], side] = number
        return number, self.writer.cut(number, number - distance if distance <= number else None)

    def packet(self, kind, side, dst, token=b'', clear=None):
        keys = self.version.initial_keys(self.first, side) if kind == 'initial' else self.keys[kind, side]
        src, spin, phase = (b'', self.rng.getrandbits(1), self.phase[side]) if kind == 'short' else (self.ids[side], 0, 0)
        return self.writer.sealed(kind, keys, dst, src, token, *self.number(kind, side), clear or payload(self.rng, kind), spin, phase)

    def packets(self, kind, side, counts):
        return [self.packet(kind, side, self.first if kind == '0rtt' else self.ids[1 - side]) for _ in range(self.rng.choice(counts))]

    def send(self, side, packets):
        self.datagrams.append(Datagram(side, self.client, len(self.ids[1 - side]), packets))

    def opened(self, token):
        """The client's first datagram, or its first after a Retry."""
        initial = self.packet('initial', CLIENT, self.first, token, client_hello(self.hello))
        self.send(CLIENT, [initial] + self.packets('0rtt', CLIENT, [0, 0, 1, 2, 3]))

    def retried(self):
        token, new = self.rng.randbytes(self.rng.randint(1, 300)), self.new_id(1, 20)
        self.send(SERVER, [self.writer.retry(self.ids[0], new, token, self.first)])
        self.first = new
        self.opened(token)

    def negotiated(self):
        versions = self.rng.randbytes(4 * self.rng.randint(1, 20))
        self.send(SERVER, [self.writer.negotiation(self.ids[0], self.first, versions, self.rng.getrandbits(7))])

    def updated(self):
        """A key update of both sides (RFC 9001, 6)."""
        for side in (CLIENT, SERVER):
            secret = self.secrets['short', side] = self.version.next_secret(self.secrets['short', side])
            self.keys['short', side] = self.version.keys_of(secret)[:2] + self.keys['short', side][2:]
            self.phase[side] ^= 1

    def answered(self):
        """From the server's first datagram on."""
        for side, clear in [(SERVER, server_hello(self.rng.randbytes(32))), (CLIENT, None)]:
            initial = self.packet('initial', side, self.ids[1 - side], clear=clear)
            self.send(side, [initial] + self.packets('handshake', side, [1, 2, 3, 4]) + self.packets('short', side, [0, 1]))
        for _ in range(self.rng.randint(2, 12)):
            side = self.rng.choice([CLIENT, SERVER])
            hands = self.packets('handshake', side, [0, 0, 0, 1, 3])
            self.send(side, hands + self.packets('short', side, [0, 1] if hands else [1]))

    def confirmed(self):
        """Short packets before and after a key update."""
        for updates in range(2):
            for side in (CLIENT, SERVER, self.rng.choice([CLIENT, SERVER])):
                self.send(side, self.packets('short', side, [1]))
            if not updates:
                self.updated()

    def play(self):
        self.opened(self.rng.choice([b'', self.rng.randbytes(self.rng.randint(1, 300))]))
        way = self.rng.random()
        if way < 0.25:
            self.negotiated()
            return self
        if way < 0.6:
            self.retried()
        self.answered()
        self.confirmed()
        return self
