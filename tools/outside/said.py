"""What is said of a packet: when it was asked for, by our code, by tshark. Each is a dict with the same names."""
import collections

from outside import HEADERS, SPACE
from outside.writer import nonce_of

NOTE = 0x400000  # tshark's severity of a note; warnings and errors are above


def wanted(packet, start):
    """What a packet was asked to be."""
    said = {'kind': packet.kind, 'packet': (start, len(packet.bytes)), 'dst': packet.dst}
    if packet.kind == 'short':
        said['spin'] = packet.spin
    else:
        said.update(version=packet.version, src=packet.src)
    if packet.kind == 'initial':
        said['token'] = packet.token
    if packet.kind == 'negotiation':
        said['random'] = packet.random
    if packet.keys:
        said.update(number=packet.number, reserved=0)
        said['number len'] = packet.cut[0]
        if packet.kind == 'short':
            said['phase'] = packet.phase
    return said


class Reader:
    """What our code says of a datagram."""

    def __init__(self, writer):
        self.writer, self.ours, self.accepted = writer, writer.ours, {}

    def read(self, datagram):
        data = b''.join(p.bytes for p in datagram.packets)
        words = self.ours.ask('split', datagram.cid_len, int(data[0] & 0x40 == 0), data)
        packets = [words[i:i + 10] for i in range(0, len(words), 10)]
        if len(packets) != len(datagram.packets):
            return [{}] * len(packets)
        return [self.packet(datagram, data, asked, *packet) for asked, packet in zip(datagram.packets, packets)]

    def packet(self, datagram, data, asked, kind, place, number_offset, version, dst, src, token, length, spin, rand):
        start, size = map(int, place.split('+'))
        said = {'kind': kind, 'packet': (start, size)}
        number_at, end = start + int(number_offset), start + size
        put(said, 'dst', data, dst)
        if kind == 'short':
            said['spin'] = int(spin)
        else:
            said['version'] = int(version)
            put(said, 'src', data, src)
            said['cid lens'] = (len(said['dst']), len(said['src']))
        if kind == 'initial':
            put(said, 'token', data, token)
            said['token len'] = len(said['token'])
        if kind in ('initial', '0rtt', 'handshake'):
            said['Length'] = int(length)
        if kind == 'negotiation':
            said['random'] = int(rand)
            said['versions'] = [(i, data[i:i + 4]) for i in range(number_at, end, 4)]
        if kind == 'retry':
            said['retry token'] = (number_at, data[number_at:end - 16])
            said['retry tag'] = (end - 16, data[end - 16:end], True)
        if asked.keys and kind in SPACE:
            self.opened(said, datagram, data[start:end], asked.keys, number_at - start)
        return said

    def opened(self, said, datagram, packet, keys, number_offset):
        """With the protection off: the mask of the sample, the number, the payload through the AEAD and its frames."""
        start, kind, (key, iv, hp) = said['packet'][0], said['kind'], keys
        mask = self.writer.mask(kind, hp, number_offset, packet)
        *numbers, header = self.ours.ask('unmask', kind, number_offset, mask, packet)
        size, value, clear, phase = map(int, numbers)
        space = datagram.client, datagram.side, SPACE[kind]
        number = int(self.ours.ask('expand', self.accepted.get(space, '-'), size, value)[0])
        self.accepted[space] = max(number, self.accepted.get(space, 0))
        said.update({'number': number, 'number at': start + number_offset, 'number len': size, 'reserved': 1 - clear})
        said['payload'] = (start + number_offset + size, len(packet) - number_offset - size)
        if kind == 'short':
            said['phase'] = phase
        payload = self.writer.aes.open(key, nonce_of(iv, number), bytes.fromhex(header), packet[number_offset + size:])
        said['frames'] = 'the AEAD does not open' if payload is None else self.frames(payload)

    def frames(self, payload):
        """Types and places; a run of PADDING as one."""
        words, frames = self.ours.ask('frames', payload), []
        for frame_type, place in zip(words[::2], words[1::2]):
            at, length = map(int, place.split('+'))
            if frames and int(frame_type) == frames[-1][0] == 0:
                frames[-1] = (0, frames[-1][1], frames[-1][2] + length)
            else:
                frames.append((int(frame_type), at, length))
        return frames


def put(said, name, data, place):
    start, size = map(int, place.split('+'))
    said[name], said[name + ' at'] = data[start:start + size], start


class Seen:
    """What tshark says of a packet: its fields by name, each with its place in the datagram."""

    def __init__(self, proto, version):
        self.proto, self.version = proto, version
        self.fields = collections.defaultdict(list)
        for field in proto.iter('field'):
            self.fields[field.get('name')].append(field)
        self.start = int(proto.get('pos')) - HEADERS

    def one(self, name):
        found = self.fields.get('quic.' + name, [])
        return found[0] if len(found) == 1 else None

    def number(self, name):
        field = self.one(name)
        return None if field is None else int(field.get('show'), 0)

    def place(self, name):
        field = self.one(name)
        return (None, None) if field is None else (int(field.get('pos')) - HEADERS, int(field.get('size')))

    def bytes(self, name):
        """Where a field starts and its bytes; tshark leaves out an empty one."""
        if 'quic.' + name not in self.fields:
            return 0, b''
        field = self.one(name)
        return (None, None) if field is None else (self.place(name)[0], bytes.fromhex(field.get('value')))

    def kind(self):
        if self.number('header_form') == 0:
            return 'short'
        if self.number('version') == 0:
            return 'negotiation'
        bits = self.number(self.version.field)
        return None if bits is None else self.version.kinds[bits]

    def says(self, is_open):
        said = {'kind': self.kind(), 'packet': (self.start, self.number('packet_length'))}
        said['dst at'], said['dst'] = self.bytes('dcid')
        if said['kind'] == 'short':
            said['spin'] = self.number('spin_bit')
        else:
            said['version'] = self.number('version')
            said['src at'], said['src'] = self.bytes('scid')
            said['cid lens'] = self.number('dcil'), self.number('scil')
        if said['kind'] == 'initial':
            said['token at'], said['token'] = self.bytes('token')
            said['token len'] = self.number('token_length')
        if said['kind'] in ('initial', '0rtt', 'handshake'):
            said['Length'] = self.number('length')
        if said['kind'] == 'negotiation':
            said['random'] = self.number('vn.unused')
            said['versions'] = [(int(f.get('pos')) - HEADERS, bytes.fromhex(f.get('value'))) for f in self.fields['quic.supported_version']]
        if said['kind'] == 'retry':
            said['retry token'] = self.bytes('retry_token')
            tag = self.one('retry_integrity_tag')
            said['retry tag'] = self.bytes('retry_integrity_tag') + (tag is not None and '[verified]' in tag.get('showname'),)
        if is_open:
            self.opened(said)
        size = int(self.proto.get('size'))
        if size != said['packet'][1]:
            said['size'] = size
        if self.warnings() and (is_open or said['kind'] != 'short'):
            said['warning'] = self.warnings()
        return said

    def warnings(self):
        severity = 'field[@name="_ws.expert.severity"]'
        return [f.get('showname') for f in self.fields['_ws.expert'] if int(f.find(severity).get('show')) > NOTE]

    def opened(self, said):
        short = said['kind'] == 'short'
        said['number'] = self.number('packet_number')
        said['number at'], said['number len'] = self.place('packet_number')
        if self.number('packet_number_length') != (said['number len'] or 0) - 1:
            said['number length bits'] = self.number('packet_number_length')
        said['reserved'] = self.number('short.reserved' if short else 'long.reserved')
        said['payload'] = self.place('protected_payload' if short else 'payload')
        if short:
            said['phase'] = self.number('key_phase')
        said['frames'] = []
        for field in self.proto.findall('field[@name="quic.frame"]'):
            kind = field.find('field[@name="quic.frame_type"]')
            said['frames'].append((int(kind.get('show')), int(kind.get('pos')), int(field.get('size'))))
