"""What the two versions of QUIC do not share (RFC 9001 and RFC 9369), and the keys that are derived by it."""
import collections
import hashlib
import hmac
import os
import struct

from outside import HOST


def hex_file(name):
    with open(os.path.join(HOST, name)) as f:
        return bytes.fromhex(f.read())


def expanded(secret, label, size):
    """HKDF-Expand-Label of RFC 8446, for at most 32 bytes."""
    label = b'tls13 ' + label.encode()
    return hmac.new(secret, struct.pack('>HB', size, len(label)) + label + b'\0\1', hashlib.sha256).digest()[:size]


class Version(collections.namedtuple('Version', 'rfc number kinds field label salt retry_key retry_nonce a2 a3 a4 a5 a5_mask')):
    """kinds by the type bits 0 to 3, which tshark shows in field; a2 to a5 are packets of Appendix A."""

    def keys_of(self, secret):
        """Key, IV and header protection key (RFC 9001, 5.1)."""
        return tuple(expanded(secret, f'{self.label} {name}', size) for name, size in [('key', 16), ('iv', 12), ('hp', 16)])

    def initial_keys(self, dst_cid, side):
        """RFC 9001, 5.2."""
        common = hmac.new(self.salt, dst_cid, hashlib.sha256).digest()
        return self.keys_of(expanded(common, ['client in', 'server in'][side], 32))

    def next_secret(self, secret):
        """That of the next key phase (RFC 9001, 6.1)."""
        return expanded(secret, f'{self.label} ku', 32)


VERSIONS = {
    1: Version(
        rfc='RFC 9001',
        number=1,
        kinds=('initial', '0rtt', 'handshake', 'retry'),
        field='long.packet_type',
        label='quic',
        salt=bytes.fromhex('38762cf7f55934b34d179ae6a4c80cadccbb7f0a'),
        retry_key=bytes.fromhex('be0c690b9f66575a1d766b54e368c84e'),
        retry_nonce=bytes.fromhex('461599d35d632bf2239825bb'),
        a2=hex_file('examples/a2/packet1.hex'),
        a3=hex_file('tests/a3/packet1.hex'),
        a4=bytes.fromhex('ff000000010008f067a5502a4262b5746f6b656e04a265ba2eff4d829058fb3f0f2496ba'),
        a5=bytes.fromhex('4cfe4189655e5cd55c41f69080575d7999c25a5bfb'),
        a5_mask=bytes.fromhex('aefefe7d03'),
    ),
    2: Version(
        rfc='RFC 9369',
        number=0x6b3343cf,
        kinds=('retry', 'initial', '0rtt', 'handshake'),
        field='long.packet_type_v2',
        label='quicv2',
        salt=bytes.fromhex('0dede3def700a6db819381be6e269dcbf9bd2ed9'),
        retry_key=bytes.fromhex('8fb4b01b56ac48e260fbcbcead7ccc92'),
        retry_nonce=bytes.fromhex('d86969bc2d7c6d9990efb04a'),
        a2=hex_file('examples/a2/packet2.hex'),
        a3=hex_file('tests/a3/packet2.hex'),
        a4=bytes.fromhex('cf6b3343cf0008f067a5502a4262b5746f6b656ec8646ce8bfe33952d955543665dcc7b6'),
        a5=bytes.fromhex('5558b1c60ae7b6b932bc27d786f4bc2bb20f2162ba'),
        a5_mask=bytes.fromhex('97580e32bf'),
    ),
}
