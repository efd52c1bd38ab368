"""Packets of RFC 9001 (version 1) and RFC 9369 (version 2), Appendix A."""
import sys

from outside import CLIENT, SERVER, Asked, Datagram
from outside.versions import hex_file

# the payloads of A.2 and A.3 in both: a CRYPTO frame with a ClientHello, and PADDING; an ACK, and a CRYPTO frame with a ServerHello
A2_PAYLOAD, A3_PAYLOAD = hex_file('examples/a2/payload.hex'), hex_file('tests/a3/payload.hex')


def client_hello(rand):
    """The CRYPTO frame of A.2 with another random."""
    return A2_PAYLOAD[:10] + rand + A2_PAYLOAD[42:245]


def server_hello(rand):
    """The payload of A.3 with another random."""
    return A3_PAYLOAD[:15] + rand + A3_PAYLOAD[47:]


def examples(writer):
    """A.2 to A.5 as one connection; they must come out as the RFC has them, which sets the unused bits of A.4."""
    dst, src, client = bytes.fromhex('8394c8f03e515708'), bytes.fromhex('f067a5502a4262b5'), bytes([10, 255, 0, 1])
    version = writer.version
    a2 = writer.sealed('initial', version.initial_keys(dst, CLIENT), dst, b'', b'', 2, (4, 2), A2_PAYLOAD)
    a3 = writer.sealed('initial', version.initial_keys(dst, SERVER), b'', src, b'', 1, (2, 1), A3_PAYLOAD)
    a4 = writer.retry(b'', src, b'token', dst, unused=0xf)
    size, has_length, header = writer.header('short', b'', b'', b'', (3, 0xbff4), 17)
    a5 = writer.protected(size, has_length, header, header + version.a5[4:], version.a5_mask)
    a5 = Asked('short', version.number, b'', b'', b'', 0, 0, 0, None, None, None, a5)
    given = [('A.2', a2, version.a2), ('A.3', a3, version.a3), ('A.4', a4, version.a4), ('A.5', a5, version.a5)]
    for name, made, packet in given:
        print(f'{version.rfc}, {name}: {len(packet)} bytes, {"as" if made.bytes == packet else "NOT as"} in the RFC')
    if any(made.bytes != packet for _, made, packet in given):
        sys.exit(1)
    return [Datagram(side, client, 0, [made]) for side, made in [(CLIENT, a2), (SERVER, a3), (SERVER, a5), (SERVER, a4)]]
