"""Packets: headers, numbers and header protection of our code, ciphers of libgcrypt."""
import contextlib
import ctypes

from outside import Asked, Ours, fail


class Aes:
    """AES-128 of libgcrypt."""

    AES128, ECB, GCM = 7, 1, 9

    def __init__(self):
        try:
            self.lib = ctypes.CDLL('libgcrypt.so.20')
        except OSError:
            fail('libgcrypt.so.20 is not there: install tshark')
        self.lib.gcry_check_version.restype = ctypes.c_char_p
        self.lib.gcry_check_version(None)

    def answer(self, name, *words):
        """What a call answers: 0 if it succeeds. Bytes are given with their length."""
        given = []
        for word in words:
            given += [word, ctypes.c_size_t(len(word))] if isinstance(word, (bytes, ctypes.Array)) else [word]
        return getattr(self.lib, 'gcry_cipher_' + name)(*given)

    def did(self, name, *words):
        """A call that must succeed."""
        if self.answer(name, *words):
            fail(f'libgcrypt refused {name}')

    @contextlib.contextmanager
    def cipher(self, mode, key):
        handle = ctypes.c_void_p()
        self.did('open', ctypes.byref(handle), self.AES128, mode, 0)
        self.did('setkey', handle, key)
        yield handle
        self.lib.gcry_cipher_close(handle)

    def turned(self, verb, handle, data):
        """Encrypted or decrypted, by the verb."""
        out = ctypes.create_string_buffer(len(data))
        if data:
            self.did(verb, handle, out, data)
        return out.raw

    def seal(self, key, nonce, header, plain):
        with self.cipher(self.GCM, key) as handle:
            self.did('setiv', handle, nonce)
            self.did('authenticate', handle, header)
            sealed, tag = self.turned('encrypt', handle, plain), ctypes.create_string_buffer(16)
            self.did('gettag', handle, tag)
            return sealed + tag.raw

    def open(self, key, nonce, header, sealed):
        """What was sealed; None where the tag is wrong."""
        with self.cipher(self.GCM, key) as handle:
            self.did('setiv', handle, nonce)
            self.did('authenticate', handle, header)
            plain = self.turned('decrypt', handle, sealed[:-16])
            return None if self.answer('checktag', handle, sealed[-16:]) else plain

    def mask(self, key, sample):
        with self.cipher(self.ECB, key) as handle:
            return self.turned('encrypt', handle, sample)[:5]


def nonce_of(iv, number):
    """RFC 9001, 5.3."""
    return (int.from_bytes(iv, 'big') ^ number).to_bytes(12, 'big')


class Writer:
    """Packets of a version, of our code and libgcrypt."""

    def __init__(self, version):
        self.version, self.ours, self.aes = version, Ours(), Aes()

    def cut(self, number, acked):
        size, value = self.ours.ask('number', number, '-' if acked is None else acked)
        return int(size), int(value)

    def header(self, kind, dst, src, token, cut, payload_len, spin=0, phase=0, rand=0):
        asked = kind, self.version.number, spin, phase, rand, *cut, dst, src, token, payload_len
        size, has_length, header = self.ours.ask('header', *asked)
        return int(size), has_length, bytes.fromhex(header)

    def sealed(self, kind, keys, dst, src, token, number, cut, clear, spin=0, phase=0):
        key, iv, hp = keys
        size, has_length, header = self.header(kind, dst, src, token, cut, len(clear) + 16, spin, phase)
        packet = header + self.aes.seal(key, nonce_of(iv, number), header, clear)
        packet = self.protected(size, has_length, header, packet, self.mask(kind, hp, len(header) - size, packet))
        return Asked(kind, self.version.number, dst, src, token, spin, phase, 0, number, cut, keys, packet)

    def mask(self, kind, hp, number_offset, packet):
        return self.aes.mask(hp, bytes.fromhex(self.ours.ask('sample', kind, number_offset, packet)[0]))

    def protected(self, size, has_length, header, packet, mask):
        return bytes.fromhex(self.ours.ask('protect', size, has_length, len(header), mask, packet)[0])

    def negotiation(self, dst, src, versions, rand):
        packet = self.header('negotiation', dst, src, b'', (0, 0), len(versions), rand=rand)[2] + versions
        return Asked('negotiation', 0, dst, src, b'', 0, 0, rand, None, None, None, packet)

    def retry(self, dst, src, token, first, unused=0):
        """With its tag (RFC 9001, 5.8); our header leaves the unused bits of its first byte 0."""
        header = self.header('retry', dst, src, b'', (0, 0), len(token) + 16)[2]
        packet = bytes([header[0] | unused]) + header[1:] + token
        over = bytes([len(first)]) + first + packet
        packet += self.aes.seal(self.version.retry_key, self.version.retry_nonce, over, b'')
        return Asked('retry', self.version.number, dst, src, b'', 0, 0, 0, None, None, None, packet)
