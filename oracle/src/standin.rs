//! What the given files lean on and is not given: what each item is in quinn, and why no answer depends on it.

/// quinn-proto/src/token.rs: 16 bytes in, the same 16 bytes out (frame.rs uses only From and Deref).
/// quinn compares in constant time; nothing here compares.
#[derive(Debug, Copy, Clone, PartialEq, Eq, Hash)]
pub struct ResetToken([u8; crate::RESET_TOKEN_SIZE]);
impl From<[u8; crate::RESET_TOKEN_SIZE]> for ResetToken {
    fn from(x: [u8; crate::RESET_TOKEN_SIZE]) -> Self {
        Self(x)
    }
}
impl std::ops::Deref for ResetToken {
    type Target = [u8];
    fn deref(&self) -> &[u8] {
        &self.0
    }
}

/// quinn-proto/src/crypto.rs: the two key traits, with the methods that packet.rs calls
/// (same signatures as in quinn-proto 0.9.2, Debian's librust-quinn-proto-dev).
pub mod crypto {
    pub trait HeaderKey: Send {
        fn decrypt(&self, pn_offset: usize, packet: &mut [u8]);
        fn encrypt(&self, pn_offset: usize, packet: &mut [u8]);
        fn sample_size(&self) -> usize;
    }
    pub trait PacketKey: Send {
        fn encrypt(&self, packet: u64, buf: &mut [u8], header_len: usize);
    }

    /// RFC 9001, 5.4.1, with the five mask bytes given instead of computed from the sample.
    pub struct MaskKey(pub [u8; 5]);
    impl MaskKey {
        fn bits(first: u8) -> u8 {
            if first & 0x80 == 0x80 { 0x0f } else { 0x1f }
        }
    }
    impl HeaderKey for MaskKey {
        fn decrypt(&self, pn_offset: usize, packet: &mut [u8]) {
            packet[0] ^= self.0[0] & Self::bits(packet[0]);
            let pn_length = (packet[0] & 0x03) as usize + 1; // known only after byte 0 is unmasked
            for i in 0..pn_length {
                packet[pn_offset + i] ^= self.0[1 + i];
            }
        }
        fn encrypt(&self, pn_offset: usize, packet: &mut [u8]) {
            let pn_length = (packet[0] & 0x03) as usize + 1; // read before byte 0 is masked
            packet[0] ^= self.0[0] & Self::bits(packet[0]);
            for i in 0..pn_length {
                packet[pn_offset + i] ^= self.0[1 + i];
            }
        }
        fn sample_size(&self) -> usize {
            16
        }
    }

    /// Stands where the gateway encrypts: marks what it was called with, so that the order of steps shows.
    pub struct XorKey(pub u8);
    impl PacketKey for XorKey {
        fn encrypt(&self, _packet: u64, buf: &mut [u8], header_len: usize) {
            for b in &mut buf[header_len..] {
                *b ^= self.0;
            }
        }
    }
}
