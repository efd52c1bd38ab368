//! The client Initial of RFC 9001, A.2 (version 1) or of RFC 9369, A.2 (version 2), from its bytes to its frames. What the AEAD would
//! give, the mask and the payload in the clear, stands beside it (the masks as in the RFCs; the payload, the same in both, in
//! payload.hex).
use guobbarel::{Frame, Frames, Kind, Packets, Spaces, Unmasked, VERSION_1, VERSION_2, sample, unmask};
use std::process::ExitCode;

/// What the two RFCs do not share, and the word that asks for it.
struct A2 {
    word: &'static str,
    version: u32,
    mask: [u8; 5],
    packet: &'static str,
}

static EXAMPLES: [A2; 2] = [
    A2 { word: "1", version: VERSION_1, mask: [0x43, 0x7b, 0x9a, 0xec, 0x36], packet: include_str!("packet1.hex") },
    A2 { word: "2", version: VERSION_2, mask: [0x94, 0xa0, 0xc9, 0x5e, 0x80], packet: include_str!("packet2.hex") },
];

fn bytes(hex: &str) -> Vec<u8> {
    let digits: Vec<u8> = hex.bytes().filter(|b| !b.is_ascii_whitespace()).collect();
    digits.chunks(2).map(|d| u8::from_str_radix(std::str::from_utf8(d).unwrap(), 16).unwrap()).collect()
}

fn hex(bytes: &[u8]) -> String {
    bytes.iter().map(|b| format!("{b:02x}")).collect()
}

/// Takes the header protection off the first packet of a datagram: its own bytes, since others may follow, and what they say.
fn opened<'a>(example: &A2, datagram: &'a mut [u8]) -> (&'a [u8], Unmasked) {
    let mut packets = Packets::new(datagram, 0, std::slice::from_ref(&example.version), false);
    let packet = packets.next().expect("it has a packet").expect("it is not refused");
    let (kind, number_offset, range) = (packet.kind, packet.number_offset, packet.range());
    println!("{kind:?}, {} bytes, version {:x}, to {}", packet.bytes.len(), packet.version, hex(packet.dst_cid));
    println!("header up to its number: {} bytes; Length {}", number_offset, packet.length);
    let taken = sample(kind, packet.bytes, number_offset).expect("it is long enough").expect("it has a number");
    println!("sample {}", hex(taken));
    let packet = &mut datagram[range];
    let open = unmask(kind, packet, number_offset, &example.mask).expect("it is long enough").expect("it has a number");
    (packet, open)
}

fn show(example: &A2) {
    let mut datagram = bytes(example.packet);
    let payload = bytes(include_str!("payload.hex"));

    let (packet, open) = opened(example, &mut datagram);
    println!("header {}", hex(&packet[open.header]));
    let number = Spaces::new().read(Kind::Initial, open.number).expect("the cut number keeps its rule");
    println!("number {number}, cut to {} bytes; reserved bits clear: {}", open.number.len(), open.reserved_clear);
    println!("{} bytes of payload with their tag, {} in the clear", open.payload.len(), payload.len());

    let mut padding = 0;
    for read in Frames::new(&payload) {
        match read {
            Ok(read) if read.frame == Frame::Padding => padding += 1,
            Ok(read) => println!("{}: type {:02x}, {:?}", read.start, read.ty.get(), short(read.frame)),
            Err(refused) => println!("{}: {}", refused.start, refused.error),
        }
    }
    println!("{padding} bytes of PADDING");
}

/// A frame with no more than eight bytes of its data, to print.
fn short(frame: Frame<'_>) -> Frame<'_> {
    match frame {
        Frame::Crypto { offset, data } => Frame::Crypto { offset, data: &data[..data.len().min(8)] },
        other => other,
    }
}

/// The example that a command line asks for: version 1's where it has no word.
fn asked(words: &[String]) -> Option<&'static A2> {
    match words {
        [] => EXAMPLES.first(),
        [word] => EXAMPLES.iter().find(|example| example.word == word),
        _ => None,
    }
}

fn main() -> ExitCode {
    let words: Vec<String> = std::env::args().skip(1).collect();
    let Some(example) = asked(&words) else {
        eprintln!("usage: a2 [1|2]    the version of QUIC (default 1)");
        return ExitCode::from(2);
    };
    show(example);
    ExitCode::SUCCESS
}

#[test]
fn other_packets_may_follow() {
    for example in &EXAMPLES {
        let mut alone = bytes(example.packet);
        let mut several = [&alone[..], &bytes("4cfe4189655e5cd55c41f69080575d7999c25a5bfb")].concat();
        let (packet, open) = opened(example, &mut several);
        assert_eq!((packet.len(), open.payload.clone()), (1200, 22..1200));
        assert_eq!((packet, open), opened(example, &mut alone));
    }
}

#[test]
fn a_version_is_asked_for() {
    let version = |line: &str| {
        let words: Vec<String> = line.split_whitespace().map(str::to_string).collect();
        asked(&words).map(|example| example.version)
    };
    assert_eq!([version(""), version("1"), version("2")], [Some(VERSION_1), Some(VERSION_1), Some(VERSION_2)]);
    assert_eq!([version("3"), version("--help"), version("1 2")], [None; 3]);
}
