//! The packets of RFC 9001 (version 1) and RFC 9369 (version 2), Appendix A, from their bytes to their frames and back.
//!
//! Given, as the RFCs have them: the packet, the mask and the payload in the clear. The ciphers between them are the caller's;
//! tools/tshark goes through them, with keys. Derived by the crate: all that the header says, the place of the sample, the header
//! without its protection, the number, the frames; and back, from what the header says, its bytes with their protection.
use guobbarel::*;

/// The bytes of the AEAD's tag.
const TAG: usize = 16;

/// What is given of a packet (packet, mask, payload), and what must come out of it.
struct Example {
    packet: &'static str,
    mask: [u8; 5],
    payload: &'static str,
    kind: Kind,
    version: u32,
    dst_cid: &'static str,
    src_cid: &'static str,
    sample: &'static str,
    header: &'static str,
    cut: CutNumber,
    number: u64,
}

const CLIENT: Example = Example {
    packet: include_str!("../examples/a2/packet1.hex"),
    mask: [0x43, 0x7b, 0x9a, 0xec, 0x36],
    payload: include_str!("../examples/a2/payload.hex"),
    kind: Kind::Initial,
    version: VERSION_1,
    dst_cid: "8394c8f03e515708",
    src_cid: "",
    sample: "d1b1c98dd7689fb8ec11d242b123dc9b",
    header: "c300000001088394c8f03e5157080000449e00000002",
    cut: CutNumber::new(4, 2),
    number: 2,
};

const SERVER: Example = Example {
    packet: include_str!("a3/packet1.hex"),
    mask: [0x2e, 0xc0, 0xd8, 0x35, 0x6a],
    payload: include_str!("a3/payload.hex"),
    dst_cid: "",
    src_cid: "f067a5502a4262b5",
    sample: "2cd0991cd25b0aac406a5816b6394100",
    header: "c1000000010008f067a5502a4262b50040750001",
    cut: CutNumber::new(2, 1),
    number: 1,
    ..CLIENT
};

const SHORT: Example = Example {
    packet: "4cfe4189655e5cd55c41f69080575d7999c25a5bfb",
    mask: [0xae, 0xfe, 0xfe, 0x7d, 0x03],
    payload: "01",
    kind: Kind::Short,
    version: 0,
    dst_cid: "",
    sample: "5e5cd55c41f69080575d7999c25a5bfb",
    header: "4200bff4",
    cut: CutNumber::new(3, 0xbff4),
    number: 654_360_564,
    ..CLIENT
};

/// A.2, A.3 and A.5 of the two RFCs.
const EXAMPLES: [Example; 6] = [
    CLIENT,
    SERVER,
    SHORT,
    Example {
        packet: include_str!("../examples/a2/packet2.hex"),
        mask: [0x94, 0xa0, 0xc9, 0x5e, 0x80],
        version: VERSION_2,
        sample: "ffe67b6abcdb4298b485dd04de806071",
        header: "d36b3343cf088394c8f03e5157080000449e00000002",
        ..CLIENT
    },
    Example {
        packet: include_str!("a3/packet2.hex"),
        mask: [0x4d, 0xd9, 0x2e, 0x91, 0xea],
        version: VERSION_2,
        sample: "6f05d8a4398c47089698baeea26b91eb",
        header: "d16b3343cf0008f067a5502a4262b50040750001",
        ..SERVER
    },
    Example {
        packet: "5558b1c60ae7b6b932bc27d786f4bc2bb20f2162ba",
        mask: [0x97, 0x58, 0x0e, 0x32, 0xbf],
        sample: "e7b6b932bc27d786f4bc2bb20f2162ba",
        ..SHORT
    },
];

fn bytes(hex: &str) -> Vec<u8> {
    let digits: Vec<u8> = hex.bytes().filter(|b| !b.is_ascii_whitespace()).collect();
    digits.chunks(2).map(|d| u8::from_str_radix(std::str::from_utf8(d).unwrap(), 16).unwrap()).collect()
}

#[test]
fn packets_are_opened() {
    for example in EXAMPLES {
        let mut datagram = bytes(example.packet);
        let all: Vec<_> = Packets::new(&datagram, 0, &[VERSION_1, VERSION_2], false).collect();
        let p = all[0].unwrap();
        assert_eq!((all.len(), p.kind, p.version, p.range()), (1, example.kind, example.version, 0..datagram.len()));
        assert_eq!((p.dst_cid, p.src_cid), (&bytes(example.dst_cid)[..], &bytes(example.src_cid)[..]));
        let number_offset = p.number_offset;
        assert_eq!(sample(p.kind, p.bytes, number_offset).unwrap().unwrap()[..], bytes(example.sample));

        let open = unmask(example.kind, &mut datagram, number_offset, &example.mask).unwrap().unwrap();
        assert_eq!((open.number, open.reserved_clear), (example.cut, true));
        assert_eq!(datagram[open.header], bytes(example.header));
        assert_eq!(open.payload.len(), bytes(example.payload).len() + TAG);
        // the number before it was the last that was accepted
        let ends = Ends::from_parts(FullNumber::new(0), None, Some(FullNumber::new(example.number - 1)));
        let spaces = Spaces::from_parts(ends, ends, ends);
        assert_eq!(spaces.read(example.kind, open.number).unwrap().get(), example.number);
    }
}

#[test]
fn packets_are_written() {
    for example in EXAMPLES {
        let given = bytes(example.packet);
        let header = match example.kind {
            Kind::Initial => Header::initial(example.version, example.cut),
            _ => Header::short(false, false, example.cut),
        };
        let header_len = bytes(example.header).len();
        let mut packet = vec![0; header_len];
        let (dst_cid, src_cid) = (bytes(example.dst_cid), bytes(example.src_cid));
        let sealed_len = bytes(example.payload).len() + TAG;
        let written = header.write(&dst_cid, &src_cid, &[], sealed_len, &mut packet).unwrap();
        assert_eq!((written.header_len, &packet), (header_len, &bytes(example.header)));
        packet.extend_from_slice(&given[header_len..]);
        written.protect(&mut packet, &example.mask).unwrap();
        assert_eq!(packet, given);
    }
}

#[test]
fn payloads_have_their_frames() {
    let payload = bytes(CLIENT.payload);
    let frames: Vec<Frame> = Frames::new(&payload).map(|f| f.unwrap().frame).collect();
    assert_eq!(frames[0], Frame::Crypto { offset: 0, data: &payload[4..245] });
    assert!(frames.len() == 918 && frames[1..].iter().all(|frame| *frame == Frame::Padding));

    let payload = bytes(SERVER.payload);
    let frames: Vec<Frame> = Frames::new(&payload).map(|f| f.unwrap().frame).collect();
    let ack = Frame::Ack(Ack { largest: FullNumber::new(0), delay: 0, blocks: &[0], ecn: None });
    assert_eq!(frames, [ack, Frame::Crypto { offset: 0, data: &payload[9..] }]);

    let payload = bytes(SHORT.payload);
    let frames: Vec<Frame> = Frames::new(&payload).map(|f| f.unwrap().frame).collect();
    assert_eq!(frames, [Frame::Ping]);
}

/// A.4. The RFCs set the four unused bits of a Retry's first byte, which we write as 0.
#[test]
fn a_retry_is_read_and_written() {
    let retries = [
        (VERSION_1, "ff 00000001 00 08 f067a5502a4262b5 746f6b656e 04a265ba2eff4d829058fb3f0f2496ba"),
        (VERSION_2, "cf 6b3343cf 00 08 f067a5502a4262b5 746f6b656e c8646ce8bfe33952d955543665dcc7b6"),
    ];
    for (version, packet) in retries {
        let mut datagram = bytes(packet);
        let p = Packets::new(&datagram, 0, &[VERSION_1, VERSION_2], false).next().unwrap().unwrap();
        assert_eq!((p.kind, p.version, p.range()), (Kind::Retry, version, 0..36));
        assert_eq!((p.dst_cid, p.src_cid, p.number_offset), (&[][..], &datagram[7..15], 15));
        let mut out = [0; 15];
        Header::retry(version).write(p.dst_cid, p.src_cid, &[], 21, &mut out).unwrap();
        datagram[0] &= 0xf0;
        assert_eq!(out, datagram[..15]);
    }
}
