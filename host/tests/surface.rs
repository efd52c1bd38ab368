//! Every call of the crate, and the refusals, on the worked examples of document 01 and of the RFCs.
use guobbarel::*;

fn bytes(hex: &str) -> Vec<u8> {
    let digits: Vec<u8> = hex.bytes().filter(|b| !b.is_ascii_whitespace()).collect();
    digits.chunks(2).map(|d| u8::from_str_radix(std::str::from_utf8(d).unwrap(), 16).unwrap()).collect()
}

fn packets(datagram: &[u8]) -> Vec<Result<Packet<'_>, PacketRefused<'_>>> {
    Packets::new(datagram, 0, &[VERSION_1], false).collect()
}

fn refused(datagram: &[u8]) -> Error {
    packets(datagram).last().expect("an item").expect_err("a refusal").error
}

fn frames(payload: &[u8]) -> Vec<Frame<'_>> {
    Frames::new(payload).map(|f| f.expect("a frame").frame).collect()
}

fn frame_refused(payload: &[u8]) -> FrameRefused {
    Frames::new(payload).last().expect("an item").expect_err("a refusal")
}

#[test]
fn errors_have_their_numbers_and_a_text() {
    let given = (1..=16).filter(|&number| number != 9);
    assert!(Error::ALL.into_iter().map(Error::number).eq(given.clone()));
    for error in Error::ALL {
        assert_eq!(Error::from_number(error.number()), Some(error));
        assert!(error.to_string().ends_with(&format!("({})", error.number())));
    }
    assert!((0..=u8::MAX).filter(|&number| Error::from_number(number).is_some()).eq(given));
}

#[test]
fn a_datagram_is_walked() {
    let datagram = bytes("e0 00000001 00 00 01 aa 40");
    let found = packets(&datagram);
    assert_eq!(found.len(), 2);
    let first = found[0].unwrap();
    assert_eq!((first.kind, first.start, first.bytes.len(), first.number_offset), (Kind::Handshake, 0, 9, 8));
    assert_eq!((first.version, first.length), (VERSION_1, 1));
    let second = found[1].unwrap();
    assert_eq!((second.kind, second.start, second.bytes.len(), second.number_offset), (Kind::Short, 9, 1, 1));
    assert!(!second.spin);
}

#[test]
fn a_header_has_its_parts() {
    let datagram = bytes("c0 00000001 02 d1d2 03 515253 04 70717273 4002 aabb");
    let p = packets(&datagram)[0].unwrap();
    assert_eq!((p.kind, p.version, p.length), (Kind::Initial, VERSION_1, 2));
    assert_eq!((p.dst_cid, p.src_cid, p.token), (&datagram[6..8], &datagram[9..12], &datagram[13..17]));
    assert_eq!(p.number_offset, 19);

    let datagram = bytes("60 d1d2d3 00");
    let p = Packets::new(&datagram, 3, &[VERSION_1], false).next().unwrap().unwrap();
    assert_eq!((p.kind, p.spin, p.dst_cid, p.number_offset), (Kind::Short, true, &datagram[1..4], 4));

    let datagram = bytes("ff 00000000 01 dd 01 55 00000001");
    let p = packets(&datagram)[0].unwrap();
    assert_eq!((p.kind, p.random, p.version), (Kind::VersionNegotiation, 0x7f, 0));

    let datagram = bytes("d0 00000001 00 00 00 f0 00000001 00 00");
    let kinds: Vec<Kind> = packets(&datagram).into_iter().map(|p| p.unwrap().kind).collect();
    assert_eq!(kinds, [Kind::ZeroRtt, Kind::Retry]);
}

/// The kinds of the four type bits, 0 to 3, in packets of a version that is listed.
fn kinds_of(version: u32) -> [Kind; 4] {
    let [a, b, c, d] = version.to_be_bytes();
    [0xc0, 0xd0, 0xe0, 0xf0].map(|first| {
        let datagram = [first, a, b, c, d, 0, 0, 0, 0];
        Packets::new(&datagram, 0, &[VERSION_1, VERSION_2, version], false).next().unwrap().unwrap().kind
    })
}

#[test]
fn type_bits_go_by_the_version() {
    let of_version_1 = [Kind::Initial, Kind::ZeroRtt, Kind::Handshake, Kind::Retry];
    assert_eq!(kinds_of(VERSION_1), of_version_1);
    assert_eq!(kinds_of(VERSION_2), [Kind::Retry, Kind::Initial, Kind::ZeroRtt, Kind::Handshake]);
    for other in [2, VERSION_2 - 1, VERSION_2 + 1, VERSION_2.swap_bytes(), u32::MAX] {
        assert_eq!(kinds_of(other), of_version_1);
    }

    // one datagram of both: a Handshake packet each
    let datagram = bytes("f0 6b3343cf 00 00 01 aa e0 00000001 00 00 01 bb");
    let found = Packets::new(&datagram, 0, &[VERSION_1, VERSION_2], false).map(|p| p.unwrap());
    let found: Vec<_> = found.map(|p| (p.kind, p.version, p.range())).collect();
    assert_eq!(found, [(Kind::Handshake, VERSION_2, 0..9), (Kind::Handshake, VERSION_1, 9..18)]);
    let no = packets(&datagram)[0].unwrap_err();
    assert_eq!((no.error, no.unsupported.unwrap().version), (Error::Version, VERSION_2));
}

#[test]
fn packets_are_refused() {
    assert_eq!(refused(&[]), Error::PacketEnd);
    assert_eq!(refused(&bytes("e0 000000")), Error::PacketEnd);
    assert_eq!(refused(&bytes("80 00000000 00 00")), Error::FixedBit);
    assert_eq!(refused(&bytes("e0 00000001")), Error::Cid);
    assert_eq!(refused(&bytes("e0 00000001 15")), Error::Cid);
    assert_eq!(refused(&bytes("c0 00000001 00 00 05 aa")), Error::Token);
    assert_eq!(refused(&bytes("e0 00000001 00 00 03 aa 40")), Error::Length);
    assert_eq!(refused(&vec![0; 65_528]), Error::Argument);
    let short = Packets::new(&[0x40, 1, 2], 3, &[VERSION_1], false).next().unwrap().unwrap_err();
    assert_eq!(short.error, Error::ShortCid);
    let long = Packets::new(&[0x40], 21, &[VERSION_1], false).next().unwrap().unwrap_err();
    assert_eq!(long.error, Error::Argument);
    let many = Packets::new(&[0x40], 0, &[VERSION_1; 17], false).next().unwrap().unwrap_err();
    assert_eq!(many.error, Error::Argument);
    let greased = Packets::new(&[0x80, 0, 0, 0, 0, 0, 0], 0, &[VERSION_1], true).next().unwrap().unwrap();
    assert_eq!((greased.kind, greased.random), (Kind::VersionNegotiation, 0));
}

#[test]
fn an_unlisted_version_carries_what_negotiation_needs() {
    let datagram = bytes("40 e0 00000002 02 d1d2 01 55");
    let all: Vec<_> = Packets::new(&datagram[1..], 0, &[VERSION_1], false).collect();
    let no = all[0].unwrap_err();
    assert_eq!((no.error, no.start), (Error::Version, 0));
    let what = no.unsupported.unwrap();
    assert_eq!((what.version, what.dst_cid, what.src_cid), (2, &datagram[7..9], &datagram[10..11]));
    assert_eq!(all.len(), 1);
}

#[test]
fn header_protection_comes_off_and_goes_on() {
    let mut packet = bytes(include_str!("../examples/a2/packet1.hex"));
    let masked = packet.clone();
    let mask = [0x43, 0x7b, 0x9a, 0xec, 0x36];
    assert_eq!(sample(Kind::Initial, &packet, 18).unwrap().unwrap()[..], packet[22..38]);
    let open = unmask(Kind::Initial, &mut packet, 18, &mask).unwrap().unwrap();
    assert_eq!((open.number, open.reserved_clear), (CutNumber::new(4, 2), true));
    assert_eq!((open.header, open.payload), (0..22, 22..1200));
    assert_eq!(packet[..22], bytes("c300000001088394c8f03e5157080000449e00000002"));
    assert_eq!(packet[22..], masked[22..]);
    let written = Written { header_len: 22, number_len: 4, has_length: true };
    assert_eq!(written.protect(&mut packet, &mask), Ok(()));
    assert_eq!(packet, masked);

    // a short packet: RFC 9001, A.5
    let mut packet = bytes("4cfe4189655e5cd55c41f69080575d7999c25a5bfb");
    let open = unmask(Kind::Short, &mut packet, 1, &[0xae, 0xfe, 0xfe, 0x7d, 0x03]).unwrap().unwrap();
    assert_eq!((open.number, open.key_phase), (CutNumber::new(3, 0x00bff4), false));
}

/// RFC 9001, A.2's Initial, and behind it in the datagram a Handshake packet and A.5's short one.
#[test]
fn header_protection_comes_off_a_packet_of_several() {
    let initial = bytes(include_str!("../examples/a2/packet1.hex"));
    let handshake = bytes("e1 00000001 00 00 4016 0102 000102030405060708090a0b0c0d0e0f10111213");
    let short = bytes("4cfe4189655e5cd55c41f69080575d7999c25a5bfb");
    let mut datagram = [initial.clone(), handshake.clone(), short.clone()].concat();
    let found: Vec<_> =
        packets(&datagram).into_iter().map(|p| p.unwrap()).map(|p| (p.kind, p.number_offset, p.range())).collect();
    assert_eq!(
        found,
        [(Kind::Initial, 18, 0..1200), (Kind::Handshake, 9, 1200..1231), (Kind::Short, 1, 1231..datagram.len())]
    );
    let masks = [[0x43, 0x7b, 0x9a, 0xec, 0x36], [0; 5], [0xae, 0xfe, 0xfe, 0x7d, 0x03]];
    let mut ends = Vec::new();
    for ((kind, number_offset, range), mask) in found.into_iter().zip(masks) {
        let packet = &mut datagram[range.clone()];
        let open = unmask(kind, packet, number_offset, &mask).unwrap().unwrap();
        assert_eq!(open.header.end, open.payload.start);
        ends.push((open.number, range.start + open.payload.start..range.start + open.payload.end));
    }
    let number = CutNumber::new;
    assert_eq!(
        ends,
        [(number(4, 2), 22..1200), (number(2, 0x102), 1211..1231), (number(3, 0xbff4), 1235..datagram.len())]
    );

    // given all of the datagram, the payload would reach into the packets behind: that is what the packet's own range is for
    let mut whole = [initial, handshake, short].concat();
    let len = whole.len();
    assert_eq!(unmask(Kind::Initial, &mut whole, 18, &masks[0]).unwrap().unwrap().payload, 22..len);
}

#[test]
fn header_protection_is_refused() {
    let mask = [0; 5];
    let before = [0x40; 21];
    let mut packet = before;
    assert_eq!(sample(Kind::Short, &packet[..20], 1), Err(Error::Sample));
    assert!(sample(Kind::Short, &packet, 1).unwrap().is_some());
    assert_eq!(sample(Kind::Retry, &packet, 1), Ok(None));
    assert_eq!(sample(Kind::Short, &packet, 0), Err(Error::Argument));
    assert_eq!(sample(Kind::Short, &packet, usize::MAX), Err(Error::Sample));
    assert_eq!(unmask(Kind::Short, &mut packet[..20], 1, &mask), Err(Error::Sample));
    assert_eq!(unmask(Kind::Short, &mut packet, 0, &mask), Err(Error::Argument));
    assert_eq!(unmask(Kind::Handshake, &mut packet, 1, &mask), Err(Error::Argument));
    assert_eq!(unmask(Kind::VersionNegotiation, &mut packet, 1, &mask), Ok(None));
    let written = Written { header_len: 2, number_len: 1, has_length: false };
    assert_eq!(written.protect(&mut packet[..20], &mask), Err(Error::Sample));
    assert_eq!(written.protect(&mut packet[..1], &mask), Err(Error::Argument));
    assert_eq!(Written { has_length: true, ..written }.protect(&mut packet, &mask), Err(Error::Argument));
    assert_eq!(Written { number_len: 5, ..written }.protect(&mut packet, &mask), Err(Error::Argument));
    assert_eq!(Written { number_len: 0, ..written }.protect(&mut packet, &mask), Ok(()));
    assert_eq!(packet, before);
}

#[test]
fn every_frame_is_read() {
    let mut met = Vec::new();
    let mut reads = |hex: &str, expected: &[Frame]| {
        assert_eq!(frames(&bytes(hex)), expected);
        met.extend(expected.iter().map(Frame::kind));
    };
    let id = StreamId::new(1);
    reads("00 01 1e 1f", &[Frame::Padding, Frame::Ping, Frame::HandshakeDone, Frame::ImmediateAck]);
    reads("02 05 07 00 01", &[Frame::Ack(Ack { largest: FullNumber::new(5), delay: 7, blocks: &[1], ecn: None })]);
    reads("04 01 02 03", &[Frame::ResetStream { id, error_code: 2, final_size: 3 }]);
    reads("05 01 02", &[Frame::StopSending { id, error_code: 2 }]);
    reads("06 07 01 aa", &[Frame::Crypto { offset: 7, data: &[0xaa] }]);
    reads("07 01 aa", &[Frame::NewToken { token: &[0xaa] }]);
    let stream = |offset, fin, has_length| Frame::Stream { id, offset, fin, has_length, data: &[0xaa] };
    reads(
        "0f 01 05 01 aa 0a 01 01 aa 08 01 aa",
        &[stream(5, true, true), stream(0, false, true), stream(0, false, false)],
    );
    reads("09 01 aa", &[stream(0, true, false)]);
    reads("10 02 11 01 02", &[Frame::MaxData { maximum: 2 }, Frame::MaxStreamData { id, maximum: 2 }]);
    let streams = |one_way| Frame::MaxStreams { one_way, maximum: 2 };
    reads("12 02 13 02", &[streams(false), streams(true)]);
    reads("14 02 15 01 02", &[Frame::DataBlocked { limit: 2 }, Frame::StreamDataBlocked { id, limit: 2 }]);
    let blocked = |one_way| Frame::StreamsBlocked { one_way, limit: 2 };
    reads("16 02 17 02", &[blocked(false), blocked(true)]);
    let reset_token = &bytes("000102030405060708090a0b0c0d0e0f");
    let new_id = Frame::NewConnectionId { sequence: 2, retire_prior_to: 1, id: &[0xcc], reset_token };
    reads("18 02 01 01 cc 000102030405060708090a0b0c0d0e0f", &[new_id]);
    reads("19 02", &[Frame::RetireConnectionId { sequence: 2 }]);
    let (challenge, response) = (Frame::PathChallenge { data: 0x102 }, Frame::PathResponse { data: u64::MAX });
    reads("1a 0000000000000102 1b ffffffffffffffff", &[challenge, response]);
    let close = |frame_type: Option<u64>, reason| {
        let frame_type = frame_type.map(FrameType::new);
        Frame::ConnectionClose { error_code: 2, frame_type, reason }
    };
    reads("1c 02 00 01 aa 1c 02 08 00", &[close(None, &[0xaa]), close(Some(8), &[])]);
    reads("1d 02 01 aa", &[Frame::ApplicationClose { error_code: 2, reason: &[0xaa] }]);
    let datagram = |has_length, data| Frame::Datagram { has_length, data };
    reads("31 01 aa 30 aa bb", &[datagram(true, &[0xaa]), datagram(false, &[0xaa, 0xbb])]);
    reads("40af 01 02 03 04", &[Frame::AckFrequency { sequence: 1, threshold: 2, max_delay: 3, reordering: 4 }]);
    met.sort();
    met.dedup();
    assert_eq!(met, Frame::KINDS, "a kind of frame has no example here");
}

#[test]
fn a_frame_has_its_values() {
    use Value::{Nothing, Number, Part};
    let values = |hex: &str| frames(&bytes(hex))[0].values().map(|value| format!("{value:?}"));
    let shown = |values: [Value; 6]| values.map(|value| format!("{value:?}"));
    assert_eq!(values("01"), shown([Nothing; 6]));
    let ack = [Number(5), Number(7), Part(&[1])];
    assert_eq!(values("02 05 07 00 01"), shown([ack[0], ack[1], ack[2], Nothing, Nothing, Nothing]));
    assert_eq!(values("03 05 07 00 01 08 09 0a"), shown([ack[0], ack[1], ack[2], Number(8), Number(9), Number(10)]));
    let stream = [Number(1), Number(0), Number(1), Number(0), Part(&[0xaa]), Nothing];
    assert_eq!(values("09 01 aa"), shown(stream));
    let close = [Number(2), Nothing, Part(&[0xaa]), Nothing, Nothing, Nothing];
    assert_eq!(values("1c 02 00 01 aa"), shown(close));
}

#[test]
fn acks_have_ranges() {
    let ack = |payload: &[u8]| match frames(payload)[0] {
        Frame::Ack(ack) => {
            (ack.ecn, ack.ranges().map(|r| r.unwrap()).map(|r| (r.smallest.get(), r.largest.get())).collect())
        }
        _ => panic!("not an ACK"),
    };
    assert_eq!(ack(&bytes("02 05 00 01 01 02 00")), (None, vec![(4, 5), (0, 0)]));
    let ecn = Some(EcnCounts { ect0: 7, ect1: 8, ce: 9 });
    assert_eq!(ack(&bytes("03 4064 00 00 00 07 08 09")), (ecn, vec![(100, 100)]));

    let ranges = |largest, blocks: &[u8]| AckRanges::new(FullNumber::new(largest), blocks).last().unwrap();
    assert_eq!(ranges(5, &[6]), Err(Error::Malformed));
    assert_eq!(ranges(5, &[0x40]), Err(Error::UnexpectedEnd));
    assert_eq!(ranges(5, &[0, 0x40]), Err(Error::UnexpectedEnd));
    assert_eq!(ranges(5, &[0, 4, 0]), Err(Error::Malformed));
    assert_eq!(ranges(5, &[0, 1]), Err(Error::UnexpectedEnd));
    assert_eq!(ranges(1 << 62, &[0]), Err(Error::Argument));
    assert_eq!(ranges(1 << 62, &[]), Err(Error::Argument));
    assert_eq!(ranges(5, &[0; 65_528]), Err(Error::Argument));
    assert!(AckRanges::new(FullNumber::new(5), &[]).next().is_none());
}

#[test]
fn frames_are_refused() {
    let at = |error, start, ty: Option<u64>| FrameRefused { error, start, ty: ty.map(FrameType::new) };
    assert_eq!(frame_refused(&[]), at(Error::NoFrames, 0, None));
    assert_eq!(frame_refused(&vec![0; 65_528]), at(Error::Argument, 0, None));
    assert_eq!(frame_refused(&bytes("01 40")), at(Error::UnexpectedEnd, 1, None));
    assert_eq!(frame_refused(&bytes("18 01 01 04")), at(Error::UnexpectedEnd, 0, Some(0x18)));
    assert_eq!(frame_refused(&bytes("20")), at(Error::InvalidFrameId, 0, Some(0x20)));
    assert_eq!(frame_refused(&bytes("01 18 00 01")), at(Error::Malformed, 1, Some(0x18)));
    assert_eq!(frame_refused(&bytes("02 05 00 01 01 03 00")), at(Error::Malformed, 0, Some(2)));
}

/// The kinds that have a number, and of each the space: 0 Initial, 1 Handshake, 2 Data. Those that have none.
const NUMBERED: [Kind; 4] = [Kind::Initial, Kind::ZeroRtt, Kind::Handshake, Kind::Short];
const SPACE: [usize; 4] = [0, 2, 1, 2];
const UNNUMBERED: [Kind; 2] = [Kind::Retry, Kind::VersionNegotiation];

/// Three spaces with the same ends.
fn alike(next: u64, acknowledged: Option<u64>, accepted: Option<u64>) -> Spaces {
    let ends =
        Ends::from_parts(FullNumber::new(next), acknowledged.map(FullNumber::new), accepted.map(FullNumber::new));
    Spaces::from_parts(ends, ends, ends)
}

/// A step by its number, and what it says.
fn step(spaces: &mut Spaces, step: usize, kind: Kind) -> String {
    match step {
        0 => format!("{:?}", spaces.send(kind)),
        1 => format!("{:?}", spaces.acknowledge(kind, FullNumber::new(2))),
        2 => format!("{:?}", spaces.read(kind, CutNumber::new(1, 7))),
        _ => format!("{:?}", spaces.accept(kind, FullNumber::new(400))),
    }
}

/// Initial has sent 0 to 4, Handshake 0 alone, Data 0 to 2; each has accepted another number.
fn apart() -> Spaces {
    let mut spaces = Spaces::new();
    let all = [(Kind::Initial, 5, 300), (Kind::Handshake, 1, 600), (Kind::ZeroRtt, 2, 900), (Kind::Short, 1, 1200)];
    for (kind, sent, accepted) in all {
        (0..sent).for_each(|_| assert!(spaces.send(kind).is_ok()));
        spaces.accept(kind, FullNumber::new(accepted)).unwrap();
    }
    spaces
}

#[test]
fn numbers_are_sent_read_and_accepted() {
    for kind in NUMBERED {
        let (mut sender, mut receiver) = (Spaces::new(), Spaces::default());
        for n in 0..1000 {
            let sent = sender.send(kind).unwrap();
            assert_eq!(sent.number.get(), n);
            let read = receiver.read(kind, sent.cut).unwrap();
            assert_eq!(read, sent.number);
            receiver.accept(kind, read).unwrap();
            if n % 7 == 0 {
                sender.acknowledge(kind, read).unwrap();
            }
        }
        let (sending, receiving) = (sender.ends(kind).unwrap(), receiver.ends(kind).unwrap());
        assert_eq!(sending.next().get(), 1000);
        assert_eq!(sending.acknowledged().unwrap().get(), 994);
        assert_eq!(receiving.accepted().unwrap().get(), 999);
        assert_eq!((receiving.next().get(), receiving.acknowledged()), (0, None));
        assert_eq!(Ends::from_parts(sending.next(), sending.acknowledged(), sending.accepted()), sending);
    }
}

#[test]
fn numbers_are_refused() {
    for kind in NUMBERED {
        let mut spaces = alike(1000, Some(994), Some(999));
        let before = spaces;
        assert_eq!(spaces.acknowledge(kind, FullNumber::new(1000)), Err(Error::Argument));
        assert_eq!(spaces.accept(kind, FullNumber::new(1 << 62)), Err(Error::Argument));
        assert_eq!(spaces.read(kind, CutNumber::new(5, 0)), Err(Error::Argument));
        assert_eq!(spaces.read(kind, CutNumber::new(1, 256)), Err(Error::Argument));
        assert_eq!(spaces, before);
        assert_eq!(alike(1 << 31, None, None).send(kind), Err(Error::TooFar));
        assert_eq!(alike(1 << 62, None, None).send(kind), Err(Error::Argument));
        assert_eq!(alike(3, Some(3), None).send(kind), Err(Error::Argument));
    }
}

/// What the gateway once did: Data has sent 0 to 1000, the other two fewer.
#[test]
fn an_acknowledgement_is_heard_in_its_own_space() {
    let mut spaces = Spaces::new();
    (0..3).for_each(|_| assert!(spaces.send(Kind::Handshake).is_ok()));
    (0..1000).for_each(|_| assert!(spaces.send(Kind::Initial).is_ok()));
    (0..=1000).for_each(|_| assert!(spaces.send(Kind::Short).is_ok()));
    let (before, last) = (spaces, FullNumber::new(1000));
    for wrong in [Kind::Handshake, Kind::Initial] {
        assert_eq!(spaces.acknowledge(wrong, last), Err(Error::Argument));
        assert_eq!(spaces, before);
    }
    for own in [Kind::Short, Kind::ZeroRtt] {
        spaces = before;
        assert_eq!(spaces.acknowledge(own, last), Ok(()));
        let heard = Ends::from_parts(FullNumber::new(1001), Some(last), None);
        assert_eq!([Kind::Short, Kind::ZeroRtt].map(|kind| spaces.ends(kind)), [Some(heard); 2]);
        assert_eq!(spaces.ends(Kind::Handshake), before.ends(Kind::Handshake));
        assert_eq!(spaces.ends(Kind::Initial), before.ends(Kind::Initial));
    }
}

#[test]
fn a_step_leaves_the_spaces_of_other_kinds() {
    let places = [Kind::Initial, Kind::Handshake, Kind::Short];
    let before = apart();
    let [initial, handshake, data] = places.map(|kind| before.ends(kind).unwrap());
    assert_eq!(Spaces::from_parts(initial, handshake, data), before);
    for (kind, own) in NUMBERED.into_iter().zip(SPACE) {
        for number in 0..4 {
            let mut spaces = before;
            let said = step(&mut spaces, number, kind);
            for (_, other) in places.into_iter().enumerate().filter(|(space, _)| *space != own) {
                assert_eq!(spaces.ends(other), before.ends(other), "step {number} of {kind:?}, space of {other:?}");
            }
            // an acknowledgement of 2 is refused in Handshake; a reading changes nothing; 400 is no larger but in Initial
            let has_moved = [true, own != 1, false, own == 0][number];
            assert_eq!(spaces != before, has_moved, "step {number} of {kind:?}");
            assert_eq!(said.starts_with("Ok"), number != 1 || own != 1, "step {number} of {kind:?}");
        }
    }
}

#[test]
fn steps_in_different_spaces_go_in_either_order() {
    let pairs = || (0..4).flat_map(|i| (0..4).map(move |k| (i, k)));
    for (one, other) in pairs().filter(|&(i, k)| SPACE[i] != SPACE[k]).map(|(i, k)| (NUMBERED[i], NUMBERED[k])) {
        for (i, k) in pairs() {
            let (mut spaces, mut turned) = (apart(), apart());
            let said = [step(&mut spaces, i, one), step(&mut spaces, k, other)];
            let [second, first] = [step(&mut turned, k, other), step(&mut turned, i, one)];
            assert_eq!((said, spaces), ([first, second], turned), "{one:?} {i}, {other:?} {k}");
        }
    }
}

#[test]
fn a_kind_without_a_number_has_no_space() {
    for kind in UNNUMBERED {
        let mut spaces = apart();
        (0..4).for_each(|number| assert_eq!(step(&mut spaces, number, kind), "Err(Argument)"));
        assert_eq!((spaces, spaces.ends(kind)), (apart(), None));
    }
}

#[test]
fn a_link_is_read_up_to_the_last_number() {
    NUMBERED.into_iter().for_each(read_up_to_the_last_number);
}

fn read_up_to_the_last_number(kind: Kind) {
    const END: u64 = 1 << 62;
    let mut sender = alike(END - 600, Some(END - 601), None);
    let mut receiver = alike(0, None, Some(END - 601));
    while sender.ends(kind).unwrap().next().get() < END {
        let sent = sender.send(kind).unwrap();
        (0..256).for_each(|value| assert!(receiver.read(kind, CutNumber::new(1, value)).unwrap().get() < END));
        assert_eq!(receiver.read(kind, sent.cut), Ok(sent.number));
        receiver.accept(kind, sent.number).unwrap();
        sender.acknowledge(kind, sent.number).unwrap();
    }
    assert_eq!(sender.send(kind), Err(Error::Argument));

    // all numbers are used up: the values up to half the window are read as 2^62 and more, which is not accepted
    let before = receiver;
    for value in 0..256 {
        let read = receiver.read(kind, CutNumber::new(1, value)).unwrap();
        assert_eq!(read.get() < END, value > 128);
        assert_eq!(receiver.accept(kind, read), if value > 128 { Ok(()) } else { Err(Error::Argument) });
    }
    assert_eq!(receiver, before);
}

#[test]
fn a_header_is_written_masked_and_read_back() {
    let number = CutNumber::new(2, 0x0102);
    let header = Header::initial(VERSION_1, number);
    let mut packet = vec![0xee; 100];
    let written = header.write(&[0xd1, 0xd2], &[0x55], &[0x77; 3], 40, &mut packet).unwrap();
    assert_eq!((written.number_len, written.has_length), (2, true));
    assert_eq!(packet[..written.header_len], bytes("c1 00000001 02 d1d2 01 55 03 777777 402a 0102"));
    assert!(packet[written.header_len..].iter().all(|&b| b == 0xee));

    packet.truncate(written.header_len + 40);
    let clear = packet.clone();
    let mask = [0xff; 5];
    written.protect(&mut packet, &mask).unwrap();
    let p = packets(&packet)[0].unwrap();
    assert_eq!((p.kind, p.bytes.len(), p.length, p.token), (Kind::Initial, packet.len(), 42, &[0x77; 3][..]));
    let number_offset = p.number_offset;
    let open = unmask(Kind::Initial, &mut packet, number_offset, &mask).unwrap().unwrap();
    assert_eq!((open.number, open.payload.len()), (number, 40));
    assert_eq!(packet, clear);
}

#[test]
fn every_kind_is_written() {
    let number = CutNumber::new(1, 9);
    let write = |header: Header| {
        let mut out = [0; 64];
        let written = header.write(&[0xdd], &[0x55], &[], 20, &mut out).unwrap();
        (written.has_length, written.number_len, out[..written.header_len].to_vec())
    };
    assert_eq!(write(Header::zero_rtt(VERSION_1, number)), (true, 1, bytes("d0 00000001 01dd 0155 4015 09")));
    assert_eq!(write(Header::handshake(VERSION_1, number)), (true, 1, bytes("e0 00000001 01dd 0155 4015 09")));
    assert_eq!(write(Header::retry(VERSION_1)), (false, 0, bytes("f0 00000001 01dd 0155")));
    assert_eq!(write(Header::initial(VERSION_2, number)), (true, 1, bytes("d0 6b3343cf 01dd 0155 00 4015 09")));
    assert_eq!(write(Header::zero_rtt(VERSION_2, number)), (true, 1, bytes("e0 6b3343cf 01dd 0155 4015 09")));
    assert_eq!(write(Header::handshake(VERSION_2, number)), (true, 1, bytes("f0 6b3343cf 01dd 0155 4015 09")));
    assert_eq!(write(Header::retry(VERSION_2)), (false, 0, bytes("c0 6b3343cf 01dd 0155")));
    assert_eq!(write(Header::retry(VERSION_2 + 1)), (false, 0, bytes("f0 6b3343d0 01dd 0155")));
    assert_eq!(write(Header::short(true, true, number)), (false, 1, bytes("64 dd 09")));
    assert_eq!(write(Header::version_negotiation(5)), (false, 0, bytes("85 00000000 01dd 0155")));
}

#[test]
fn headers_are_refused_and_leave_the_buffer() {
    let before = [0xee; 70_000];
    let mut out = before;
    let number = CutNumber::new(1, 9);
    let handshake = Header::handshake(VERSION_1, number);
    assert_eq!(handshake.write(&[0; 21], &[], &[], 0, &mut out), Err(Error::Argument));
    assert_eq!(handshake.write(&[], &[0; 21], &[], 0, &mut out), Err(Error::Argument));
    assert_eq!(handshake.write(&[], &[], &[], 16_383, &mut out), Err(Error::Argument));
    assert_eq!(handshake.write(&[], &[], &[], usize::MAX, &mut out), Err(Error::Argument));
    assert_eq!(handshake.write(&[], &[], &[], 0, &mut out[..9]), Err(Error::Room));
    let wrong = Header::handshake(VERSION_1, CutNumber::new(1, 256));
    assert_eq!(wrong.write(&[], &[], &[], 0, &mut out[..9]), Err(Error::Argument));
    let short = Header::short(false, false, number);
    assert_eq!(short.write(&[], &[], &[], 65_526, &mut out), Err(Error::Argument));
    assert_eq!(short.write(&[], &[], &[0; 65_528], 0, &mut out), Err(Error::Argument));
    let initial = Header::initial(VERSION_1, number);
    assert_eq!(initial.write(&[], &[], &[0; 60_000], 6_000, &mut out), Err(Error::Argument));
    assert_eq!(out, before);
    assert_eq!(handshake.write(&[], &[], &[], 16_382, &mut out).unwrap().header_len, 10);
    assert_eq!(short.write(&[], &[], &[], 65_525, &mut out).unwrap().header_len, 2);
}
