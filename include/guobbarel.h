/* Guobbarel over C: the packet layer of QUIC (RFC 9000, 9001, 9221, 9369) on lent bytes.
 *
 * Link target/staticlib/libgateway.a, which `tools/build gateway` writes. It needs no heap, no lock and no other library,
 * and keeps nothing between two calls, so any number of threads may call it.
 *
 * Every argument is checked, and every answer comes back by value. Its first field is the refusal (guobbarel_mask answers nothing
 * else): 0 for none, else one of GUOBBAREL_NO_..; what an answer does not have is 0, but for the kind of no packet. A refusal changes
 * no lent byte.
 *
 * What a caller owes, because no callee can check it:
 *   - a pointer and the length behind it name that many bytes (or numbers of a list of versions) that may be read, and written
 *     where the pointer is not const, for the whole call;
 *   - of a slice of length 0 the pointer is not looked at, and may be NULL;
 *   - what is written (`packet` in unmask and mask, `out` in header_write) overlaps no other slice of the same call, and no
 *     other thread touches it during the call;
 *   - the list of versions is aligned as uint32_t is;
 *   - the machine is x86-64 with the System V calling convention: the archive has code for no other.
 *
 * A break of the ABI: guobbarel_number_step takes the packet's kind and a record of three number spaces, and answers that record
 * (`spaces` in place of `ends`). What was compiled against an older header must be compiled anew.
 */
#ifndef GUOBBAREL_H
#define GUOBBAREL_H

#include <stddef.h>
#include <stdint.h>

#ifdef __cplusplus
extern "C" {
#endif

/* The numbers of the refusals. There is no 9: GUOBBAREL_NO_NUMBER, which no call answered, is gone. */
enum guobbarel_refusal {
    GUOBBAREL_OK = 0,
    GUOBBAREL_NO_PACKET_END = 1,       /* a first byte, version, token length or Length is cut */
    GUOBBAREL_NO_FIXED_BIT = 2,        /* 0x40 is clear in the first byte, and grease is off */
    GUOBBAREL_NO_CID = 3,              /* a long header's CID is above 20 bytes, or it or its length byte is cut */
    GUOBBAREL_NO_VERSION = 4,          /* the version is neither 0 nor listed; carries the version and both CIDs */
    GUOBBAREL_NO_TOKEN = 5,            /* an Initial's token is longer than what remains */
    GUOBBAREL_NO_SHORT_CID = 6,        /* fewer bytes follow a short header's first byte than the local CID has */
    GUOBBAREL_NO_LENGTH = 7,           /* the Length exceeds what remains */
    GUOBBAREL_NO_SAMPLE = 8,           /* the packet is shorter than its number offset + 4 + 16 */
    GUOBBAREL_NO_UNEXPECTED_END = 10,  /* a frame's field is cut */
    GUOBBAREL_NO_INVALID_FRAME_ID = 11, /* no frame has this type */
    GUOBBAREL_NO_MALFORMED = 12,       /* a frame's fields do not go together */
    GUOBBAREL_NO_FRAMES = 13,          /* a payload of no bytes */
    GUOBBAREL_NO_ARGUMENT = 14,        /* an argument is outside its rule */
    GUOBBAREL_NO_ROOM = 15,            /* the lent output is too small */
    GUOBBAREL_NO_TOO_FAR = 16          /* the number is 2^31 or more above the largest acknowledged */
};

/* The versions that are told apart: a long header of version 2 has the type bits of RFC 9369, 3.2, one of any other version, listed
 * or written, those of RFC 9000, 17.2. */
enum guobbarel_version {
    GUOBBAREL_VERSION_1 = 1,
    GUOBBAREL_VERSION_2 = 0x6b3343cf
};

/* The kinds of packet, by what they are: a version's type bits do not show. */
enum guobbarel_kind {
    GUOBBAREL_INITIAL = 0,
    GUOBBAREL_0RTT = 1,
    GUOBBAREL_HANDSHAKE = 2,
    GUOBBAREL_RETRY = 3,
    GUOBBAREL_SHORT = 4,
    GUOBBAREL_VERSION_NEGOTIATION = 5,
    GUOBBAREL_NO_PACKET = 6 /* only in an answer: there is no packet, or it is refused */
};

/* A part of a slice that the call was given: `len` bytes from `start` on. */
typedef struct guobbarel_span {
    uint64_t start;
    uint64_t len;
} guobbarel_span;

/* ---- split: from a datagram to its packets ---- */

typedef struct guobbarel_split_answer {
    uint8_t refusal;
    uint8_t kind;           /* enum guobbarel_kind; GUOBBAREL_NO_PACKET with refusal 0 is the end of the datagram */
    uint8_t spin;           /* a short header's spin bit, 0 or 1 */
    uint8_t random;         /* the seven bits below the form bit, of Version Negotiation */
    uint32_t version;       /* of a long header; beside refusal 4 too */
    guobbarel_span packet;  /* the packet, in the datagram; of a refusal and at the end the place `at`, and no bytes */
    uint64_t number_offset; /* where the header ends, and the packet number starts if there is one. From here on all places are
                               counted from the packet's first byte */
    uint64_t length;        /* the header's Length: the number and the payload, in bytes */
    guobbarel_span token;   /* an Initial's token */
    guobbarel_span dst_cid; /* the destination CID; beside refusal 4 too */
    guobbarel_span src_cid; /* the source CID of a long header; beside refusal 4 too */
} guobbarel_split_answer;

/* The packet at the place `at` of a datagram. A walk starts at 0, goes on at packet.start + packet.len, and ends with
 * GUOBBAREL_NO_PACKET: of an `at` past the last byte with refusal 0. Refused 14 for a grease that is not 0 or 1, a datagram above
 * 65,527 bytes, a local_cid_len above 20 (the length of the CIDs that we hand out) and more than 16 versions; then 1 for a datagram
 * of no bytes; then 1 to 7 by the order of the header's fields. */
guobbarel_split_answer guobbarel_split(const uint8_t *datagram, size_t datagram_len, size_t at, size_t local_cid_len,
                                       const uint32_t *versions, size_t versions_len, uint8_t grease);

/* ---- header protection, off: RFC 9001, 5.4 ---- */

typedef struct guobbarel_sample_answer {
    uint8_t refusal;
    guobbarel_span sample; /* 16 bytes of the packet; none for Retry and Version Negotiation */
} guobbarel_sample_answer;

/* The bytes of a packet that its header protection mask is made of. `packet` is the packet's own bytes, as split answered them, and
 * not the rest of its datagram. Refused 14 for a kind above 5 and a packet above 65,527 bytes; then, unless it is Retry or Version
 * Negotiation, 14 for a number_offset of 0, then 8. */
guobbarel_sample_answer guobbarel_sample_place(uint8_t kind, const uint8_t *packet, size_t packet_len, size_t number_offset);

typedef struct guobbarel_unmask_answer {
    uint8_t refusal;
    uint8_t reserved_clear;  /* 1 where the reserved bits are clear, as they must be */
    uint8_t key_phase;       /* a short packet's key phase, 0 or 1 */
    uint32_t number_value;   /* the cut packet number, and its length in bytes, 1 to 4; 0 where there is no number */
    uint64_t number_len;
    guobbarel_span header;   /* the header with the number, which the AEAD authenticates */
    guobbarel_span payload;  /* what follows, up to the end of the bytes that were given */
} guobbarel_unmask_answer;

/* Takes the header protection off a packet where it stands: byte 0 and the number's bytes change, no others. `packet` is the
 * packet's own bytes, as split answered them: given the whole of a datagram with several packets, the payload would reach into the
 * next one. Refused 14 for a kind above 5, a mask_len that is not 5 and a packet above 65,527 bytes. Retry and Version Negotiation
 * have no header protection: nothing more is looked at, nothing is changed, and the answer is all 0. The others are then refused 14
 * for a number_offset of 0; then 8; then 14 where the packet's form bit does not fit the kind. */
guobbarel_unmask_answer guobbarel_unmask(uint8_t kind, uint8_t *packet, size_t packet_len, size_t number_offset,
                                         const uint8_t *mask, size_t mask_len);

/* ---- frames: RFC 9000, 19 ---- */

/* What a frame says at an index. */
enum guobbarel_value_kind {
    GUOBBAREL_NOTHING = 0,
    GUOBBAREL_A_NUMBER = 1,
    GUOBBAREL_A_PLACE = 2
};

typedef struct guobbarel_frame_value {
    uint8_t kind;          /* enum guobbarel_value_kind */
    uint64_t number;       /* the number, if it is one */
    guobbarel_span place;  /* the place in the payload, if it is one */
} guobbarel_frame_value;

/* By `name`, the first type of the frame's kind, `value` has:
 *   00 PADDING, 01 PING, 1e HANDSHAKE_DONE, 1f IMMEDIATE_ACK   nothing
 *   02 ACK                    largest, delay, blocks (a place), then ECT0, ECT1 and CE, or nothing
 *   04 RESET_STREAM           stream id, error code, final size
 *   05 STOP_SENDING           stream id, error code
 *   06 CRYPTO                 offset, data (a place)
 *   07 NEW_TOKEN              token (a place)
 *   08 STREAM                 stream id, offset, fin (0 or 1), whether a length stood (0 or 1), data (a place)
 *   10 MAX_DATA               maximum
 *   11 MAX_STREAM_DATA        stream id, maximum
 *   12 MAX_STREAMS            0 both ways or 1 one way, maximum
 *   14 DATA_BLOCKED           limit
 *   15 STREAM_DATA_BLOCKED    stream id, limit
 *   16 STREAMS_BLOCKED        0 both ways or 1 one way, limit
 *   18 NEW_CONNECTION_ID      sequence, retire prior to, id (a place), reset token (a place of 16 bytes)
 *   19 RETIRE_CONNECTION_ID   sequence
 *   1a PATH_CHALLENGE, 1b PATH_RESPONSE   the eight bytes as a number, most significant first
 *   1c CONNECTION_CLOSE       error code, frame type or nothing, reason (a place)
 *   1d the application's      error code, reason (a place)
 *   30 DATAGRAM               whether a length stood (0 or 1), data (a place)
 *   af ACK_FREQUENCY          sequence, threshold, delay, reordering
 *
 * The blocks of an ACK are integers (RFC 9000, 16): a first block and then, range after range, a gap and a block. The first range
 * reaches from `largest` down to smallest = largest - block; each next one from smallest - gap - 2 down by its block. They were
 * scanned when the frame was read: none is cut, and none goes below 0. */
typedef struct guobbarel_frame_answer {
    uint8_t refusal;
    uint8_t found;        /* 1 where a frame was read; 0 with refusal 0 is the end of the payload */
    uint8_t has_type;     /* 1 where the type was read; beside a refusal too */
    uint64_t start;       /* where the frame starts: `at`; beside a refusal and at the end too */
    uint64_t next;        /* where the next frame starts */
    uint64_t frame_type;  /* the type as it was read */
    uint64_t name;        /* the first type of its kind */
    guobbarel_frame_value value[6];
} guobbarel_frame_answer;

/* The frame at the place `at` of a payload in the clear. A walk starts at 0, goes on at `next`, and ends where found is 0: of an
 * `at` past the last byte with refusal 0. Refused 14 for a payload above 65,527 bytes, then 13 for one of no bytes, then 10, 11 and
 * 12 by the order of the fields. */
guobbarel_frame_answer guobbarel_frame_read(const uint8_t *payload, size_t payload_len, size_t at);

/* ---- packet numbers: RFC 9000, 17.1 and A.3 ---- */

/* The two number ends of one packet number space. All 0 is a fresh one. */
typedef struct guobbarel_number_ends {
    uint64_t next;       /* the number that is sent next */
    uint64_t acked;      /* the largest acknowledged, and the largest accepted: they count only beside a 1 */
    uint64_t largest;
    uint8_t has_acked;   /* 0 or 1 */
    uint8_t has_largest; /* 0 or 1 */
} guobbarel_number_ends;

/* The three spaces of a connection (RFC 9000, 12.3). All 0 is a fresh one. */
typedef struct guobbarel_number_spaces {
    guobbarel_number_ends initial;   /* of Initial packets */
    guobbarel_number_ends handshake; /* of Handshake packets */
    guobbarel_number_ends data;      /* of 0-RTT and short packets */
} guobbarel_number_spaces;

enum guobbarel_step {
    GUOBBAREL_SEND = 0,        /* uses up the next number: answers it and what of it the packet carries */
    GUOBBAREL_ACKNOWLEDGE = 1, /* `number` was acknowledged; one that was not sent in this space is 14 */
    GUOBBAREL_READ = 2,        /* answers the full number of number_len and number_value, and changes nothing. It is below 2^62,
                                  unless 2^62 - 1 was accepted; an accept refuses what is not */
    GUOBBAREL_ACCEPT = 3       /* `number` was accepted; one above 2^62 - 1 is 14 */
};

typedef struct guobbarel_number_answer {
    uint8_t refusal;
    uint32_t number_value;          /* of a send: the cut number, and its length in bytes, 1 to 4 */
    uint64_t number_len;
    uint64_t number;                /* of a send and of a read: the full number */
    guobbarel_number_spaces spaces; /* the spaces afterwards: all as they came after a refusal and a read, and after the other
                                       steps those of other kinds. In the kind's a number whose flag is 0 then comes back as 0 */
} guobbarel_number_answer;

/* One step in the space of a kind of packet: `kind` is the packet's, as split answered it; for an acknowledgement that of the
 * packet that carried it, since it speaks of its own space. Refused 14, whatever the step, for Retry and Version Negotiation, which
 * have no number, and for a kind above 5. Of the two spaces of other kinds nothing is looked at, no flag either, and every field
 * comes back as it came.
 * What a step does not use (`number` or the cut number) is not looked at. Refused 14 for a step above 3, either flag of the kind's
 * space not 0 or 1, and a number or cut number outside its rule; a send then 16 where the next number is 2^31 or more above the
 * largest acknowledged (0 when none).
 * Ends that no steps can have made are refused 14 too, but only in the half that the step looks at: a send and an acknowledge look
 * at `next` and `acked` (14 for a next above 2^62, and for an acked number that is not below next), a read and an accept at
 * `largest` (14 above 2^62 - 1). The other half is not judged. A send of next = 2^62 is 14: all numbers are used up. */
guobbarel_number_answer guobbarel_number_step(uint8_t step, uint8_t kind, guobbarel_number_spaces spaces, uint64_t number,
                                              size_t number_len, uint32_t number_value);

/* ---- packets out ---- */

/* The header to write. What its kind does not have is not looked at, but the flags, and the lengths of connection ids, token and
 * payload, keep their rules for every kind. */
typedef struct guobbarel_header {
    uint8_t kind;          /* enum guobbarel_kind, 0 to 5 */
    uint8_t spin;          /* of a short header, 0 or 1 */
    uint8_t key_phase;     /* of a short header, 0 or 1 */
    uint8_t random;        /* of Version Negotiation: the seven bits below the form bit. The top bit of a number above 0x7f is lost:
                              it is not refused, and the form bit is set whatever it is */
    uint32_t version;      /* of a long header; Version Negotiation's is written as 0 whatever stands here. An Initial, 0-RTT,
                              Handshake or Retry packet of version 0 is written, but reads as Version Negotiation */
    uint32_t number_value; /* the cut number that a send answered, and its length; Retry and Version Negotiation have none */
    uint64_t number_len;
} guobbarel_header;

typedef struct guobbarel_header_answer {
    uint8_t refusal;
    uint8_t has_length;  /* 1 where the header has a Length */
    uint64_t header_len; /* the bytes written, the number's among them */
    uint64_t number_len; /* the number's; 0 where there is no number */
} guobbarel_header_answer;

/* Writes a header from byte 0 of `out` on; bytes past it stay. Its Length, where it has one, counts the number and the payload_len
 * bytes (ciphertext with its tag) that are to follow; `out` needs room for the header alone. The token is an Initial's.
 * Refused 14 for a kind above 5, a flag that is not 0 or 1, a CID above 20 bytes, a token or a payload above 65,527, a number
 * outside its rule, a Length of 16,384 or more, and a packet, header and payload, above 65,527 bytes; then 15. */
guobbarel_header_answer guobbarel_header_write(guobbarel_header header, const uint8_t *dst_cid, size_t dst_cid_len,
                                               const uint8_t *src_cid, size_t src_cid_len, const uint8_t *token,
                                               size_t token_len, size_t payload_len, uint8_t *out, size_t out_len);

/* The mask step: puts the header protection on a packet that is encrypted, by what guobbarel_header_write answered of it. Answers
 * the refusal: 14 for a has_length that is not 0 or 1, a mask_len that is not 5, a packet above 65,527 bytes or shorter than its
 * header, a number_len above 4, and a header too short for what it has. With a number_len of 0 there is no number, and then nothing
 * is done; else it is refused 8; then 14 where the packet's form bit does not fit (a header with a number is long where it has a
 * Length). The number starts at header_len - number_len; how many of its bytes are masked byte 0 says, before it is masked. */
uint8_t guobbarel_mask(size_t header_len, size_t number_len, uint8_t has_length, uint8_t *packet, size_t packet_len,
                       const uint8_t *mask, size_t mask_len);

#ifdef __cplusplus
}
#endif

/* ---- the layout ----
 * As crates/gateway/src/records.rt and crates/gateway_frame/src/records.rt have it, by the rules of C: each record's bytes, and of
 * each field its place and its bytes. host/src/ffi.rs holds the Rust records to the same numbers, and host/tests/layout.rs both
 * lists to the Rattle records. */

#ifdef __cplusplus
#define GUOBBAREL_HOLDS static_assert
#else
#define GUOBBAREL_HOLDS _Static_assert
#endif
#define GUOBBAREL_RECORD(record, bytes) GUOBBAREL_HOLDS(sizeof(guobbarel_##record) == (bytes), "guobbarel_" #record)
#define GUOBBAREL_FIELD(record, field, place, bytes)                                                                  \
    GUOBBAREL_HOLDS(offsetof(guobbarel_##record, field) == (place) && sizeof(((guobbarel_##record *)0)->field) == (bytes), \
                    "guobbarel_" #record "." #field)

GUOBBAREL_HOLDS(sizeof(size_t) == 8, "the archive has x86-64 code");

GUOBBAREL_RECORD(span, 16);
GUOBBAREL_FIELD(span, start, 0, 8);
GUOBBAREL_FIELD(span, len, 8, 8);

GUOBBAREL_RECORD(split_answer, 88);
GUOBBAREL_FIELD(split_answer, refusal, 0, 1);
GUOBBAREL_FIELD(split_answer, kind, 1, 1);
GUOBBAREL_FIELD(split_answer, spin, 2, 1);
GUOBBAREL_FIELD(split_answer, random, 3, 1);
GUOBBAREL_FIELD(split_answer, version, 4, 4);
GUOBBAREL_FIELD(split_answer, packet, 8, 16);
GUOBBAREL_FIELD(split_answer, number_offset, 24, 8);
GUOBBAREL_FIELD(split_answer, length, 32, 8);
GUOBBAREL_FIELD(split_answer, token, 40, 16);
GUOBBAREL_FIELD(split_answer, dst_cid, 56, 16);
GUOBBAREL_FIELD(split_answer, src_cid, 72, 16);

GUOBBAREL_RECORD(sample_answer, 24);
GUOBBAREL_FIELD(sample_answer, refusal, 0, 1);
GUOBBAREL_FIELD(sample_answer, sample, 8, 16);

GUOBBAREL_RECORD(unmask_answer, 48);
GUOBBAREL_FIELD(unmask_answer, refusal, 0, 1);
GUOBBAREL_FIELD(unmask_answer, reserved_clear, 1, 1);
GUOBBAREL_FIELD(unmask_answer, key_phase, 2, 1);
GUOBBAREL_FIELD(unmask_answer, number_value, 4, 4);
GUOBBAREL_FIELD(unmask_answer, number_len, 8, 8);
GUOBBAREL_FIELD(unmask_answer, header, 16, 16);
GUOBBAREL_FIELD(unmask_answer, payload, 32, 16);

GUOBBAREL_RECORD(frame_value, 32);
GUOBBAREL_FIELD(frame_value, kind, 0, 1);
GUOBBAREL_FIELD(frame_value, number, 8, 8);
GUOBBAREL_FIELD(frame_value, place, 16, 16);

GUOBBAREL_RECORD(frame_answer, 232);
GUOBBAREL_FIELD(frame_answer, refusal, 0, 1);
GUOBBAREL_FIELD(frame_answer, found, 1, 1);
GUOBBAREL_FIELD(frame_answer, has_type, 2, 1);
GUOBBAREL_FIELD(frame_answer, start, 8, 8);
GUOBBAREL_FIELD(frame_answer, next, 16, 8);
GUOBBAREL_FIELD(frame_answer, frame_type, 24, 8);
GUOBBAREL_FIELD(frame_answer, name, 32, 8);
GUOBBAREL_FIELD(frame_answer, value, 40, 192);

GUOBBAREL_RECORD(number_ends, 32);
GUOBBAREL_FIELD(number_ends, next, 0, 8);
GUOBBAREL_FIELD(number_ends, acked, 8, 8);
GUOBBAREL_FIELD(number_ends, largest, 16, 8);
GUOBBAREL_FIELD(number_ends, has_acked, 24, 1);
GUOBBAREL_FIELD(number_ends, has_largest, 25, 1);

GUOBBAREL_RECORD(number_spaces, 96);
GUOBBAREL_FIELD(number_spaces, initial, 0, 32);
GUOBBAREL_FIELD(number_spaces, handshake, 32, 32);
GUOBBAREL_FIELD(number_spaces, data, 64, 32);

GUOBBAREL_RECORD(number_answer, 120);
GUOBBAREL_FIELD(number_answer, refusal, 0, 1);
GUOBBAREL_FIELD(number_answer, number_value, 4, 4);
GUOBBAREL_FIELD(number_answer, number_len, 8, 8);
GUOBBAREL_FIELD(number_answer, number, 16, 8);
GUOBBAREL_FIELD(number_answer, spaces, 24, 96);

GUOBBAREL_RECORD(header, 24);
GUOBBAREL_FIELD(header, kind, 0, 1);
GUOBBAREL_FIELD(header, spin, 1, 1);
GUOBBAREL_FIELD(header, key_phase, 2, 1);
GUOBBAREL_FIELD(header, random, 3, 1);
GUOBBAREL_FIELD(header, version, 4, 4);
GUOBBAREL_FIELD(header, number_value, 8, 4);
GUOBBAREL_FIELD(header, number_len, 16, 8);

GUOBBAREL_RECORD(header_answer, 24);
GUOBBAREL_FIELD(header_answer, refusal, 0, 1);
GUOBBAREL_FIELD(header_answer, has_length, 1, 1);
GUOBBAREL_FIELD(header_answer, header_len, 8, 8);
GUOBBAREL_FIELD(header_answer, number_len, 16, 8);

#undef GUOBBAREL_FIELD
#undef GUOBBAREL_RECORD
#undef GUOBBAREL_HOLDS

#endif
