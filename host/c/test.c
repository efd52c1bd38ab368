/* Calls each function of include/guobbarel.h, and each argument that only C can get wrong: flags and kinds by number, masks by
 * length, slices of no bytes by NULL. Prints what failed; the exit status is the number of failures, at most 1. */
#include "../../include/guobbarel.h"

#include <stdio.h>
#include <string.h>

static int failed;

#define EXPECT(what)                                                   \
    do {                                                               \
        if (!(what)) {                                                 \
            printf("%s:%d: not so: %s\n", __FILE__, __LINE__, #what);  \
            failed = 1;                                                \
        }                                                              \
    } while (0)

static const uint32_t versions[] = {GUOBBAREL_VERSION_1, GUOBBAREL_VERSION_2};

static void split(void) {
    const uint8_t datagram[] = {0xe0, 0, 0, 0, 1, 1, 0xdd, 0, 1, 0xaa, 0x40};
    guobbarel_split_answer a = guobbarel_split(datagram, sizeof datagram, 0, 0, versions, 1, 0);
    EXPECT(a.refusal == GUOBBAREL_OK && a.kind == GUOBBAREL_HANDSHAKE);
    EXPECT(a.packet.start == 0 && a.packet.len == 10 && a.number_offset == 9 && a.version == GUOBBAREL_VERSION_1 && a.length == 1);
    EXPECT(a.dst_cid.start == 6 && a.dst_cid.len == 1 && a.src_cid.start == 8 && a.src_cid.len == 0);
    a = guobbarel_split(datagram, sizeof datagram, 10, 0, versions, 1, 0);
    EXPECT(a.refusal == GUOBBAREL_OK && a.kind == GUOBBAREL_SHORT && a.packet.start == 10 && a.packet.len == 1);
    a = guobbarel_split(datagram, sizeof datagram, 11, 0, versions, 1, 0);
    EXPECT(a.refusal == GUOBBAREL_OK && a.kind == GUOBBAREL_NO_PACKET);
    a = guobbarel_split(datagram, sizeof datagram, SIZE_MAX, 0, versions, 1, 0);
    EXPECT(a.refusal == GUOBBAREL_OK && a.kind == GUOBBAREL_NO_PACKET);
    a = guobbarel_split(datagram, sizeof datagram, 0, 0, NULL, 0, 0);
    EXPECT(a.refusal == GUOBBAREL_NO_VERSION && a.version == GUOBBAREL_VERSION_1 && a.dst_cid.start == 6 && a.dst_cid.len == 1);
    a = guobbarel_split(NULL, 0, 0, 0, NULL, 0, 0);
    EXPECT(a.refusal == GUOBBAREL_NO_PACKET_END && a.kind == GUOBBAREL_NO_PACKET);
    a = guobbarel_split(datagram, sizeof datagram, 0, 0, versions, 1, 2);
    EXPECT(a.refusal == GUOBBAREL_NO_ARGUMENT && a.kind == GUOBBAREL_NO_PACKET);
    a = guobbarel_split(datagram, sizeof datagram, 0, SIZE_MAX, versions, 1, 0);
    EXPECT(a.refusal == GUOBBAREL_NO_ARGUMENT);
}

static void protection(void) {
    uint8_t packet[24] = {0x40};
    uint8_t before[24];
    const uint8_t mask[5] = {0x02, 0x11, 0x22, 0x33, 0x44};
    guobbarel_sample_answer s = guobbarel_sample_place(GUOBBAREL_SHORT, packet, sizeof packet, 1);
    EXPECT(s.refusal == GUOBBAREL_OK && s.sample.start == 5 && s.sample.len == 16);
    s = guobbarel_sample_place(GUOBBAREL_RETRY, packet, sizeof packet, 1);
    EXPECT(s.refusal == GUOBBAREL_OK && s.sample.len == 0);
    s = guobbarel_sample_place(GUOBBAREL_SHORT, NULL, 0, 1);
    EXPECT(s.refusal == GUOBBAREL_NO_SAMPLE);
    s = guobbarel_sample_place(GUOBBAREL_NO_PACKET, packet, sizeof packet, 1);
    EXPECT(s.refusal == GUOBBAREL_NO_ARGUMENT);

    memcpy(before, packet, sizeof packet);
    EXPECT(guobbarel_unmask(6, packet, sizeof packet, 1, mask, 5).refusal == GUOBBAREL_NO_ARGUMENT);
    EXPECT(guobbarel_unmask(GUOBBAREL_SHORT, packet, sizeof packet, 1, mask, 4).refusal == GUOBBAREL_NO_ARGUMENT);
    EXPECT(guobbarel_unmask(GUOBBAREL_SHORT, packet, sizeof packet, 1, NULL, 0).refusal == GUOBBAREL_NO_ARGUMENT);
    EXPECT(guobbarel_unmask(GUOBBAREL_SHORT, NULL, 0, 1, mask, 5).refusal == GUOBBAREL_NO_SAMPLE);
    EXPECT(guobbarel_unmask(GUOBBAREL_SHORT, packet, sizeof packet, SIZE_MAX, mask, 5).refusal == GUOBBAREL_NO_SAMPLE);
    EXPECT(guobbarel_mask(4, 3, 2, packet, sizeof packet, mask, 5) == GUOBBAREL_NO_ARGUMENT);
    EXPECT(guobbarel_mask(4, 3, 0, packet, sizeof packet, mask, 6) == GUOBBAREL_NO_ARGUMENT);
    EXPECT(guobbarel_mask(4, 3, 0, NULL, 0, mask, 5) == GUOBBAREL_NO_ARGUMENT);
    EXPECT(memcmp(packet, before, sizeof packet) == 0);

    guobbarel_unmask_answer a = guobbarel_unmask(GUOBBAREL_SHORT, packet, sizeof packet, 1, mask, 5);
    EXPECT(a.refusal == GUOBBAREL_OK && a.number_len == 3 && a.number_value == 0x112233);
    EXPECT(a.reserved_clear == 1 && a.key_phase == 0);
    EXPECT(a.header.start == 0 && a.header.len == 4 && a.payload.start == 4 && a.payload.len == 20);
    EXPECT(packet[0] == 0x42 && packet[1] == 0x11 && packet[3] == 0x33 && packet[4] == 0);
    EXPECT(guobbarel_mask(4, 3, 0, packet, sizeof packet, mask, 5) == GUOBBAREL_OK);
    EXPECT(memcmp(packet, before, sizeof packet) == 0);
}

static void frames(void) {
    const uint8_t payload[] = {0x01, 0x02, 0x05, 0x00, 0x01, 0x01, 0x02, 0x00, 0x20};
    guobbarel_frame_answer a = guobbarel_frame_read(payload, sizeof payload, 0);
    EXPECT(a.refusal == GUOBBAREL_OK && a.found == 1 && a.name == 0x01 && a.next == 1);
    EXPECT(a.value[0].kind == GUOBBAREL_NOTHING);
    a = guobbarel_frame_read(payload, sizeof payload, 1);
    EXPECT(a.found == 1 && a.start == 1 && a.next == 8 && a.frame_type == 2 && a.name == 2);
    EXPECT(a.value[0].kind == GUOBBAREL_A_NUMBER && a.value[0].number == 5);
    EXPECT(a.value[2].kind == GUOBBAREL_A_PLACE && a.value[2].place.start == 5 && a.value[2].place.len == 3);
    EXPECT(a.value[3].kind == GUOBBAREL_NOTHING && a.value[5].kind == GUOBBAREL_NOTHING);
    a = guobbarel_frame_read(payload, sizeof payload, 8);
    EXPECT(a.refusal == GUOBBAREL_NO_INVALID_FRAME_ID && a.found == 0 && a.start == 8);
    EXPECT(a.has_type == 1 && a.frame_type == 0x20);
    a = guobbarel_frame_read(payload, sizeof payload, 9);
    EXPECT(a.refusal == GUOBBAREL_OK && a.found == 0);
    a = guobbarel_frame_read(NULL, 0, 0);
    EXPECT(a.refusal == GUOBBAREL_NO_FRAMES && a.has_type == 0);
}

static int same(guobbarel_number_ends a, guobbarel_number_ends b) {
    return a.next == b.next && a.acked == b.acked && a.largest == b.largest && a.has_acked == b.has_acked &&
           a.has_largest == b.has_largest;
}

static int all_same(guobbarel_number_spaces a, guobbarel_number_spaces b) {
    return same(a.initial, b.initial) && same(a.handshake, b.handshake) && same(a.data, b.data);
}

/* The space that packets of a kind use; NULL where they have no number. */
static guobbarel_number_ends *space_of(guobbarel_number_spaces *spaces, unsigned kind) {
    switch (kind) {
    case GUOBBAREL_INITIAL:
        return &spaces->initial;
    case GUOBBAREL_HANDSHAKE:
        return &spaces->handshake;
    case GUOBBAREL_0RTT:
    case GUOBBAREL_SHORT:
        return &spaces->data;
    default:
        return NULL;
    }
}

/* What no step leaves in a space: flags that are none, numbers beside a flag of 0, numbers past 2^62, acknowledged but not sent. */
static const guobbarel_number_ends odd[3] = {{5, 7, 9, 2, 255}, {UINT64_MAX, 8, UINT64_MAX, 0, 0}, {3, 3, UINT64_MAX, 1, 1}};

/* A step in the space of a kind that has these ends: its answer, and the ends after it. It is asked three times, so that each odd
 * space stands in each place beside it; those must come back, and change nothing. */
static guobbarel_number_answer step_in(unsigned kind, guobbarel_number_ends *ends, uint8_t step, uint64_t number,
                                       size_t number_len, uint32_t number_value) {
    guobbarel_number_answer a[3];
    for (unsigned turn = 0; turn < 3; turn++) {
        guobbarel_number_spaces given = {odd[turn], odd[(turn + 1) % 3], odd[(turn + 2) % 3]};
        *space_of(&given, kind) = *ends;
        a[turn] = guobbarel_number_step(step, (uint8_t)kind, given, number, number_len, number_value);
        *space_of(&given, kind) = *space_of(&a[0].spaces, kind);
        EXPECT(all_same(a[turn].spaces, given));
        EXPECT(a[turn].refusal == a[0].refusal && a[turn].number == a[0].number);
        EXPECT(a[turn].number_len == a[0].number_len && a[turn].number_value == a[0].number_value);
    }
    *ends = *space_of(&a[0].spaces, kind);
    return a[0];
}

static const unsigned numbered[4] = {GUOBBAREL_INITIAL, GUOBBAREL_0RTT, GUOBBAREL_HANDSHAKE, GUOBBAREL_SHORT};

static void numbers(unsigned kind) {
    guobbarel_number_ends ends = {0};
    guobbarel_number_answer a = step_in(kind, &ends, GUOBBAREL_SEND, 0, 0, 0);
    EXPECT(a.refusal == GUOBBAREL_OK && a.number == 0 && a.number_len == 1 && a.number_value == 0 && ends.next == 1);
    a = step_in(kind, &ends, GUOBBAREL_ACKNOWLEDGE, 0, 0, 0);
    EXPECT(a.refusal == GUOBBAREL_OK && ends.has_acked == 1 && ends.acked == 0 && ends.next == 1);
    a = step_in(kind, &ends, GUOBBAREL_ACCEPT, 127, 0, 0);
    EXPECT(a.refusal == GUOBBAREL_OK && ends.has_largest == 1 && ends.largest == 127);
    a = step_in(kind, &ends, GUOBBAREL_READ, 0, 1, 0);
    EXPECT(a.refusal == GUOBBAREL_OK && a.number == 256 && ends.largest == 127);
    a = step_in(kind, &ends, 4, 0, 0, 0);
    EXPECT(a.refusal == GUOBBAREL_NO_ARGUMENT && ends.largest == 127);
    ends = (guobbarel_number_ends){0, 0, 0, 2, 0};
    a = step_in(kind, &ends, GUOBBAREL_SEND, 0, 0, 0);
    EXPECT(a.refusal == GUOBBAREL_NO_ARGUMENT && ends.has_acked == 2 && ends.next == 0);
    ends = (guobbarel_number_ends){2147483648u, 0, 0, 1, 0};
    a = step_in(kind, &ends, GUOBBAREL_SEND, 0, 0, 0);
    EXPECT(a.refusal == GUOBBAREL_NO_TOO_FAR && ends.next == 2147483648u);
}

/* A step looks at its half of the ends alone; a number whose flag is 0 comes back as 0, but of a read. */
static void halves(unsigned kind) {
    guobbarel_number_ends sending = {5, 7, 0, 1, 0};
    EXPECT(step_in(kind, &sending, GUOBBAREL_SEND, 0, 0, 0).refusal == GUOBBAREL_NO_ARGUMENT);
    EXPECT(step_in(kind, &sending, GUOBBAREL_ACKNOWLEDGE, 0, 0, 0).refusal == GUOBBAREL_NO_ARGUMENT);
    EXPECT(step_in(kind, &sending, GUOBBAREL_READ, 0, 1, 0).refusal == GUOBBAREL_OK);
    EXPECT(step_in(kind, &sending, GUOBBAREL_ACCEPT, 3, 0, 0).refusal == GUOBBAREL_OK);
    EXPECT(sending.largest == 3 && sending.has_largest == 1 && sending.next == 5 && sending.acked == 7);

    guobbarel_number_ends receiving = {5, 0, UINT64_C(1) << 62, 0, 1};
    EXPECT(step_in(kind, &receiving, GUOBBAREL_READ, 0, 1, 0).refusal == GUOBBAREL_NO_ARGUMENT);
    EXPECT(step_in(kind, &receiving, GUOBBAREL_ACCEPT, 0, 0, 0).refusal == GUOBBAREL_NO_ARGUMENT);
    EXPECT(step_in(kind, &receiving, GUOBBAREL_SEND, 0, 0, 0).refusal == GUOBBAREL_OK);
    EXPECT(receiving.next == 6 && receiving.largest == UINT64_C(1) << 62);
    EXPECT(step_in(kind, &receiving, GUOBBAREL_ACKNOWLEDGE, 4, 0, 0).refusal == GUOBBAREL_OK);

    guobbarel_number_ends unflagged = {5, 9, 9, 0, 0};
    EXPECT(step_in(kind, &unflagged, GUOBBAREL_READ, 0, 1, 0).refusal == GUOBBAREL_OK);
    EXPECT(unflagged.acked == 9 && unflagged.largest == 9);
    EXPECT(step_in(kind, &unflagged, GUOBBAREL_SEND, 0, 0, 0).refusal == GUOBBAREL_OK);
    EXPECT(unflagged.acked == 0 && unflagged.largest == 0);
}

/* Spaces that answer the same step otherwise. */
static const guobbarel_number_spaces apart = {{20, 11, 300, 1, 1}, {30, 21, 600, 1, 1}, {40, 31, 900, 1, 1}};

/* A step in the space of a kind: what it says is of that space, and it alone is another afterwards. */
static void named(unsigned kind, unsigned step) {
    guobbarel_number_spaces after = apart;
    guobbarel_number_ends *ends = space_of(&after, kind);
    guobbarel_number_answer a = guobbarel_number_step((uint8_t)step, (uint8_t)kind, apart, ends->next - 1, 1, 0);
    EXPECT(a.refusal == (step <= GUOBBAREL_ACCEPT ? GUOBBAREL_OK : GUOBBAREL_NO_ARGUMENT));
    EXPECT(step != GUOBBAREL_SEND || a.number == ends->next);
    EXPECT(step != GUOBBAREL_READ || a.number == (ends->largest + 1 + 128) / 256 * 256);
    if (step == GUOBBAREL_SEND)
        ends->next++;
    if (step == GUOBBAREL_ACKNOWLEDGE)
        ends->acked = ends->next - 1;
    EXPECT(all_same(a.spaces, after));
}

/* A kind that has no space: nothing is done, whatever the step and the flags. */
static void unnumbered(unsigned kind, unsigned step) {
    const guobbarel_number_spaces given[2] = {apart, {odd[0], odd[1], odd[2]}};
    for (unsigned i = 0; i < 2; i++) {
        guobbarel_number_answer a = guobbarel_number_step((uint8_t)step, (uint8_t)kind, given[i], 1, 1, 0);
        EXPECT(a.refusal == GUOBBAREL_NO_ARGUMENT && a.number == 0 && a.number_len == 0 && a.number_value == 0);
        EXPECT(all_same(a.spaces, given[i]));
    }
}

static void kinds(void) {
    guobbarel_number_spaces any = apart;
    for (unsigned kind = 0; kind < 256; kind++)
        for (unsigned step = 0; step < 6; step++)
            (space_of(&any, kind) ? named : unnumbered)(kind, step);
}

/* What the gateway once did: Data has sent 0 to 1000, and Handshake fewer, when 1000 is acknowledged. */
static void incident(void) {
    guobbarel_number_spaces sent = {{0, 0, 0, 0, 0}, {3, 0, 0, 0, 0}, {1001, 0, 0, 0, 0}};
    guobbarel_number_answer a = guobbarel_number_step(GUOBBAREL_ACKNOWLEDGE, GUOBBAREL_HANDSHAKE, sent, 1000, 0, 0);
    EXPECT(a.refusal == GUOBBAREL_NO_ARGUMENT && all_same(a.spaces, sent));
    a = guobbarel_number_step(GUOBBAREL_ACKNOWLEDGE, GUOBBAREL_SHORT, sent, 1000, 0, 0);
    sent.data.acked = 1000;
    sent.data.has_acked = 1;
    EXPECT(a.refusal == GUOBBAREL_OK && all_same(a.spaces, sent));
}

static void headers(void) {
    const uint8_t cid[21] = {0xdd};
    const uint8_t written[] = {0xe0, 0, 0, 0, 1, 1, 0xdd, 0, 0x40, 0x15, 0x09};
    uint8_t out[32];
    guobbarel_header h = {GUOBBAREL_HANDSHAKE, 0, 0, 0, GUOBBAREL_VERSION_1, 9, 1};
    memset(out, 0xee, sizeof out);
    guobbarel_header_answer a = guobbarel_header_write(h, cid, 21, NULL, 0, NULL, 0, 20, out, sizeof out);
    EXPECT(a.refusal == GUOBBAREL_NO_ARGUMENT && a.header_len == 0);
    a = guobbarel_header_write(h, cid, 1, NULL, 0, NULL, 0, 20, out, 10);
    EXPECT(a.refusal == GUOBBAREL_NO_ROOM && out[0] == 0xee);
    a = guobbarel_header_write(h, cid, 1, NULL, 0, NULL, 0, 20, NULL, 0);
    EXPECT(a.refusal == GUOBBAREL_NO_ROOM);
    h.spin = 2;
    EXPECT(guobbarel_header_write(h, cid, 1, NULL, 0, NULL, 0, 20, out, 32).refusal == GUOBBAREL_NO_ARGUMENT);
    h.spin = 0;
    h.kind = GUOBBAREL_NO_PACKET;
    EXPECT(guobbarel_header_write(h, cid, 1, NULL, 0, NULL, 0, 20, out, 32).refusal == GUOBBAREL_NO_ARGUMENT);
    h.kind = GUOBBAREL_HANDSHAKE;
    a = guobbarel_header_write(h, cid, 1, NULL, 0, NULL, 0, 20, out, sizeof out);
    EXPECT(a.refusal == GUOBBAREL_OK && a.header_len == 11 && a.number_len == 1 && a.has_length == 1);
    EXPECT(memcmp(out, written, sizeof written) == 0 && out[11] == 0xee);
    h.kind = GUOBBAREL_VERSION_NEGOTIATION;
    h.random = 0x85; /* its top bit is lost */
    a = guobbarel_header_write(h, cid, 1, NULL, 0, NULL, 0, 20, out, sizeof out);
    EXPECT(a.refusal == GUOBBAREL_OK && a.header_len == 8 && out[0] == 0x85 && out[4] == 0);
    guobbarel_split_answer back = guobbarel_split(out, 8, 0, 0, versions, 1, 1);
    EXPECT(back.kind == GUOBBAREL_VERSION_NEGOTIATION && back.random == 5);
}

/* A Handshake packet of version 2, whose type bits are those of a Retry in version 1. */
static void version_2(void) {
    const uint8_t packet[] = {0xf0, 0x6b, 0x33, 0x43, 0xcf, 0, 0, 0x40, 0x02, 0x09, 0xaa};
    uint8_t out[10];
    guobbarel_split_answer a = guobbarel_split(packet, sizeof packet, 0, 0, versions, 2, 0);
    EXPECT(a.refusal == GUOBBAREL_OK && a.kind == GUOBBAREL_HANDSHAKE && a.version == GUOBBAREL_VERSION_2);
    EXPECT(a.packet.len == 11 && a.number_offset == 9 && a.length == 2);
    a = guobbarel_split(packet, sizeof packet, 0, 0, versions, 1, 0);
    EXPECT(a.refusal == GUOBBAREL_NO_VERSION && a.version == GUOBBAREL_VERSION_2);
    guobbarel_header h = {GUOBBAREL_HANDSHAKE, 0, 0, 0, GUOBBAREL_VERSION_2, 9, 1};
    EXPECT(guobbarel_header_write(h, NULL, 0, NULL, 0, NULL, 0, 1, out, sizeof out).refusal == GUOBBAREL_OK);
    EXPECT(memcmp(out, packet, sizeof out) == 0);
}

int main(void) {
    split();
    protection();
    frames();
    for (unsigned i = 0; i < 4; i++) {
        numbers(numbered[i]);
        halves(numbered[i]);
    }
    kinds();
    incident();
    headers();
    version_2();
    if (!failed)
        printf("the C surface is as its header says\n");
    return failed;
}
