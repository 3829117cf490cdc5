/* Reads and writes payloads by lag.h: an LACPDU and a Marker PDU with each field in its place, and each refusal. */
#include "checks.h"
#include "lag.h"

/* An LACPDU and a Marker PDU (IEEE 802.1AX-2014, 6.4.2.3, 6.5.3.3), octet by octet, and their numbers, of which no two of one width are
 * alike. */
static const uint8_t lacpdu_octets[NIW_PAYLOAD_LENGTH] = {1, 1, 1, 20, 0x11, 0x12, 2, 0x13, 0x14, 0x15, 0x16, 0x17, 0x18, 0x19, 0x1a,
    0x1b, 0x1c, 0x1d, 0xc7, 0, 0, 0, 2, 20, 0x21, 0x22, 2, 0x23, 0x24, 0x25, 0x26, 0x27, 0x28, 0x29, 0x2a, 0x2b, 0x2c, 0x2d, 0x3f, 0, 0,
    0, 3, 16, 0x31, 0x32};
static const uint8_t marker_octets[NIW_PAYLOAD_LENGTH] = {2, 1, 1, 16, 0x41, 0x42, 2, 0x43, 0x44, 0x45, 0x46, 0x47, 0x51, 0x52, 0x53, 0x54};
static const struct niw_pdu lacpdu = {
    .subtype = NIW_SUBTYPE_LACPDU, .max_delay = 0x3132,
    .actor = {0x1112, {2, 0x13, 0x14, 0x15, 0x16, 0x17}, 0x1819, 0x1a1b, 0x1c1d, 0xc7},
    .partner = {0x2122, {2, 0x23, 0x24, 0x25, 0x26, 0x27}, 0x2829, 0x2a2b, 0x2c2d, 0x3f}};
static const struct niw_pdu marker = {
    .subtype = NIW_SUBTYPE_MARKER, .tlv_type = NIW_MARKER_INFORMATION, .requester_port = 0x4142,
    .requester_system = {2, 0x43, 0x44, 0x45, 0x46, 0x47}, .transaction_id = 0x51525354};

static bool is_same_end(const struct niw_participant *one, const struct niw_participant *other) {
    return one->system_priority == other->system_priority && memcmp(one->system_mac, other->system_mac, 6) == 0 && one->key == other->key
        && one->port_priority == other->port_priority && one->port == other->port && one->state == other->state;
}

static bool is_same_pdu(const struct niw_pdu *one, const struct niw_pdu *other) {
    return one->subtype == other->subtype && one->tlv_type == other->tlv_type && one->max_delay == other->max_delay
        && is_same_end(&one->actor, &other->actor) && is_same_end(&one->partner, &other->partner)
        && one->requester_port == other->requester_port && memcmp(one->requester_system, other->requester_system, 6) == 0
        && one->transaction_id == other->transaction_id;
}

/* A payload that is refused is told with its fault, its offset and the octet there, and no number is written. */
static void check_refused_payload(uint8_t at, uint8_t octet, const uint8_t *payload, uint32_t fault) {
    uint8_t octets[NIW_PAYLOAD_LENGTH];
    struct niw_pdu pdu = marker;
    struct niw_decoded it;
    memcpy(octets, payload, sizeof octets);
    octets[at] = octet;
    it = niw_decode(octets, sizeof octets, &pdu);
    CHECK(it.status == NIW_BAD_PAYLOAD && it.fault == fault && it.at == at && it.found == octet && is_same_pdu(&pdu, &marker));
}

static void check_decode(void) {
    uint8_t octets[NIW_PAYLOAD_LENGTH + 40];
    struct niw_pdu pdu = marker;
    struct niw_decoded it = niw_decode(lacpdu_octets, NIW_PAYLOAD_LENGTH, &pdu);
    CHECK(it.status == NIW_OK && it.fault == 0 && it.at == 0 && it.found == 0 && is_same_pdu(&pdu, &lacpdu));
    CHECK(niw_decode(marker_octets, NIW_PAYLOAD_LENGTH, &pdu).status == NIW_OK && is_same_pdu(&pdu, &marker));
    memset(octets, 0xaa, sizeof octets);
    memcpy(octets, marker_octets, 16);
    octets[2] = NIW_MARKER_RESPONSE;
    CHECK(niw_decode(octets, sizeof octets, &pdu).status == NIW_OK && pdu.tlv_type == NIW_MARKER_RESPONSE && pdu.transaction_id == 0x51525354);
    pdu = marker;
    it = niw_decode(lacpdu_octets, NIW_PAYLOAD_LENGTH - 1, &pdu);
    CHECK(it.status == NIW_BAD_PAYLOAD && it.fault == NIW_FAULT_SHORT && it.at == 109 && it.found == 0 && is_same_pdu(&pdu, &marker));
    check_refused_payload(0, 3, lacpdu_octets, NIW_FAULT_OTHER_SUBTYPE);
    check_refused_payload(23, 19, lacpdu_octets, NIW_FAULT_BAD_LENGTH);
    check_refused_payload(2, 3, marker_octets, NIW_FAULT_MARKER_TLV);
}

static void check_encode(void) {
    static const uint8_t behind[2] = {0xaa, 0xaa};
    uint8_t octets[NIW_PAYLOAD_LENGTH + 2], before[NIW_PAYLOAD_LENGTH + 2];
    struct niw_pdu none = marker;
    memset(before, 0xaa, sizeof before);
    memset(octets, 0xaa, sizeof octets);
    CHECK(niw_encode(&lacpdu, octets, NIW_PAYLOAD_LENGTH - 1) == NIW_BUFFER && memcmp(octets, before, sizeof octets) == 0);
    none.tlv_type = 3;
    CHECK(niw_encode(&none, octets, sizeof octets) == NIW_NO_PDU && memcmp(octets, before, sizeof octets) == 0);
    none.subtype = 3;
    CHECK(niw_encode(&none, octets, sizeof octets) == NIW_NO_PDU && memcmp(octets, before, sizeof octets) == 0);
    CHECK(niw_encode(&lacpdu, octets, sizeof octets) == NIW_OK && memcmp(octets, lacpdu_octets, NIW_PAYLOAD_LENGTH) == 0);
    CHECK(memcmp(octets + NIW_PAYLOAD_LENGTH, behind, sizeof behind) == 0);
    CHECK(niw_encode(&marker, octets, NIW_PAYLOAD_LENGTH) == NIW_OK && memcmp(octets, marker_octets, NIW_PAYLOAD_LENGTH) == 0);
}

void check_payloads(void) {
    check_decode();
    check_encode();
}
