/* The checksum of IP, TCP and UDP (RFC 1071). */
#include "tap.h"

/* Adds octets as words of this processor, whose order does not matter to the sum. Two sums, as one would wait for each addition. */
uint64_t add_to_sum(uint64_t sum, const uint8_t *octets, size_t length) {
    uint64_t words, low = 0, high = 0;
    for (; length >= sizeof words; octets += sizeof words, length -= sizeof words) {
        memcpy(&words, octets, sizeof words);
        low += words & UINT32_MAX;
        high += words >> 32;
    }
    words = 0;
    memcpy(&words, octets, length);
    return sum + low + high + (words & UINT32_MAX) + (words >> 32);
}

uint16_t fold_sum(uint64_t sum) {
    while (sum > UINT16_MAX) sum = (sum & UINT16_MAX) + (sum >> 16);
    return (uint16_t)sum;
}

/* Puts the checksum of octets into a field of them, which has the sum of what else is to be added. */
void put_sum(uint8_t *octets, size_t length, size_t field) {
    uint16_t sum = (uint16_t)~fold_sum(add_to_sum(0, octets, length));
    if (sum == 0) sum = UINT16_MAX; /* the same number; with 0 a datagram of UDP has no checksum */
    memcpy(octets + field, &sum, sizeof sum);
}
