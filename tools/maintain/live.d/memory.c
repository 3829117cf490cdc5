/* What niw_new, niw_resume and niw_queue_new ask malloc for, of each size, beside what lag.h and docs/USING.md say. It is linked with --wrap for
 * malloc, realloc and free. */
#include <stdio.h>
#include <stdlib.h>

#include "checks.h"
#include "lag.h"

#define HEAD 32u /* octets that NIW_MEMORY has for each block */

const char *const program = "memory";

/* Octets and blocks that were asked for, and how many blocks are held. */
static size_t octets, blocks, held;
void *__real_malloc(size_t size);
void *__real_realloc(void *block, size_t size);
void __real_free(void *block);
void *__wrap_malloc(size_t size);
void *__wrap_realloc(void *old, size_t size);
void __wrap_free(void *block);

void *__wrap_malloc(size_t size) {
    octets += size;
    blocks++;
    held++;
    return __real_malloc(size);
}

void *__wrap_realloc(void *old, size_t size) {
    octets += size;
    blocks++;
    held += old == NULL;
    return __real_realloc(old, size);
}

void __wrap_free(void *block) {
    held -= block != NULL;
    __real_free(block);
}

static struct niw_port ports[NIW_MOST_PORTS];
static uint16_t keys[NIW_MOST_PORTS];
static struct niw_saved saved[NIW_MOST_PORTS];

/* The most that may be asked for, and no more than a third above what is. */
static void compare(size_t most) {
    size_t asked = octets + HEAD * blocks;
    CHECK(asked <= most && most - asked <= asked / 3);
}

static void of_size(uint16_t port_count, uint16_t aggregator_count, uint16_t conversations) {
    struct niw_config config = {.priority = 32768, .mac = {2, 0, 0, 0, 0, 1}, .first_marker = 1, .conversations = conversations};
    size_t most = NIW_MEMORY(port_count, aggregator_count, conversations);
    struct niw_system system = NIW_EMPTY;
    octets = blocks = 0;
    CHECK(niw_new(&system, &config, keys, aggregator_count, ports, port_count).status == NIW_OK);
    printf("memory: %u ports, %u aggregators of %u conversations: %zu octets in %zu blocks, %zu of NIW_MEMORY\n", port_count, aggregator_count,
           conversations, octets, blocks, most);
    compare(most);
    CHECK(held > 0 && niw_free(&system) == NIW_OK && held == 0);
}

/* A warm start of two ports, each with an LACPDU of a peer that knows it. */
static void resumed(void) {
    struct niw_config config = {.priority = 32768, .mac = {2, 0, 0, 0, 0, 1}, .first_marker = 1, .conversations = NIW_FEW_CONVERSATIONS};
    struct niw_system system = NIW_EMPTY;
    for (uint16_t i = 0; i < NIW_MOST_PORTS; i++) {
        struct niw_pdu pdu = {.subtype = NIW_SUBTYPE_LACPDU};
        saved[i] = (struct niw_saved){.port = ports[i].number, .frame = {1, 0x80, 0xc2, 0, 0, 2, 2, 0, 0, 0, 0, 9, 0x88, 0x09}};
        pdu.actor = (struct niw_participant){32768, {2, 0, 0, 0, 0, 2}, 1, 128, ports[i].number, 0x3d};
        pdu.partner = (struct niw_participant){32768, {2, 0, 0, 0, 0, 1}, 1, 0, ports[i].number, 0x3d};
        CHECK(niw_encode(&pdu, saved[i].frame + 14, NIW_PAYLOAD_LENGTH) == NIW_OK);
    }
    octets = blocks = 0;
    CHECK(niw_resume(&system, &config, keys, 1, ports, NIW_MOST_PORTS, saved, NIW_MOST_PORTS).status == NIW_OK);
    compare(NIW_MEMORY(NIW_MOST_PORTS, 1, NIW_FEW_CONVERSATIONS));
    CHECK(niw_free(&system) == NIW_OK && held == 0);
}

/* docs/USING.md: of each conversation 32 octets, and 8 for each frame that its queue may hold; and hardly more. */
static void queued(uint16_t conversations, size_t each) {
    struct niw_queue queue = NIW_EMPTY;
    size_t most = conversations * (32u + 8u * each);
    octets = blocks = 0;
    CHECK(niw_queue_new(&queue, conversations, 2 * each, each) == NIW_OK);
    printf("memory: queues of %u conversations and %zu frames: %zu octets in %zu blocks\n", conversations, each, octets, blocks);
    CHECK(octets >= most && octets <= most + 2048);
    CHECK(niw_queue_free(&queue) == NIW_OK && held == 0);
}

int main(void) {
    static const uint16_t COUNTS[] = {1, 2, 8, 63, 64}, CONVERSATIONS[] = {NIW_FEW_CONVERSATIONS, NIW_MANY_CONVERSATIONS};
    for (uint16_t i = 0; i < NIW_MOST_PORTS; i++) {
        ports[i] = (struct niw_port){.number = (uint16_t)(i + 1), .key = 1, .aggregatable = true, .active = true};
        keys[i] = 1;
    }
    for (size_t i = 0; i < sizeof COUNTS / sizeof *COUNTS; i++)
        for (size_t j = 0; j < sizeof COUNTS / sizeof *COUNTS; j++)
            for (size_t k = 0; k < 2; k++) of_size(COUNTS[i], COUNTS[j], CONVERSATIONS[k]);
    resumed();
    queued(NIW_FEW_CONVERSATIONS, 100);
    queued(NIW_MANY_CONVERSATIONS, 50);
    return tell_checks();
}
