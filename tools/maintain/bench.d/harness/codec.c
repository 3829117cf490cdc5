/* The codec of an LACPDU in plain C. PREFIX stands before each name, so that two compilers' code can be linked together. */
#include <stddef.h>
#include <stdint.h>
#include <string.h>
#define JOIN2(a, b) a##b
#define JOIN(a, b) JOIN2(a, b)
#define NAME(word) JOIN(PREFIX, word)

struct end {
    uint16_t system_priority;
    uint8_t mac[6];
    uint16_t key, port_priority, port;
    uint8_t state;
};

struct lacpdu {
    struct end actor, partner;
    uint16_t max_delay;
};

static inline uint16_t get16(const uint8_t *p)
{
    return (uint16_t) (p[0] << 8 | p[1]);
}

static inline void put16(uint8_t *p, uint16_t value)
{
    p[0] = (uint8_t) (value >> 8);
    p[1] = (uint8_t) value;
}

static inline void get_end(const uint8_t *p, struct end *end)
{
    end->system_priority = get16(p);
    memcpy(end->mac, p + 2, 6);
    end->key = get16(p + 8);
    end->port_priority = get16(p + 10);
    end->port = get16(p + 12);
    end->state = p[14];
}

static inline void put_end(uint8_t *p, const struct end *end)
{
    put16(p, end->system_priority);
    memcpy(p + 2, end->mac, 6);
    put16(p + 8, end->key);
    put16(p + 10, end->port_priority);
    put16(p + 12, end->port);
    p[14] = end->state;
}

static inline int read_lacpdu(const uint8_t *p, size_t length, struct lacpdu *out)
{
    if (length < 110 || p[0] != 1 || p[3] != 20 || p[23] != 20 || p[43] != 16)
        return 0;
    get_end(p + 4, &out->actor);
    get_end(p + 24, &out->partner);
    out->max_delay = get16(p + 44);
    return 1;
}

static inline void write_lacpdu(const struct lacpdu *parts, uint8_t *p)
{
    memset(p, 0, 110);
    p[0] = 1;
    p[1] = 1;
    p[2] = 1;
    p[3] = 20;
    put_end(p + 4, &parts->actor);
    p[22] = 2;
    p[23] = 20;
    put_end(p + 24, &parts->partner);
    p[42] = 3;
    p[43] = 16;
    put16(p + 44, parts->max_delay);
}

int NAME(decode)(const uint8_t *payload, size_t length, struct lacpdu *out)
{
    return read_lacpdu(payload, length, out);
}

int NAME(encode)(const struct lacpdu *parts, uint8_t *out, size_t length)
{
    if (length != 110)
        return 0;
    write_lacpdu(parts, out);
    return 1;
}

int NAME(again)(const uint8_t *payload, size_t length, uint8_t *out, size_t room)
{
    struct lacpdu parts;
    if (room != 110 || !read_lacpdu(payload, length, &parts))
        return 0;
    write_lacpdu(&parts, out);
    return 1;
}
