/* Rows in the order of their indexes. */
#define _GNU_SOURCE
#include <stdlib.h>
#include <string.h>

#include "snmp.h"

static const void *row_at(const struct rows *rows, size_t place) {
    return (const char *)rows->first + place * rows->size;
}

static uint32_t index_at(const struct rows *rows, size_t place) {
    return *(const uint32_t *)row_at(rows, place);
}

/* How many rows have an index below this one. */
static size_t count_below(const struct rows *rows, uint64_t index) {
    size_t from = 0, to = rows->count;
    while (from < to) {
        size_t middle = (from + to) / 2;
        if (index_at(rows, middle) < index)
            from = middle + 1;
        else
            to = middle;
    }
    return from;
}

/* Adds a row in its place; answers false where there is one with its index, or no memory. */
bool add_row(struct rows *rows, const void *row) {
    uint32_t index = *(const uint32_t *)row;
    size_t place = count_below(rows, index);
    char *grown, *at;
    if (place < rows->count && index_at(rows, place) == index) return false;
    grown = reallocarray(rows->first, rows->count + 1, rows->size);
    if (!grown) return false;
    rows->first = grown;
    at = grown + place * rows->size;
    memmove(at + rows->size, at, (rows->count - place) * rows->size);
    memcpy(at, row, rows->size);
    rows->count++;
    return true;
}

/* The row with an index, or NULL. */
const void *find_row(const struct rows *rows, uint64_t index) {
    size_t place = count_below(rows, index);
    return place < rows->count && index_at(rows, place) == index ? row_at(rows, place) : NULL;
}

/* The first row with a higher index, or NULL. */
const void *row_behind(const struct rows *rows, uint64_t index) {
    size_t place = count_below(rows, index + 1);
    return place < rows->count ? row_at(rows, place) : NULL;
}

/* Frees all rows. */
void forget(struct told *told) {
    struct aggregator *aggregators = told->aggregators.first;
    for (size_t i = 0; i < told->aggregators.count; i++) free(aggregators[i].list);
    free(told->aggregators.first);
    free(told->ports.first);
    *told = (struct told){{NULL, 0, sizeof(struct port)}, {NULL, 0, sizeof(struct aggregator)}};
}

static bool is_same_aggregator(const struct aggregator *one, const struct aggregator *other) {
    return memcmp(one, other, offsetof(struct aggregator, list)) == 0 && one->list_length == other->list_length && !one->list == !other->list
        && (!one->list || memcmp(one->list, other->list, one->list_length) == 0);
}

/* Whether both have the same rows, but for what is counted. Rows are zero where no field is. */
bool is_same(const struct told *one, const struct told *other) {
    const struct port *ports = one->ports.first, *other_ports = other->ports.first;
    const struct aggregator *aggregators = one->aggregators.first, *other_aggregators = other->aggregators.first;
    if (one->ports.count != other->ports.count || one->aggregators.count != other->aggregators.count) return false;
    for (size_t i = 0; i < one->ports.count; i++)
        if (memcmp(&ports[i], &other_ports[i], offsetof(struct port, counts)) != 0) return false;
    for (size_t i = 0; i < one->aggregators.count; i++)
        if (!is_same_aggregator(&aggregators[i], &other_aggregators[i])) return false;
    return true;
}
