/* What the files of lagd-snmp share: the rows of IEEE8023-LAG-MIB (IEEE 802.1AX-2014, annex D), and where they come from. */
#ifndef LAGD_SNMP_H
#define LAGD_SNMP_H

#include <stdbool.h>
#include <stddef.h>
#include <stdint.h>

/* How many counts dot3adAggPortStatsTable has of a port. */
#define COUNTS 8

/* One end of a port, as its columns have it. */
struct end {
    uint32_t system_priority, key, port, port_priority;
    uint8_t system[6];
    uint8_t state; /* as BITS: bit 0 of the octet of an LACPDU is the most significant one (RFC 2578, 7.1.4) */
};

/* A row of dot3adAggPortTable, and of dot3adAggPortStatsTable. */
struct port {
    uint32_t index; /* ifIndex */
    uint32_t selected, attached; /* the ifIndex of the aggregator, or 0 */
    uint32_t aggregatable;       /* a TruthValue */
    uint32_t admin_key;
    uint8_t admin_state; /* as BITS */
    struct end actor, partner;
    struct end admin_partner; /* there is none: all is 0 */
    uint32_t counts[COUNTS];  /* in the order of the columns; the last field */
};

/* A row of dot3adAggTable, and of dot3adAggPortListTable. */
struct aggregator {
    uint32_t index; /* ifIndex of the device of `carry` */
    uint8_t address[6];
    uint32_t aggregate; /* a TruthValue */
    uint32_t admin_key, max_delay;
    struct end actor, partner; /* without ports and states */
    uint8_t *list;             /* a PortList of those that are attached; NULL where one of them has no place in it */
    size_t list_length;
};

/* Rows in the order of their indexes. */
struct rows {
    void *first;
    size_t count, size; /* `size`: the octets of a row, which begins with its index */
};

/* What the daemons told. */
struct told {
    struct rows ports, aggregators;
};

/* log.c */
void complain(const char *format, ...) __attribute__((format(printf, 1, 2)));

/* asking.c */
typedef void take_answer(struct told *told, const char *path, const char *text, size_t length);
void ask_all_daemons_or_complain(const char *folder, take_answer *take, struct told *told);

/* reading.c */
void read_status_look_at_device_or_complain(struct told *told, const char *path, const char *text, size_t length);

/* rows.c */
bool add_row(struct rows *rows, const void *row);
const void *find_row(const struct rows *rows, uint64_t index);
const void *row_behind(const struct rows *rows, uint64_t index);
void forget(struct told *told);
bool is_same(const struct told *one, const struct told *other);

/* refreshing.c */
uint64_t milliseconds(void);
void refresh_from_daemons_or_complain(void);
extern const char *status_folder;
extern struct told now;
unsigned long changed_at(void);

/* tables.c */
void register_all_or_stop(void);

#endif
